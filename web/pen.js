// A pen with the calls of a canvas that the wave needs, which writes an SVG document.

const number = value => String(Math.round(value * 100) / 100);
const escaped = text => text.replace(/[&<>"]/g, sign => ({ '&': '&amp;', '<': '&lt;', '>': '&gt;', '"': '&quot;' }[sign]));
const ANCHORS = { left: 'start', right: 'end', center: 'middle' }, BASELINES = { top: 'hanging', middle: 'central', alphabetic: 'alphabetic' };

export class SvgPen {
  /** `ruler` is a canvas's pen, by which texts are measured. */
  constructor(width, height, ruler) {
    this.width = width;
    this.height = height;
    this.ruler = ruler;
    this.path = '';
    this.parts = [];
    this.clips = 0;
    this.open = [];            // whether each save has begun a group that is clipped
    this.fillStyle = this.strokeStyle = '#000';
    this.lineWidth = this.globalAlpha = 1;
    this.lineJoin = 'miter';
    this.dash = '';
    this.font = '12px sans-serif';
    this.textAlign = 'left';
    this.textBaseline = 'alphabetic';
  }

  setLineDash(dash) { this.dash = dash.join(' '); }
  save() { this.open.push(0); }
  restore() { this.parts.push('</g>'.repeat(this.open.pop() || 0)); }
  beginPath() { this.path = ''; }
  moveTo(x, y) { this.path += `M${number(x)} ${number(y)}`; }
  lineTo(x, y) { this.path += `L${number(x)} ${number(y)}`; }
  rect(x, y, width, height) { this.path += `M${number(x)} ${number(y)}h${number(width)}v${number(height)}h${number(-width)}z`; }

  roundRect(x, y, width, height, radius) {
    const [r, across, down] = [radius, width - 2 * radius, height - 2 * radius].map(number), corner = (right, under) => `a${r} ${r} 0 0 1 ${number(right)} ${number(under)}`;
    this.path += `M${number(x + radius)} ${number(y)}h${across}${corner(radius, radius)}v${down}${corner(-radius, radius)}h${number(-across)}${corner(-radius, -radius)}v${number(-down)}${corner(radius, -radius)}z`;
  }

  clip() {
    this.parts.push(`<clipPath id="clip${++this.clips}"><path d="${this.path}"/></clipPath><g clip-path="url(#clip${this.clips})">`);
    this.open[this.open.length - 1]++;
  }

  get alpha() { return this.globalAlpha < 1 ? ` opacity="${number(this.globalAlpha)}"` : ''; }
  fill() { this.parts.push(`<path fill="${this.fillStyle}"${this.alpha} d="${this.path}"/>`); }
  stroke() { this.parts.push(`<path fill="none" stroke="${this.strokeStyle}" stroke-width="${number(this.lineWidth)}" stroke-linejoin="${this.lineJoin}"${this.dash && ` stroke-dasharray="${this.dash}"`}${this.alpha} d="${this.path}"/>`); }

  fillRect(x, y, width, height) {
    this.parts.push(`<rect x="${number(x)}" y="${number(y)}" width="${number(Math.max(width, 0))}" height="${number(Math.max(height, 0))}" fill="${this.fillStyle}"${this.alpha}/>`);
  }

  fillText(text, x, y) {
    const style = `style="font:${escaped(this.font)}"`, place = `x="${number(x)}" y="${number(y)}"`;
    this.parts.push(`<text ${place} ${style} fill="${this.fillStyle}"${this.alpha} text-anchor="${ANCHORS[this.textAlign]}" dominant-baseline="${BASELINES[this.textBaseline]}">${escaped(text)}</text>`);
  }

  measureText(text) {
    this.ruler.font = this.font;
    return this.ruler.measureText(text);
  }

  document() {
    return `<svg xmlns="http://www.w3.org/2000/svg" width="${this.width}" height="${this.height}" viewBox="0 0 ${this.width} ${this.height}">\n${this.parts.join('\n')}\n</svg>\n`;
  }
}
