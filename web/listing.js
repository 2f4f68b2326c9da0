// A saved program as petcat writes it, for the editor, and files that are none of what the page takes. The module reads a program
// and petcat's text; what is made here is shown only where the module prints the same of it. Its words and names are data for
// that and for the colours of the editor: tests/evidence/once holds them equal to those of pr_listing.

const KEYWORDS = ('end for next data input# input dim read let goto run if restore gosub return rem stop on wait load save verify def ' +
  'poke print# print cont list clr cmd sys open close get new tab( to fn spc( then not step + - * / ^ and or > = < sgn int abs usr fre ' +
  'pos sqr rnd log exp cos sin tan atn peek len str$ val asc chr$ left$ right$ mid$ go').split(' ');
const REM = 143;

// petcat's names of bytes 0 to 31 and of 128 to 223, where it has one.
export const NAMES = [
  ['', 'ctrl-a', 'ctrl-b', 'stop', 'ctrl-d', 'wht', 'ctrl-f', 'ctrl-g', 'dish', 'ensh', 'ctrl-j', 'ctrl-k', 'ctrl-l', '', 'swlc', 'ctrl-o',
    'ctrl-p', 'down', 'rvon', 'home', 'del', 'ctrl-u', 'ctrl-v', 'ctrl-w', 'ctrl-x', 'ctrl-y', 'ctrl-z', 'esc', 'red', 'rght', 'grn', 'blu'],
  ['', 'orng', '', '', '', 'f1', 'f3', 'f5', 'f7', 'f2', 'f4', 'f6', 'f8', 'sret', 'swuc', '',
    'blk', 'up', 'rvof', 'clr', 'inst', 'brn', 'lred', 'gry1', 'gry2', 'lgrn', 'lblu', 'gry3', 'pur', 'left', 'yel', 'cyn',
    'shift-space', 'cbm-k', 'cbm-i', 'cbm-t', 'cbm-@', 'cbm-g', 'cbm-+', 'cbm-m', 'cbm-pound', 'shift-pound', 'cbm-n', 'cbm-q', 'cbm-d',
    'cbm-z', 'cbm-s', 'cbm-p', 'cbm-a', 'cbm-e', 'cbm-r', 'cbm-w', 'cbm-h', 'cbm-j', 'cbm-l', 'cbm-y', 'cbm-u', 'cbm-o', 'shift-@', 'cbm-f',
    'cbm-c', 'cbm-x', 'cbm-v', 'cbm-b', 'shift-*', ...Array.from('abcdefghijklmnopqrstuvwxyz', letter => `shift-${letter}`), 'shift-+',
    'cbm--', 'shift--', '', 'cbm-*'],
];

/** What petcat writes for a byte of a string; a name without its braces, where `isName`. */
function pieceOf(byte) {
  if (byte >= 65 && byte <= 90) return { text: String.fromCharCode(byte + 32) };
  if (byte >= 193 && byte <= 218) return { text: String.fromCharCode(byte - 128) };
  if (byte >= 32 && byte <= 95) return { text: String.fromCharCode(byte) };
  const name = byte < 128 ? NAMES[0][byte] : NAMES[1][byte - 128];
  return { text: !name ? `$${byte.toString(16).padStart(2, '0')}` : name.includes('-') ? name.toUpperCase() : name, isName: true };
}

/** Bytes of a string, with one name for a run of the same byte. */
function stringOf(bytes) {
  const parts = [];
  for (let at = 0, next; at < bytes.length; at = next) {
    const { text, isName } = pieceOf(bytes[at]);
    next = at + 1;
    while (isName && next < bytes.length && bytes[next] === bytes[at] && next - at < 255) next++;
    parts.push(!isName ? text : next - at > 1 ? `{${next - at} ${text}}` : `{${text}}`);
  }
  return parts.join('');
}

/** A byte of a line outside strings and remarks, with what is before it: what would make another word with that is parted from it. */
function plainOf(byte, before) {
  const text = byte >= 128 ? KEYWORDS[byte - 128] || '?' : byte >= 32 && byte < 127 ? String.fromCharCode(byte).toLowerCase() : '?';
  return (text[0] === '#' || text[0] === '$') && /[a-z]$/.test(before) ? ` ${text}` : text;
}

/** A line of a saved program, as petcat writes it. */
function lineOf(number, bytes) {
  let text = `${number} `, at = 0;
  while (at < bytes.length) {
    const byte = bytes[at++];
    if (byte === REM) return `${text}rem${stringOf(bytes.subarray(at))}`;
    if (byte !== 34) { text += plainOf(byte, text); continue; }
    const end = bytes.indexOf(34, at), string = bytes.subarray(at, end < 0 ? bytes.length : end);
    text += `"${stringOf(string)}${end < 0 ? '' : '"'}`;
    at += string.length + (end < 0 ? 0 : 1);
  }
  return text;
}

const begins = (file, pattern) => pattern.test(String.fromCharCode(...file.subarray(0, 16)));

/** Whether a file is a tape image (T64), which has programs in it. */
export const isTape = file => begins(file, /^C64S? tape/);

/** The first program in use of a tape image, after two bytes. */
function programOfTape(file) {
  const numbers = new DataView(file.buffer, file.byteOffset, file.byteLength), count = file.length > 36 ? numbers.getUint16(34, true) || 1 : 0;
  const entries = Array.from({ length: count }, (_, entry) => 64 + 32 * entry).filter(at => at + 32 <= file.length);
  const used = entries.find(at => file[at] === 1);
  return used === undefined ? file.subarray(file.length) : file.subarray(Math.max(numbers.getUint32(used + 8, true) - 2, 0));
}

/** The saved program of a file: after the header of a P00 file, of a tape image the first one, or else the file itself. */
const programIn = file => (begins(file, /^C64File/) ? file.subarray(26) : isTape(file) ? programOfTape(file) : file);

/** A saved program as petcat's text, a line for each line; null where it is cut off. */
export function petcatOf(file) {
  const program = programIn(file), lines = [];
  for (let at = 2; at + 2 <= program.length;) {
    if (program[at] === 0 && program[at + 1] === 0) return lines.map(line => `${line}\n`).join('');
    const end = program.indexOf(0, at + 4);
    if (at + 4 > program.length || end < 0) return null;
    lines.push(lineOf(program[at + 2] + 256 * program[at + 3], program.subarray(at + 4, end)));
    at = end + 1;
  }
  return null;
}

/**
 * How files begin that are none of a listing, a recording and a printer's bytes.
 * @type {[RegExp, string][]}
 */
const OTHERS = [
  [/^\x89PNG/, 'a picture (PNG)'], [/^\xff\xd8\xff/, 'a picture (JPEG)'], [/^GIF8[79]a/, 'a picture (GIF)'], [/^RIFF[^]{4}WEBP/, 'a picture (WebP)'],
  [/^(II\*\0|MM\0\*)/, 'a picture (TIFF)'], [/^BM[^]{4}\0\0\0\0[^]{4}[\x0c\x28\x34\x38\x40\x6c\x7c]\0\0\0/, 'a picture (BMP)'], [/^\0\0[\x01\x02]\0[\x01-\xff]\0/, 'an icon'],
  [/^RIFF[^]{4}WAVE/, 'a sound (WAV)'], [/^RIFF/, 'a sound or a film'], [/^(OggS|fLaC|ID3)/, 'a sound'], [/^[^]{4}ftyp/, 'a film or a picture'], [/^\x1aE\xdf\xa3/, 'a film'],
  [/^%PDF/, 'a PDF'], [/^PK(\x03\x04|\x05\x06|\x07\x08)/, 'a ZIP archive'], [/^(\x1f\x8b\x08|BZh[1-9]1AY&SY|\xfd7zXZ\0|7z\xbc\xaf|Rar!\x1a|\x28\xb5\x2f\xfd)/, 'a packed file'],
  [/^[^]{257}ustar/, 'an archive (TAR)'], [/^MZ[^]*\0/, 'a program for Windows or DOS'], [/^\x7fELF/, 'a program for Linux'], [/^(\xcf\xfa\xed\xfe|\xca\xfe\xba\xbe)/, 'a program'],
  [/^\0asm/, 'a WebAssembly module'], [/^SQLite format 3\0/, 'a database'], [/^\xd0\xcf\x11\xe0/, 'a document'],
  [/^C64-TAPE-RAW/, 'a tape image'], [/^C64 CARTRIDGE/, 'a cartridge image'],
];

/** Why a file is none of what the page takes, in words, or nothing. */
export function refusalOf(bytes, name) {
  if (!bytes.length) return `${name} is empty.`;
  const head = String.fromCharCode(...bytes.subarray(0, 264)), [, what] = OTHERS.find(([begins]) => begins.test(head)) || [];
  return what ? `${name} is ${what}: drop a listing, a saved program, a trace, a recording or a printer's bytes.` : '';
}
