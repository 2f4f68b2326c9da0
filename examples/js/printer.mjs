// An emulator's printer: it hears what comes on the bus, and each sheet is there as soon as there is ink on it.
//
//     node printer.mjs < PRINTER_BYTES       writes sheet.svg and sheets.pdf of a printer's raw bytes
//
// In a page, load the module with `loadPrint1525(await (await fetch('print1525.wasm')).arrayBuffer())`.
import { openPrint1525 } from '../../web/print1525.mjs';

const GRAPHIC = 256, LOWER = 257;      // what a LISTEN selects: the graphic/upper case set, or with secondary address 7 the lower/upper case set
const FORMATS = { list: 0, text: 1, svg: 2, png: 3, pdf: 4 };

/** A VIC-1525 on an emulator's bus. */
export class Printer {
  /** `characters` is a file of the shapes of characters, as of the option --characters; without one the module's own are drawn. */
  constructor(module, characters = new Uint8Array(0)) {
    this.module = module;
    this.characters = characters;
    this.inputs = [];
  }

  /** LISTEN with a secondary address. */
  listen(secondary) { this.inputs.push(secondary === 7 ? LOWER : GRAPHIC); }

  /** A byte of data. */
  byte(value) { this.inputs.push(value); }

  /** What is on its paper: 'svg' and 'png' for a screen, 'pdf' to be printed, 'text' for a terminal. */
  paper(format = 'svg') {
    const { code, fault, place, text } = this.module.print({ inputs: this.inputs, format: FORMATS[format], characters: this.characters });
    if (code) throw new Error(code === 3 ? 'print1525: out of memory' : `print1525: fault ${fault} at ${place}`);
    return text;
  }

  /** Tears the paper off. */
  tear() { this.inputs = []; }
}

const isProgram = async () => typeof process === 'object' && process.argv[1] && (await import('node:url')).pathToFileURL(process.argv[1]).href === import.meta.url;

if (await isProgram()) {
  const { readFileSync, writeFileSync } = await import('node:fs');
  const printer = new Printer(await openPrint1525());
  printer.listen(0);
  for (const value of readFileSync(0)) printer.byte(value);
  writeFileSync('sheet.svg', printer.paper());
  writeFileSync('sheets.pdf', printer.paper('pdf'));
}
