// Loads the WebAssembly module of the proved crates, in a page, in a worker or in Node:
//
//     import { loadPrint1525 } from './module.mjs';
//     const module = await loadPrint1525(bytes);
//     const { status, output, messages } = module.answer({ words: ['pages', '--as', 'svg'], input: script });
//
// `answer` is the program `print1525` over memory: the words of its command line, an input and a file of characters in, its exit
// status, its output and its lines for people out, and with status 1 (a BASIC error stopped the run) the number of the error and
// 100, and its statement. Scripts, recordings and texts are Uint8Arrays; a string in their place is taken as UTF-8, and anything
// else, also a setting that a call has not, throws a TypeError that names it. The other methods are for what a text does not serve; they
// take and give numbers, with
//
//     code        0 done, 2 refused, 3 out of memory
//     fault       the number of the fault, as include/print1525.h has them, or 0
//     place       its line, from 1, the index of its edge or of its input, from 0, or 0
//
// print1525.d.mts has the types.

export const loadPrint1525 = (() => {
  'use strict';

  const PAGE = 65536;
  // An instance whose memory has grown beyond this many bytes is not kept for the next call.
  const KEPT = 2 ** 28;
  // The room that a text gets at first, if WIDER times the input is less: a picture has some 27 bytes for each character that
  // is printed. Where it is too small, the answer says how much it needs, and the call is made again.
  const ROOM = 2 ** 20, WIDER = 32, MESSAGES = 2 ** 16;
  // What an answer begins with.
  const REFUSED = 2, OUT_OF_MEMORY = 3, TOO_SMALL = 4;
  // The text is handed over whatever the exit status is.
  const ANY_STATUS = 3;
  // The smallest block has 2^LEAST bytes: a statement's vectors grow to these at once, and not step by step.
  const LEAST = 8;
  const SIZES = Array.from({ length: 32 }, (_, c) => 2 ** c);

  // The heap that the module imports, which has the page's own buffers too: the memory above `__heap_base`.
  // A block has 2^c bytes, c from LEAST to 31, after 16 bytes of which the first holds c. Freed blocks are kept by c.
  // The module never grows its memory itself, so the views are made anew where this heap grows it.
  function makeHeap(exports) {
    const { memory } = exports;
    const free = Array.from({ length: 32 }, () => []);
    let top = Math.ceil(Number(exports.__heap_base.value) / 16) * 16;
    let bytes = new Uint8Array(memory.buffer), halves = new Uint32Array(memory.buffer);

    // Grows the memory by some pages, and says whether it has grown.
    function grow(pages) {
      try {
        memory.grow(pages);
      } catch {
        return false;
      }
      bytes = new Uint8Array(memory.buffer);
      halves = new Uint32Array(memory.buffer);
      return true;
    }

    // The power of two that is the size of a block of `size` bytes, by its exponent; 32 where there is no such block.
    const classOf = size => (!(size >= 0 && size <= SIZES[31]) ? 32 : size <= SIZES[LEAST] ? LEAST : 32 - Math.clz32(size - 1));

    // Makes a block of 2^c bytes at the top of the heap, or the last block one of 2^c bytes, and says whether the browser gives the memory.
    function place(at, c) {
      const missing = at + SIZES[c] - bytes.length;
      // A memory that cannot grow in place is copied: so it grows by half of what it is, if the browser gives that.
      const pages = size => Math.ceil(size / PAGE);
      if (missing > 0 && !grow(pages(Math.max(missing, bytes.length / 2))) && !grow(pages(missing))) return false;
      top = at + SIZES[c];
      bytes[at - 16] = c;
      return true;
    }

    // The address of a new block of at least `size` bytes, a multiple of 16; 0 where the browser gives no more memory.
    function get(size) {
      const c = classOf(size), at = top + 16;
      if (c > 31) return 0;
      return free[c].length ? free[c].pop() : place(at, c) ? at : 0;
    }

    function put(at) {
      free[bytes[at - 16]].push(at);
    }

    // Writes what an allocation came to: whether there is a block, and its address, as two numbers of 64 bits.
    function tell(to, at) {
      const first = to / 4;
      halves[first] = at ? 1 : 0;
      halves[first + 1] = 0;
      halves[first + 2] = at || 16;
      halves[first + 3] = 0;
    }

    return {
      get,
      put,
      alloc(to, size) {
        tell(to, get(size));
      },
      realloc(to, at, kept, size) {
        const had = bytes[at - 16], c = classOf(size);
        // (the last block grows where it is)
        if (c <= had || (c <= 31 && at + SIZES[had] === top && place(at, c))) return tell(to, at);
        const next = get(size);
        if (next) {
          bytes.copyWithin(next, at, at + kept);
          put(at);
        }
        return tell(to, next);
      },
    };
  }

  // An instance, and how an export of it is called.
  function makeInstance(compiled) {
    let heap = null;
    const imports = {
      rattle_alloc: (to, size) => heap.alloc(Number(to), Number(size)),
      rattle_realloc: (to, at, kept, size) => heap.realloc(Number(to), Number(at), Number(kept), Number(size)),
      rattle_dealloc: at => heap.put(Number(at)),
    };
    /** @type {any} */
    const exports = new WebAssembly.Instance(compiled, { heap: imports }).exports;

    // A slice in the module's memory: its address and its length; a number as it is.
    function passed(item) {
      if (!ArrayBuffer.isView(item)) return [item];
      const at = heap.get(Math.max(item.byteLength, 1)), { buffer, byteOffset, byteLength, length } = /** @type {any} */ (item);
      if (!at) return [0, 0];
      new Uint8Array(exports.memory.buffer).set(new Uint8Array(buffer, byteOffset, byteLength), at);
      return [BigInt(at), BigInt(length)];
    }

    // Calls an export with these arguments, then with buffers that have room for some items of `size` bytes each, and with an
    // answer of `count` numbers, of which the last are the lengths of what is in the buffers then. Gives the answer, and the
    // buffers by their addresses in memory.
    function attempt(name, items, rooms, size, count) {
      // A call frees all that it takes, so each begins with an empty heap.
      heap = makeHeap(exports);
      const words = items.map(passed), outs = rooms.map(room => heap.get(Math.max(room * size, 1))), answer = heap.get(8 * count);
      const isThere = outs.every(Boolean) && answer && words.every(([at, length]) => at || length === undefined);
      if (isThere) exports[name](...words.flat(), ...outs.flatMap((at, index) => [BigInt(at), BigInt(rooms[index])]), BigInt(answer));
      const numbers = isThere ? Array.from(new BigUint64Array(exports.memory.buffer, answer, count), Number) : [OUT_OF_MEMORY, ...Array(count - 1).fill(0)];
      return { numbers, outs, memory: exports.memory.buffer };
    }

    return { attempt, size: () => exports.memory.buffer.byteLength };
  }

  // Numbers of 64 bits, of which those above 2^53 are rounded.
  function numbersIn(memory, at, length) {
    const halves = new Uint32Array(memory, at, 2 * length), numbers = new Float64Array(length);
    for (let i = 0; i < length; i++) numbers[i] = halves[2 * i] + halves[2 * i + 1] * 4294967296;
    return numbers;
  }

  // Pairs of numbers, of which one is a moment and the other, below 256, comes before it or after it.
  function pairsIn(memory, at, length, moment) {
    const halves = new Uint32Array(memory, at, 2 * length), moments = new Float64Array(length / 2), bytes = new Uint8Array(length / 2);
    for (let i = 0, half = 2 * moment, other = 2 - half; i < moments.length; i++, half += 4, other += 4) {
      moments[i] = halves[half] + halves[half + 1] * 4294967296;
      bytes[i] = halves[other];
    }
    return [moments, bytes];
  }

  const encode = text => new TextEncoder().encode(text);
  /** @type {any} */
  const NOTHING = new Uint8Array(0);
  // What a call has that is given no settings at all: the one that it needs is then named.
  /** @type {any} */
  const WITHOUT = {};

  // What callers give, or a TypeError with the name of the setting: bytes, or a string in their place as UTF-8; words; numbers of a range.
  const wrong = (name, wanted) => { throw new TypeError(`print1525: ${name} must be ${wanted}`); };
  const bytesOf = (name, bytes) => (typeof bytes === 'string' ? encode(bytes) : bytes instanceof Uint8Array ? bytes : wrong(name, 'a string or a Uint8Array'));
  const flagOf = (name, flag) => (typeof flag === 'boolean' ? Number(flag) : wrong(name, 'true or false'));

  function wordsOf(words) {
    const isWord = word => typeof word === 'string' && !word.includes('\0');    // (a zero byte parts the words)
    return Array.isArray(words) && words.every(isWord) ? words : wrong('words', 'an array of strings without a zero byte');
  }

  function numberOf(name, number, least, greatest) {
    const isNumber = typeof number === 'bigint' || Number.isSafeInteger(number);
    if (!isNumber || number < least || number > greatest) return wrong(name, `a whole number from ${least} to ${greatest}`);
    return typeof greatest === 'bigint' ? number : Number(number);
  }

  const LARGEST = 2n ** 64n - 1n;

  // The settings of each call.
  const RECORDING = ['bytes', 'source', 'names', 'inverted', 'start', 'rate'];
  const SETTINGS = {
    answer: ['words', 'explained', 'input', 'characters'], names: ['words'], listing: ['bytes', 'form'],
    print: ['inputs', 'format', 'device', 'sheet', 'top', 'paper', 'scale', 'characters'], edges: RECORDING, edgeDelays: RECORDING, readingRows: [...RECORDING, 'detail'],
    intervals: RECORDING, bounds: [], statementLines: ['script'], scriptFault: ['script'],
  };

  // A call that takes its own settings alone.
  const withOwn = (call, make, settings) => (asked = WITHOUT) => {
    if (asked === null || typeof asked !== 'object') wrong('the settings', 'an object');
    const other = Object.keys(asked).find(name => !settings.includes(name));
    if (other !== undefined) throw new TypeError(`print1525: ${other} is no setting of ${call}, which has ${settings.join(', ') || 'none'}`);
    return make(asked);
  };

  // The words of a command line as one text, with the program's name in front.
  const lineOf = words => encode(['print1525', ...wordsOf(words)].join('\0'));

  // How many numbers there may be: as many as the lines of a text have room for.
  function roomOf(bytes, perLine) {
    let lines = 2;
    for (let at = bytes.indexOf(10); at >= 0; at = bytes.indexOf(10, at + 1)) lines++;
    return Math.ceil(perLine * lines);
  }

  // The arguments that say what a recording is.
  function recording({ bytes, source = 0, names = ['ATN', 'CLOCK', 'DATA'], inverted = false, start = 0, rate = 0 }) {
    if (!Array.isArray(names) || names.length !== 3) wrong('names', 'three names');
    return [
      bytesOf('bytes', bytes), numberOf('source', source, 0, 4), ...names.map((name, line) => bytesOf(`names[${line}]`, name)), flagOf('inverted', inverted),
      BigInt(numberOf('start', start, 0, LARGEST)), BigInt(numberOf('rate', rate, 0, LARGEST)),
    ];
  }

  // What a printer hears, as numbers of 16 bits.
  function heard(inputs) {
    if (!Array.isArray(inputs) && !ArrayBuffer.isView(inputs)) wrong('inputs', 'a list of numbers');
    return Uint16Array.from(/** @type {any} */ (inputs), (input, index) => Number(numberOf(`inputs[${index}]`, input, 0, 257)));
  }

  return async function loadPrint1525(bytes) {
    if (typeof WebAssembly !== 'object' || typeof BigUint64Array !== 'function') {
      throw new Error('This browser cannot run print1525: it has no WebAssembly.');
    }
    const compiled = await WebAssembly.compile(bytes);
    let instance = makeInstance(compiled);
    const rooms = new Map();

    // Calls an export; where a buffer was too small, again with as much room as it needs. (A second buffer's is no fault.)
    function call(name, items, given, size, count) {
      if (instance === null || instance.size() > KEPT) instance = makeInstance(compiled);
      try {
        const told = instance.attempt(name, items, given, size, count), lengths = told.numbers.slice(-given.length);
        const wanted = lengths.map((length, index) => Math.max(length, given[index]));
        return told.numbers[0] === TOO_SMALL || lengths[1] > given[1] ? instance.attempt(name, items, wanted, size, count) : told;
      } catch (error) {
        // What a call that was cut off leaves is not used again.
        instance = null;
        throw error;
      }
    }

    // A call that gives two texts after `count` numbers: these numbers, and both texts.
    function texts(name, items, room, count) {
      const { numbers, outs, memory } = call(name, items, [room, MESSAGES], 1, count + 2);
      return [numbers.slice(0, count), ...outs.map((at, index) => new Uint8Array(memory, at, numbers[count + index]).slice())];
    }

    // A call that gives numbers of `size` bytes, of which `make` gives what they are.
    function numbered(name, items, room, make, size = 8) {
      const { numbers: [code, fault, place, length], outs: [at], memory } = call(name, items, [room], size, 4);
      return { code, fault, place, ...make(memory, at, length, code) };
    }

    const numbers = (memory, at, length) => ({ numbers: numbersIn(memory, at, length) });
    const text = (memory, at, length) => ({ text: new Uint8Array(memory, at, length).slice() });

    const calls = {
      // What the program does with the words of a command line, with `input` in the place of the file that they name or of standard
      // input, and `characters` in that of the file of characters: its exit status, what it writes, and its lines for people, which
      // say more where it is `explained`. Of a refusal `fault`, `place` and `column` are numbers, each 0 where it has none.
      answer({ words, explained = false, input = NOTHING, characters = NOTHING }) {
        const given = bytesOf('input', input), key = wordsOf(words).join(' '), room = Math.min(Math.max(WIDER * given.length, rooms.get(key) || 0), KEPT / 4);
        const [[status, fault, place, column], output, messages] = texts('print1525_answer', [lineOf(words), flagOf('explained', explained), ANY_STATUS, given, bytesOf('characters', characters)], Math.max(room, ROOM), 4);
        if (rooms.size > 100) rooms.clear();
        rooms.set(key, Math.ceil(output.length * 1.25));
        return { status, fault, place, column, output, messages };
      },
      // The names of the files that words name, or null: that which is read, that which is written and that of characters; and what is
      // said where the input comes from a terminal. With another status than 0 words ask for no task, as `answer` says.
      names({ words }) {
        const [[status], output, messages] = texts('print1525_names', [lineOf(words)], ROOM, 4);
        const parts = new TextDecoder().decode(output).split('\0');
        return { status, names: [0, 1, 2].map(index => (parts[index] ? parts[index].slice(1) : null)), messages };
      },
      // The text of the script that a listing says: itself (form 0), that of a saved program (1), of
      // petcat's text (2), of a magazine's listing (3) or of what its first bytes show (4).
      listing({ bytes, form = 0 }) {
        const given = bytesOf('bytes', bytes);
        // Beside a fault the length is its column.
        return numbered('print1525_listing', [given, numberOf('form', form, 0, 4)], Math.max(ROOM, WIDER * given.length), (memory, at, length, code) => (
          code === REFUSED ? { column: length, text: NOTHING } : { column: 0, ...text(memory, at, length) }), 1);
      },
      // The pages of what a printer hears: 0 to 255 a byte, 256 and 257 the selection of the graphic/upper case or the lower/upper
      // case set. `format` is 0 the page text, 1 lines, 2 SVG, 3 PNG, 4 PDF; `device` and `sheet` show a part, where it can; `top` is
      // the lines above the first row, `paper` 0 continuous paper, 1 the same with holes, 2 A4, 3 letter, and `scale` the pixels of
      // a PNG for the place of a dot.
      print({ inputs, format = 0, device = 0, sheet = 0, top = 3, paper = 0, scale = 2, characters = NOTHING }) {
        const given = heard(inputs), room = Math.max(ROOM, Math.min(WIDER * given.length, KEPT / 4));
        const printer = device === 0 ? 0 : numberOf('device', device, 4, 5);
        const part = [numberOf('format', format, 0, 4), printer, BigInt(numberOf('sheet', sheet, 0, LARGEST))];
        part.push(numberOf('top', top, 0, 65), numberOf('paper', paper, 0, 3), numberOf('scale', scale, 1, 8));
        return numbered('print1525_print', [given, ...part, bytesOf('characters', characters)], room, text, 1);
      },
      // The edges of a recording, up to its fault: the moment and the levels of each.
      edges: asked => numbered('print1525_edges', recording(asked), roomOf(bytesOf('bytes', asked.bytes), 2), (memory, at, length) => {
        const [times, levels] = pairsIn(memory, at, length, 0);
        return { times, levels };
      }),
      // The delay of the profile that each edge ends: its kind, by its place among those of `bounds`, and since when it counts.
      edgeDelays: asked => numbered('print1525_edge_delays', recording(asked), roomOf(bytesOf('bytes', asked.bytes), 2), (memory, at, length) => {
        const [since, kinds] = pairsIn(memory, at, length, 1);
        return { kinds, since };
      }),
      // What a recording says: a row of 18 numbers for each reading whose lines the program writes in this detail.
      readingRows: asked => numbered('print1525_reading_rows', [...recording(asked), numberOf('detail', asked.detail ?? 0, 0, 3)], roomOf(bytesOf('bytes', asked.bytes), 1.5), numbers),
      // What the lengths of each interval of a recording come to: ten rows of seven numbers.
      intervals: asked => numbered('print1525_intervals', recording(asked), 70, numbers),
      // The least and the greatest delay of each kind, and of an answer to end-or-identify that two listeners make together.
      bounds: () => numbered('print1525_bounds', [], 30, numbers),
      // The line of each statement of a script, from 1.
      statementLines: ({ script }) => numbered('print1525_statement_lines', [bytesOf('script', script)], roomOf(bytesOf('script', script), 2), numbers),
      // Where the first fault of a script is: line, column, the BASIC line's number and 1, and the width of what is there; or no number.
      scriptFault: ({ script }) => numbered('print1525_script_fault', [bytesOf('script', script)], 4, numbers),
    };
    return Object.fromEntries(Object.entries(calls).map(([name, make]) => [name, withOwn(name, make, SETTINGS[name])]));
  };
})();
