// Runs the module beside the page, so that nothing it does holds up typing. Each message is a job with what it is
// asked; the answer goes back under the job's number. What was printed last is kept for the texts and the clicks.

import { loadPrint1525 } from './module.mjs';
import { busWords, delaysOf, FORMS, formNumber, hasNames, pagesWords, rawWords, recordingNumbers, recordingWords, scriptWords, SOURCES } from './asked.js';
import { marksMore, marksOf } from './sheets.js';
import { edgeAt, figuresOf, figuresOfText, frameLines, Frames, lineStarts, textOfEdges, turnsOf, useBounds } from './wire.js';

let print1525 = null;
const shown = { run: 0, kind: '', words: null, input: null, settings: null, list: null, rows: null };     // what is on paper; `run` is the number of its print
const wire = { run: 0, ask: null, rows: null, asked: null, moments: new Map(), bytes: null, input: 'text', starts: null, edges: null, frames: new Frames(), readings: null };
let running = 0, number = 0;                                           // the run of the job under way, and its number

const text = bytes => new TextDecoder().decode(bytes);
const latin = bytes => new TextDecoder('latin1').decode(bytes);        // a character for each byte

let characters = null;                                                 // the bytes of a file of characters, or null
const DRAWN = ['svg', 'png', 'pdf'];

/** What the program does with these words over an input. Pictures have the characters of one's own. */
function answer(words, input, explained = false) {
  const isOwn = characters && DRAWN.includes(words[words.indexOf('--as') + 1]);
  return print1525.answer({ words: isOwn ? [...words, '--characters', 'own'] : words, input, explained, ...(isOwn ? { characters } : {}) });
}

const NOTE = 'print1525: note: ';

/** The program's lines for people: its notes, without what says that they are some, and all others. */
function linesOf({ messages }) {
  const lines = text(messages).split('\n').slice(0, -1);
  return { notes: lines.filter(line => line.startsWith(NOTE)).map(line => line.slice(NOTE.length)), others: lines.filter(line => !line.startsWith(NOTE)) };
}

/** How the program ended, and its lines for people but notes: the first of them without its own name, the name of a fault or a stop alone, and the others. */
function answerOf({ status, place, column, messages }) {
  const [first, ...more] = linesOf({ messages }).others, words = (first || '').replace(/^print1525: /, '');
  const [name] = words.replace(/^(line \d+(, column \d+)?|edge \d+): /, '').replace(/^(too many steps) in \d+$/, '$1').split('  ERROR');
  return { code: status, line: place, column, words, name, more };
}

/** The row of the listing, from 0, for each line of the script that it prints as a program. */
function rowsOf(script, listing) {
  const rows = new Map(), numberOf = row => Number((/^ *(\d[\d ]*)/.exec(row)?.[1] ?? '-1').replace(/ /g, ''));
  latin(listing).split(/\r\n|\r|\n/).forEach((row, at) => rows.set(numberOf(row), at));
  return latin(script).split('\n').slice(0, -1).map(line => rows.get(numberOf(line)) ?? -1);
}

/**
 * The script that a listing says: itself, or what it prints as a program where it is no script, with the listing's rows; or what the
 * module makes of it in another form; or the answer that refuses it.
 */
function scriptOf({ script, form = 'text' }) {
  if (form === 'text') {
    const made = placeOf(script) ? answer(scriptWords('bas'), script) : null;
    // (the script of a program that prints nothing is empty)
    return made && made.status <= 1 ? { script: made.output, rows: rowsOf(made.output, script) } : { script };
  }
  const made = print1525.listing({ bytes: script, form: formNumber(form) });
  return made.code ? { refused: answerOf(answer(pagesWords({}, 'list', form), script, true)) } : { script: made.text };
}

/** What a saved program that is no script prints, as a script, with its notes and the error that ended it; or why it is not run. */
function printedBy(program) {
  const made = answer(scriptWords('basic'), program, true);
  return { ...answerOf(made), code: made.status <= 1 ? 0 : made.status, isRun: true, script: text(made.output), notes: linesOf(made).notes };
}

// The number of a script's unknown word; from the other on they are those of programs that are run.
const UNKNOWN_WORD = 1, PROGRAM_ERRORS = 110;

// What may be the beginning of a name, at the end of a line that is cut.
const CUT_NAME = { petcat: /\{[^}]*$/, magazine: /(\{[^}]*|\[(<((?!>\])[^])*)?)$/ };

/** The place of a script's fault in a listing with names: its line, and how many characters of the line come before it. */
function placeInNamed({ line, column }, listing, form) {
  const row = text(listing).split('\n')[line - 1] || '', encoder = new TextEncoder();
  const lengthOf = end => print1525.listing({ bytes: encoder.encode(row.slice(0, end).replace(CUT_NAME[form], '')), form: formNumber(form) }).text.length;
  // (the text of a front ends with a line's end)
  const last = least(row.length, end => lengthOf(end + 1) > column), isKey = form === 'magazine' && row.startsWith('>]', last - 1);
  return { line, from: row[last] === '}' ? row.lastIndexOf('{', last) : isKey ? row.lastIndexOf('[<', last) : last };
}

/** Whether each row of a listing begins with a line number, or is blank. */
const isNumbered = listing => latin(listing).split(/\r\n|\r|\n/).every(row => /^ *(\d|$)/.test(row));

/**
 * The sheets of a listing's run: with the notes on the listing itself where it runs, and by its script where that is refused. What reads
 * neither as a script nor as a program is refused as a program where its lines are numbered and a word is no script's.
 */
function pagesOf({ script: listing, form = 'text' }, run, script) {
  const pages = answer(pagesWords(run, 'svg', form === 'text' ? 'bas' : form), listing, true);
  if (form === 'text') return pages.fault === UNKNOWN_WORD && isNumbered(listing) ? answer(pagesWords(run, 'svg', 'basic'), listing, true) : pages;
  return pages.status <= 1 ? pages : answer(pagesWords(run, 'svg'), script, true);
}

/**
 * The last lines of a page text, which are for programs: `status` with a number for each statement, and `screen` with its bytes. A
 * status is given as 1 where no device answered, and else as 0.
 */
function endOf(pages) {
  const lines = [];
  for (let end = pages.length, from; end > 0 && lines[0]?.[0] !== 'status'; end = from) {
    from = pages.lastIndexOf(10, end - 2) + 1;
    lines.unshift(latin(pages.subarray(from, end - 1)).split(' '));
  }
  const [[, ...statuses], [, ...screen]] = lines;
  return { statuses: Uint8Array.from(statuses, status => Number(status) ? 1 : 0), screen: Uint8Array.from(screen, Number) };
}

/**
 * The lines of an explanation after the listing's line and the caret below it: what was expected and what is there, without the
 * place, which the numbers of the fault say, and hints.
 */
function explanationOf([, , sentence = '', ...hints], { line, column, basicLine }) {
  const where = `  line ${line}, column ${column}${basicLine === null ? '' : `, BASIC line ${basicLine}`}: `;
  return { sentence: sentence.startsWith(where) ? sentence.slice(where.length) : sentence.trim(), hints: hints.map(hint => hint.trim()).filter(Boolean) };
}

const FRONT = 2 ** 18;                                                 // bytes by which a file is judged: more than a disk image has

/** The first bytes of a file, up to the end of a line where they are not all. */
const frontOf = bytes => (bytes.length <= FRONT ? bytes : bytes.subarray(0, bytes.lastIndexOf(10, FRONT - 1) + 1 || FRONT));

/** The number of the line to which the program reads an input, which it refuses there; Infinity where it reads it to its end. */
const readTo = ({ status, place }) => (status <= 1 ? Infinity : place);

/** Whether two answers are the same, but for their messages. */
const areSame = (one, other) => ['status', 'fault', 'place', 'column'].every(name => one[name] === other[name]) && latin(one.output) === latin(other.output);

/** What a hint of an answer reads the input as: the value of the option that it names, or nothing. */
const hinted = ({ messages }) => /^(?:  |print1525: note: )(?:this|strings) .*?--from (\w+)/m.exec(text(messages))?.[1] ?? '';

/** Whether a hint of an answer says that the input looks like something. */
const looksLike = ({ messages }, what) => new RegExp(`^(?:  |${NOTE})this looks like ${what}`, 'm').test(text(messages));

/** What a subcommand says of an input for some words: asked once for the same words. */
function reading(command, front) {
  const said = new Map();
  return words => {
    const key = words.join(' ');
    if (!said.has(key)) said.set(key, answer([command, ...words], front, true));
    return said.get(key);
  };
}

/** Whether the program takes bytes for a text. (It says so of a text that is to be a saved program, which no text is.) */
const isText = front => hinted(answer(pagesWords({}, 'list', 'prg'), front, true)) === 'text';

/** Whether a file is refused by its name, which is that of another kind of file. */
const isForeign = ({ messages }) => text(messages).startsWith('print1525: bad --from');

/** Which recording a file is, as the program reads it by its name or by its first bytes; or nothing where a listing is read as far. */
function recordingKind(front, file, listing) {
  const read = reading('decode', front), found = read([]), named = isForeign(read([file])) ? found : read([file]);
  const said = readTo(found) > readTo(named) ? found : named, source = SOURCES.find(source => areSame(read(['--from', source]), said));
  if (readTo(said) !== listing) return readTo(said) > listing ? source : '';
  // A table whose columns have other names, by its first line or by the name of its file.
  const isTable = source !== 'text' && isText(front) && !looksLike(said, 'a listing');
  return isTable || !areSame(named, found) ? source : '';
}

/** Which form of a listing a file is, as the program reads it by its name and says in its hints; or nothing where it is none. */
function listingKind(front, file, read) {
  const said = isForeign(read([file])) ? read([]) : read([file]), named = FORMS.find(form => areSame(read(['--from', form]), said));
  if (named !== 'text' && hinted(said) !== 'text') return named;
  const plain = read(['--from', 'text']), form = hinted(plain), petcat = readTo(read(['--from', 'petcat']));
  if (form === 'prg') return form;
  // (small letters alone may be meant as they are; braces in a string that petcat's text can have are names)
  if (form === 'petcat' && isText(front) && (petcat > readTo(plain) || (petcat === readTo(plain) && petcat > 1 && front.includes(123)))) return form;
  const isListing = readTo(plain) > 1 || looksLike(answer(['check', '--from', 'text'], front, true), 'a listing');
  return isListing ? 'script' : '';
}

/** Whether an editor can show bytes as they are. */
function isUtf8(bytes) {
  try { return Boolean(new TextDecoder('utf-8', { fatal: true }).decode(bytes)); } catch { return false; }
}

/** The place of a script's first fault, or null. */
function placeOf(script) {
  const [line, column, label, width] = print1525.scriptFault({ script }).numbers;
  return line ? { line, column, basicLine: label ? label - 1 : null, width } : null;
}

/** Puts on paper what the program answers, as a picture, and keeps how: the words for each format, and the input. */
function picture(kind, words, input, pages, settings = null) {
  Object.assign(shown, { run: running, kind, words, input, settings, list: null });
  return pages.output;
}

/** What is on paper, in a format of pages: made again, since the picture itself is the page's by then. */
const madeAgain = (format, part = []) => answer([...shown.words(format), ...part], shown.input).output;

/** The pages of what is on the wire before an edge, as a picture. */
function pagesBefore(edge) {
  const cut = wire.starts ? wire.bytes.subarray(0, wire.starts[edge]) : textOfEdges(wire.edges, edge);
  return text(answer(recordingWords('decode', { input: 'text' }, 'svg'), cut).output);
}

/** The least number of some for which a question is answered with yes, where it is so for each greater one. */
function least(count, isSo) {
  let low = 0, high = count;
  while (low < high) {
    const middle = (low + high) >> 1;
    if (isSo(middle)) high = middle; else low = middle + 1;
  }
  return low;
}

const LAWFUL = { isLawful: true, verdict: 'this project\'s timing' }, UNKNOWN = { isLawful: null, verdict: '' };

/**
 * The verdict on a recording with these readings, whether it is the best one of its bounds, and why, where it is not this project's
 * timing; and what is odd about the recording, with what to try, which the readings end with.
 */
function verdictOf(ask, readings) {
  const [, verdict, end] = /^verdict: (.*)\n([^]*)$/m.exec(latin(readings.subarray(-4000))), odd = end.split('\n').filter(Boolean);
  const isLawful = /^(this project's timing|within the guide's bounds)$/.test(verdict);
  if (isLawful || ask.bounds === 'guide') return { isLawful, verdict, odd, told: [] };
  const { more } = answerOf(answer(recordingWords('check', ask, 'frames'), ask.bytes, true));
  return { isLawful, verdict, odd, told: more.filter(line => !odd.includes(line.trim())) };
}

/** How many of these moments there are before time goes back, which no reading and no picture has. */
function inOrder(times) {
  const back = times.findIndex((time, index) => index > 0 && time < times[index - 1]);
  return back < 0 ? times.length : back;
}

/** Says how far a long job is: a part of all of it, from 0 to 1, and what is done next. */
const tellProgress = (done, words) => postMessage({ number, progress: { done, words } });

/**
 * The microsecond at which a recording starts, from its first sample, as calls with numbers have it. Where it is to start before the
 * recording's own moment 0, the program's readings say when that is: their last one is as much earlier.
 */
function startOf(ask, readings) {
  if (!(ask.start < 0)) return ask.start;
  const lastOf = bytes => Number([...latin(bytes.subarray(-8000)).matchAll(/^ +(\d+) /gm)].pop()?.[1] ?? NaN);
  const whole = answer(recordingWords('decode', { ...ask, start: 0 }, 'list'), ask.bytes).output, start = lastOf(whole) - lastOf(readings);
  return Number.isFinite(start) ? start : 0;
}

/** Keeps a recording with its readings, and gives its edges and what is said of it; `ask` has its bytes and their format. */
function keepWire(ask, said, verdict) {
  const { detail, ...given } = recordingNumbers({ ...ask, start: startOf(ask, said.output) });
  tellProgress(.2, 'reading its edges');
  const all = print1525.edges(given), count = inOrder(all.times);
  tellProgress(.33, 'finding its delays');
  const delays = print1525.edgeDelays(given), [times, levels, kinds, since] = [all.times, all.levels, delays.kinds, delays.since].map(it => (count < it.length ? it.slice(0, count) : it));
  tellProgress(.5, 'measuring its intervals');
  const { bytes, input, bounds } = ask, { status, output: readings } = said, table = () => answer([...recordingWords('decode', ask, 'list'), '--intervals'], bytes).output;
  const intervals = bounds === 'guide' ? figuresOfText(latin(table().subarray(-4000))) : figuresOf(print1525.intervals(given).numbers);
  tellProgress(.61, 'finding its frames');
  const { numbers: rows } = status === 3 ? { numbers: new Float64Array(0) } : print1525.readingRows({ ...given, detail }), lines = frameLines(rows, readings);
  const frames = new Frames(rows, lines), edges = { times, levels };
  Object.assign(wire, { run: running, asked: ask, bytes, input, starts: input === 'text' ? lineStarts(bytes) : null, edges, frames, readings, moments: new Map() });
  tellProgress(.9, 'drawing it');
  // (the page gets numbers, millions of which go over at once, and makes what it shows of them)
  return { times: times.slice(), levels: levels.slice(), kinds, since, turns: turnsOf(edges), rows: rows.slice(), lines: lines.slice(), counts: frames.counts(), intervals, bounds, ...verdict };
}

/** The first lines of the script that the wire shows, or how many lines it has. */
function firstLines(count, isCounted = false) {
  const { script } = wire.ask;
  let at = 0, lines = 0;
  while (lines < count && at < script.length) {
    const end = script.indexOf(10, at);
    at = end < 0 ? script.length : end + 1;
    lines++;
  }
  return isCounted ? lines : script.subarray(0, at);
}

/** The moment of the last edge that the first lines of the script make: of the last line of their trace. */
function momentAfter(lines) {
  if (!wire.moments.has(lines)) {
    const { output } = answer(busWords(wire.ask, 'text'), firstLines(lines)), last = latin(output.subarray(output.lastIndexOf(10, output.length - 2) + 1));
    wire.moments.set(lines, Number(last.split(' ')[0]) || 0);
  }
  return wire.moments.get(lines);
}

/** The first line of the script that comes of a row of the listing, and the one after the last that comes with it; of a program that goes there again only the first time. */
function linesOfRow(row) {
  if (!wire.rows) return [row, row + 1];
  const first = wire.rows.indexOf(row);
  let next = Math.max(first, 0);
  while (first >= 0 && wire.rows[next] === row) next++;
  return [Math.max(first, 0), next];
}

const jobs = {
  /** Makes the module ready, and gives the bounds of the delays. */
  async open({ bytes, characters: own }) {
    print1525 = await loadPrint1525(bytes);
    characters = own;
    const { numbers } = print1525.bounds();
    useBounds(numbers);
    return numbers;
  },

  /**
   * What a file seems to be. The program has the rules: how it reads the file by its name and its first bytes, and which option its
   * hints name; a file is what it reads furthest.
   */
  kind({ bytes, name }) {
    const front = frontOf(bytes), file = `./${name.replace(/^.*\//, '')}`, drawing = rawWords({ set: 0 }, 'svg');
    const shapes = print1525.answer({ words: [...drawing, '--characters', 'own'], characters: bytes });
    // (its first line and the first row of dots are a file of characters)
    if (readTo(shapes) > 2) return 'characters';
    const read = reading('pages', front), listing = Math.max(...FORMS.map(form => readTo(read(['--from', form]))));
    // (a text of this name that is no script would be run)
    const kind = recordingKind(front, file, listing) || listingKind(front, file.replace(/\.bas$/i, '.txt'), read);
    if (kind) return kind;
    const isDisk = looksLike(answer(rawWords({ set: 0 }, 'list'), front, true), 'an image of a disk');
    return isDisk ? 'disk' : isText(front) && isUtf8(front) ? 'script' : 'raw';
  },

  /** Which of three lists of delays the program refuses, and what each has to be, in the words of its help; or null. */
  delays({ lists }) {
    const judge = given => answer(['bus', '--delays', delaysOf(given)], new Uint8Array(0), true), refusal = judge(lists);
    if (!refusal.status) return null;
    const index = lists.findIndex((_, own) => judge(lists.map((list, other) => (other === own ? list : ''))).status > 0);
    const [, rule = ''] = /each with (numbers [^[]*?)\s*(?:\[|$)/.exec(answerOf(refusal).more.map(line => line.trim()).join(' ')) || [];
    return { index: Math.max(index, 0), rule };
  },

  /** Draws with the characters of a file from now on, or with the usual ones. */
  characters({ characters: own }) { characters = own; },

  /** One call of the module as it is. */
  call: ({ method, ask }) => print1525[method](ask),

  /** The sheets of a script's run as a picture, or why there are none. */
  print(ask) {
    const began = performance.now(), { script, rows, refused } = scriptOf(ask);
    if (refused) return { ...refused, milliseconds: performance.now() - began };
    const run = { script, printers: ask.printers, status: ask.status }, words = format => pagesWords(run, format);
    const pages = pagesOf(ask, run, script), isOfProgram = pages.fault >= PROGRAM_ERRORS;
    /** @type {any} */
    const told = { ...answerOf(pages), length: script.length };
    if (pages.status <= 1) Object.assign(told, { svg: picture('script', words, script, pages, run), notes: linesOf(pages).notes });
    shown.rows = rows;
    told.milliseconds = performance.now() - began;
    // (an error of BASIC ends a program after its last statement: its place is a line's number, as where there are too many steps)
    if (isOfProgram && !pages.column) told.line = rowsOf(new TextEncoder().encode(`${pages.place}\n`), ask.script)[0] + 1;
    if (pages.status === 1) Object.assign(told, { isOfProgram, statement: isOfProgram ? NaN : pages.place, told: [told.words, ...told.more] });
    if (pages.status === 2 && isOfProgram) {
      // (the listing's line and the caret below it are in the editor)
      told.more = told.more.slice(pages.column ? 2 : 1);
    } else if (pages.status === 2) {
      told.place = placeOf(script);
      if (told.place) told.explanation = explanationOf(told.more, told.place);
      if (hasNames(ask.form) && told.place) told.inNamed = placeInNamed(told.place, ask.script, ask.form);
    }
    return told;
  },

  /** Whether a saved program and a listing of it in another form run to the same pages; what it prints where it is no script; or why it is no program, or is not run. */
  isSame({ program, listing, form }) {
    const saved = print1525.listing({ bytes: program, form: formNumber('prg') }), other = print1525.listing({ bytes: listing, form: formNumber(form) });
    if (saved.code) return answerOf(answer(pagesWords({}, 'list', 'prg'), program));
    const [one, two] = [saved, other].map(made => answer(pagesWords({}, 'list'), made.text));
    if (one.status === 2) return printedBy(program);
    const isSame = !other.code && ['status', 'fault', 'place'].every(name => one[name] === two[name]) && latin(one.output) === latin(two.output);
    return { code: 0, isSame, script: text(saved.text) };
  },

  /** What comes after the sheets of the script that is shown: each statement's line and status, and the screen's bytes. */
  end() {
    shown.list = madeAgain('list');
    const lines = print1525.statementLines({ script: shown.input }).numbers;
    return { ...endOf(shown.list), lines: shown.rows ? lines.map(line => shown.rows[line - 1] + 1) : lines };
  },

  /** The trace of a script's run at some delays, and what it says. */
  trace({ printers, status, delays, script: listing, form }) {
    const { script, rows, refused } = scriptOf({ script: listing, form });
    if (refused) return refused;
    tellProgress(0, 'running the listing');
    const run = { script, printers, status, delays }, bus = answer(busWords(run, 'text'), script);
    if (bus.status > 1) return answerOf(bus);
    tellProgress(.13, 'reading its trace');
    const ask = { bytes: bus.output, input: 'text' }, said = answer(recordingWords('decode', ask, 'list'), ask.bytes);
    // (that the trace of a run is lawful is proved)
    const kept = keepWire(ask, said, LAWFUL);
    Object.assign(wire, { ask: run, rows });
    return { ...answerOf(bus), ...kept, delays };
  },

  /** What a line of the listing sends and prints: the first of its frames and the one after the last, and its marks. */
  line({ line }) {
    const [first, next] = linesOfRow(line), [from, to] = [first, next].map(count => wire.frames.endingAfter(momentAfter(count)));
    const pages = lines => text(answer(pagesWords(wire.ask, 'svg'), firstLines(lines)).output);
    return { from, to, marks: marksMore(pages(first), pages(next)), isMade: Boolean(wire.rows) };
  },

  /** The line of the listing that sends a frame: the first with which the trace goes as far; and the first of its frames and the one after the last. */
  lineOf({ frame }) {
    const end = wire.frames.end(frame), lines = firstLines(Infinity, true);
    const line = least(lines, number => momentAfter(number) >= end) - 1, [from, to] = [line, line + 1].map(number => wire.frames.endingAfter(momentAfter(number)));
    return { line: wire.rows ? wire.rows[line] : line, from, to, isMade: Boolean(wire.rows) };
  },

  /**
   * What a recording says, with its edges and its pages: `ask` has its bytes and their format, and of a dump or a table the
   * names of its signals, whether its levels are inverted, and the microsecond at which it begins.
   */
  recording(ask) {
    const said = answer(recordingWords('decode', ask, 'list'), ask.bytes, true), { more, ...ended } = answerOf(said);
    /** @type {any} */
    const told = { ...ended, told: more, ...keepWire(ask, said, said.status === 0 ? verdictOf(ask, said.output) : UNKNOWN) };
    const words = format => recordingWords('decode', ask, format), pages = answer(words('svg'), ask.bytes);
    if (pages.output.length) told.svg = picture('recording', words, ask.bytes, pages);
    return told;
  },

  /** The page of the bytes that a printer gets. */
  raw({ bytes, set }) {
    const words = format => rawWords({ set }, format), pages = answer(words('svg'), bytes, true);
    return { ...answerOf(pages), notes: linesOf(pages).notes, svg: pages.status === 0 ? picture('raw', words, bytes, pages) : null };
  },

  /**
   * A text of what is shown: `svg`, `png`, `pdf`, `list`, `text`, `bytes`; `trace`, `vcd`, `readings`, `intervals`, `json`, `story`.
   * `part` is a printer and its sheet, as words.
   */
  text({ what, delays, part }) {
    if (what === 'readings') return wire.readings.slice();
    if (what === 'trace') return wire.input === 'text' ? wire.bytes.slice() : textOfEdges(wire.edges, wire.edges.times.length);
    if (what === 'vcd') return answer(busWords({ ...shown.settings, delays }, 'vcd'), shown.input).output;
    if (what === 'intervals') return answer([...recordingWords('decode', wire.asked, 'list'), '--intervals'], wire.asked.bytes).output;
    if (what === 'json') return answer(recordingWords('decode', wire.asked, 'json'), wire.asked.bytes).output;
    if (what === 'story') return answer(recordingWords('check', wire.asked, 'story'), wire.asked.bytes).output;
    return what === 'list' && shown.list ? shown.list.slice() : madeAgain(what, part);
  },

  /** The same with where each of its lines begins. */
  lines(ask) {
    const bytes = jobs.text(ask);
    return { bytes, starts: lineStarts(bytes) };
  },

  /** The marks that a frame's byte makes: those that the pages have with its last edge and not without it. */
  marks({ frame }) {
    const edge = edgeAt(wire.edges.times, wire.frames.end(frame));
    return marksMore(pagesBefore(edge), pagesBefore(edge + 1));
  },

  /** The byte that made a mark: the first frame (or raw byte) with which the pages have the mark as often as they do in the end. */
  byte({ mark }) {
    const count = svg => marksOf(svg, mark).get(mark.name) || 0;
    const often = count(text(madeAgain('svg')));
    if (shown.kind === 'raw') {
      const raw = end => text(answer(shown.words('svg'), shown.input.subarray(0, end)).output);
      return { byte: least(shown.input.length, end => count(raw(end)) >= often) - 1 };
    }
    const heard = Array.from({ length: wire.frames.length }, (_, index) => index).filter(index => wire.frames.isHeard(index));
    const found = least(heard.length, n => count(pagesBefore(edgeAt(wire.edges.times, wire.frames.end(heard[n])) + 1)) >= often);
    return { frame: heard[found] ?? -1 };
  },
};

/** Whether a job asks for what another run shows by now. A run's trace belongs to its sheets; frames and marks belong to its trace. */
function isLate(job, ask, run) {
  if (['end', 'trace', 'byte'].includes(job)) return run !== shown.run;
  const isText = ['text', 'lines'].includes(job), isOfWire = isText && ['trace', 'readings', 'intervals', 'json', 'story'].includes(ask.what);
  if (['marks', 'line', 'lineOf'].includes(job) || isOfWire) return run !== wire.run;
  return isText && run !== shown.run;
}

/** What is handed over to the page itself, and is no copy: these can have millions of bytes. */
const handedOver = answer => [answer?.bytes, answer?.starts, answer?.svg, answer?.times, answer?.levels, answer?.kinds, answer?.since, answer?.rows, answer?.lines, ...(answer?.turns || []).map(({ times }) => times)]
  .filter(Boolean).map(({ buffer }) => buffer);

let opened = () => {};
const open = new Promise(done => { opened = () => done(0); });

onmessage = async ({ data: { number: asked, job, ask, run } }) => {
  try {
    // (what is asked before the module is ready waits for it)
    if (job !== 'open') await open;
    if (isLate(job, ask, run)) { postMessage({ number: asked, answer: null }); return; }
    [running, number] = [run, asked];
    const answer = await jobs[job](ask);
    if (job === 'open') opened();
    postMessage({ number: asked, answer }, { transfer: handedOver(answer) });
  } catch (error) {
    postMessage({ number: asked, error: error instanceof Error ? error.message : String(error) });
  }
};
