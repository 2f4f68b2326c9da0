// Reading a listing: its parts in colour, and what each code does to the printer. It says nothing of what is printed: the
// module does.

import { CODE_NAMES } from './codes.js';
import { NAMES } from './listing.js';

/** What the printer does with its codes (docs/DEFINITIONS.md), in the page's words, and the bytes of those that begin a command. */
const WORDS = {
  8: 'graphic mode: bytes from 128 on are columns of seven dots',
  10: 'ends the line',
  13: 'ends the line, and reverse with it',
  14: 'character mode in double width',
  15: 'character mode in standard width',
  16: 'moves to column ab, two digits from 00 to 79',
  17: 'lower/upper case set, for the line',
  18: 'reverse: white on black, to the end of the line',
  26: 'in graphic mode: n times the column of dots d',
  27: 'moves to dot 256h + l, from 0 to 479',
  145: 'graphic/upper case set, for the line',
  146: 'reverse ends',
};
const COMMANDS = { 16: '16 a b', 26: '26 n d', 27: '27 16 h l' };

/** The bytes of each code, and what it does: its name where there are no words of the page's own. */
export const CODES = Object.entries(CODE_NAMES).map(([code, name]) => [COMMANDS[code] || code, WORDS[code] || name]);

/** What a byte does on paper. */
function wordsOfByte(byte) {
  const [bytes, words] = CODES.find(([bytes]) => parseInt(bytes, 10) === byte) || [];
  if (words) return `${byte}: ${bytes.includes(' ') ? `begins ${bytes}, which ` : ''}${words}`;
  if (byte > 255) return `${byte}: no byte`;
  const column = byte > 127 ? `; in graphic mode a column of dots: ${byte - 128}` : '';
  if (byte < 32 || (byte > 127 && byte < 160)) return `${byte}: the printer does nothing${column}`;
  if (byte < 96) return `${byte}: prints ${byte === 32 ? 'a space' : String.fromCharCode(byte)} in the graphic/upper case set`;
  return `${byte}: prints a graphic sign, or a letter of the lower/upper case set${column}`;
}

// The names of bytes in magazines that petcat has not, and the keys 1 to 9 and 0 with the control key and 1 to 8 with the Commodore
// key. RUN has SHFT and COMD, and a blank, where petcat has SHIFT- and CBM-. (tests/browser/page compares each with what the module reads.)
const CONTROL_KEYS = { 1: 144, 2: 5, 3: 28, 4: 159, 5: 156, 6: 30, 7: 31, 8: 158, 9: 18, 0: 146 };
const COMMODORE_KEYS = { 1: 129, 2: 149, 3: 150, 4: 151, 5: 152, 6: 153, 7: 154, 8: 155 };
const keysOf = (name, keys) => Object.entries(keys).map(([key, byte]) => [`${name} ${key}`, byte]);
const MAGAZINE = new Map(/** @type {[string, number][]} */ ([
  ['rvs', 18], ['rvs on', 18], ['off', 146], ['rvs off', 146], ['right', 29], ['up arrow', 94], ['back arrow', 95], ['pi', 222],
  ['crsr dn', 17], ['crsr up', 145], ['crsr lf', 157], ['crsr rt', 29], ['shift clr/home', 147], ['shft clr/home', 147], ['shft clr', 147],
  ...keysOf('ctrl', CONTROL_KEYS), ...keysOf('comd', COMMODORE_KEYS),
]));

/** The byte of a name in small letters and without a count, or undefined. */
function byteOfName(name, form) {
  if (/^\$[0-9a-f]{2}$/.test(name)) return parseInt(name.slice(1), 16);
  if (name === 'space' || name === 'spaces') return 32;
  const set = NAMES.findIndex(names => name && names.includes(name));
  if (set >= 0) return 128 * set + NAMES[set].indexOf(name);
  if (form !== 'magazine') return undefined;
  if (/^[a-z]$/.test(name)) return name.charCodeAt(0) - 96;
  const [, key] = /^(?:shft|comd) ([a-z@*+-]|space)$/.exec(name) || [];
  return key ? byteOfName(`${name.startsWith('s') ? 'shift' : 'cbm'}-${key}`, form) : MAGAZINE.get(name);
}

/** The byte of a key with the Commodore key, or undefined. */
const byteOfKey = (key, form) => byteOfName(`cbm-${key}`, form) ?? byteOfName(`comd ${key}`, form);

/** What a name in braces says, or a magazine's key in `[<` and `>]`: a byte and how often; or null. */
function namedBytes(name, isKey, form) {
  const [, digits, plain] = /^(?:(\d+) )?([^]*)$/.exec(name.toLowerCase()), count = Number(digits ?? 1);
  const once = isKey ? byteOfKey(plain, form) : byteOfName(plain, form);
  // (after a count a magazine has a name in the plural)
  const byte = once ?? (digits && !isKey && form === 'magazine' ? byteOfName(plain.replace(/s$/, ''), form) : undefined);
  return byte === undefined || count < 1 || count > 255 ? null : { byte, count };
}

// What is no letter alone in the strings of each form of a listing: names in braces, a magazine's keys.
const NAMED = { petcat: /\{([^}]*)\}/g, magazine: /\{([^}]*)\}|\[<(.*?)>\]/g };
const SMALL = /[a-z]+/g;

/** What a part of a string says that is no letter alone: the byte of a name; in a script small letters print something else. */
function wordsOfPart(found, form) {
  if (!NAMED[form]) return 'small letters, which are sent as they are';
  const named = namedOf(found, form);
  return named ? wordsOfByte(named.byte) : '';
}

const namedOf = ([, name, key], form) => namedBytes(name ?? key, name === undefined, form);

/** The parts of a string: its codes by name; in a script the small letters. */
function partsOfString(text, form) {
  const parts = [];
  let at = 0;
  for (const found of text.matchAll(NAMED[form] ?? SMALL)) {
    if (found.index > at) parts.push({ text: text.slice(at, found.index), kind: 'string' });
    parts.push({ text: found[0], kind: NAMED[form] ? 'code' : 'typed', words: wordsOfPart(found, form) });
    at = found.index + found[0].length;
  }
  if (at < text.length) parts.push({ text: text.slice(at), kind: 'string' });
  return parts;
}

// (the last part is whatever begins no other one: no word begins with another letter)
const PARTS = /("[^"]*"?)|(chr\$\s*\(\s*(\d+)\s*\))|(rem[^]*)|(open|cmd|print\s*#|print|close)|[^"copr]+|[^]/gi;

/** A line as its parts, one after another: `{ text, kind, words }`. */
export function partsOf(line, form) {
  const label = /^\s*\d+/.exec(line)?.[0] ?? '', parts = label ? [{ text: label, kind: 'label' }] : [];
  for (const [whole, string, code, number, remark, keyword] of line.slice(label.length).matchAll(PARTS)) {
    if (string) parts.push(...partsOfString(whole, form));
    else if (code) parts.push({ text: whole, kind: 'code', words: wordsOfByte(Number(number)) });
    else parts.push({ text: whole, kind: remark ? 'remark' : keyword ? 'keyword' : 'plain' });
  }
  return parts;
}

/** What the part at a column says, or nothing. */
export function wordsAt(line, column, form) {
  let at = 0;
  for (const { text, words = '' } of partsOf(line, form)) {
    at += text.length;
    if (column < at) return words;
  }
  return '';
}

/** The byte of a letter in a string: in petcat's text small letters are the keys without shift, capitals those with it. */
function byteOfLetter(code, form) {
  if (form !== 'petcat') return code;
  return code >= 97 && code <= 122 ? code - 32 : code >= 65 && code <= 90 ? code + 128 : code;
}

/** The bytes of letters one after another, and where each comes from; `at` is where they begin. */
const bytesOfLetters = (letters, form, at) => Array.from({ length: letters.length }, (_, n) => (
  { byte: byteOfLetter(letters.charCodeAt(n), form), from: at + n, to: at + n + 1 }));

/** The bytes of a string's text and where each comes from, as `{ byte, from, to }`; `at` is where the text begins. */
function bytesOfString(text, form, at) {
  const bytes = [];
  let next = 0;
  for (const found of NAMED[form] ? text.matchAll(NAMED[form]) : []) {
    const to = found.index + found[0].length, { byte = null, count = 1 } = namedOf(found, form) ?? {};
    bytes.push(...bytesOfLetters(text.slice(next, found.index), form, at + next));
    for (let n = 0; n < count; n++) bytes.push({ byte, from: at + found.index, to: at + to });
    next = to;
  }
  return [...bytes, ...bytesOfLetters(text.slice(next), form, at + next)];
}

/** What a line prints, by its strings and codes. */
function printedBy(line, form) {
  const printed = [];
  for (const found of line.matchAll(PARTS)) {
    const [whole, string, code, number, remark] = found;
    if (remark) break;
    if (string) printed.push(...bytesOfString(whole.replace(/^"|"$/g, ''), form, found.index + 1));
    if (code) printed.push({ byte: Number(number), from: found.index, to: found.index + whole.length });
  }
  return printed;
}

/**
 * Where in a line each of the data bytes that it sends comes from: `{ from, to }`, or null for the end of a line, which has no
 * character. A last byte of CMD is sent by the line after it, so there a first byte may come from elsewhere, and here a last one may
 * be missing. Null where the line has something else to print.
 */
export function bytesOfLine(line, form, sent) {
  const printed = printedBy(line, form);
  let next = 0;
  const places = sent.map((byte, index) => (printed[next]?.byte === byte ? printed[next++] : byte === 13 || byte === 10 || index === 0 ? null : undefined));
  return printed.length - next <= (/\bcmd/i.test(line) ? 1 : 0) && !places.includes(undefined) ? places : null;
}
