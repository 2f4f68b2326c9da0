/** Bytes: a string is taken for them as UTF-8. Anything that a setting does not take, and any setting that a call has not, throws a TypeError with its name. */
export type Bytes = string | Uint8Array;

/** What the program does: `input` is in the place of the file that the words name or of standard input, `characters` in that of the file of characters. */
export interface Asked {
  /** the words of a command line, without the program's name */
  words: string[];
  /** whether messages say more about a refusal or an error, as with the option --explain */
  explained?: boolean;
  input?: Bytes;
  characters?: Bytes;
}

/** What the program answers. */
export interface Answered {
  /** its exit status: 0 done, 1 stopped by a BASIC error, 2 refused, 3 out of memory */
  status: 0 | 1 | 2 | 3;
  /** the number of the fault, as include/print1525.h has them; 0 for none; with status 1 100 and the number of the BASIC error, or 150 and that of a channel call where the script of a program is written */
  fault: number;
  /** the line of the fault, from 1, the index of its edge, from 0, or how many sheets there are; with status 1 the statement, from 1; of fault 146, and with status 1 of those from 110 on, the number of a program's line; or 0 */
  place: number;
  /** the column in that line, from 1, of what petcat does not write; or 0 */
  column: number;
  /** what it writes on standard output, or into the file that the words name */
  output: Uint8Array;
  /** its lines for people, on standard error */
  messages: Uint8Array;
}

/** How a call with numbers ended. */
export interface Answer {
  /** 0 done, 2 refused, 3 out of memory */
  code: 0 | 2 | 3;
  /** with code 2 the number of the fault (include/print1525.h), else 0 */
  fault: number;
  /** with code 2 the line, from 1, or the index of the edge or of the input, from 0; or 0 */
  place: number;
}

/** An answer with numbers. */
export interface Numbers extends Answer { numbers: Float64Array }

/** A script. */
export interface Script { script: Bytes }

/** A recording, and how it is read. */
export interface Recording {
  bytes: Bytes;
  /** 0 a trace as `print1525 bus` writes it (the default), 1 a Value Change Dump, 2 a table; 3 what its first bytes show, or a trace; 4 the same, or a table */
  source?: 0 | 1 | 2 | 3 | 4;
  /** the names of the signals ATN, CLOCK and DATA */
  names?: Bytes[];
  /** whether 0 is released and 1 is pulled */
  inverted?: boolean;
  /** the microsecond at which the recording starts */
  start?: number | bigint;
  /** how many samples a second a table without times has; 0 where its own remarks say it */
  rate?: number | bigint;
}

export interface Print1525 {
  /** what the program does with the words of a command line, over memory */
  answer(asked: Asked): Answered;
  /** the files that words name: which is read, which is written, and that of characters; and what is said where the input is a terminal */
  names(asked: { words: string[] }): { status: 0 | 2 | 3; names: (string | null)[]; messages: Uint8Array };
  /** the text of the script that a listing says: itself (form 0, the default), that of a saved program (1), of petcat's text (2), of a
   * magazine's (3), or of the one that its first bytes show (4) */
  listing(asked: { bytes: Bytes; form?: 0 | 1 | 2 | 3 | 4 }): Answer & { column: number; text: Uint8Array };
  /**
   * the pages of what a printer hears: bytes, and 256 and 257, which select the graphic/upper case or the lower/upper case set.
   * `format` is 0 the page text (the default), 1 lines, 2 SVG, 3 PNG, 4 PDF; `device` (4 or 5) and `sheet` (from 1) show a part,
   * where the format can; `top` is the lines above the first row (3), `paper` 0 continuous paper (the default), 1 the same with
   * holes, 2 A4, 3 letter, and `scale` the pixels of a PNG for the place of a dot (2)
   */
  print(asked: { inputs: number[] | Uint8Array | Uint16Array; format?: 0 | 1 | 2 | 3 | 4; device?: 0 | 4 | 5; sheet?: number | bigint; top?: number; paper?: 0 | 1 | 2 | 3; scale?: 1 | 2 | 3 | 4 | 5 | 6 | 7 | 8; characters?: Bytes }): Answer & { text: Uint8Array };
  /** the edges of a recording, up to its fault: moments in microseconds, and levels (4 for ATN, 2 for CLOCK, 1 for DATA, where released) */
  edges(asked: Recording): Answer & { times: Float64Array; levels: Uint8Array };
  /**
   * the delay of the profile that each edge ends, by the table of lawful traces: its kind as its place among those of `bounds`
   * (14 a rest, 15 none that is known), and the moment from which it counts
   */
  edgeDelays(asked: Recording): Answer & { kinds: Uint8Array; since: Float64Array };
  /**
   * what a recording says, 18 numbers for each reading: how it ends (0 acknowledged, 1 not acknowledged, 2 by ATN, 3 CLOCK released
   * too long, 4 cut) and when (0 where it is cut); how many bits came whole, their number, whether it is a command; ready to send and
   * ready for data; whether end-or-identify is given, when DATA is pulled and released for it; CLOCK's first pull and its last; how
   * long CLOCK is pulled in a bit, shortest and longest, and released; whether a printer listens; how many bytes of the text of
   * `decode` are its lines. `detail` is 0, 1 with --intervals, 2 and 3 the same with --bounds guide
   */
  readingRows(asked: Recording & { detail?: 0 | 1 | 2 | 3 }): Numbers;
  /** seven numbers for each of the ten intervals of the summary: how many there are, least, middle and greatest, the profile's bounds, how many lie outside */
  intervals(asked: Recording): Numbers;
  /** the least and the greatest delay, in microseconds, of Bb, Aw, Ne, Ry, S, V, R, Cr, At, H, Ye, Ei, F and Dr (docs/TIMING.md), and of an answer of two listeners */
  bounds(): Numbers;
  /** the line of each statement of a script, from 1; with code 2 there are none */
  statementLines(asked: Script): Numbers;
  /** where the first fault of a script is: line and column from 1, the BASIC line's number and 1 or 0, how many bytes it has; no number where it has none */
  scriptFault(asked: Script): Numbers;
}

/** Loads the module from its bytes: in a page, in a worker or in Node. */
export function loadPrint1525(bytes: Uint8Array | ArrayBuffer): Promise<Print1525>;

/** Loads the module that is beside this file, in Node. */
export function openPrint1525(): Promise<Print1525>;

/** The WebAssembly module that a page holds, of the text of print1525.html. */
export function moduleOfPage(page: string): Promise<Uint8Array>;
