// The program's hints in the page's words: where a hint names an option of the command line, the page has a choice for it.

import { STEPS } from './asked.js';

/**
 * What a hint says, and what the page says instead; a hint that comes to nothing is left out.
 * @type {[RegExp, string][]}
 */
const WORDS = [
  [/--present sets which of printers 4 and 5 are connected/, 'choose the printers that are connected under “Bus”'],
  [/bad --names .*/, 'three different signals are needed'],
  [/ \(--status kept\)/, ' (the status is kept)'],
  [/name the signals of ATN, CLOCK and DATA with --names, such as --names .*/, 'choose the signals that are ATN, CLOCK and DATA'],
  [/numbers in --names count the columns below a line of names: put one in front, such as .*/, 'put a line with the names of the columns in front of the rows'],
  [/add the scopes in --names, such as .*/, 'choose the signals with their scopes'],
  [/or choose others with --names/, 'or choose others'],
  [/--names chooses other signals/, 'choose other signals'],
  [/(try|remove|without) --invert,? for probes behind inverters, or other signals with --names/, 'try “inverted levels” for probes behind inverters, or other signals'],
  [/try without --invert, or other signals with --names/, 'try it without “inverted levels”, or other signals'],
  [/add --invert to read 0 as released/, 'choose “inverted levels” to read 0 as released'],
  [/remove --invert/, 'choose no “inverted levels”'],
  [/, and those of --invert are not/, ''],
  [/volts, which --threshold compares: .*/, 'volts; export digital channels, or let the analyzer compare with a threshold'],
  [/other numbers, which --threshold compares: .*/, 'other numbers; export digital channels, or let the analyzer compare with a threshold'],
  [/; cells with levels need no --threshold/, ''],
  [/has mV, and --threshold compares .*/, 'has mV'],
  [/.*--threshold .* is two voltages: .*/, ''],
  [/; --glitch 1us leaves .*/, ''],
  [/: --glitch TIME leaves out shorter pulses/, ''],
  [/; --as list shows (where|what the recording has)/, ''],
  [/the page is blank: the input has no statement; .*/, ''],
  [/, whose page --device [45] draws/, ''],
  [/: --device 5 draws its pages/, ''],
  [/try --scale 1, or --sheet for one sheet/, 'save one sheet'],
  [/--listening 4 has printer 4 listen from the start/, 'begin the recording earlier'],
  [/--listening 5 has printer 5 listen from the start/, 'begin the recording earlier'],
  [/--from-time US starts the trace at microsecond US of the recording/, '“starts at” begins the trace at a microsecond of the recording'],
  [/sample rate with --rate, such as --rate 4M,/, 'sample rate in “samples a second”,'],
  [/--rate gives the distance of the samples, such as --rate 4M,/, '“samples a second” gives the distance of the samples,'],
  [/--rate gives one in their place, such as --rate 4M/, '“samples a second” gives one in their place'],
  [/give --rate, which is/, 'give “samples a second”, which is'],
  [/give --rate(?=$|")/, 'give “samples a second”'],
  [/such as --rate 500k for/, 'such as 500k for'],
  [/without --rate/, 'without a rate'],
  [/the sample rate \(--rate, or the line that gives it\)/, 'the sample rate (“samples a second”, or the line that gives it)'],
  [/--from-time/, '“starts at”'],
  [/use --from vcd for a dump, --from csv for a table/, 'read it as a Value Change Dump, or as a table of samples'],
  [/use --from vcd/, 'read it as a Value Change Dump'],
  [/for a table use --from csv, for a trace text --from text/, 'read a table as a table of samples, a trace as a trace'],
  [/use --from csv/, 'read it as a table of samples'],
  [/use --from text/, 'read it as a trace'],
  [/pages prints it, bus writes its trace/, 'read it as a listing'],
  [/; --from petcat reads both as typed.*/, ''],
  [/; --from petcat reads small letters/, ''],
  [/ \(--from magazine\)/, ''],
  [/: --from petcat reads it/, ''],
  [/--from text sends strings as they are/, 'the form “a script” sends strings as they are'],
  [/: (pages )?--from prg (reads|runs) one/, ''],
  [/, and pages --from prg runs it/, ''],
  [/the letter \S+, as UTF-8 has it, is/, 'this letter is'],
  [/raw --set lower prints them/, 'choose that character set'],
  [/with --set lower in that of the first byte/, 'with the lower/upper case set in that of the first byte'],
  [/write the table with -O csv:label=channel/, 'choose the signals by the names of its channels, or write the table again with -O csv:label=channel'],
  [/, as with --from basic; --as script writes what it prints/, ''],
  [/; --steps NUMBER gives it more steps/, `; the page runs at most ${STEPS.toLocaleString('en')} steps`],
  [/statements and their lines are counted in what the program prints: .*/, 'statements are counted in what the program prints'],
  [/.*--from (basic|prg|petcat|text).*/, ''],
];

/** A hint in the page's words, or nothing. */
export const inPageWords = hint => WORDS.reduce((text, [words, instead]) => text.replace(words, instead), hint);

/** The forms of a listing that a hint names: the page offers each. */
export const formsIn = hint => Array.from(hint.matchAll(/--from (text|petcat|magazine)\b/g), ([, form]) => form);

/** Hints in the page's words. */
export const pageHints = hints => hints.map(inPageWords).filter(hint => hint.trim());

/** A sentence on a character that BASIC has not, which is shown as itself and not by its bytes. */
export const withCharacter = (sentence, text) => sentence.replace(/found "(?:\\x[0-9A-F]{2})+"/, `found "${Array.from(text)[0] ?? ''}"`);
