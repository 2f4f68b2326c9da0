// What the module is asked by the page's settings: the words of a command line, or the numbers in their place.

// The values of options, in the order of their numbers (tests/evidence/once holds them equal to the program's).
export const PRESENT = ['none', '4', '5', 'both'], STATUS = ['each', 'kept'], SETS = ['upper', 'lower'], SOURCES = ['text', 'vcd', 'csv'], FORMS = ['text', 'prg', 'petcat', 'magazine', 'auto'];

/** Whether strings of a listing in this form have names in braces. */
export const hasNames = form => form === 'petcat' || form === 'magazine';

/** The number of a listing's form. */
export const formNumber = form => FORMS.indexOf(form);

/** A run's settings: which printers are present (4 by 1, 5 by 2, both by 3), and whether the status is kept. */
const runWords = ({ printers = 3, status = 0 }) => ['--present', PRESENT[printers], '--status', STATUS[status]];

/** How many steps of a program the page runs at most. */
export const STEPS = 200000;

/** The words for a listing in some form: of a program with the most steps that it is run for. */
const formWords = form => ['--from', form, ...(form === 'bas' || form === 'basic' ? ['--steps', String(STEPS)] : [])];

/** The words for the script that comes of a program: `bas` is a listing which may be one, `basic` a program, which may be a saved one. */
export const scriptWords = form => ['pages', ...formWords(form), '--as', 'script'];

/** The words for the pages of a run, of a listing in some form. */
export const pagesWords = (run, as, form = 'text') => ['pages', ...formWords(form), ...runWords(run), '--as', as];

/** The delays of the computer, of printer 4 and of printer 5 as the option has them, by their lists, in which there may be spaces. */
export const delaysOf = lists => lists.map(list => list.replace(/\s/g, '')).join('/');

/** The words for the trace of a run at delays. */
export const busWords = (run, as) => ['bus', '--from', 'text', ...runWords(run), '--delays', run.delays, '--as', as];

/** The words for the pages of a printer's bytes. */
export const rawWords = ({ set }, as) => ['raw', '--set', SETS[set], '--as', as];

/**
 * The words that read a recording: its format, and of a dump or a table the names of its signals, whether its levels are inverted
 * and the microsecond at which it begins; how many samples a second a table without times has.
 * @param {any} recording
 */
export function recordingWords(command, recording, as) {
  const { input, bounds, names, inverted, start, rate } = recording;
  const words = [command, '--from', input, '--as', as];
  if (bounds === 'guide' && command === 'decode' && as === 'list') words.push('--bounds', bounds);
  if (names) words.push(`--names=${names.join()}`, `--from-time=${BigInt(start)}`);
  if (inverted) words.push('--invert');
  if (rate) words.push('--rate', String(BigInt(rate)));
  return words;
}

/** The same as numbers. */
export const recordingNumbers = ({ input, bounds, ...recording }) => ({ ...recording, source: SOURCES.indexOf(input), detail: bounds === 'guide' ? 2 : 0 });
