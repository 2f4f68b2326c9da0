// The signals of a dump or a table: their names by the file's own header, and the fields that say which of them is which line.

const LINES = ['ATN', 'CLOCK', 'DATA'];

/** The fields of a line of a table, without the quotation marks around them. */
function fieldsOf(line, separator) {
  const outside = new RegExp(`${separator}(?=(?:[^"]*"[^"]*")*[^"]*$)`);
  return line.split(outside).map(field => field.trim().replace(/^"(.*)"$/, '$1').trim());
}

// What may come before the line of a table's names: a remark, sigrok-cli's first line, a line that says what separates fields.
const BEFORE_NAMES = /^\s*([;#]|META\b|"?sep=|$)/i;
const CHANNELS = /^\s*[;#]\s*channels\b[^:]*:(.*)$/i;
const TIMES = /^(time|timestamp|t|samples?|index|sec|msec|usec|nsec|psec|(milli|micro|nano|pico)?seconds?|[mµunp]?s)(?![a-z0-9])/i;

/** The names of a table's signals: those of its columns, or of sigrok's remark where each column is called by its unit, `logic`. */
function namesOfTable(head) {
  const lines = head.split(/\r?\n/), at = lines.findIndex(line => !BEFORE_NAMES.test(line)), line = lines[at] ?? '', before = lines.slice(0, at);
  const [said = /[,;\t]/.exec(line)?.[0] ?? ','] = before.flatMap(one => /^"?sep=([,;\t])/i.exec(one)?.[1] ?? []).slice(-1);
  const fields = fieldsOf(line, said), columns = TIMES.test(fields[0]) ? fields.slice(1) : fields;
  const [channels = ''] = before.flatMap(one => CHANNELS.exec(one)?.[1] ?? []).slice(-1);
  return channels && columns.every(name => name.toLowerCase() === 'logic') ? fieldsOf(channels, ',') : columns;
}

/** The names of a dump's signals, each with its scopes; of a vector each bit. */
function namesOfDump(head) {
  const scopes = [], names = [];
  for (const [, what, words] of head.matchAll(/\$(scope|upscope|var|enddefinitions)\b([^$]*)\$end/g)) {
    const parts = words.trim().split(/\s+/);
    if (what === 'enddefinitions') break;
    if (what === 'scope') scopes.push(parts[1] ?? '');
    if (what === 'upscope') scopes.pop();
    if (what !== 'var') continue;
    const [, width, , ...named] = parts, range = /\[(\d+):(\d+)\]$/.exec(named.join('')), plain = named.join('').replace(/\[[^\]]*\]$/, '');
    const whole = [...scopes, range ? plain : named.join('')].join('.');
    if (range) {
      const [low, high] = [Number(range[1]), Number(range[2])].sort((a, b) => a - b);
      for (let bit = low; bit <= Math.min(high, low + 63); bit++) names.push(`${whole}[${bit}]`);
    } else if (width === '1') names.push(whole);
  }
  return names;
}

const headOf = ({ bytes }) => new TextDecoder().decode(bytes.subarray(0, 2 ** 18));

/** The names of the signals of a file, by its header; a table's first column of times is none. */
export function signalNames(source) {
  const names = source.kind === 'vcd' ? namesOfDump(headOf(source)) : namesOfTable(headOf(source));
  return [...new Set(names.filter(Boolean))];
}

/** What `--names`, where commas part the names, calls a signal: a column with a comma in its name by its number, if no column is called by one. */
function wordOf(source, name) {
  if (source.kind !== 'csv' || !name.includes(',')) return name;
  const columns = namesOfTable(headOf(source));
  return columns.some(column => /^\d+$/.test(column)) ? name : String(columns.indexOf(name));
}

/** The name among those of a file that a signal's name means: it is written the same but for case, perhaps without its scopes. */
export function meantBy(name, names) {
  const plain = text => text.toLowerCase().replace(/\s/g, ''), among = wanted => names.find(one => plain(one) === wanted || plain(one).endsWith(`.${wanted}`));
  return among(plain(name)) ?? (plain(name) === 'clock' ? among('clk') : undefined);
}

/** The name among those of a file that is chosen for a line, or undefined where none is yet. */
const chosenName = (source, given, names) => meantBy(given, names) ?? names.find(name => wordOf(source, name) === given);

/** Whether a dump or a table has names of signals and not each line has one of them yet. */
export function lacksSignals(source) {
  if (source.kind !== 'vcd' && source.kind !== 'csv') return false;
  const names = signalNames(source);
  return names.length > 0 && source.names.some(given => chosenName(source, given, names) === undefined);
}

/** A field with its label, before or after it. */
function labelled(words, input, isAfter = false) {
  const label = document.createElement('label');
  label.append(...(isAfter ? [input, words] : [words, input]));
  return label;
}

function inputOf(type, value, act) {
  const input = document.createElement('input');
  Object.assign(input, { type, value, autocomplete: 'off', spellcheck: false, onchange: () => act(input) });
  if (type === 'checkbox') input.checked = value;
  return input;
}

const UNITS = { us: 1, µs: 1, ms: 1e3, s: 1e6 }, PREFIXES = { k: 1e3, m: 1e6, g: 1e9 };

/** The microseconds that a text says, as `200`, `5ms` or `2 s`, with a minus before the recording's own moment 0; undefined where it says none. */
export function timeOf(text) {
  const [, sign, number, unit = 'us'] = /^([-\u2212]?)\s*(\d+(?:\.\d+)?)\s*(us|µs|ms|s)?$/.exec(text.trim()) ?? [];
  if (number === undefined) return undefined;
  const time = Math.floor(Number(number) * UNITS[unit]);
  return sign && time ? -time : time;
}

/** The samples in a second that a text says, as `4M`, `12.5 MHz`, `500kS/s` or `4e6`, or 0 for `none`; undefined where it says nothing. */
export function rateOf(text) {
  if (/^(none)?$/i.test(text.trim())) return 0;
  const [, number, prefix = ''] = /^(\d+(?:\.\d+)?(?:e\d+)?)\s*([kmg]?)\s*(?:hz|s\/s|sa\/s|sps)?$/i.exec(text.trim()) ?? [];
  return number && Math.round(Number(number) * (PREFIXES[prefix.toLowerCase()] ?? 1));
}

/** A field for a number that is read from a text; what cannot be read is marked, and changes nothing. */
function numberField(value, read, act) {
  return inputOf('text', value, input => {
    const number = read(input.value);
    input.setAttribute('aria-invalid', String(number === undefined));
    if (number !== undefined) act(number);
  });
}

/** The choice of a line's signal among the names of the file. */
function choiceOfSignal(source, line, names, again) {
  const select = document.createElement('select'), given = source.names[line], word = name => wordOf(source, name), meant = chosenName(source, given, names);
  select.name = LINES[line];
  if (meant === undefined) select.add(new Option('choose …', given, true, true));
  for (const name of names) select.add(new Option(name, word(name), false, name === meant));
  select.onchange = () => { source.names[line] = select.value || source.names[line]; again(); };
  return select;
}

/**
 * The fields of a dump or a table: which signals are its lines, whether their levels are inverted, where the recording begins, and a
 * table's rate. `again` is called after each change. They are made once a file: what is chosen stays as it is while the file is read.
 */
export function signalFields(source, again) {
  const fields = document.createElement('div'), names = signalNames(source);
  fields.className = 'signals';
  LINES.forEach((name, line) => {
    const written = () => inputOf('text', source.names[line], input => { source.names[line] = input.value.trim() || name; again(); });
    fields.append(labelled(`${name} is`, names.length ? choiceOfSignal(source, line, names, again) : written()));
  });
  fields.append(labelled('inverted levels', inputOf('checkbox', source.inverted, input => { source.inverted = input.checked; again(); }), true));
  const start = numberField(`${source.start} µs`, timeOf, time => { source.start = time; again(); });
  start.title = 'A time of the recording, as 200 µs, 5 ms or 2 s; with a minus it counts back from the recording\'s own moment 0';
  fields.append(labelled('starts at', start));
  // (a table with times of its own has no use for it)
  if (source.kind !== 'csv') return fields;
  const rate = numberField(source.rate || 'none', rateOf, number => { source.rate = number; again(); });
  rate.title = 'As 4M, 12.5 MHz or 500kS/s; or none, where the file says it';
  fields.append(labelled('samples a second, of a table without times', rate));
  return fields;
}
