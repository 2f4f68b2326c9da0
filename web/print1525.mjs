#!/usr/bin/env node
// The program print1525 for Node on any system, and its library for those who write JavaScript:
//
//     node print1525.mjs pages hello.bas -o hello.pdf
//     import { openPrint1525 } from './print1525.mjs';
//
// The WebAssembly module of the proved crates, beside this file as print1525.wasm or in print1525.html, does what the program
// does, over memory. What is done here is not proved: files are opened, read and written.

import { loadPrint1525 } from './module.mjs';

export { loadPrint1525 };

/** The WebAssembly module that a page holds, of the page's text. */
export async function moduleOfPage(page) {
  const { inflateRawSync } = await import('node:zlib');
  const [, packed] = /<script type="text\/plain" id="module">([^<]*)</.exec(page) || [];
  if (!packed) throw new Error('the print1525.html beside print1525.mjs holds no module');
  return inflateRawSync(Buffer.from(packed, 'base64'));
}

/** The module beside this file, ready for calls; throws where it is not there. In a browser, pass its bytes to loadPrint1525. */
export async function openPrint1525() {
  const { readFileSync, existsSync } = await import('node:fs');
  const [module, page] = ['print1525.wasm', 'print1525.html'].map(name => new URL(name, import.meta.url));
  if (existsSync(module)) return loadPrint1525(readFileSync(module));
  if (!existsSync(page)) throw new Error('print1525.mjs needs print1525.wasm or print1525.html beside it');
  return loadPrint1525(await moduleOfPage(readFileSync(page, 'latin1')));
}

/** A failed read or write: its line on standard error. The exit status is 3. */
class Failed extends Error {}

/** Control characters, and those that turn the direction of text (Bidi_Control). */
const HIDDEN = /[\0-\x1f\x7f-\x9f\u061c\u200e\u200f\u202a-\u202e\u2066-\u2069]/g;

/** A text with these escaped, as the program shows a name. */
const shown = text => text.replace(HIDDEN, sign => ({ '\t': '\\t', '\n': '\\n', '\r': '\\r' }[sign] || `\\u{${sign.charCodeAt(0).toString(16)}}`));

const STANDARD_OUTPUT = ['/dev/stdout', '/dev/fd/1', '/proc/self/fd/1'];      // it is written on, and not replaced

/** What the system says of an error, in the words of Linux, which the program has too. */
const REASONS = {
  EPERM: 'Operation not permitted', ENOENT: 'No such file or directory', EIO: 'Input/output error', EACCES: 'Permission denied',
  EBUSY: 'Device or resource busy', EEXIST: 'File exists', EXDEV: 'Invalid cross-device link', ENOTDIR: 'Not a directory',
  EISDIR: 'Is a directory', EINVAL: 'Invalid argument', EMFILE: 'Too many open files', ETXTBSY: 'Text file busy', EFBIG: 'File too large',
  ENOSPC: 'No space left on device', EROFS: 'Read-only file system', EPIPE: 'Broken pipe', ENAMETOOLONG: 'File name too long',
  ELOOP: 'Too many levels of symbolic links',
};

const failed = words => new Failed(`print1525: ${words}\n`);
const NO_NAME = 'no name is free for its new text: remove the files .print1525-*.tmp there';
const failedFile = (name, error) => failed(`${shown(name)}: ${error.code === 'NO_NAME' ? NO_NAME
  : `${REASONS[error.code] || error.message} (os error ${-error.errno})`}`);

/** The files of a job, read and written with Node. */
async function makeFiles() {
  const fs = await import('node:fs'), path = await import('node:path');
  const pause = new Int32Array(new SharedArrayBuffer(4));

  /** Does a call again while a stream is not ready. */
  function whenReady(call) {
    for (;;) {
      try { return call(); } catch (error) {
        if (error.code === 'EOF') return 0;
        if (error.code !== 'EAGAIN') throw error;
        Atomics.wait(pause, 0, 0, 5);
      }
    }
  }

  /** Reads a file to its end. */
  function readAll(file) {
    const parts = [], block = Buffer.allocUnsafe(65536);
    for (let n; (n = whenReady(() => fs.readSync(file, block))) > 0;) parts.push(Buffer.from(block.subarray(0, n)));
    return new Uint8Array(Buffer.concat(parts));
  }

  function writeAll(file, bytes) {
    for (let at = 0; at < bytes.length;) at += whenReady(() => fs.writeSync(file, bytes, at, Math.min(bytes.length - at, 2 ** 20)));
  }

  /** Opens a new file in a folder, with a name of its own. */
  function openBeside(folder) {
    for (let n = 1; n <= 100; n++) {
      const name = path.join(folder, `.print1525-${n}.tmp`);
      try { return { name, file: fs.openSync(name, 'wx', 0o600) }; } catch (error) { if (error.code !== 'EEXIST') throw error; }
    }
    throw Object.assign(new Error(NO_NAME), { code: 'NO_NAME', errno: 0 });
  }

  /** Where the links of a file's name lead. */
  function followed(name) {
    for (let at = name, links = 0; ; links++) {
      try { at = path.resolve(path.dirname(at), fs.readlinkSync(at)); } catch (error) {
        if (['EINVAL', 'ENOENT', 'UNKNOWN'].includes(error.code)) return at;
        throw error;
      }
      if (links === 40) throw Object.assign(new Error(REASONS.ELOOP), { code: 'ELOOP', errno: -40 });
    }
  }

  /** Begins to write a file, which is put in its place by keep(); one that is no regular file is written in place. */
  function save(name) {
    let old = null;
    try { old = fs.openSync(name, 'r+'); } catch (error) {
      if (error.code !== 'ENOENT') try { old = fs.openSync(name, fs.constants.O_WRONLY); } catch { throw error; }
    }
    const state = old === null ? null : fs.fstatSync(old);
    if (state && !state.isFile()) return { write: bytes => writeAll(old, bytes), keep: () => fs.closeSync(old), discard: () => fs.closeSync(old) };
    if (old !== null) fs.closeSync(old);
    const target = followed(name), beside = openBeside(path.dirname(target));
    const discard = () => { try { fs.closeSync(beside.file); } catch { /* it is closed */ } fs.rmSync(beside.name, { force: true }); };
    // (nobody else reads the new file before it has the old one's mode, or that of any new file)
    const mode = state ? state.mode & 0o1777 : 0o666 & ~process.umask();
    try { if (process.platform !== 'win32') fs.fchmodSync(beside.file, mode); } catch (error) { discard(); throw error; }
    const keep = () => {
      try { fs.fsyncSync(beside.file); fs.closeSync(beside.file); fs.renameSync(beside.name, target); } catch (error) { discard(); throw error; }
    };
    return { write: bytes => writeAll(beside.file, bytes), keep, discard };
  }

  /** Whether a file, that is open or by its name, is the regular file of this name. */
  function areSame(file, name) {
    try {
      const one = typeof file === 'number' ? fs.fstatSync(file, { bigint: true }) : fs.statSync(file, { bigint: true });
      const two = fs.statSync(name, { bigint: true });
      return one.isFile() && one.ino !== 0n && one.ino === two.ino && one.dev === two.dev;
    } catch { return false; }
  }

  return { open: name => fs.openSync(name, 'r'), readAll, writeAll, save, areSame };
}

/** Makes a call, and throws the line that says why it failed. */
function trying(call, tellOf) {
  try { return call(); } catch (error) { throw error.errno === undefined ? error : tellOf(error); }
}

/** Does what words ask for, and gives the exit status: the module answers, and here files are read and written. */
async function run(words, files) {
  const tell = text => { try { files.writeAll(2, text); } catch { /* there is nowhere to report it */ } };
  const module = await openPrint1525().catch(error => { throw failed(error.message); });
  const { status: isRefused, names: [file, name, characters], messages: waits } = module.names({ words });
  const place = STANDARD_OUTPUT.includes(name) ? null : name;
  const isQuiet = words.some(word => word === '--quiet' || word.startsWith('-q'));
  // (the module knows no terminal: what the program notes on one, and says with --explain, is said at once)
  /** @type {import('./print1525.mjs').Asked} */
  const asked = { words, explained: process.env.PRINT1525_EXPLAIN === '1' || Boolean(process.stderr.isTTY) && !isQuiet };
  const inputFailed = error => (file === null ? failed('read failed') : failedFile(file, error));
  const outputFailed = error => (place === null ? failed('write failed') : failedFile(place, error));
  const standard = { write: bytes => files.writeAll(1, bytes), keep() {}, discard() {} };
  const refusedBoth = read => {
    tell(Buffer.from(`print1525: ${shown(read)}: this file is read, and --output names it too\n`));
    return 2;
  };
  if (characters !== null && place !== null && files.areSame(characters, place)) return refusedBoth(characters);
  if (characters !== null) asked.characters = trying(() => files.readAll(files.open(characters)), error => failedFile(characters, error));
  if (!isRefused && file === null && process.stdin.isTTY && !isQuiet) tell(waits);
  const input = file === null ? 0 : trying(() => files.open(file), inputFailed);
  const both = place === null ? null : files.areSame(input, place) ? file ?? 'standard input' : null;
  if (both !== null) return refusedBoth(both);
  const output = place === null ? standard : trying(() => files.save(place), outputFailed);
  try {
    if (!isRefused) asked.input = trying(() => files.readAll(input), inputFailed);
    const { status, output: text, messages } = module.answer(asked);
    trying(() => output.write(text), outputFailed);
    tell(messages);
    if (status > 1) output.discard(); else trying(() => output.keep(), outputFailed);
    return status;
  } catch (error) {
    output.discard();
    throw error;
  }
}

/** The program. */
async function main() {
  const files = await makeFiles();
  try {
    process.exitCode = await run(process.argv.slice(2), files);
  } catch (error) {
    if (!(error instanceof Failed) && !(error instanceof RangeError)) throw error;
    process.exitCode = 3;
    const words = error instanceof Failed ? error.message : 'print1525: out of memory\n';
    try { files.writeAll(2, Buffer.from(words)); } catch { /* there is nowhere to report it */ }
  }
}

if (typeof process === 'object' && process.argv?.[1]) {
  const { realpathSync } = await import('node:fs'), { fileURLToPath } = await import('node:url');
  let started = '';
  try { started = realpathSync(process.argv[1]); } catch { /* no file started this */ }
  if (started === realpathSync(fileURLToPath(import.meta.url))) await main();
}
