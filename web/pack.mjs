// What `npm pack` needs beside package.json: the WebAssembly module, out of the page, the licence, and README.md without links to what is
// not in the package. After it (--clean) all is as before, since print1525.mjs would take an old module before the page's.

import { copyFileSync, existsSync, readFileSync, renameSync, rmSync, writeFileSync } from 'node:fs';
import { moduleOfPage } from './print1525.mjs';

const beside = name => new URL(name, import.meta.url), [MODULE, LICENCE, README, WHOLE] = ['print1525.wasm', 'LICENSE', 'README.md', 'whole.md'].map(beside);

/** A document's pictures and links of the repository as words; those into the document itself stay. */
const withoutLinks = text => text.replace(/^!\[[^\]]*\]\(\.\.[^)]*\)\n+/gm, '').replace(/\[([^\]]*)\]\(\.\.\/([^)#]*)[^)]*\)/g, (_, words, file) => (
  file.endsWith(words) ? `${file} of the repository` : `${words} (${file} of the repository)`));

if (existsSync(WHOLE)) renameSync(WHOLE, README);
if (process.argv.includes('--clean')) {
  for (const file of [MODULE, LICENCE]) rmSync(file, { force: true });
} else {
  writeFileSync(MODULE, await moduleOfPage(readFileSync(beside('print1525.html'), 'latin1')));
  copyFileSync(beside('../LICENSE'), LICENCE);
  const whole = readFileSync(README, 'utf8');
  copyFileSync(README, WHOLE);
  writeFileSync(README, Buffer.from(withoutLinks(whole)));
}
