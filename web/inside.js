// What the parts of the page have, by the one name `inside`: for tests, and for those who look into it from the console.

import * as asked from './asked.js';
import * as basics from './basics.js';
import * as fanfold from './fanfold.js';
import * as characters from './characters.js';
import * as controls from './controls.js';
import * as files from './files.js';
import * as kept from './kept.js';
import * as links from './links.js';
import * as listing from './listing.js';
import * as page from './page.js';
import * as printed from './printed.js';
import * as reading from './reading.js';
import * as sheets from './sheets.js';
import * as signals from './signals.js';
import * as telling from './telling.js';
import * as wave from './wave.js';
import * as wire from './wire.js';
import * as words from './words.js';

const parts = [basics, words, sheets, fanfold, wire, signals, listing, reading, wave, page, telling, links, characters, files, kept, printed, controls, asked];
const has = name => parts.find(part => Object.hasOwn(part, name));

/** Each name is looked up when it is asked for, since some parts begin after others and some of what they have changes. */
globalThis['inside'] = new Proxy({}, { has: (_, name) => Boolean(has(name)), get: (_, name) => has(name)?.[name] });
