// Characters of one's own: a file as the program's option --characters takes it, with which sheets are drawn from then on.

import { $, button, fromBase64, toBase64 } from './basics.js';
import { ask, print, state, tellFailed, tellOnce } from './page.js';
import { store } from './kept.js';
import { ready } from './controls.js';

/** Draws with the characters of a file, or with the module's own (null), and says which. */
function useCharacters(characters) {
  state.characters = characters;
  const chip = $('characters');
  chip.hidden = !characters;
  chip.replaceChildren(...(characters ? [`Characters of ${characters.name} `, button('Use the usual ones', () => { leaveCharacters(); })] : []));
}

function leaveCharacters() {
  useCharacters(null);
  store.set('characters', null);
  ask('characters', { characters: null }).then(print, tellFailed);
}

/** Takes a file of characters, unless the program refuses it. */
export async function takeCharacters(bytes, name) {
  if (!ready) return tellOnce('file', `${name} cannot be read before the page is ready.`);
  const words = ['raw', '--as', 'svg', '--characters', name.replace(/^-/, '_')], { status, messages } = await ask('call', { method: 'answer', ask: { words, characters: bytes } });
  if (status) return tellOnce('file', `${name} is no file of characters: ${new TextDecoder().decode(messages).split('\n')[0].replace(/^print1525: /, '')}.`);
  useCharacters({ name, bytes });
  store.set('characters', { name, bytes: toBase64(bytes) });
  await ask('characters', { characters: bytes });
  print();
}

/** The characters that were kept, or null. */
export function keptCharacters() {
  const kept = store.get('characters');
  if (kept) useCharacters({ name: kept.name, bytes: fromBase64(kept.bytes) });
  return state.characters;
}
