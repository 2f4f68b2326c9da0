// The examples as cards, each with the top of the sheet that the module prints of it.

import { $, encode, fromBase64, openBox } from './basics.js';
import { ask } from './page.js';
import { examples, openFromMenu } from './kept.js';
import { ready } from './controls.js';

/** What the program is asked for a picture of an example, and its input. */
function pictureOf({ kind = 'text', text, bytes, isRecording }) {
  const words = kind === 'raw' ? ['raw'] : isRecording ? ['decode', '--from', 'text'] : ['pages', '--from', kind === 'script' ? 'text' : kind];
  return { words: [...words, '--as', 'png', '--sheet', '1'], input: bytes ? fromBase64(bytes) : encode(text) };
}

async function draw(card, example) {
  const { output } = await ask('call', { method: 'answer', ask: pictureOf(example) });
  if (output.length) card.querySelector('img').src = URL.createObjectURL(new Blob([output], { type: 'image/png' }));
}

function cardOf(example, index) {
  const card = document.createElement('button'), picture = document.createElement('img'), name = document.createElement('strong'), title = document.createElement('span');
  Object.assign(card, { type: 'button', className: 'card', onclick: () => { $('examples-box').close(); openFromMenu(`example ${index}`); } });
  picture.alt = '';
  name.textContent = example.name;
  title.textContent = example.title;
  card.append(picture, name, title);
  return card;
}

/** Shows the cards. Their pictures are made the first time. */
export async function showCards() {
  const box = $('examples-box'), room = box.querySelector('.cards'), isFirst = !room.childElementCount;
  if (isFirst) room.append(...examples.map(cardOf));
  openBox(box);
  if (!isFirst || !ready) return;
  for (const [index, example] of examples.entries()) await draw(room.children[index], { ...example, isRecording: example.kind === 'text' }).catch(() => {});
}
