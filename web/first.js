// What a visitor sees first: the guessing game is in core, and its listing is shown, so that START plays it. No text is opened for it.
import { $, tell } from './dom.js';
import { canLive, textOf } from './program.js';
import { splitListing } from './source.js';

const NAME = 'guess', FILES = ['.first.pa', '.first.bin', '.first.lst'];

// Whether no one has worked the machine of this browser yet.
/** @param {Page} page */
export const isFirst = ({ store }) => canLive && !store.notes.has('listing');

// Lays the game in core, unless another tab has the machine.
/** @param {Page} page */
export async function layFirst({ store, programs, machine }) {
    const [text, tape, listing] = FILES, answer = await fetch(`examples/${NAME}.pa`);
    if (machine.owner.follows || !answer.ok) return;
    store.put(text, new Uint8Array(await answer.arrayBuffer()));
    const { status } = await programs.ask(['assemble', text, '--output', tape, '--list', listing, '--cross']);
    const words = status === 0 ? await programs.ask(['tape'], store.files.get(tape)) : null, lines = splitListing(store.files.get(listing));
    for (const it of FILES) store.remove(it);
    if (!words) return;
    await machine.lay(textOf(words.out), NAME);
    machine.list(lines.text, lines.symbols);
    tell('machine-status', 'The guessing game is in core, and its listing is below. START plays it: type your answers at the Teletype.');
}
