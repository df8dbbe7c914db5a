// A question of the page, in a dialog that is worked by keys too: Enter takes the first answer, which loses nothing, and Escape none.
import { $, made } from './dom.js';

/** @type {Promise<any>} */
let last = Promise.resolve();

// Asks, after the questions that were asked before. Gives the value of the answer that was chosen, '' for none; `answers` are pairs of value
// and words.
/** @param {string} words @param {...string[]} answers @returns {Promise<string>} */
export function ask(words, ...answers) { return asked(words, null, answers); }

// Asks for a word, which stands there already as `text`. Gives the word as it was typed, '' for none.
/** @param {string} words @param {string} text @param {string} [answer] @returns {Promise<string>} */
export async function askFor(words, text, answer = 'Take this one') { return (await asked(words, text, [['take', answer], ['', 'Leave it']])).slice(5); }

// The value of the answer, with the text that was typed where one is asked for.
/** @param {string} words @param {string | null} text @param {string[][]} answers @returns {Promise<string>} */
function asked(words, text, answers) {
    const answer = last.then(() => new Promise(go => {
        const dialog = $('question'), typed = $('question-text');
        $('question-words').textContent = words;
        $('answers').replaceChildren(...answers.map(([value, text]) => made('button', { value }, text)));
        typed.hidden = text === null;
        typed.value = text ?? '';
        dialog.returnValue = '';
        dialog.addEventListener('close', () => go(dialog.returnValue && text !== null ? `${dialog.returnValue} ${typed.value.trim()}` : dialog.returnValue), { once: true });
        dialog.showModal();
        if (text === null) $('answers').querySelector('button')?.focus();
        else typed.select();
    }));
    last = answer;
    return answer;
}
