// What a Model 33 sounds like: its bell, and the clatter of its characters. Each has a switch, and is off until it is switched on.
import { $, ids, keepInput } from './dom.js';

// How long a bell and a character sound, in seconds, and how many of either sound in a second at most.
const BELL = 0.5, STROKE = 0.03, MOST = 12;

export class Sound {
    /** @type {AudioContext | null} */
    #audio = null;
    /** @type {AudioBuffer | null} */
    #noise = null;
    #last = 0;
    #rung = -Infinity;

    /** @param {import('./store.js').Store} store */
    constructor(store) {
        for (const id of ids('bell', 'clatter')) keepInput(store, id);
    }

    // A browser lets a page sound only after its user has done something there.
    #context() {
        this.#audio ??= new AudioContext();
        if (this.#audio.state === 'suspended') this.#audio.resume();
        return this.#audio;
    }

    // Lets a source sound for so many seconds, ever softer.
    /** @param {AudioContext} audio @param {AudioScheduledSourceNode} source @param {number} loud @param {number} seconds */
    #sound(audio, source, loud, seconds) {
        const gain = audio.createGain(), now = audio.currentTime;
        gain.gain.setValueAtTime(loud, now);
        gain.gain.exponentialRampToValueAtTime(0.001, now + seconds);
        source.connect(gain).connect(audio.destination);
        source.start(now);
        source.stop(now + seconds);
    }

    ring() {
        if (!$('bell').checked) return;
        if (performance.now() - this.#rung < 1000 / MOST) return;
        this.#rung = performance.now();
        const audio = this.#context(), tone = audio.createOscillator();
        tone.frequency.value = 2300;
        this.#sound(audio, tone, 0.12, BELL);
    }

    // A character was printed.
    strike() {
        const now = performance.now();
        if (!$('clatter').checked || now - this.#last < 1000 / MOST) return;
        this.#last = now;
        const audio = this.#context(), source = audio.createBufferSource();
        this.#noise ??= noiseOf(audio);
        source.buffer = this.#noise;
        source.playbackRate.value = 0.9 + 0.2 * Math.random();
        this.#sound(audio, source, 0.2, STROKE);
    }
}

/** @param {AudioContext} audio */
function noiseOf(audio) {
    const noise = audio.createBuffer(1, Math.ceil(audio.sampleRate * STROKE), audio.sampleRate), all = noise.getChannelData(0);
    for (let k = 0; k < all.length; k++) all[k] = 2 * Math.random() - 1;
    return noise;
}
