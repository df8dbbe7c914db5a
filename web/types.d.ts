// The types of what the page's files hand each other, and what the checker's own library doesn't know of browsers yet. `Ids`, the elements by
// their ids, is made of index.html.
type Slot = 'files' | 'notes';
type Kept = Uint8Array | string | undefined;

// What `REGISTERS` replies.
interface Registers {
    ac: string; busy: boolean; df: string; held: boolean; ib: string; if: string; ion: boolean; kbd: boolean; key: string; l: string; pc: string;
    printer: boolean; run: boolean; sf: string; switches: string; wait: boolean;
}

// A change of a file or a text, and what Undo keeps of it.
interface Change { slot: Slot; key: string; before: Kept; after: Kept }
interface Part { at: number; old: Uint8Array; fresh: Uint8Array }
interface Step {
    id: number; slot: Slot; key: string; words: string; isText: boolean; isTyped?: boolean; size: number;
    was?: Uint8Array | null; is?: Uint8Array | null; parts?: Part[]; lengths?: [number, number];
}

// What a tab has asked for alone.
interface Claim { has: boolean; leave: () => void; known: Promise<void> }

// How a run's output is taken, and how it ended.
interface How {
    heard?: (bytes: Uint8Array, reads: number, quiet: number) => void; said?: (bytes: Uint8Array) => void; ended?: (status: number | null, failed: string | null) => void;
    input?: Uint8Array | null; terminal?: boolean; room?: number; patience?: number;
    again?: [number, Uint8Array][]; read?: (quiet: number, bytes: Uint8Array) => void; holds?: string[]; ends?: string; takes?: (name: string, bytes: Uint8Array | null) => boolean;
}
// A disk that boots: its name, the files that its program holds, how it is worked, in words, what takes a file that is none of the page's, and what is
// said first of how it ended.
interface Booted { title: string; holds: string[]; told: string; takes: (name: string, bytes: Uint8Array | null) => boolean; ended: () => string }
interface Answer { status: number | null; out: Uint8Array; said: string }

// What the keys of the panel do.
interface Doings {
    switches: (word: number) => void; fields: (word: number) => void; load: () => void; examine: () => void; deposit: () => void; start: (isByPointer: boolean) => void; stop: () => void; go: () => void;
    step: () => void;
}

interface Page {
    store: import('./store.js').Store; claims: import('./claims.js').Claims; programs: import('./program.js').Programs; undo: import('./undo.js').Undo;
    tell: (text: string) => void; say: (text: string, isBad?: boolean) => void; tabs: import('./page.js').Tabs;
    files: import('./files.js').Files; machine: import('./machine.js').Machine; teletype: import('./teletype.js').Teletype;
    source: import('./source.js').Source; script: import('./script.js').Script; texts: import('./texts.js').Texts; unkept: import('./unkept.js').Unkept;
    shelf: import('./shelf.js').Shelf; boot: import('./boot.js').Boot; sound: import('./sound.js').Sound;
}
declare var geivottu: Page;

declare namespace WebAssembly {
    class Suspending { constructor(body: Function); }
    function promising(body: Function): (...them: unknown[]) => Promise<number>;
}
declare class CompressionStream { constructor(format: string); readonly readable: ReadableStream<Uint8Array>; readonly writable: WritableStream<BufferSource> }
declare class DecompressionStream { constructor(format: string); readonly readable: ReadableStream<Uint8Array>; readonly writable: WritableStream<BufferSource> }
interface Element { textContent: string }
interface Text { textContent: string }
// The page's own events have what they are of.
interface Event { readonly detail?: any }
