// What node has everywhere, as browsers do. Where a worker's library is asked for, that has it.
declare var console: { log(...them: unknown[]): void };
declare function setTimeout(body: (...them: any[]) => void, milliseconds?: number): number;
declare function clearTimeout(timer: number | undefined): void;
declare class URL { constructor(path: string, base?: string); pathname: string; origin: string; href: string }
interface ImportMeta { url: string }
