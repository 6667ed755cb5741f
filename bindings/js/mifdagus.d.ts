/** What a call answers. */
export interface Reply {
  /** `limit`: a limit was met, and `text` ends there. `differs`: only of `judge`. `syntax`: only of `pages`, whose other pages have run. */
  readonly status: 'done' | 'limit' | 'differs' | 'syntax';
  /** The lines that the program writes. */
  readonly text: string;
  /** The limit that was met; null if none was, or if the lines don't name it. */
  readonly limit: { readonly kind: string; readonly line: number; readonly number: number } | null;
}

export type Text = string | ArrayBuffer | ArrayBufferView;

export class SyntaxRefusal extends Error {
  readonly line: number;
  readonly column: number;
}
export class UsageRefusal extends Error {}
export class OutOfMemory extends Error {}
export class Stopped extends Error {}

export class Mifdagus {
  constructor(module: WebAssembly.Module);
  replay(script: Text): Reply;
  check(script: Text): Reply;
  lint(script: Text): Reply;
  summary(script: Text): Reply;
  print(script: Text): Reply;
  inspect(script: Text, tick: number): Reply;
  hit(script: Text, tick: number, x: number | string, y: number | string): Reply;
  judge(recording: Text): Reply;
  pages(stream: Text): Reply;
  generate(number: number): Reply;
  generateRun(number: number): Reply;
}

export function load(source?: URL | string | Text | WebAssembly.Module): Promise<Mifdagus>;
