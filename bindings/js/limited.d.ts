import type { Reply, Text } from './mifdagus.js';

export class OutOfTime extends Error {}

export class Limited {
  constructor(options?: { seconds?: number; source?: URL | string | ArrayBuffer | WebAssembly.Module | null });
  close(): void;
  replay(script: Text): Promise<Reply>;
  check(script: Text): Promise<Reply>;
  lint(script: Text): Promise<Reply>;
  summary(script: Text): Promise<Reply>;
  print(script: Text): Promise<Reply>;
  inspect(script: Text, tick: number): Promise<Reply>;
  hit(script: Text, tick: number, x: number | string, y: number | string): Promise<Reply>;
  judge(recording: Text): Promise<Reply>;
  pages(stream: Text): Promise<Reply>;
  generate(number: number): Promise<Reply>;
  generateRun(number: number): Promise<Reply>;
}
