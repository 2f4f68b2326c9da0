// What browsers have and Debian's TypeScript does not know yet.
declare class CompressionStream extends TransformStream<Uint8Array, Uint8Array> { constructor(format: string); }
declare class DecompressionStream extends TransformStream<Uint8Array, Uint8Array> { constructor(format: string); }
interface Array<T> { findLast<S>(test: (item: T) => unknown): T | undefined; }
interface CanvasRenderingContext2D { roundRect(x: number, y: number, width: number, height: number, radius: number): void; }

// What print1525.mjs takes from Node.
interface Buffer extends Uint8Array { toString(encoding?: string): string; }
declare const Buffer: {
  from(bytes: Uint8Array): Buffer;
  from(text: string, encoding?: string): Buffer;
  allocUnsafe(size: number): Buffer;
  concat(parts: Uint8Array[]): Buffer;
};
declare const process: {
  argv: string[];
  env: Record<string, string | undefined>;
  exitCode?: number;
  platform: string;
  stdin: { isTTY?: boolean };
  stderr: { isTTY?: boolean };
  umask(): number;
};
declare module 'node:fs' {
  export const constants: { O_WRONLY: number };
  export function copyFileSync(name: URL, next: URL): void;
  export function closeSync(file: number): void;
  export function existsSync(name: string | URL): boolean;
  export function fchmodSync(file: number, mode: number): void;
  export function fstatSync(file: number): { mode: number; isFile(): boolean };
  export function fstatSync(file: number, how: { bigint: true }): { ino: bigint; dev: bigint; isFile(): boolean };
  export function fsyncSync(file: number): void;
  export function openSync(name: string, flags: string | number, mode?: number): number;
  export function readFileSync(name: string | URL): Buffer;
  export function readFileSync(name: string | URL, encoding: string): string;
  export function readlinkSync(name: string): string;
  export function readSync(file: number, room: Uint8Array): number;
  export function realpathSync(name: string): string;
  export function renameSync(name: string | URL, next: string | URL): void;
  export function rmSync(name: string | URL, options: { force: boolean }): void;
  export function statSync(name: string, how: { bigint: true }): { ino: bigint; dev: bigint; isFile(): boolean };
  export function writeFileSync(name: URL, bytes: Uint8Array): void;
  export function writeSync(file: number, bytes: Uint8Array, at: number, length: number): number;
}
declare module 'node:path' {
  export function dirname(name: string): string;
  export function join(...parts: string[]): string;
  export function resolve(...parts: string[]): string;
}
declare module 'node:url' { export function fileURLToPath(address: string | URL): string; }
declare module 'node:zlib' { export function inflateRawSync(bytes: Uint8Array): Buffer; }
