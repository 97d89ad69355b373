// Declares the parts of node that the command uses, so that the compiler needs no package with node's types.

interface Buffer extends Uint8Array {
    toString(encoding?: 'latin1'): string;
}

declare const Buffer: {
    allocUnsafeSlow(size: number): Uint8Array;
    concat(parts: Uint8Array[]): Buffer;
    from(text: string, encoding?: 'base64' | 'latin1'): Buffer;
    of(...bytes: number[]): Buffer;
};

declare const process: {
    allowedNodeEnvironmentFlags: Set<string>;
    argv: string[];
    execArgv: string[];
    execPath: string;
    pid: number;
    platform: string;
    exit(status: number): never;
    kill(pid: number, signal: string | number): void;
    off(signal: string, listener: (signal: string) => void): void;
    on(signal: string, listener: (signal: string) => void): void;
    once(signal: string, listener: () => void): void;
};

declare function setImmediate(callback: (value: unknown) => void): void;

declare module 'node:child_process' {
    export function spawn(command: string, words: string[], how: { stdio: 'inherit' }): {
        kill(signal: string): boolean,
        on(event: 'error', listener: (error: unknown) => void): void,
        on(event: 'exit', listener: (status: number, signal: string | null) => void): void,
    };
}

declare module 'node:crypto' {
    export function createHash(name: 'sha1' | 'md5'): { update(bytes: Uint8Array): void, digest(form: 'hex'): string };
    export function randomBytes(size: number): { toString(form: 'hex'): string };
}

declare module 'node:fs' {
    export const constants: { O_RDONLY: number, O_NONBLOCK?: number };
    export interface BigIntStats { dev: bigint, ino: bigint, mode: bigint, nlink: bigint, size: bigint, mtime: Date,
        isFile(): boolean, isDirectory(): boolean, isCharacterDevice(): boolean }
    export function closeSync(descriptor: number): void;
    export function existsSync(name: string | Uint8Array): boolean;
    export function fchmodSync(descriptor: number, mode: number): void;
    export function fstatSync(descriptor: number, how: { bigint: true }): BigIntStats;
    export function ftruncateSync(descriptor: number, size: number): void;
    export function fsync(descriptor: number, done: (error: unknown, value: number) => void): void;
    export function fsyncSync(descriptor: number): void;
    export function linkSync(name: string, other: string): void;
    export function lstatSync(name: string, how: { bigint: true, throwIfNoEntry?: boolean }): BigIntStats | undefined;
    export function open(name: string | Uint8Array, flags: number, done: (error: unknown, descriptor: number) => void): void;
    export function read(descriptor: number, bytes: Uint8Array, at: number, length: number, place: null,
        done: (error: unknown, count: number) => void): void;
    export function openSync(name: string, flags: string): number;
    export function readFileSync(name: string | Uint8Array): Buffer;
    export function readFileSync(name: string, encoding: 'latin1'): string;
    export const realpathSync: { (name: string): string, native(name: string | Uint8Array, encoding: 'buffer'): Buffer };
    export function renameSync(name: string, other: string): void;
    export function statSync(name: string | Uint8Array, how: { bigint: true }): BigIntStats;
    export function statSync(name: string | Uint8Array, how: { bigint: true, throwIfNoEntry: false }): BigIntStats | undefined;
    export function readSync(descriptor: number, bytes: Uint8Array, at: number, length: number, place: number): number;
    export function readdirSync(name: string | Uint8Array, encoding: 'buffer'): Buffer[];
    export function readdirSync(name: string | Uint8Array, how: { withFileTypes: true, encoding: 'buffer' }): { name: Buffer,
        isFile(): boolean, isDirectory(): boolean, isSymbolicLink(): boolean }[];
    export function unlinkSync(name: string): void;
    export function writeSync(descriptor: number, bytes: Uint8Array, at: number, length?: number, place?: number): number;
}

declare module 'node:os' {
    export function cpus(): unknown[];
}

declare module 'node:path' {
    export function basename(path: string): string;
    export function dirname(path: string): string;
    export function join(...parts: string[]): string;
    export const win32: { parse(path: string): { root: string, base: string } };
}

declare module 'node:tty' {
    export function isatty(descriptor: number): boolean;
}

declare module 'node:worker_threads' {
    export class Worker {
        constructor(file: string, options: { workerData: unknown });
        on(event: 'message' | 'error' | 'online', listener: (value: any) => void): void;
        postMessage(message: unknown, transfer: ArrayBufferLike[]): void;
        terminate(): Promise<number>;
    }
    export const isMainThread: boolean;
    export const parentPort: {
        on(event: 'message', listener: (value: any) => void): void;
        postMessage(message: unknown, transfer: ArrayBufferLike[]): void;
    } | null;
    export const workerData: any;
}

declare module 'node:zlib' {
    export function gunzipSync(bytes: Uint8Array): Uint8Array;
    /** Undefined before node 20.15. */
    export const crc32: undefined | ((bytes: Uint8Array, before: number) => number);
}

declare module 'node:events' {
    /** Waits for an event, and throws what the event `error` brings. */
    export function once(target: object, name: string): Promise<any[]>;
}
