// Declares the parts of node that the package uses, so that the compiler needs no package with node's types.

declare module 'node:fs/promises' {
    export function readFile(place: URL): Promise<Uint8Array>;
    export function stat(path: string): Promise<{ isFile(): boolean }>;
    export function open(path: string): Promise<{
        stat(): Promise<{ size: number }>;
        read(bytes: Uint8Array, place: number, length: number, at: number): Promise<{ bytesRead: number }>;
        close(): Promise<void>;
    }>;
}
