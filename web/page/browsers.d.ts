// What browsers have and this TypeScript does not know.

declare class DecompressionStream {
    constructor(format: string);
    readable: ReadableStream<Uint8Array>;
    writable: WritableStream<Uint8Array>;
}

declare class CompressionStream {
    constructor(format: string);
    readable: ReadableStream<Uint8Array>;
    writable: WritableStream<Uint8Array>;
}

declare const trustedTypes: {
    createPolicy(name: string, rules: { createScriptURL: (given: string) => string }): { createScriptURL: (given: string) => string };
};

interface Navigator {
    /** Whether the user has pressed something shortly before, so that the browser opens a dialog. Browsers with a save dialog have it. */
    userActivation: { isActive: boolean };
}
