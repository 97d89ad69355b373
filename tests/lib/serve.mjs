// Serves a client to tests/cases/clients.py: on the standard input a question is a line of JSON, whose `sizes` are those of the bytes that
// follow it; so is an answer on the standard output.

import { writeSync } from 'node:fs';
import { Input } from './input.mjs';

/** @typedef {{ call: string, base: number, carry: boolean, sizes: number[] }} Question */
/** @typedef {{ status: number, text: Uint8Array, out?: Uint8Array | null }} Answer */

/**
 * Writes bytes to standard output, and exits quietly when it is closed.
 * @param {Uint8Array} bytes
 */
function write(bytes) {
    try {
        for (let at = 0; at < bytes.length;) at += writeSync(1, bytes, at);
    } catch (error) {
        if (error.code !== 'EPIPE') throw error;
        process.exit(1);
    }
}

/**
 * Answers questions until there are no more.
 * @param {(question: Question, parts: Uint8Array[]) => Answer | Promise<Answer>} answered
 */
export async function serve(answered) {
    const input = new Input();
    while (!input.ended()) {
        const question = /** @type {Question} */ (JSON.parse(input.text(10)));
        const parts = question.sizes.map(size => input.take(size));
        /** @type {Answer} */
        let answer;
        try {
            answer = await answered(question, parts);
        } catch (fault) {
            answer = { status: -1, text: Buffer.from(String(fault)) };
        }
        const { status, text, out } = answer;
        write(Buffer.from(`${JSON.stringify({ status, sizes: [text.length, ...out ? [out.length] : []] })}\n`));
        write(text);
        if (out) write(out);
    }
}
