// The errors that the calls of the package throw.

import { Fault as CoreFault, failedBy } from '../core/faults.js';
import { sentenceOf } from '../sentences/index.js';

/** Matches the program's line for a fault of a script, and the sentence about its base. */
const LINE = /^(?:script )?line (\d+)/;

/** The codes by which callers recognise failures of the core. */
const CODES = new Map([['image-ended', 'image ended'], ['no-memory', 'no memory']]);

/**
 * An expected failure. Its `code` is 'image ended' for an image that ends before its size, 'no memory' if there is too little memory, and
 * 'input' otherwise.
 */
export class Fault extends Error {
    name; code;

    constructor(message: string, code: string = 'input') {
        super(message);
        this.name = 'Fault';
        this.code = code;
    }
}

/**
 * The refusal of a script. Its message is the program's line, or says for which base the script is. `line` is the number of the script's
 * line in the message, or null.
 */
export class ScriptError extends Error {
    name; line;

    constructor(message: string) {
        super(message);
        this.name = 'ScriptError';
        const [, line] = LINE.exec(message) || [];
        this.line = line === undefined ? null : Number(line);
    }
}

/** Awaits a job of the core, and converts its failures to errors of the package. */
export function spoken<Made>(job: Promise<Made>): Promise<Made> {
    return job.catch(error => {
        if (failedBy(error, 'script/refused', 'script/other-base')) throw new ScriptError(sentenceOf(error));
        throw error instanceof CoreFault ? new Fault(sentenceOf(error), CODES.get(error.code)) : error;
    });
}
