// cdscript: reads the command line, runs the job, and reports errors.

import { isMainThread, workerData } from 'node:worker_threads';
import { gunzipSync } from 'node:zlib';
import { bytesOfLines } from '../core/bytes.js';
import { Fault, failedBy } from '../core/faults.js';
import { STATUS } from '../core/module/index.js';
import { ownFault, sentenceOf } from '../sentences/index.js';
import { isLimited, runAgain, serveThread, type ThreadData } from './threads.js';
import { argumentsOf, formsText, helpLines, type Given } from './arguments.js';
import { Files } from './files.js';
import { FORMS } from './forms.js';
import { hasOddBytes, wordsOfProcess } from './new_file.js';
import { visible } from './printed.js';
import { Job, type Streams } from './job.js';
import { serveScan } from './scanning.js';
import { Messages } from './system.js';

/** The program's message about arguments that are not valid UTF-8. */
const NO_TEXT = 'the words are not text';

const STANDARD = { input: 0, output: 1, errors: 2 };
const END_SIGNALS: ('SIGHUP' | 'SIGINT' | 'SIGTERM')[] = ['SIGHUP', 'SIGINT', 'SIGTERM'];

/** The bytes of the notices, the version, the forms, or help; null if none of them is asked for. */
function textAsked({ job: name, options: { help, version, notices, forms } }: Given, job: Job) {
    if (notices) return gunzipSync(Buffer.from(JOINED.notices, 'base64'));
    const own = `cdscript ${job.calls.version()}`;
    if (version) return bytesOfLines([own]);
    if (forms) return bytesOfLines([formsText()]);
    return help ? bytesOfLines(helpLines(name, own)) : null;
}

function messageOf(error: unknown) {
    if (!(error instanceof Error)) return String(error);
    if (error instanceof Fault) return visible(sentenceOf(error));
    return `internal error: ${(error.stack || '').split('\n').map(visible).join('\n')}`;
}

/** Whether a word is the name of an input file, in a job that has no other arguments. */
function isNameRead(word: string, { job: name, names }: Given) {
    return names.includes(word) && name in FORMS && FORMS[name].takes.every(it => it === 'IMAGE' || it === 'PATH..');
}

/** Runs the command with these arguments. Returns the status. */
export async function main(words: string[], streams: Streams = STANDARD, files: Files = new Files(streams.input)) {
    const messages = new Messages(streams.errors);
    let job = null;
    try {
        if (words.some(word => word.includes('\uFFFD'))) throw ownFault(NO_TEXT);
        const given = argumentsOf(words);
        if (words.some(word => hasOddBytes(word) && !isNameRead(word, given))) throw ownFault(NO_TEXT);
        job = new Job(given, streams, files, messages);
        files.warn = text => messages.say(visible(text));
        const text = textAsked(given, job);
        if (text !== null) await job.output.write(text);
        const status = text === null ? await FORMS[given.job].job(job) : STATUS.DONE;
        job.output.flush();
        await files.finish();
        return status;
    } catch (error) {
        if (!failedBy(error, 'reader-ended')) messages.say(messageOf(error));
        return STATUS.FAILED;
    } finally {
        if (job !== null) job.pool.close();
        files.close();
    }
}

/** Makes a signal remove the unfinished files before it ends the process. */
function endOnSignals(files: Files) {
    for (const signal of END_SIGNALS) {
        process.once(signal, () => {
            files.removeUnfinished();
            process.kill(process.pid, signal);
        });
    }
}

/** Runs the command or, in one of its threads, serves the main thread. */
export function start() {
    if (!isMainThread) return (workerData as ThreadData).scans ? serveScan() : serveThread();
    const failed = (error: unknown) => {
        new Messages(STANDARD.errors).say(messageOf(error));
        return STATUS.FAILED;
    };
    if (isLimited()) {
        runAgain(END_SIGNALS, error => process.exit(failed(error)));
        return;
    }
    // Before a file is made, a signal ends the process by itself, even while the process waits for the reader of its output.
    const files: Files = new Files(STANDARD.input, () => endOnSignals(files));
    // Node would end with status 0 if a job waited for an event that never occurs.
    process.once('beforeExit', () => {
        files.removeUnfinished();
        process.exit(failed(ownFault('internal error: the job has not ended')));
    });
    main(wordsOfProcess(), STANDARD, files).catch(failed).then(status => process.exit(status));
}
