// The context of a job: its arguments, files, output, messages, calls of libcdpatch, and threads.

import { KnownDumps } from '../core/disc/views.js';
import { SECTOR_SIZE, sectorCount } from '../core/module/index.js';
import { watchedReader } from '../core/readers/views.js';
import { CollectedSurvey } from '../core/tasks/index.js';
import { visible } from './printed.js';
import { Output, inFile, type Messages } from './system.js';
import { Threads, library } from './threads.js';
import type { Reader } from '../core/bytes.js';
import type { Given } from './arguments.js';
import type { Files } from './files.js';
import type { SurveyArgs } from '../core/sectors/views.js';

/** The descriptors of the standard streams. */
export type Streams = { input: number, output: number, errors: number };
/** The destination of a script or a list. */
export type Target = { descriptor: number, write(bytes: Uint8Array): Promise<void> };

/** The arguments of a job, and the objects with which it works. */
export class Job {
    saidOnce = new Set<string>();
    calls = library().calls;
    names; options; output; watch; pool;

    constructor({ names, options }: Given, streams: Streams, readonly files: Files,
        readonly messages: Pick<Messages, 'say' | 'progress' | 'hideProgress'>) {
        this.names = names;
        this.options = options;
        this.output = new Output(streams.output, () => messages.hideProgress());
        /** Shows the progress of a task that does not share its work. */
        this.watch = { progress: (done: number, all: number) => messages.progress(done, all) };
        this.pool = new Threads(this.watch.progress);
    }

    /** Prints a message on standard error, after the output so far. Names in it may come from a disc. */
    say(line: string) {
        this.output.flush();
        this.messages.say(visible(line));
    }

    /** Prints a message that may be true of several images, but only once. */
    sayOnce(line: string) {
        if (!this.saidOnce.has(line)) this.say(line);
        this.saidOnce.add(line);
    }

    /** The destination of a script or a list: the file of `-o`, or standard output by default or for `-`. */
    async target(): Promise<Target> {
        const { output = '-' } = this.options;
        return output === '-' ? this.output : await this.files.device(output) || this.files.make(output);
    }

    /** The dumps in the DATs of the options, null if no DAT is given. Throws a Fault. */
    async knownDumps(): Promise<KnownDumps | null> {
        const { dat = [] } = this.options;
        const known = new KnownDumps();
        for (const name of dat) await inFile(name, () => known.add(this.files.piecesOf(name)), 'dat');
        const leftOut = known.leftOut === 1 ? '1 entry of the DAT has' : `${known.leftOut} entries of the DAT have`;
        if (known.leftOut > 0) this.say(`${leftOut} no size or no hash, and cannot match a file`);
        return dat.length > 0 ? known : null;
    }

    /** A reader that shows its progress. */
    watched(reader: Reader): Reader {
        const all = sectorCount(reader.size);
        return watchedReader(reader, at => this.messages.progress(Math.floor(at / SECTOR_SIZE), all));
    }

    /** Surveys all sectors of an image. */
    async survey(reader: Reader, base: number, args: SurveyArgs = {}) {
        const collected = new CollectedSurvey(base);
        await this.pool.share('survey', [reader], args, { base }, answer => collected.add(answer));
        return collected.whole();
    }
}
