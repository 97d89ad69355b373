// Choosing files: by a button, for a job of the start, or by dropping them on the page.

import { CP932, encodeText } from '../../core/encodings/views.js';
import { SECTOR_SIZE, USER_SIZE, type Calls } from '../../core/module/index.js';
import type { Aim, App } from '../app/index.js';
import { openExampleName, say } from '../texts/index.js';
import { announce, byId, element, fill, nameOf, setAttribute, type Child } from '../ui/index.js';
import * as texts from '../texts/index.js';

// Generates an example disc for users without one: 300 sectors with a small volume, a Japanese text, a scratch, and some audio.

const SECTORS = 300;
const FIRST_AUDIO = 270;
const ROOT = 18;
const DATE = [126, 1, 1, 0, 0, 0, 0];
const FILES = [
    { name: 'MESSAGES.DAT;1', block: 20, sectors: 40 },
    { name: 'PICTURES.DAT;1', block: 60, sectors: 200 },
];
const TEXT = ['スタート', 'つづきから', 'はじめから', '設定', 'ゲームをスタートします', 'セーブしますか？', 'はい', 'いいえ', 'ドアは鍵がかかっている。',
    '「だれかいるのか？', '返事をしてくれ」', '星空探偵、登場。'];

/** @param number to be written in both byte orders */
function bothOrders(number: number) {
    const bytes = new DataView(new ArrayBuffer(8));
    bytes.setUint32(0, number, true);
    bytes.setUint32(4, number);
    return [...new Uint8Array(bytes.buffer)];
}

/** A directory record. */
function recordOf(name: string, block: number, size: number, flags: number) {
    const length = 33 + name.length + (name.length % 2 === 0 ? 1 : 0);
    const head = [length, 0, ...bothOrders(block), ...bothOrders(size), ...DATE, flags, 0, 0, 1, 0, 0, 1, name.length];
    const record = new Uint8Array(length);
    record.set(head);
    record.set(Array.from(name, character => character.charCodeAt(0)), head.length);
    return record;
}

/** @param user data of the volume descriptor */
function fillDescriptor(user: Uint8Array) {
    user.set([1, 67, 68, 48, 48, 49, 1]);
    user.fill(32, 8, 72);
    user.set(Array.from('EXAMPLE', character => character.charCodeAt(0)), 40);
    user.set(bothOrders(FIRST_AUDIO), 80);
    user.set([1, 0, 0, 1, 1, 0, 0, 1, 0, 8, 8, 0], 120);
    user.set(recordOf('\0', ROOT, USER_SIZE, 2), 156);
}

/** @param user data of the root directory */
function fillRoot(user: Uint8Array) {
    const records = [recordOf('\0', ROOT, USER_SIZE, 2), recordOf('\x01', ROOT, USER_SIZE, 2),
        ...FILES.map(({ name, block, sectors }) => recordOf(name, block, sectors * USER_SIZE, 0))];
    let at = 0;
    for (const record of records) {
        user.set(record, at);
        at += record.length;
    }
}

/** The user data of a block. */
function userOfExample(block: number) {
    const user = new Uint8Array(USER_SIZE);
    if (block === 16) fillDescriptor(user);
    if (block === 17) user.set([255, 67, 68, 48, 48, 49, 1]);
    if (block === ROOT) fillRoot(user);
    const [messages, pictures] = FILES;
    if (block >= messages.block && block < messages.block + messages.sectors) fillText(user, block);
    if (block >= pictures.block && block < FIRST_AUDIO - 10) user.forEach((_, i) => { user[i] = i * 7 ^ (i >> 5) * block; });
    return user;
}

function fillText(user: Uint8Array, block: number) {
    for (let at = 24, i = block; at < 1700; i++) {
        const bytes = encodeText(CP932, TEXT[i % TEXT.length]);
        user.set([i % 9 + 1, bytes.length], at - 2);
        user.set(bytes, at);
        at += bytes.length + 3;
    }
}

/** The example disc, as a file. */
export function exampleFile(calls: Calls) {
    const image = new Uint8Array(SECTORS * SECTOR_SIZE);
    for (let block = 0; block < FIRST_AUDIO; block++) {
        const address = calls.address(block);
        if (address !== null) image.set(calls.encode(address, userOfExample(block)), block * SECTOR_SIZE);
    }
    for (let at = FIRST_AUDIO * SECTOR_SIZE; at < image.length; at++) image[at] = Math.round(40 * Math.sin(at / 37)) & 255;
    for (let block = 97; block < 240; block += 9) scratch(image, block);
    return new File([image], openExampleName);
}

function scratch(image: Uint8Array, block: number) {
    const at = block * SECTOR_SIZE;
    for (let i = 0; i < 6; i++) image[at + (block % 4 === 0 ? 2100 : 300) + i] ^= 0x5A + i;
}

/** The text of the start that says what to choose for each job. */
const WANTED = {
    play: 'Choose the disc image together with its patch',
    translate: 'Choose the disc image, or its cue sheet with all BINs',
    repair: 'Choose the dump, and the second dump with it if you have one',
};

/** Milliseconds without an event after which a drag counts as ended, since no browser reports the end of every drag. */
const DRAG_ENDS = 1000;

/** The file picker, and the aim of the files that are chosen next. */
class Chooser {
    aim: Aim = '';
    input = byId('files') as HTMLInputElement;
    jobs = [...document.querySelectorAll<HTMLElement>('.job')];

    constructor(readonly app: App) {}

    /** Opens the browser's picker. */
    choose(aim: Aim) {
        this.aimAt(aim);
        this.input.click();
    }

    aimAt(aim: Aim) {
        this.aim = aim;
        for (const job of this.jobs) setAttribute(job, 'aria-pressed', String(job.dataset.aim === aim));
        const words = aim in WANTED ? WANTED[(aim as keyof typeof WANTED)] : '';
        const wanted = byId('wanted');
        wanted.classList.toggle('if-mouse', words === '');
        fill(wanted, words || texts.openDropHere);
        if (words !== '' && this.app.image === null) announce(words);
    }

    /** @param files that were chosen or dropped */
    take(files: File[]) {
        const { aim } = this;
        if (files.length === 0) return;
        this.aimAt('');
        this.app.open(files, aim);
    }

    /** Ends a choice without files. On the start, files that are dropped next are for the same job. */
    cancelled() {
        if (this.app.image !== null) this.aimAt('');
    }
}

export function mountChoosing(app: App) {
    const chooser = new Chooser(app);
    const { input } = chooser;
    app.serve({ choose: aim => chooser.choose(aim) });
    byId('open-files').addEventListener('click', () => chooser.choose(chooser.aim));
    byId('open-other').addEventListener('click', () => chooser.choose(''));
    for (const job of chooser.jobs) job.addEventListener('click', () => chooser.choose(job.dataset.aim as Aim));
    input.addEventListener('cancel', () => chooser.cancelled());
    input.addEventListener('change', () => {
        const files = [...input.files || []];
        input.value = '';
        chooser.take(files);
    });
    app.serve({ dropSays: () => dropSays(app) });
    listenForDrops(app, files => {
        chooser.cancelled();
        chooser.take(files);
    });
}

/** The text on what happens to files that are dropped now. */
function dropSays({ image, saves, script }: App): Child[] {
    if (saves > 0) return ['An image is being saved. Nothing else can be opened until that is done.'];
    if (image === null) return ['Drop it to open it: a disc image, its patch, or both.'];
    return [element('span', {}, ...say('An image: you can repair {name} from it, compare the two, or open it instead.',
        { name: nameOf(image.name) })),
        element('span', {}, script.isNew() ? 'A script: it is opened and checked.'
            : 'A script: it is opened in place of the one that is open, and checked.')];
}

function listenForDrops(app: App, take: (files: File[]) => void) {
    const says = byId('drop-says');
    let ends = 0;
    const over = (is: boolean) => {
        clearTimeout(ends);
        if (is) ends = window.setTimeout(over, DRAG_ENDS, false);
        document.body.classList.toggle('over', is);
        if (is && says.hidden) fill(says, ...app.services.dropSays());
        says.hidden = !is;
    };
    document.addEventListener('dragover', event => {
        event.preventDefault();
        over(event.dataTransfer !== null && event.dataTransfer.types.includes('Files'));
    });
    document.addEventListener('dragleave', event => over(event.relatedTarget !== null));
    document.addEventListener('drop', event => {
        event.preventDefault();
        over(false);
        take([...(event.dataTransfer && event.dataTransfer.files) || []]);
    });
}
