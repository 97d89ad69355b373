// Keeps the title, author, and note of a patcher as comments of its script, and reads them from there.

import { linesOfText } from '../../core/script/views.js';
import { MOST_WRITTEN } from '../player/index.js';
import { button, element, messageArea, notice, showMessageAt } from '../ui/index.js';
import type { App, ScriptLines } from '../app/index.js';

type Entries = { title: string, author: string, note: string };

const KEPT = /^# patcher (title|by|note):(?: (.*))?$/;

/** For each name in a comment, its entry, and what joins the values of several comments. */
const ENTRY_OF = { title: ['title', ' '], by: ['author', ' '], note: ['note', '\n'] } as const;

/**
 * The entries that comments of a script keep, each '' if there is none. One that is too long ends a character after its limit, so that the
 * form can say so.
 */
function keptEntries(text: string): Entries {
    const found = { title: '', author: '', note: '' };
    const seen = new Set();
    for (const line of text.includes('# patcher ') ? linesOfText(text) : []) {
        const [, name, value = ''] = KEPT.exec(line) || [];
        if (name === undefined) continue;
        const [entry, joint] = ENTRY_OF[(name as keyof typeof ENTRY_OF)];
        const most = MOST_WRITTEN[entry];
        if (found[entry].length <= most) found[entry] = `${found[entry]}${seen.has(name) ? joint : ''}${value}`.slice(0, most + 1);
        seen.add(name);
    }
    return found;
}

/** The text of a script with comments that keep the entries, in place of earlier ones. They are after its head line. */
function withEntries(script: Pick<ScriptLines, 'text' | 'head'>, { title, author, note }: Entries) {
    const lines = linesOfText(script.text());
    const [before, after] = [lines.slice(0, script.head + 1), lines.slice(script.head + 1)].map(some => some.filter(it => !KEPT.test(it)));
    const comments = [['title', title], ['by', author], ['note', note]].flatMap(([name, value]) =>
        value === '' ? [] : linesOfText(value).map(line => `# patcher ${name}: ${line}`.trimEnd()));
    return [...before, ...comments, ...after].join('\n');
}

/** The fields of these entries, and the button that keeps them. */
export class KeptEntries {
    /** The entries that the script has given. */
    given = '';
    message = messageArea();
    parts;

    /**
     * @param fields of the title, the author, and the note
     * @param kept is called when the script has the entries
     */
    constructor(readonly app: App, readonly fields: (HTMLInputElement | HTMLTextAreaElement)[], readonly kept: () => void) {
        this.parts = [element('div', { class: 'row' }, button('slim', () => this.keep(), 'Keep these in the script')), this.message];
        app.on('script', change => change && this.restore());
    }

    entries(): Entries {
        const [title, author, note] = this.fields.map(({ value }) => value);
        return { title: title.trim(), author: author.trim(), note };
    }

    keep() {
        const entries = this.entries();
        this.app.changeScript(script => script.take(withEntries(script, entries), script.name));
        this.given = JSON.stringify(entries);
        this.kept();
        showMessageAt(this.message, notice('good',
            'Title, author, and note are comments of the script now. Save the script: they come back with it.'));
    }

    /** Fills in the entries that the script keeps, unless the form has others. */
    restore() {
        const has = this.entries();
        if (JSON.stringify(has) !== this.given && Object.values(has).some(it => it !== '')) return;
        const { title, author, note } = keptEntries(this.app.script.text());
        [title, author, note].forEach((value, i) => { this.fields[i].value = value; });
        this.given = JSON.stringify(this.entries());
    }
}
