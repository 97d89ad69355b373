// Parses the arguments of the command line.

import { ownFault } from '../sentences/index.js';
import { FORMS, usageOf, usagesOf } from './forms.js';
import { OPTIONS, OWN_OPTIONS, didYouMean, type OptionName, type Options } from './options.js';

// Formats the texts of `help`.

/** The lines of a text: up to 79 columns, and 54 next to an option. */
const LINE = /\S.{0,78}(?= |$)/g;
const BESIDE_OPTION = /\S.{0,53}(?= |$)/g;
const COLUMN = 25;

/** @param own what it does here */
function optionRow(name: OptionName, own?: string) {
    const { word, short, value, does } = OPTIONS[name];
    const spelled = word.startsWith('--') ? `${short ? `${short},` : '   '} ${word}` : word;
    return `  ${spelled} ${value}`.padEnd(COLUMN) + ((own || does).match(BESIDE_OPTION) || []).join(`\n${' '.repeat(COLUMN)}`);
}

function withHelp(options: OptionName[]): OptionName[] {
    return [...options, 'help'];
}

function jobHelp(job: string) {
    const { options, says, does, ends = {}, example, own = {} } = FORMS[job];
    const usage = usagesOf(job).map((taken, i) => `${i === 0 ? 'Usage:' : '      '} cdscript ${job} [OPTIONS] ${taken}`);
    const statuses = Object.entries(ends).map(([status, meaning]) => `${status} ${meaning}`).join('; ');
    const rows = withHelp(options).map(name => optionRow(name, own[name]));
    const lines = [...does.split('\n'), statuses && `Status: ${statuses}`].flatMap(part => part.match(LINE) || []);
    return [says, '', ...lines, '', ...usage, '', 'Example:', `  ${example}`, '', 'Options:', ...rows];
}

function wholeHelp(version: string) {
    const jobs = Object.keys(FORMS).map(job => `  ${job.padEnd(14)}${FORMS[job].says}`);
    const rows = OWN_OPTIONS.map(name => optionRow(name));
    return ['Inspect, translate, and repair raw CD images', '',
        'Usage: cdscript JOB [OPTIONS] ARGUMENTS', '', 'Jobs:', ...jobs, '', 'Options:', ...rows, '',
        'IMAGE is a raw image (2352 bytes per sector) or its cue sheet, but an ISO image',
        'for `raw`; - is standard input. Scripts and lists go to standard output,',
        'messages to standard error. Output files must not exist yet. Options may',
        'appear anywhere; arguments after -- are never options. `cdscript help JOB`',
        'describes a job.', '',
        'Status: 0 done; 1 findings or refused patches; 2 failed', '', version];
}

/** @param job one of FORMS, or '' for all */
export function helpLines(job: string, version: string) {
    return job === '' ? wholeHelp(version) : jobHelp(job);
}

/** An option for the programs that generate pages and completions. `own` is what it does here. */
function optionObject(name: OptionName, own?: string) {
    const { word, short = '', value, does, values = [], repeated = false } = OPTIONS[name];
    const isLong = word.startsWith('--');
    return { short: isLong ? short : word, long: isLong ? word : '', value, does: own || does, repeated, values };
}

/** All jobs and options as JSON. */
export function formsText() {
    const jobs = Object.entries(FORMS).map(([name, { says, words = [], options, own = {}, ends = {} }]) => ({
        name, says, forms: usagesOf(name), words, found: ends[1] || '',
        options: withHelp(options).map(it => optionObject(it, own[it])),
    }));
    return JSON.stringify({ name: 'cdscript', jobs, options: OWN_OPTIONS.map(name => optionObject(name)) });
}

export type Given = { job: string, names: string[], options: Options };

/** Other names of jobs. */
const ALIASES = new Map([['repair', 'merge']]);

/** Sorts the words of the command line into options and names. */
function sorted(words: string[]) {
    const options: Record<string, any> = {};
    const names: string[] = [];
    const left = words.values();
    for (const word of left) {
        if (word === '--') for (const name of left) names.push(name);
        else if (word === '-' || !word.startsWith('-')) names.push(word);
        else takeOption(options, word, left);
    }
    return { options: options as Options, names };
}

/**
 * @param word the option, with its value after `=` or without
 * @param left the words after it
 */
function takeOption(options: Record<string, any>, word: string, left: Iterator<string>) {
    const [, spelled = word, given] = /^([^=]*)(?:=(.*))?$/s.exec(word) || [];
    const found = Object.entries(OPTIONS).find(([, row]) => row.word === spelled || row.short === spelled);
    if (found === undefined) {
        const known = Object.values(OPTIONS).map(row => row.word);
        throw ownFault(`unknown option ${spelled}${didYouMean(spelled, known) || '; put names that begin with - after --'}`);
    }
    const [name, row] = found;
    const isFlag = row.value === '';
    if (isFlag && given !== undefined) throw ownFault(`${spelled} does not accept a value`);
    if (name in options && !row.repeated) throw ownFault(`${row.word} was given twice`);
    const text = isFlag || given !== undefined ? given : left.next().value;
    if (!isFlag && text === undefined) throw ownFault(`${row.word} needs ${row.value}`);
    const value = isFlag || (row.parse ? row.parse(text) : text);
    options[name] = row.repeated ? [...options[name] || [], value] : value;
}

/** Throws a Fault if a job lacks one of the options, if an option needs another one, or if two exclude each other. */
function checkOptions(job: string, options: Options) {
    const given = Object.keys(options) as OptionName[];
    const foreign = given.find(name => name !== 'help' && !FORMS[job].options.includes(name));
    if (foreign) throw ownFault(`${job} has no option ${OPTIONS[foreign].word}; see cdscript ${job} --help`);
    const rows = given.map(name => OPTIONS[name]);
    for (const { word, needs = {} } of options.check ? [] : rows) {
        const other = needs[job] as OptionName | undefined;
        if (other !== undefined && !(other in options)) throw ownFault(`${word} needs ${OPTIONS[other].word}`);
    }
    for (const { word, excludes = [] } of rows) {
        const other = given.find(name => excludes.includes(name));
        if (other !== undefined) throw ownFault(`${word} and ${OPTIONS[other].word} cannot be used together`);
    }
}

function checkNames(job: string, names: string[], options: Options) {
    const { takes: usual, instead = {} } = FORMS[job];
    const takes = Object.keys(instead).filter(name => name in options).map(name => instead[name])[0] || usual;
    const together = takes.filter(name => name.startsWith('[')).flatMap(name => name.split(' ').slice(1)).length;
    const least = takes.filter(name => !/^\[|\?$/.test(name)).length;
    const most = takes.some(name => /\.\.\??$/.test(name)) ? Infinity : takes.length + together;
    if (names.length >= least && names.length <= most && (names.length - least) % (together + 1) === 0) return;
    throw ownFault(`${job} needs ${usageOf(takes) || 'no other arguments'}; see cdscript ${job} --help`);
}

/** Parses a command line. Throws a Fault. */
export function argumentsOf(words: string[]): Given {
    const { options, names: given } = sorted(words);
    if (given[0] === 'version' && given.length === 1) options.version = true;
    if (given[0] === 'help' && given.length <= 2) options.help = true;
    const [word = '', ...names] = given[0] === 'help' ? given.slice(1) : given;
    const job = ALIASES.get(word) || word;
    const isOwn = options.version || options.notices || options.forms || (options.help && job === '');
    if (isOwn) return { job: '', names: [], options };
    if (job === '') throw ownFault('no job given; see cdscript --help');
    if (['list', 'audit'].includes(job)) throw ownFault(`unknown job '${job}'; use cdscript info or cdpatch ${job}`);
    if (!Object.keys(FORMS).includes(job)) {
        throw ownFault(`unknown job '${job}'${didYouMean(job, Object.keys(FORMS))}; see cdscript --help`);
    }
    checkOptions(job, options);
    if (!options.help) checkNames(job, names, options);
    return { job, names, options };
}
