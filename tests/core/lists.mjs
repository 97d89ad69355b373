// Shared by the tests of lists: the rows of a list, and rows that are replaced in an image.

import { calls, core, encoded, readerOf } from './common.mjs';

const { ScriptParts } = await core('script/script_writer.js');
const { fittedRows, placeInImage } = await core('tasks/list_fitting.js');
const { rowsOfLists } = await core('tasks/list_rows.js');
const { replaceBytes } = await core('tasks/replace.js');

/** The rows of a list that have a new text, or that `isAlso` selects. */
export async function listedRows(list, isAlso, signal) {
    try {
        return (await rowsOfLists([{ name: 'list', reader: readerOf(encoded(list)) }], isAlso, signal)).rows;
    } catch (error) {
        if (error.code !== 'list/no-new-text') throw error;
        return [];
    }
}

/** Replaces rows in an image: the lines, which are not tried, and the rows that are left out. */
export async function replacedRows(image, rows, encodings, watch) {
    const parts = new ScriptParts();
    const place = placeInImage(image, null, async (row, window, old, fresh) => parts.push(await replaceBytes(calls, window, row, old, fresh, true)));
    return { parts, ...await fittedRows(rows, place, { encodings, isAsked: true }, watch) };
}
