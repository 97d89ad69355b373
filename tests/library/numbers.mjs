// `numbers.mjs NUMBERS` prints a C program that compiles only if cdpatch.h has the numbers and structs of the module NUMBERS, whose
// code is JavaScript too.

import { readFileSync } from 'node:fs';

/** @type {Record<string, number | Record<string, number>>} */
const numbers = await import(`data:text/javascript,${encodeURIComponent(readFileSync(process.argv[2], 'utf8'))}`);

/** @type {Record<string, string>} the prefix of the members of an enum that has another name */
const PREFIXES = { SECTOR_KIND: 'KIND' };

/** @param {string} fact */
const holds = fact => console.log(`_Static_assert(${fact}, "");`);

/**
 * The struct of the header with this name; '' if the name is not that of a struct.
 * @param {string} name
 */
const structOf = name => name.endsWith('_STRUCT') ? `struct cdpatch_${name.slice(0, -'_STRUCT'.length).toLowerCase()}` : '';

console.log('#include <cdpatch.h>');
for (const [name, value] of Object.entries(numbers)) {
    if (typeof value === 'number') {
        holds(`CDPATCH_${name} == ${value}`);
        continue;
    }
    const struct = structOf(name);
    for (const [member, number] of Object.entries(value)) {
        if (struct === '') holds(`CDPATCH_${PREFIXES[name] ?? name}_${member} == ${number}`);
        else if (member === 'BYTES') holds(`sizeof(${struct}) == ${number}`);
        else holds(`offsetof(${struct}, ${member.toLowerCase()}) == ${number}`);
    }
}
