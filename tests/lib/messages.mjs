// The messages of messages.sh by name, except those that contain a number.

import { readFileSync } from 'node:fs';

const text = readFileSync(new URL('messages.sh', import.meta.url), 'utf8');

export const MESSAGES = Object.fromEntries(Array.from(text.matchAll(/^(\w+)='(.*)'$/gm), ([, name, message]) => [name, message]));
