// Prints the exports and imports of a module: `node show.mjs MODULE`.

import { readFileSync } from 'node:fs';

const module = new WebAssembly.Module(readFileSync(process.argv[2]));
for (const { name } of WebAssembly.Module.exports(module)) console.log(`exports ${name}`);
for (const { name } of WebAssembly.Module.imports(module)) console.log(`imports ${name}`);
