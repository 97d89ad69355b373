// Checks what eslint cannot see in stripped files: `node tools/sources.js WEB` prints each line over 140, each file over 400 lines (the
// tables of texts have no limit), each function over 40, and each type that is imported from a higher layer. It needs the parser in
// Debian's package node-typescript.

const fs = require('fs');
const path = require('path');
const ts = require('/usr/share/nodejs/typescript');
const { faultOf } = require('./eslint/layers.js');

const TABLES = /[/\\]texts[/\\](player[/\\])?\w+\.ts$/;
const filesIn = folder => fs.readdirSync(folder, { withFileTypes: true }).flatMap(it => {
    const file = path.join(folder, it.name);
    return it.isDirectory() ? filesIn(file) : [file];
}).filter(file => file.endsWith('.ts'));

for (const file of filesIn(process.argv[2])) {
    const tree = ts.createSourceFile(file, fs.readFileSync(file, 'utf8'), ts.ScriptTarget.ES2022, true);
    const lines = tree.text.split('\n');
    const say = (line, message) => {
        console.log(`${file}:${line + 1}: ${message}`);
        process.exitCode = 1;
    };
    const lineOf = at => tree.getLineAndCharacterOfPosition(at).line;
    lines.forEach((text, i) => text.length > 140 && say(i, 'The line is longer than 140.'));
    if (lines.length > 401 && !TABLES.test(file)) say(400, 'The file has more than 400 lines.');
    (function visit(node) {
        const first = lineOf(node.getStart(tree));
        if (ts.isFunctionLike(node) && lineOf(node.end) - first >= 40) say(first, 'The function has more than 40 lines.');
        if (ts.isImportDeclaration(node) && node.moduleSpecifier.text.startsWith('.')) {
            const message = faultOf(path.resolve(file), node.moduleSpecifier.text, true);
            if (message !== undefined) say(first, message);
        }
        ts.forEachChild(node, visit);
    })(tree);
}
