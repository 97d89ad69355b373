// Generates small changes of JavaScript, such as mistakes: `node mutants.mjs FILE..` prints a line of JSON for each, with its file, its
// begin and end, the replacement, and the line of the source, by the map of the file. It needs the parser in Debian's package node-typescript.

import { readFileSync } from 'node:fs';
import { SourceMap, createRequire } from 'node:module';
import { join } from 'node:path';

const ts = createRequire('/')('/usr/share/nodejs/typescript');
const { SyntaxKind: Kind } = ts;

/** The replacements for each operator. */
const OPERATORS = {
    '<': '<=', '<=': '<', '>': '>=', '>=': '>', '===': '!==', '!==': '===', '&&': '||', '||': '&&', '??': '&&', '+': '-', '-': '+', '*': '+',
    '/': '*', '%': '*', '&': '|', '|': '&', '^': '&', '<<': '>>', '>>': '<<', '>>>': '<<', '+=': '-=', '-=': '+=',
};
const BOOLEANS = { [Kind.TrueKeyword]: 'false', [Kind.FalseKeyword]: 'true' };
const CONDITIONAL = new Set([Kind.IfStatement, Kind.WhileStatement]);

/** The changes at a node: their places and replacements. */
function* changesAt(node, text) {
    const range = it => [it.getStart(), it.getEnd()];
    const source = it => text.slice(it.getStart(), it.getEnd());
    if (node.kind === Kind.BinaryExpression) {
        const made = OPERATORS[source(node.operatorToken)];
        if (made) yield [...range(node.operatorToken), made];
    } else if (node.kind === Kind.NumericLiteral) {
        yield [...range(node), `(${source(node)} + 1)`];
    } else if (BOOLEANS[node.kind]) {
        yield [...range(node), BOOLEANS[node.kind]];
    } else if (CONDITIONAL.has(node.kind)) {
        yield [...range(node.expression), `!(${source(node.expression)})`];
    } else if (node.kind === Kind.ConditionalExpression) {
        yield [...range(node.condition), `!(${source(node.condition)})`];
    } else if (node.kind === Kind.ExpressionStatement && [Kind.CallExpression, Kind.AwaitExpression].includes(node.expression.kind)) {
        yield [...range(node), ';'];
    } else if (node.kind === Kind.ContinueStatement || node.kind === Kind.BreakStatement) {
        yield [...range(node), ';'];
    }
}

for (const file of process.argv.slice(2)) {
    const text = readFileSync(file, 'utf8');
    const map = new SourceMap(JSON.parse(Buffer.from(text.slice(text.lastIndexOf('base64,') + 7), 'base64')));
    const sourceOf = ({ line, character }) => {
        const { originalSource, originalLine } = map.findEntry(line, character);
        return `${join(file, '..', originalSource)}:${originalLine + 1}`;
    };
    const tree = ts.createSourceFile(file, text, ts.ScriptTarget.ES2022, true, ts.ScriptKind.JS);
    const walk = node => {
        for (const [from, to, made] of changesAt(node, text)) {
            console.log(JSON.stringify({ file, from, to, made, source: sourceOf(tree.getLineAndCharacterOfPosition(from)) }));
        }
        ts.forEachChild(node, walk);
    };
    walk(tree);
}
