// A rule of eslint (`--rulesdir tools/eslint`): no module imports itself, directly or through other modules.

const fs = require('fs');
const path = require('path');

const IMPORTED = /^(?:import|export)\b[^'"`;]*?from\s*['"](\.[^'"]+)['"]|^import\s*['"](\.[^'"]+)['"]/gm;

/** The modules that a module imports, each once. */
const imported = new Map();
function importsOf(file) {
    if (!imported.has(file)) {
        const text = fs.existsSync(file) ? fs.readFileSync(file, 'utf8') : '';
        const found = Array.from(text.matchAll(IMPORTED), match => path.resolve(path.dirname(file), match[1] || match[2]));
        imported.set(file, [...new Set(found)]);
    }
    return imported.get(file);
}

/** Whether a module imports another one, directly or through other modules. */
function isBelow(wanted, file, seen = new Set()) {
    if (file === wanted) return true;
    if (seen.has(file)) return false;
    seen.add(file);
    return importsOf(file).some(next => isBelow(wanted, next, seen));
}

module.exports = {
    create(context) {
        const own = path.resolve(context.getFilename());
        const check = node => {
            if (!node.source || !node.source.value.startsWith('.')) return;
            const given = path.resolve(path.dirname(own), node.source.value);
            if (isBelow(own, given)) context.report({ node, message: `${node.source.value} imports this module.` });
        };
        return { ImportDeclaration: check, ExportNamedDeclaration: check, ExportAllDeclaration: check };
    },
};
