// A rule of eslint (`--rulesdir tools/eslint`): no layer of web/core imports a value of a higher one, and values of a layer are imported
// through its index.js. An interface imports helpers, the module, tasks, and the views.js of other layers. `sources.js` uses it for types.

const path = require('path');

/** The layers from the lowest up. Below all of them are the helpers, which are the files of web/core itself. */
const LAYERS = ['', 'readers', 'module', 'sectors', 'pool', 'encodings', 'iso', 'disc', 'script', 'texts', 'pointers', 'tasks', 'jobs'];

/** Interfaces import the index.js of OPEN. Only the WORKERS, which start workers or run in them, import that of IN_WORKERS. */
const OPEN = ['module', 'tasks'];
const WORKERS = [path.join('page', 'worker.js'), path.join('page', 'app', 'pool.js'), path.join('command', 'threads.js')];
const IN_WORKERS = ['pool', 'jobs'];

const IN_CORE = /^(.*[/\\])core[/\\](?:(\w+)[/\\])?[^/\\]+$/;

/** The layer of a file of the core; undefined for any other file. */
function layerOf(file) {
    const found = IN_CORE.exec(file);
    return found ? found[2] || '' : undefined;
}

/** The reason why a file must not import another file; undefined if it may. */
function faultOf(file, source, isType) {
    const [own, layer] = [layerOf(file), layerOf(path.resolve(path.dirname(file), source))];
    if (layer === undefined || layer === own) return undefined;
    if (!LAYERS.includes(layer)) return `${source} is in a layer that has no place in the order.`;
    if (own !== undefined && LAYERS.indexOf(layer) > LAYERS.indexOf(own)) return `${source} is in a higher layer.`;
    if (layer === '' || isType) return undefined;
    return path.basename(source) === entryOf(file, own, layer) ? undefined : `Import ${entryOf(file, own, layer)} of that layer.`;
}

/** The file of a layer that another file imports: index.js, or views.js for an interface. */
function entryOf(file, own, layer) {
    if (own !== undefined || OPEN.includes(layer)) return 'index.js';
    return IN_WORKERS.includes(layer) && WORKERS.some(it => file.endsWith(it)) ? 'index.js' : 'views.js';
}

module.exports = {
    faultOf,
    create(context) {
        const file = path.resolve(context.getFilename());
        const value = node => {
            if (!node.source || !node.source.value.startsWith('.')) return;
            const message = faultOf(file, node.source.value, false);
            if (message !== undefined) context.report({ node, message });
        };
        return { ImportDeclaration: value, ExportNamedDeclaration: value, ExportAllDeclaration: value };
    },
};
