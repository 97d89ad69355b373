// What tools/pack.py gives an interface: the module of libcdpatch and the notices, gzipped, as base64. The command has the path of its file
// too; the page what it knows of itself as JSON, packed in the same way, and the texts of its script and of the loader that started it,
// which are '' in a worker.
declare const JOINED: { module: string, notices: string, file: string, own: string, script: string, loader: string };
