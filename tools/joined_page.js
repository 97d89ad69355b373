// Exports the object JOINED that esbuild injects into the page. tools/pack.py provides the files at these paths. In a worker `script` and
// `loader` are empty, since a worker starts no others.

import module from '../module.gz';
import notices from '../notices.gz';
import own from '../own.gz';

const { textContent: script, loader } = typeof document === 'undefined' ? { textContent: '', loader: '' } : document.currentScript;

export const JOINED = { module, notices, own, script, loader };
