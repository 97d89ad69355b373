// Exports the object JOINED that esbuild injects into the command. tools/pack.py provides the files at these paths.

import module from '../module.gz';
import notices from '../notices.gz';

export const JOINED = { file: __filename, module, notices };
