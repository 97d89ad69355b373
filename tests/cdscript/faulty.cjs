// Makes calls of node's `fs` fail. `hit` is called before each with its name and arguments, and may return an error, or 'short' for a read
// or a write of only half of the bytes.

const fs = require('node:fs');

const faults = { hit: () => null };

for (const name of ['open', 'openSync', 'fstatSync', 'read', 'readSync', 'writeSync', 'fsync', 'readdirSync', 'linkSync', 'fsyncSync', 'renameSync', 'closeSync', 'unlinkSync']) {
    const right = fs[name];
    const isRead = name.startsWith('read');
    const isLate = !name.endsWith('Sync');
    fs[name] = (...given) => {
        const fault = faults.hit(name, given);
        if (fault instanceof Error && isLate) return given.pop()(fault);
        if (fault instanceof Error) throw fault;
        if (fault !== 'short') return right(...given);
        const [descriptor, bytes, at, ...rest] = given;
        const size = Math.max(1, Math.floor((isRead ? rest[0] : bytes.length - at) / 2));
        return right(descriptor, bytes, at, size, ...rest.slice(1));
    };
}

/** A system error with this code. */
faults.errorOf = code => Object.assign(new Error(code), { code });

// As a preload: each write to a file takes SLOW milliseconds, or the memory of a thread does not grow.
if (process.env.SLOW !== undefined) {
    const pausing = new Int32Array(new SharedArrayBuffer(4));
    faults.hit = (name, [descriptor]) => {
        if (name === 'writeSync' && descriptor > 2) Atomics.wait(pausing, 0, 0, Number(process.env.SLOW));
        return null;
    };
}

if (process.env.NO_MEMORY !== undefined && !require('node:worker_threads').isMainThread) {
    WebAssembly.Memory.prototype.grow = () => { throw new RangeError('WebAssembly.Memory.grow(): Maximum memory size exceeded'); };
}

// As a preload: the threads read nothing, or a file is truncated before they read. Node 18 loads programs by `readSync` without a position.
const { isMainThread } = require('node:worker_threads');
const readsPlace = (name, given) => name === 'readSync' && typeof given[4] === 'number';
if (!isMainThread && process.env.NO_READS !== undefined) faults.hit = (...call) => readsPlace(...call) ? faults.errorOf('EIO') : null;
if (!isMainThread && process.env.CUT !== undefined) {
    faults.hit = (...call) => {
        if (readsPlace(...call)) fs.truncateSync(process.env.CUT, 8500 * 2352 + 100);
        return null;
    };
}

module.exports = faults;
