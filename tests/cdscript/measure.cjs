// As a preload of a process: writes its CPU seconds and its memory in MB to the file MEASURED when it ends.

const { writeFileSync } = require('node:fs');

if (require('node:worker_threads').isMainThread) {
    process.on('exit', () => {
        const { userCPUTime, systemCPUTime, maxRSS } = process.resourceUsage();
        writeFileSync(process.env.MEASURED, JSON.stringify({ seconds: (userCPUTime + systemCPUTime) / 1e6, memory: maxRSS / 1024 }));
    });
}
