// Workers, and the distribution of jobs over ranges of sectors among them.

export {
    Pool, UNREAD, localWorker, serving, transfersOf, type Job, type JobName, type JobTable, type Jobs, type Message, type PoolWorker,
    type Reply, type Shared, type Sharer, type Sharing,
} from './pool.js';
