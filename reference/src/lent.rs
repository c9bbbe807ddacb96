//! What a caller lends to the calls, and what a call is told and answers.

use crate::hex::{put, put_bytes, put_numbers, Fields};

pub const WAITING: u8 = 0;
pub const TAKEN: u8 = 1;
pub const DONE: u8 = 2;
pub const FAILED: u8 = 3;
pub const SPOILED: u8 = 4;

/// The number of worker slots passed by value.
pub const SLOTS: usize = 32;

/// N, t and W as told to a call, in range or not.
#[derive(Clone, Copy, Debug, PartialEq, Eq)]
pub struct Sizes {
    pub tiles: u64,
    pub side: u64,
    pub workers: u64,
}

#[derive(Clone, Copy, Debug, PartialEq, Eq)]
pub struct Refusal {
    pub number: u8,
    pub place: u64,
}

pub fn refuse<T>(number: u8, place: u64) -> Result<T, Refusal> {
    Err(Refusal { number, place })
}

#[derive(Clone, Copy, Debug, PartialEq, Eq)]
pub struct Record {
    pub kind: u8,
    pub k: u8,
    pub i: u8,
    pub j: u8,
    pub mark: u8,
    pub tie_sum: u16,
    /// The worker that ended the task.
    pub worker: u8,
    /// The number of the call that took it.
    pub took: u32,
    /// The number of the call that ended it.
    pub ended: u32,
}

#[derive(Clone, Copy, Debug, PartialEq, Eq)]
pub struct Worker {
    pub busy: bool,
    pub task: u16,
    pub column: u8,
}

pub const IDLE: Worker = Worker { busy: false, task: 0, column: 0 };

/// What is lent; of the worker slots as many as the count says, which is a length like the others. The run's number counts the accepted
/// takes and columns.
#[derive(Clone)]
pub struct Lent {
    pub matrix: Vec<f64>,
    pub lists: Vec<u8>,
    pub records: Vec<Record>,
    pub count: u64,
    pub run_number: u32,
    pub workers: [Worker; SLOTS],
}

impl Lent {
    pub fn nothing() -> Lent {
        let (matrix, lists, records) = (Vec::new(), Vec::new(), Vec::new());
        Lent { matrix, lists, records, count: 0, run_number: 0, workers: [IDLE; SLOTS] }
    }

    /// Appends everything lent in the digits of a lend line, without its command.
    pub fn put(&self, out: &mut String) {
        put(out, self.matrix.len() as u64, 8);
        put_numbers(out, &self.matrix);
        put(out, self.lists.len() as u64, 8);
        put_bytes(out, &self.lists);
        put(out, self.records.len() as u64, 8);
        for record in &self.records {
            put_bytes(out, &[record.kind, record.k, record.i, record.j, record.mark]);
            put(out, record.tie_sum as u64, 4);
            put(out, record.worker as u64, 2);
            put(out, record.took as u64, 8);
            put(out, record.ended as u64, 8);
        }
        put(out, self.count, 8);
        put(out, self.run_number as u64, 8);
        for worker in &self.workers {
            put(out, worker.busy as u64, 2);
            put(out, worker.task as u64, 4);
            put(out, worker.column as u64, 2);
        }
    }

    pub fn get(fields: &mut Fields) -> Lent {
        let matrix = fields.counted_numbers();
        let entries = fields.take(8) as usize;
        let lists = fields.bytes(entries);
        let tasks = fields.take(8) as usize;
        let mut records = Vec::new();
        for _ in 0..tasks {
            let b = fields.bytes(5);
            let tie_sum = fields.take(4) as u16;
            let worker = fields.take(2) as u8;
            let took = fields.take(8) as u32;
            let ended = fields.take(8) as u32;
            let [kind, k, i, j, mark] = [b[0], b[1], b[2], b[3], b[4]];
            records.push(Record { kind, k, i, j, mark, tie_sum, worker, took, ended });
        }
        let count = fields.take(8);
        let run_number = fields.take(8) as u32;
        let mut workers = [IDLE; SLOTS];
        for slot in 0..SLOTS {
            let busy = fields.take(2) != 0;
            let task = fields.take(4) as u16;
            let column = fields.take(2) as u8;
            workers[slot] = Worker { busy, task, column };
        }
        Lent { matrix, lists, records, count, run_number, workers }
    }

    /// The digest of everything lent.
    pub fn digest(&self) -> u64 {
        let mut digest = Digest::new();
        digest.matrix(&self.matrix);
        digest.lists(&self.lists);
        digest.mix(self.records.len() as u64);
        for record in &self.records {
            for byte in [record.kind, record.k, record.i, record.j, record.mark] {
                digest.mix(byte as u64);
            }
            digest.mix(record.tie_sum as u64);
            digest.mix(record.worker as u64);
            digest.mix(record.took as u64);
            digest.mix(record.ended as u64);
        }
        digest.mix(self.count);
        digest.mix(self.run_number as u64);
        for worker in &self.workers {
            digest.mix(worker.busy as u64);
            digest.mix(worker.task as u64);
            digest.mix(worker.column as u64);
        }
        digest.value
    }
}

/// A number below 2^32 that depends on all that was mixed into it, in order.
pub struct Digest {
    pub value: u64,
}

impl Digest {
    pub fn new() -> Digest {
        Digest { value: 1 }
    }

    pub fn mix(&mut self, x: u64) {
        self.value = (self.value * 1_000_003 + x) % 4_294_967_291;
    }

    pub fn matrix(&mut self, matrix: &[f64]) {
        self.mix(matrix.len() as u64);
        for number in matrix {
            self.mix(number.to_bits() >> 32);
            self.mix(number.to_bits() & 0xFFFF_FFFF);
        }
    }

    pub fn lists(&mut self, lists: &[u8]) {
        self.mix(lists.len() as u64);
        for &entry in lists {
            self.mix(entry as u64);
        }
    }
}

impl Default for Digest {
    fn default() -> Digest {
        Digest::new()
    }
}
