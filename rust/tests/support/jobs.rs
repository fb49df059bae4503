//! Jobs, and files of either kind.

use super::boards::low_bits;
use super::calls::{read_job_gives, Answer};
use super::generator::Generator;
use super::networks::each_combination;
use model::{read_job, Job, PARALLEL, SEQUENTIAL};

/// The kinds of job files.
pub const KINDS: [u64; 2] = [PARALLEL, SEQUENTIAL];

/// The job in a file of another kind.
pub fn of_kind(kind: u64, job: &Job) -> Job {
    Job { kind, ..job.clone() }
}

/// Reads with lists long enough for any job, and compares.
pub fn read_agrees(file: &[u8]) -> Answer<Job> {
    let answer = read_job(file, 70, 70);
    read_job_gives(file, 70, 70, &answer);
    answer
}

/// A job that is admitted, of this kind: any words below 2^n, with responses or without.
pub fn random_job(g: &mut Generator, kind: u64) -> Job {
    let n = 2 + g.below(47) as u64;
    let classes = if n <= 10 { (1..=n).collect() } else { vec![1, 2, 3, n] };
    let count = 1 + g.below(64);
    let words = |g: &mut Generator| (0..count).map(|_| g.word() & low_bits(n)).collect::<Vec<u64>>();
    let vectors = words(g);
    let responses = if g.once_in(3) { vec![] } else { words(g) };
    Job { kind, network: *g.pick(&each_combination(n)), k: *g.pick(&classes), vectors, responses }
}

/// Where the table's entry has its kind.
pub fn place_of_kind(entry: usize) -> usize {
    5 + 9 * entry
}

/// Where the table's entry has its offset (field 0) or its length (field 1).
fn place_of_field(entry: usize, field: usize) -> usize {
    place_of_kind(entry) + 1 + 4 * field
}

/// Puts a number into entry `entry` of the table: its offset (field 0) or its length (field 1).
pub fn put(file: &mut [u8], entry: usize, field: usize, number: u32) {
    file[place_of_field(entry, field)..][..4].copy_from_slice(&number.to_le_bytes());
}

pub fn taken(file: &[u8], entry: usize, field: usize) -> u32 {
    u32::from_le_bytes(file[place_of_field(entry, field)..][..4].try_into().unwrap())
}
