//! The job file: reader and writer.

use crate::network::Network;
use crate::rows::{rows_before_vectors, rows_of_responses, rows_of_sequential, rows_of_set, rows_of_vectors, Rows};
use crate::turning::{parallel_words, sequential_words};

const MARK: &[u8] = b"BSJ3";
const MOST_BYTES: usize = 2048;

/// The kind of a body with a parallel word for each vector.
pub const PARALLEL: u64 = 2;
/// The kind of a body with the number of vectors in a byte and then a sequential word for each net.
pub const SEQUENTIAL: u64 = 4;

/// The kinds that each entry of the table may have.
const KINDS: [&[u64]; 3] = [&[1], &[PARALLEL, SEQUENTIAL], &[3]];

/// What a job file holds. The vectors are parallel words, of whichever kind the file is. No third entry and an empty
/// list of responses are told apart by the reader's rows only.
#[derive(Clone, Debug, PartialEq, Eq)]
pub struct Job {
    pub kind: u64,
    pub network: Network,
    pub k: u64,
    pub vectors: Vec<u64>,
    pub responses: Vec<u64>,
}

/// The bodies of a file of right layout, and the kind of the second.
struct Bodies<'a> {
    nets: &'a [u8],
    kind: u64,
    vectors: &'a [u8],
    responses: Option<&'a [u8]>,
}

/// What a file of right layout says, taken as far as its bodies go: missing numbers are 0, and half words are left out.
struct Content {
    kind: u64,
    network: Network,
    k: u64,
    /// How many vectors there are.
    count: u64,
    /// The words of the second body, parallel or sequential ones.
    words: Vec<u64>,
    responses: Vec<u64>,
}

fn number(bytes: &[u8]) -> u64 {
    bytes.iter().rev().fold(0, |number, byte| number * 256 + u64::from(*byte))
}

/// The number in one byte of a body.
fn byte(body: &[u8], place: usize) -> u64 {
    body.get(place).map_or(0, |byte| u64::from(*byte))
}

/// The whole words of a body.
fn words(body: &[u8]) -> Vec<u64> {
    body.chunks_exact(8).map(number).collect()
}

/// The bodies, if count, table, kinds, offsets, lengths and end keep the layout.
fn bodies(file: &[u8]) -> Option<Bodies<'_>> {
    let count = usize::from(*file.get(4)?);
    if count != 2 && count != 3 {
        return None;
    }
    let table = file.get(5..5 + 9 * count)?;
    let mut place = 5 + 9 * count as u64;
    let mut found = Vec::new();
    for (entry, kinds) in table.chunks(9).zip(KINDS) {
        let (offset, length) = (number(&entry[1..5]), number(&entry[5..9]));
        if !kinds.contains(&byte(entry, 0)) || offset != place {
            return None;
        }
        place += length;
        found.push(file.get(offset as usize..place as usize)?);
    }
    if place != file.len() as u64 {
        return None;
    }
    Some(Bodies { nets: found[0], kind: byte(table, 9), vectors: found[1], responses: found.get(2).copied() })
}

/// Row 1.
fn bad_mark(file: &[u8]) -> bool {
    file.get(..4) != Some(MARK)
}

/// Row 2.
fn bad_contents(file: &[u8]) -> bool {
    file.len() > MOST_BYTES || bodies(file).is_none()
}

/// Row 2 of a kind to write.
fn bad_kind(kind: u64) -> bool {
    kind != PARALLEL && kind != SEQUENTIAL
}

/// Row 3.
fn bad_bodies(bodies: &Bodies) -> bool {
    let beyond_words = |body: &[u8]| body.len() % 8;
    let of_vectors = if bodies.kind == SEQUENTIAL { 1 } else { 0 };
    bodies.nets.len() != 4
        || beyond_words(bodies.vectors) != of_vectors
        || bodies.responses.is_some_and(|body| beyond_words(body) != 0)
}

fn content(bodies: &Bodies) -> Content {
    let [nets, k, level, gate] = [0, 1, 2, 3].map(|place| byte(bodies.nets, place));
    let (count, words) = match bodies.kind {
        SEQUENTIAL => (byte(bodies.vectors, 0), words(bodies.vectors.get(1..).unwrap_or(&[]))),
        _ => (bodies.vectors.len() as u64 / 8, words(bodies.vectors)),
    };
    let responses = self::words(bodies.responses.unwrap_or(&[]));
    Content { kind: bodies.kind, network: Network { nets, level, gate }, k, count, words, responses }
}

impl Content {
    /// Rows 7 and 8.
    fn rows_of_vectors(&self) -> Rows<'_> {
        match self.kind {
            SEQUENTIAL => rows_of_sequential(self.network.nets, self.count, &self.words),
            _ => rows_of_vectors(self.network.nets, &self.words),
        }
    }

    fn job(&self) -> Job {
        let vectors = match self.kind {
            SEQUENTIAL => parallel_words(self.count, &self.words),
            _ => self.words.clone(),
        };
        Job { kind: self.kind, network: self.network, k: self.k, vectors, responses: self.responses.clone() }
    }
}

/// The reader's rows on a file. Rows 3 to 12 are asked of files whose table names bodies; else they are taken not to
/// hold. `then` is given the rows and what the file says.
fn with_rows<T>(
    file: &[u8],
    vector_room: usize,
    response_room: usize,
    then: impl Fn(&Rows, Option<&Content>) -> T,
) -> T {
    let rows = Rows::new().row(1, || bad_mark(file)).row(2, || bad_contents(file));
    let Some(bodies) = bodies(file) else { return then(&rows, None) };
    let read = content(&bodies);
    let rows = rows.row(3, || bad_bodies(&bodies));
    let rows = rows.then(rows_before_vectors(read.network, read.k)).then(read.rows_of_vectors());
    let rows = match bodies.responses {
        Some(_) => rows.then(rows_of_responses(read.network.nets, read.count as usize, &read.responses)),
        None => rows,
    };
    let rows = rows.row(12, || (vector_room as u64) < read.count || response_room < read.responses.len());
    then(&rows, Some(&read))
}

/// The reader's rows that hold, in order.
pub fn reader_rows_holding(file: &[u8], vector_room: usize, response_room: usize) -> Vec<u64> {
    with_rows(file, vector_room, response_room, |rows, _| rows.holding())
}

/// The call *read a job file*.
pub fn read_job(file: &[u8], vector_room: usize, response_room: usize) -> Result<Job, u64> {
    with_rows(file, vector_room, response_room, |rows, read| {
        rows.admit()?;
        Ok(read.expect("a file without bodies is 2").job())
    })
}

/// The bytes of a job, in the layout that documents 01 and 02 give. Of each number the low byte is taken, and of the
/// vectors that go into sequential words the first 64, since a word has no more bits. A kind that is neither is laid
/// out as that of parallel words.
pub fn bytes_of(job: &Job) -> Vec<u8> {
    let net = job.network;
    let mut bodies =
        vec![[net.nets, job.k, net.level, net.gate].map(|number| number as u8).to_vec(), vectors_body(job)];
    if !job.responses.is_empty() {
        bodies.push(bytes(&job.responses));
    }
    laid_out(job.kind, &bodies)
}

/// The second body.
fn vectors_body(job: &Job) -> Vec<u8> {
    if job.kind != SEQUENTIAL {
        return bytes(&job.vectors);
    }
    let (nets, held) = (job.network.nets as u8, job.vectors.len().min(64));
    let words = sequential_words(nets.into(), &job.vectors[..held]);
    [vec![job.vectors.len() as u8], bytes(&words)].concat()
}

fn bytes(words: &[u64]) -> Vec<u8> {
    words.iter().flat_map(|word| word.to_le_bytes()).collect()
}

/// Mark, count, table and bodies, whatever the bodies are. The second has this kind.
pub fn laid_out(kind: u64, bodies: &[Vec<u8>]) -> Vec<u8> {
    let mut file = MARK.to_vec();
    file.push(bodies.len() as u8);
    let mut offset = 5 + 9 * bodies.len() as u32;
    for (body, place) in bodies.iter().zip(1u8..) {
        file.push(if place == 2 { kind as u8 } else { place });
        file.extend(offset.to_le_bytes());
        file.extend((body.len() as u32).to_le_bytes());
        offset += body.len() as u32;
    }
    bodies.iter().for_each(|body| file.extend(body));
    file
}

pub fn rows_of_write_job(job: &Job, room: usize) -> Rows<'_> {
    let Job { kind, network, k, vectors, responses } = job;
    let rows = Rows::new().row(2, || bad_kind(*kind)).then(rows_of_set(*network, *k, vectors));
    let rows = match &responses[..] {
        [] => rows,
        _ => rows.then(rows_of_responses(network.nets, vectors.len(), responses)),
    };
    rows.row(12, move || room < bytes_of(job).len())
}

/// The call *write a job file*.
pub fn write_job(job: &Job, room: usize) -> Result<Vec<u8>, u64> {
    rows_of_write_job(job, room).admit()?;
    Ok(bytes_of(job))
}

#[cfg(test)]
mod tests {
    use super::*;
    use crate::network::{each_combination, AND, OR};

    /// Document 01's job, with this network and in a file of this kind.
    fn paper_job(kind: u64, network: Network) -> Job {
        Job { kind, network, k: 4, vectors: vec![0, 1, 2, 4, 8], responses: vec![4, 7, 7, 4, 12] }
    }

    #[test]
    fn a_written_job_is_read() {
        let nets_bodies = [[4, 4, 0, 0], [4, 4, 1, 0], [4, 4, 0, 1], [4, 4, 1, 1]];
        for (network, nets) in each_combination(4).into_iter().zip(nets_bodies) {
            for (kind, size) in [(PARALLEL, 5 + 27 + 4 + 80), (SEQUENTIAL, 5 + 27 + 4 + 33 + 40)] {
                let job = paper_job(kind, network);
                let file = write_job(&job, 2048).unwrap();
                assert_eq!((file.len(), &file[32..36]), (size, &nets[..]));
                assert_eq!(read_job(&file, 5, 5), Ok(job.clone()));
                assert_eq!([read_job(&file, 4, 5), read_job(&file, 5, 4)], [12; 2].map(Err));
                assert_eq!([write_job(&job, size), write_job(&job, size - 1)], [Ok(file), Err(12)]);
                let shorter = Job { responses: vec![], ..job };
                assert_eq!(read_job(&write_job(&shorter, 2048).unwrap(), 5, 0), Ok(shorter));
            }
        }
    }

    /// The file of sequential words, entry by entry and byte by byte.
    #[test]
    fn sequential_words_in_a_file() {
        let file = write_job(&paper_job(SEQUENTIAL, Network { nets: 4, level: 1, gate: OR }), 2048).unwrap();
        assert_eq!(file[..5], *b"BSJ3\x03");
        assert_eq!(file[5..14], [1, 32, 0, 0, 0, 4, 0, 0, 0]);
        assert_eq!(file[14..23], [4, 36, 0, 0, 0, 33, 0, 0, 0]);
        assert_eq!(file[23..32], [3, 69, 0, 0, 0, 40, 0, 0, 0]);
        assert_eq!((&file[32..37], words(&file[37..69])), (&[4, 4, 1, 0, 5][..], vec![2, 4, 8, 16]));
        assert_eq!((words(&file[69..]), file.len()), (vec![4, 7, 7, 4, 12], 109));
    }

    #[test]
    fn a_kind_that_is_neither() {
        let job = paper_job(PARALLEL, Network { nets: 4, level: 1, gate: OR });
        let write = |kind: u64| write_job(&Job { kind, ..job.clone() }, 2048);
        assert_eq!([0, 1, 3, 5, 256 + 2, (1 << 32) + 4, u64::MAX].map(write), [2; 7].map(Err));
        let nothing = Job { kind: 3, network: Network { nets: 0, level: 2, gate: 2 }, k: 0, vectors: vec![], ..job };
        assert_eq!(write_job(&nothing, 0), Err(2));
    }

    /// A file of two nets without responses, with this body of sequential words.
    fn read_sequential(body: &[u8]) -> Result<Vec<u64>, u64> {
        read_job(&laid_out(SEQUENTIAL, &[vec![2, 1, 1, 0], body.to_vec()]), 64, 64).map(|job| job.vectors)
    }

    #[test]
    fn bodies_of_sequential_words() {
        let body = |count: u8, words: &[u64]| [vec![count], bytes(words)].concat();
        assert_eq!(read_sequential(&body(3, &[6, 1])), Ok(vec![2, 1, 1]));
        assert_eq!(read_sequential(&body(64, &[1 << 63, 0])).map(|vectors| vectors[63]), Ok(1));
        let lengths = [0, 1, 2, 8, 9, 10, 16, 17, 18, 25].map(|length| read_sequential(&vec![1; length]).err());
        assert_eq!(lengths, [3, 7, 3, 3, 7, 3, 3, 8, 3, 7].map(Some));
        assert_eq!([0, 65, 255].map(|count| read_sequential(&body(count, &[0, 0]))), [7; 3].map(Err));
        assert_eq!(
            [(2, 4), (1, 2), (63, 1 << 63)].map(|(v, word)| read_sequential(&body(v, &[0, word]))),
            [8; 3].map(Err)
        );
    }

    /// The kind of sequential words in each place, and the others in its place.
    #[test]
    fn kinds_of_entries() {
        let file = bytes_of(&paper_job(SEQUENTIAL, Network { nets: 4, level: 1, gate: OR }));
        let with_kind = |entry: usize, kind: u8| {
            let mut changed = file.clone();
            changed[5 + 9 * entry] = kind;
            read_job(&changed, 64, 64).map(|job| job.kind)
        };
        assert_eq!([0, 2].map(|entry| with_kind(entry, 4)), [2; 2].map(Err));
        assert_eq!([0, 1, 3, 5, 255].map(|kind| with_kind(1, kind)), [2; 5].map(Err));
        assert_eq!([2, 4].map(|kind| with_kind(1, kind)), [Err(3), Ok(4)]);
    }

    #[test]
    fn a_nets_body_of_another_length_level_or_gate() {
        let read =
            |nets: &[u8]| read_job(&laid_out(PARALLEL, &[nets.to_vec(), bytes(&[1])]), 64, 64).map(|job| job.network);
        assert_eq!(read(&[3, 1, 0, 0]), Ok(Network { nets: 3, level: 0, gate: OR }));
        assert_eq!(read(&[3, 1, 0, 1]), Ok(Network { nets: 3, level: 0, gate: AND }));
        assert_eq!([read(&[3, 1]), read(&[3, 1, 1]), read(&[3, 1, 1, 1, 1])], [Err(3); 3]);
        assert_eq!([read(&[3, 4, 2, 2]), read(&[3, 1, 2, 2]), read(&[3, 1, 1, 2])], [6, 17, 20].map(Err));
    }

    #[test]
    fn a_third_entry_of_length_0_is_9() {
        let file = laid_out(PARALLEL, &[vec![2, 1, 1, 0], bytes(&[1]), vec![]]);
        assert_eq!(read_job(&file, 64, 64), Err(9));
    }

    #[test]
    fn a_file_without_its_mark_is_1_at_any_length() {
        assert_eq!(read_job(b"BSJ", 0, 0), Err(1));
        assert_eq!(read_job(&[0; 5000], 0, 0), Err(1));
        assert_eq!([b"BSJ1", b"BSJ2", b"BSJ4"].map(|mark| read_job(mark, 0, 0)), [1; 3].map(Err));
        assert_eq!(read_job(b"BSJ3", 0, 0), Err(2));
    }
}
