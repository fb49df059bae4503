//! Job files with the vectors net by net: every kind in every entry, bodies of every length, every count, every kind to
//! write, and files damaged at random. Compared with the model; and what a file of sequential words says, with what the
//! file of parallel words does that has the same content.

mod support;

use fontarelga::raw;
use model::jobfile::{bytes_of, laid_out};
use model::{write_job, Job, Network, AND, OR, PARALLEL, SEQUENTIAL};
use std::collections::BTreeMap;
use support::boards::low_bits;
use support::calls::*;
use support::generator::Generator;
use support::jobs::*;
use support::networks::{each_combination, of_library};

/// Document 01's set and responses, in a file of this kind.
fn paper_job(kind: u64) -> Job {
    let network = Network { nets: 4, level: 1, gate: OR };
    Job { kind, network, k: 4, vectors: vec![0, 1, 2, 4, 8], responses: vec![4, 7, 7, 4, 12] }
}

/// The same without responses.
fn without_responses(kind: u64) -> Job {
    Job { responses: vec![], ..paper_job(kind) }
}

fn bytes(words: &[u64]) -> Vec<u8> {
    words.iter().flat_map(|word| word.to_le_bytes()).collect()
}

/// A body of sequential words.
fn sequential_body(count: u8, words: &[u64]) -> Vec<u8> {
    [vec![count], bytes(words)].concat()
}

/// The file as documents 01 and 02 lay it out, byte by byte. So is the archive's example.
#[test]
fn the_layout() {
    let table: [[u8; 9]; 3] =
        [[1, 32, 0, 0, 0, 4, 0, 0, 0], [4, 36, 0, 0, 0, 33, 0, 0, 0], [3, 69, 0, 0, 0, 40, 0, 0, 0]];
    let body = sequential_body(5, &[2, 4, 8, 16]);
    let file = [b"BSJ3\x03", &table.concat()[..], &[4, 4, 1, 0], &body, &bytes(&[4, 7, 7, 4, 12])].concat();
    assert_eq!(file, include_bytes!("../../examples/archive.job"));
    write_job_gives(&paper_job(SEQUENTIAL), 200, &Ok(file.clone()));
    read_job_gives(&file, 9, 9, &Ok(paper_job(SEQUENTIAL)));
    let job = fontarelga::Job::read(&file).unwrap();
    assert_eq!((job.kind, &job.vectors[..]), (fontarelga::SEQUENTIAL, &[0, 1, 2, 4, 8][..]));
    assert_eq!(job.write(), Ok(file));
    let parallel = fontarelga::Job { kind: fontarelga::PARALLEL, ..job };
    assert_eq!(parallel.write(), Ok(include_bytes!("../../examples/paper.job").to_vec()));
}

/// Every byte as the kind of each entry, with two entries and with three, in files of either kind. Where the second
/// entry has the other's kind, its body is of another length than that kind has.
#[test]
fn every_kind_in_every_entry() {
    let jobs = KINDS.into_iter().flat_map(|kind| [paper_job(kind), without_responses(kind)]);
    for job in jobs {
        let file = bytes_of(&job);
        for (entry, kind) in (0..usize::from(file[4])).flat_map(|entry| (0..=255).map(move |kind| (entry, kind))) {
            let mut changed = file.clone();
            changed[place_of_kind(entry)] = kind;
            let expected = match entry {
                _ if changed == file => Ok(job.clone()),
                1 if KINDS.contains(&kind.into()) => Err(3),
                _ => Err(2),
            };
            assert_eq!(read_agrees(&changed), expected, "entry {entry}, kind {kind}");
        }
    }
}

/// Kinds in another order, twice, or in a place that is not theirs. All bodies have 4 bytes, so where the kinds are
/// right, row 3 holds.
#[test]
fn kinds_out_of_order() {
    let with_kinds = |kinds: &[u8]| {
        let mut file = laid_out(PARALLEL, &vec![vec![2, 2, 1, 0]; kinds.len()]);
        kinds.iter().enumerate().for_each(|(entry, kind)| file[place_of_kind(entry)] = *kind);
        file
    };
    let wrong: [&[u8]; 10] =
        [&[4, 1], &[4, 2], &[1, 3], &[1, 2, 4], &[1, 4, 4], &[1, 4, 2], &[4, 2, 3], &[1, 3, 4], &[4, 4, 4], &[2, 4, 3]];
    wrong.iter().for_each(|kinds| assert_eq!(read_agrees(&with_kinds(kinds)), Err(2), "{kinds:?}"));
    let right: [&[u8]; 4] = [&[1, 2], &[1, 4], &[1, 2, 3], &[1, 4, 3]];
    right.iter().for_each(|kinds| assert_eq!(read_agrees(&with_kinds(kinds)), Err(3), "{kinds:?}"));
}

/// Every length of a body of sequential words: one byte more than a multiple of 8, and then as many words as nets.
#[test]
fn bodies_of_every_length() {
    for net in [2, 3, 4, 9, 47, 48].into_iter().flat_map(each_combination) {
        let nets = vec![net.nets as u8, 1, net.level as u8, net.gate as u8];
        for length in 0..=8 * net.nets as usize + 9 {
            let body = sequential_body(3, &[5; 50])[..length].to_vec();
            let read = read_agrees(&laid_out(SEQUENTIAL, &[nets.clone(), body.clone()])).map(|job| job.vectors);
            let with_responses = laid_out(SEQUENTIAL, &[nets.clone(), body, bytes(&[0, 1, 2])]);
            assert_eq!(read_agrees(&with_responses).map(|job| job.vectors), read);
            let expected = match length % 8 {
                1 if length as u64 / 8 == net.nets => Ok(vec![low_bits(net.nets), 0, low_bits(net.nets)]),
                1 => Err(7),
                _ => Err(3),
            };
            assert_eq!(read, expected, "{net:?}, {length} bytes");
        }
    }
}

/// Files of three nets with this count and these words: without responses, with a response for each vector as far as
/// there may be so many vectors, and with one more, one less and none.
fn try_count(count: u8, words: &[u64; 3], expected: Result<u64, u64>) {
    let read = |responses: Option<usize>| {
        let mut bodies = vec![vec![3, 3, 1, 0], sequential_body(count, words)];
        bodies.extend(responses.map(|length| vec![0; 8 * length]));
        read_agrees(&laid_out(SEQUENTIAL, &bodies)).map(|job| job.vectors.len() as u64)
    };
    let (what, right) = ((count, words), usize::from(count).clamp(1, 64));
    assert_eq!([None, Some(right)].map(read), [expected; 2], "{what:?}");
    assert_eq!([right + 1, right - 1, 0].map(|wrong| read(Some(wrong))), [expected.and(Err(9)); 3], "{what:?}");
}

/// Every count with words that fit and with words that do not: by the highest bit that there may be and by the next, in
/// each word.
#[test]
fn every_count() {
    for count in 0..=255u8 {
        let in_range = (1..=64).contains(&count);
        let fits = if in_range { Ok(count.into()) } else { Err(7) };
        try_count(count, &[0; 3], fits);
        for place in 0..3 {
            let with_bit = |bit: u8| std::array::from_fn(|i| if i == place { 1 << bit } else { 0 });
            try_count(count, &with_bit(count.clamp(1, 64) - 1), fits);
            if count < 64 {
                try_count(count, &with_bit(count), if in_range { Err(8) } else { Err(7) });
                try_count(count, &with_bit(63), if in_range { Err(8) } else { Err(7) });
            }
        }
        try_count(count, &[u64::MAX; 3], if count == 64 { Ok(64) } else { Err(if in_range { 8 } else { 7 }) });
    }
}

/// Row 8 goes by the count and not by the nets: bits at or above n are right in a file of more vectors than nets, and
/// bits below n wrong in one of fewer.
#[test]
fn bits_by_the_count() {
    let read = |n: u8, count: u8, word: u64| {
        let words = vec![word; n.into()];
        read_agrees(&laid_out(SEQUENTIAL, &[vec![n, 1, 1, 0], sequential_body(count, &words)])).map(|job| job.vectors)
    };
    assert_eq!(read(2, 5, 1 << 4), Ok(vec![0, 0, 0, 0, 3]));
    assert_eq!(read(2, 4, 1 << 4), Err(8));
    assert_eq!(read(48, 5, 1 << 4), Ok(vec![0, 0, 0, 0, low_bits(48)]));
    assert_eq!([read(48, 5, 1 << 5), read(48, 5, 1 << 47)], [8; 2].map(Err));
    assert_eq!(read(48, 64, 1 << 63).map(|vectors| vectors[63]), Ok(low_bits(48)));
    assert_eq!(read(48, 63, 1 << 63), Err(8));
}

/// Rows 9 and 12 go by the count, which is not the number of words.
#[test]
fn room_and_responses_by_the_count() {
    let job = Job { vectors: vec![1, 2, 3], responses: vec![0; 3], ..paper_job(SEQUENTIAL) };
    let file = bytes_of(&job);
    read_job_gives(&file, 3, 3, &Ok(job.clone()));
    [(2, 3), (3, 2), (0, 0), (0, 64)].iter().for_each(|(v, r)| read_job_gives(&file, *v, *r, &Err(12)));
    for responses in [0, 1, 2, 4, 5] {
        let bodies = [vec![4, 4, 1, 0], sequential_body(3, &[5, 6, 0, 0]), vec![0; 8 * responses]];
        read_job_gives(&laid_out(SEQUENTIAL, &bodies), 64, 64, &Err(9));
    }
}

/// Each row that a file of sequential words can have, before those after it.
#[test]
fn the_order_of_the_rows() {
    let number = |nets: [u8; 4], body: Vec<u8>| {
        read_agrees(&laid_out(SEQUENTIAL, &[nets.to_vec(), body, vec![255; 16]])).unwrap_err()
    };
    let (too_few, too_high) = (sequential_body(0, &[u64::MAX; 3]), sequential_body(3, &[u64::MAX; 4]));
    assert_eq!(number([1, 0, 2, 2], sequential_body(0, &[9; 3])[1..].to_vec()), 3);
    assert_eq!(number([1, 0, 2, 2], too_few.clone()), 5);
    assert_eq!(number([4, 0, 2, 2], too_few.clone()), 6);
    assert_eq!(number([4, 4, 2, 2], too_few.clone()), 17);
    assert_eq!(number([4, 4, 1, 2], too_few.clone()), 20);
    assert_eq!(number([4, 4, 1, 1], too_few), 7);
    assert_eq!(number([4, 4, 1, 1], too_high), 8);
    assert_eq!(number([4, 4, 1, 1], sequential_body(3, &[7; 4])), 9);
    assert_eq!(number([4, 4, 1, 1], sequential_body(2, &[3; 4])), 10);
    let bodies = |responses: Vec<u8>| [vec![4, 4, 1, 1], sequential_body(2, &[3; 4]), responses];
    read_job_gives(&laid_out(SEQUENTIAL, &bodies(vec![255; 16])), 0, 0, &Err(10));
    read_job_gives(&laid_out(SEQUENTIAL, &bodies(vec![0; 16])), 1, 2, &Err(12));
    read_job_gives(&laid_out(SEQUENTIAL, &bodies(vec![0; 16])), 2, 1, &Err(12));
}

/// Every number as the kind to write, and numbers that are 2 or 4 in fewer bits.
#[test]
fn every_kind_to_write() {
    let others = [256 + 2, 256 + 4, 1 << 16 | 4, 1 << 32 | 2, 1 << 32 | 4, 1 << 63 | 4, u64::MAX - 1, u64::MAX];
    for kind in (0..=255).chain(others) {
        for job in [paper_job(kind), without_responses(kind)] {
            let answer = write_job(&job, 200);
            assert_eq!(answer.as_ref().err().copied(), if KINDS.contains(&kind) { None } else { Some(2) });
            write_job_gives(&job, 200, &answer);
            assert_eq!(library_job(&job).write().map_err(|refusal| refusal.0), answer);
        }
    }
}

/// Row 2 of the writer comes before all its other rows.
#[test]
fn the_kind_to_write_is_tested_first() {
    let worse = |kind: u64, nets: u64| Job {
        kind,
        network: Network { nets, level: 2, gate: 2 },
        k: 0,
        vectors: vec![],
        responses: vec![u64::MAX],
    };
    for nets in [0, 4, 49, u64::MAX] {
        [0, 1, 3, 5, 6, u64::MAX].iter().for_each(|kind| write_job_gives(&worse(*kind, nets), 0, &Err(2)));
        KINDS.iter().for_each(|kind| write_job_gives(&worse(*kind, nets), 0, &Err(if nets == 4 { 6 } else { 5 })));
    }
    [0, 200].iter().for_each(|room| write_job_gives(&paper_job(3), *room, &Err(2)));
}

/// The library's value for a job.
fn library_job(job: &Job) -> fontarelga::Job {
    let Job { kind, network, k, vectors, responses } = job.clone();
    fontarelga::Job { network: of_library(network), class: k, kind, vectors, responses }
}

/// What the library reads from a file, with its lists.
fn read(file: &[u8]) -> (u64, [u64; 64], [u64; 64], [u64; fontarelga::JOB_WORDS]) {
    let (mut vectors, mut responses, mut job) = ([7; 64], [8; 64], [9; fontarelga::JOB_WORDS]);
    let number = raw::read_job(file, &mut vectors, &mut responses, &mut job);
    (number, vectors, responses, job)
}

/// Two files of the same content read the same, but for the kind.
#[test]
fn both_kinds_of_the_same_job() {
    let g = &mut Generator::new(64);
    for _ in 0..2000 {
        let job = random_job(g, PARALLEL);
        let [parallel, sequential] = KINDS.map(|kind| library_job(&of_kind(kind, &job)).write().unwrap());
        let (one, mut other) = (read(&parallel), read(&sequential));
        assert_eq!((one.0, one.3[4], other.3[4]), (0, 2, 4));
        other.3[4] = 2;
        assert_eq!(one, other);
        assert_eq!(sequential.len() + 8 * job.vectors.len(), parallel.len() + 1 + 8 * job.network.nets as usize);
    }
}

/// Makes something wrong in a job, or nothing.
fn spoil(g: &mut Generator, job: &mut Job) {
    match g.below(9) {
        0 => job.network.nets = *g.pick(&[0, 1, 49, 64, u64::MAX]),
        1 => job.k = *g.pick(&[0, 49, u64::MAX]),
        2 => job.network.level = *g.pick(&[2, 256, u64::MAX]),
        3 => job.network.gate = *g.pick(&[2, 256, u64::MAX]),
        4 => job.vectors.resize(*g.pick(&[0, 65, 70]), 0),
        5 => *job.vectors.last_mut().unwrap_or(&mut 0) |= 1 << job.network.nets.min(63),
        6 => job.responses.push(0),
        7 => *job.responses.last_mut().unwrap_or(&mut 0) |= 1 << 63,
        _ => {}
    }
}

/// The writer turns a job away with the same number for both kinds.
#[test]
fn both_kinds_are_refused_alike() {
    let g = &mut Generator::new(65);
    let mut seen = BTreeMap::new();
    for _ in 0..5000 {
        let mut job = random_job(g, PARALLEL);
        (0..2).for_each(|_| spoil(g, &mut job));
        let numbers = KINDS.map(|kind| {
            let job = of_kind(kind, &job);
            let answer = write_job(&job, 2048);
            write_job_gives(&job, 2048, &answer);
            code(&answer)
        });
        assert_eq!(numbers[0], numbers[1], "{job:?}");
        *seen.entry(numbers[0]).or_insert(0) += 1;
    }
    println!("jobs written as both kinds, by number: {seen:?}");
    assert!([0, 5, 6, 17, 20, 7, 8, 9, 10].iter().all(|number| seen.contains_key(number)), "{seen:?}");
}

/// Another kind for the second entry, or bytes put into its body or taken from it, with the table in step.
fn damage_table(g: &mut Generator, file: &mut Vec<u8>) {
    if g.once_in(4) {
        file[place_of_kind(1)] = *g.pick(&[0, 1, 2, 3, 5, 255]);
        return;
    }
    let (start, length) = (taken(file, 1, 0) as usize, taken(file, 1, 1) as usize);
    let new_length = (length + *g.pick(&[0, 1, 7, 8, 9, 16])).saturating_sub(*g.pick(&[0, 1, 8]));
    let mut body = file[start..start + length].to_vec();
    body.resize(new_length, 0);
    file.splice(start..start + length, body);
    put(file, 1, 1, new_length as u32);
    if file[4] == 3 {
        put(file, 2, 0, (start + new_length) as u32);
    }
}

/// A bit turned, a byte changed, all from a byte on cut off, or bytes added. A byte is often one of the first.
fn damage_bytes(g: &mut Generator, file: &mut Vec<u8>) {
    let near = if g.once_in(2) { file.len().min(45) } else { file.len() };
    let place = g.below(near);
    match g.below(8) {
        0 => file.truncate(place),
        1 => file.extend(vec![g.below(256) as u8; 1 + g.below(16)]),
        2..=4 => file[place] = g.below(256) as u8,
        _ => file[place] ^= 1 << g.below(8),
    }
}

/// Files of sequential words whose table or bytes were damaged, or both.
#[test]
fn damaged_at_random() {
    let g = &mut Generator::new(66);
    let mut seen = BTreeMap::new();
    for _ in 0..20_000 {
        let mut file = bytes_of(&random_job(g, SEQUENTIAL));
        if g.once_in(3) {
            damage_table(g, &mut file);
        }
        for _ in 0..g.below(3) {
            if !file.is_empty() {
                damage_bytes(g, &mut file);
            }
        }
        *seen.entry(code(&read_agrees(&file))).or_insert(0) += 1;
    }
    println!("files of sequential words damaged at random, by number: {seen:?}");
    let numbers = [0, 1, 2, 3, 5, 6, 17, 20, 7, 8, 9, 10];
    assert!(numbers.iter().all(|number| seen.contains_key(number)), "{seen:?}");
}

/// The greatest accepted files: 1,060 bytes with parallel words, 933 with sequential ones.
#[test]
fn the_greatest_files() {
    for network in each_combination(48) {
        let job = Job { kind: PARALLEL, network, k: 48, vectors: vec![low_bits(48); 64], responses: vec![0; 64] };
        for (kind, size) in [(PARALLEL, 1060), (SEQUENTIAL, 933)] {
            let (job, room) = (of_kind(kind, &job), size - 1);
            let file = bytes_of(&job);
            assert_eq!(file.len(), size);
            write_job_gives(&job, size, &Ok(file.clone()));
            write_job_gives(&job, room, &Err(12));
            read_job_gives(&file, 64, 64, &Ok(job));
        }
    }
}

/// Bodies of sequential words up to the most bytes of a file.
#[test]
fn files_of_about_2048_bytes() {
    let with_total = |total: usize| laid_out(SEQUENTIAL, &[vec![2, 2, 1, AND as u8], vec![1; total - 27]]);
    for (total, number) in [(2036, 7), (2043, 3), (2044, 7), (2048, 3), (2049, 2), (2052, 2)] {
        assert_eq!((with_total(total).len(), read_agrees(&with_total(total))), (total, Err(number)));
    }
}
