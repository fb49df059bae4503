//! Job files of either kind: written and read back, damaged in every byte, cut at every length, and with sums past
//! 2^32. What is special to sequential words is in the tests of archive files.

mod support;

use model::jobfile::{bytes_of, laid_out};
use model::{write_job, Job, Network, AND, OR, PARALLEL};
use support::boards::{low_bits, state};
use support::calls::*;
use support::generator::Generator;
use support::jobs::*;
use support::networks::{each_combination, of_library, whole_walking_set};

/// A job of parallel words.
fn parallel_job(network: Network, k: u64, vectors: &[u64], responses: &[u64]) -> Job {
    Job { kind: PARALLEL, network, k, vectors: vectors.to_vec(), responses: responses.to_vec() }
}

fn small_jobs() -> [Job; 4] {
    [
        parallel_job(Network { nets: 4, level: 1, gate: OR }, 4, &[0, 1, 2, 4, 8], &[4, 7, 7, 4, 12]),
        parallel_job(Network { nets: 2, level: 0, gate: OR }, 1, &[1, 3], &[]),
        parallel_job(Network { nets: 48, level: 0, gate: AND }, 3, &[1 << 47], &[(1 << 48) - 1]),
        parallel_job(Network { nets: 3, level: 1, gate: AND }, 3, &[6, 5, 3], &[7, 4, 4]),
    ]
}

/// Their files of either kind.
fn small_files() -> Vec<Vec<u8>> {
    let of_each_kind = |job: &Job| KINDS.map(|kind| bytes_of(&of_kind(kind, job)));
    small_jobs().iter().flat_map(of_each_kind).collect()
}

#[test]
fn written_files_are_read_back() {
    let g = &mut Generator::new(7);
    for kind in KINDS.repeat(2000) {
        let job = random_job(g, kind);
        let file = bytes_of(&job);
        let longer = g.below(3);
        write_job_gives(&job, file.len() + longer, &Ok(file.clone()));
        read_job_gives(&file, job.vectors.len() + longer, job.responses.len() + longer, &Ok(job.clone()));
        write_job_gives(&job, file.len() - 1, &Err(12));
        read_job_gives(&file, job.vectors.len() - 1, 64, &Err(12));
        if !job.responses.is_empty() {
            read_job_gives(&file, 64, job.responses.len() - 1, &Err(12));
        }
    }
}

/// Whatever is lent and asked, writer and model agree.
#[test]
fn jobs_that_are_seldom_admitted() {
    let g = &mut Generator::new(8);
    let mut refused = 0;
    for _ in 0..20_000 {
        let n = g.below(52) as u64;
        let k = *g.pick(&[0, 1, 2, 3, 4, 9, n, n + 1]);
        let bits = low_bits(*g.pick(&[n, n, n + 1, 60]));
        let count = *g.pick(&[0, 1, 2, 3, 5, 64, 65]);
        let vectors: Vec<u64> = (0..count).map(|_| g.word() & bits).collect();
        let responses: Vec<u64> = (0..*g.pick(&[0, count, count, count + 1])).map(|_| g.word() & bits).collect();
        let room = *g.pick(&[0, 20, 30, 100, 1059, 1060, 2048]);
        let zero_or_one = [0, 0, 0, 1, 1, 1, 2, u64::MAX];
        let network = Network { nets: n, level: *g.pick(&zero_or_one), gate: *g.pick(&zero_or_one) };
        let job = Job { kind: *g.pick(&[2, 4, 2, 4, 2, 4, 3]), network, k, vectors, responses };
        let answer = write_job(&job, room);
        refused += usize::from(answer.is_err());
        write_job_gives(&job, room, &answer);
        let _ = read_agrees(&bytes_of(&job));
    }
    assert!((1..20_000).contains(&refused));
}

#[test]
fn every_byte_damaged() {
    let (mut cases, mut refused) = (0, 0);
    for file in small_files() {
        for place in 0..file.len() {
            for value in 0..=255 {
                let mut damaged = file.clone();
                damaged[place] = value;
                cases += 1;
                refused += usize::from(read_agrees(&damaged).is_err());
            }
        }
    }
    println!("files with a byte damaged: {cases}, refused: {refused}");
    assert!(refused > 0 && refused < cases);
}

#[test]
fn two_bytes_damaged() {
    let g = &mut Generator::new(9);
    for file in small_files() {
        for _ in 0..20_000 {
            let mut damaged = file.clone();
            for _ in 0..2 {
                let place = g.below(damaged.len());
                damaged[place] = *g.pick(&[0, 1, 2, 3, 4, 8, 16, 23, 32, 255]);
            }
            let _ = read_agrees(&damaged);
        }
    }
}

#[test]
fn cut_and_lengthened() {
    for file in small_files() {
        for length in 0..file.len() {
            assert!(read_agrees(&file[..length]).is_err());
        }
        for more in 1..20 {
            assert_eq!(read_agrees(&[&file[..], &vec![0; more]].concat()), Err(2));
        }
    }
}

/// Bodies of every small length in a right layout, the nets body with the front of these bytes.
#[test]
fn bodies_of_every_length() {
    for nets in (0..=6).map(|length| [2, 2, 1, 0, 0, 0][..length].to_vec()) {
        for vectors in 0..20 {
            let _ = read_agrees(&laid_out(PARALLEL, &[nets.clone(), vec![1; vectors]]));
            for responses in 0..20 {
                let _ = read_agrees(&laid_out(PARALLEL, &[nets.clone(), vec![0; vectors], vec![0; responses]]));
            }
        }
    }
    assert_eq!(read_agrees(&laid_out(PARALLEL, &[vec![2, 2, 1, 0], vec![0; 8], vec![]])), Err(9));
    assert_eq!(read_agrees(&laid_out(PARALLEL, &[vec![2, 2, 1, 0]])), Err(2));
    assert_eq!(read_agrees(&laid_out(PARALLEL, &[vec![2, 2, 1, 0], vec![0; 8], vec![0; 8], vec![]])), Err(2));
}

/// The network that a file with this nets body gives. Its one vector has this in every byte.
fn network_read(nets: &[u8], byte: u8) -> Result<Network, u64> {
    read_agrees(&laid_out(PARALLEL, &[nets.to_vec(), vec![byte; 8]])).map(|job| job.network)
}

/// The nets body: its length, then its level and its gate, and what comes before and after those.
#[test]
fn nets_bodies() {
    for number in 0..=255 {
        for other in [0, 1] {
            let answer = |network: Network, row: u64| if number < 2 { Ok(network) } else { Err(row) };
            let at_level = Network { nets: 2, level: number.into(), gate: other.into() };
            let with_gate = Network { nets: 2, level: other.into(), gate: number.into() };
            assert_eq!(network_read(&[2, 2, number, other], 0), answer(at_level, 17));
            assert_eq!(network_read(&[2, 2, other, number], 0), answer(with_gate, 20));
        }
    }
    let of_another_length: [&[u8]; 5] = [&[], &[2], &[2, 2], &[2, 2, 1], &[2, 2, 1, 0, 0]];
    assert_eq!(of_another_length.map(|nets| network_read(nets, 0)), [Err(3); 5]);
    assert_eq!([[1, 2, 1, 2], [2, 0, 1, 2], [2, 2, 2, 2]].map(|nets| network_read(&nets, 0)), [5, 6, 17].map(Err));
    assert_eq!([network_read(&[2, 2, 2, 1], 255), network_read(&[2, 2, 1, 2], 255)], [17, 20].map(Err));
}

/// Files with the mark BSJ1, whose nets body had no level, and with BSJ2, whose nets body had no gate.
#[test]
fn files_of_older_marks() {
    for (mark, nets) in [(b"BSJ1", vec![2, 2]), (b"BSJ2", vec![2, 2, 1])] {
        let older = laid_out(PARALLEL, &[nets, vec![0; 8]]);
        assert_eq!(read_agrees(&older), Err(3));
        assert_eq!(read_agrees(&[mark, &older[4..]].concat()), Err(1));
        small_files().iter().for_each(|file| assert_eq!(read_agrees(&[mark, &file[4..]].concat()), Err(1)));
    }
}

#[test]
fn files_of_about_2048_bytes() {
    let with_total = |total: usize| laid_out(PARALLEL, &[vec![2, 2, 1, 0], vec![0; total - 27]]);
    assert_eq!(read_agrees(&with_total(2043)), Err(7));
    assert_eq!(read_agrees(&with_total(2048)), Err(3));
    assert_eq!(read_agrees(&with_total(2049)), Err(2));
    assert_eq!(read_agrees(&with_total(2050)), Err(2));
    // Whole words and 2,048 bytes: only a nets body of another length leaves that.
    assert_eq!(read_agrees(&laid_out(PARALLEL, &[vec![2; 9], vec![0; 2016]])), Err(3));
    assert_eq!(read_agrees(&[b"BSJ2", &with_total(2049)[4..]].concat()), Err(1));
    assert_eq!(read_agrees(&vec![b'B'; 5000]), Err(1));
    for net in each_combination(48) {
        let job = parallel_job(net, 48, &[1; 64], &[2; 64]);
        let [parallel, sequential] = KINDS.map(|kind| bytes_of(&of_kind(kind, &job)));
        assert_eq!((parallel.len(), read_agrees(&parallel).is_ok()), (1060, true));
        assert_eq!((sequential.len(), read_agrees(&sequential).is_ok()), (933, true));
    }
}

/// A body longer by `more` than it is and the next one shorter, all modulo 2^32: where the next one is not so long, the
/// sums go past 2^32, and come back to the right places if they wrap.
#[test]
fn sums_past_2_to_the_32() {
    for (file, entry) in small_files()[..2].iter().flat_map(|file| [(file, 0), (file, 1)]) {
        for more in [8, 16, 40, 41, 48, 100, 1 << 31, u32::MAX - 99] {
            let next = taken(file, entry + 1, 1);
            let mut moved = file.clone();
            put(&mut moved, entry, 1, taken(file, entry, 1).wrapping_add(more));
            put(&mut moved, entry + 1, 0, taken(file, entry + 1, 0).wrapping_add(more));
            put(&mut moved, entry + 1, 1, next.wrapping_sub(more));
            let wraps = more > next;
            assert_eq!(read_agrees(&moved) == Err(2), wraps, "{entry} {more}");
        }
    }
}

#[test]
fn offsets_and_lengths_near_the_ends_of_their_range() {
    for (file, entry) in small_files()[..2].iter().flat_map(|file| [(file, 0), (file, 1), (file, 2)]) {
        for field in 0..2 {
            for number in [0, 1, u32::MAX, u32::MAX - 7, u32::MAX - 40, 1 << 31, 0xFFFF, 0x1_0000] {
                let mut changed = file.clone();
                put(&mut changed, entry, field, number);
                assert_eq!(read_agrees(&changed), Err(2), "{entry} {field} {number}");
            }
        }
    }
}

/// Any bytes after the mark, and any bytes at all.
#[test]
fn any_bytes() {
    let g = &mut Generator::new(10);
    for _ in 0..20_000 {
        let length = g.below(80);
        let mut file: Vec<u8> = (0..length).map(|_| *g.pick(&[0, 1, 2, 3, 4, 8, 23, 27, 32, 36, 255])).collect();
        if g.below(10) > 0 {
            file.splice(..file.len().min(4), *b"BSJ3");
        }
        let _ = read_agrees(&file);
    }
}

/// A whole job of a board goes through a file unchanged, by the wrappers.
#[test]
fn a_board_goes_through_a_file() {
    let g = &mut Generator::new(11);
    for case in 0..200 {
        let (net, kind) = (each_combination(48)[case % 4], KINDS[case % 8 / 4]);
        let (network, vectors, board) = (of_library(net), whole_walking_set(net), state(g, &net.into(), 48));
        let responses = fontarelga::respond(network, 48, &vectors, &board).unwrap();
        let job = fontarelga::Job { network, class: 48, kind, vectors, responses };
        let read = fontarelga::Job::read(&job.write().unwrap()).unwrap();
        assert_eq!(read, job);
        assert_eq!(fontarelga::diagnose(read.network, 48, &read.vectors, &read.responses), Ok(board));
    }
}
