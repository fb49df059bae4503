//! The table "Where a call is turned away": every row of every call, and every two rows of a call at once.
//!
//! For each call there are inputs of each gate and soft level that are accepted, those of calls that take receivers
//! with one receiver a net and with more, and for each row some ways to make it hold. Every way is tried alone, and
//! every two together. The model says which rows then hold; the library must return the first of them, and leave all
//! lists as they were.

mod support;

use model::board::{own_receivers, rows_of_own_receivers};
use model::chain::{rows_of_read_clocks, rows_of_write_clocks};
use model::checker::rows_of_check;
use model::diagnosis::{rows_of_diagnose, rows_of_findings};
use model::jobfile::{laid_out, reader_rows_holding, rows_of_write_job};
use model::responding::{respond, rows_of_respond};
use model::session::{rows_of_begin, rows_of_first_answers, rows_of_second_answers};
use model::shortening::rows_of_shorten;
use model::turning::{rows_of_turn, rows_of_turn_back, sequential_words};
use model::{check, diagnose, findings, read_clocks, read_job, shorten, turn, turn_back, write_clocks, write_job};
use model::{Board, Chain, Job, Network, Record, AND, OR, PARALLEL, SEQUENTIAL};
use std::collections::BTreeSet;
use support::calls::*;
use support::networks::each_combination;
use support::session::{session_call_gives, Call};

const HIGH: u64 = 1 << 63;

/// A way to make a row hold.
type Way<I> = (u64, fn(&mut I));

/// A call's table: its rows in order, accepted inputs, and ways to make each row hold.
struct Table<I> {
    rows: &'static [u64],
    accepted: Vec<I>,
    ways: Vec<Way<I>>,
}

impl<I: Clone> Table<I> {
    /// `holding` gives the rows that hold; `make` makes the call and compares it with the refusal that it is given.
    fn try_all(&self, holding: impl Fn(&I) -> Vec<u64>, make: impl Fn(&I, Option<u64>)) {
        let tried = |input: &I| {
            let rows = holding(input);
            make(input, rows.first().copied());
            rows
        };
        for accepted in &self.accepted {
            assert!(tried(accepted).is_empty());
            self.try_alone(accepted, tried);
            self.try_together(accepted, tried);
        }
        let inputs = self.accepted.len() * (1 + self.ways.len() + self.ways.len().pow(2));
        println!("rows {:?}: {inputs} inputs", self.rows);
    }

    /// Every way alone makes its row hold.
    fn try_alone(&self, accepted: &I, tried: impl Fn(&I) -> Vec<u64>) {
        for (row, way) in &self.ways {
            assert!(tried(&changed(accepted, &[*way])).contains(row), "row {row} does not hold");
        }
    }

    /// Every two ways.
    fn try_together(&self, accepted: &I, tried: impl Fn(&I) -> Vec<u64>) {
        let mut together = BTreeSet::new();
        let pairs = self.ways.iter().flat_map(|one| self.ways.iter().map(move |other| (one, other)));
        for ((row, way), (other, other_way)) in pairs {
            let rows = tried(&changed(accepted, &[*way, *other_way]));
            if rows.contains(row) && rows.contains(other) {
                together.insert((rows[0], *row));
                together.insert((rows[0], *other));
            }
        }
        self.assert_all_tried(&together);
    }

    /// Every row was returned, and every two rows held at once with no earlier one. There are no two rows of a call
    /// that cannot.
    fn assert_all_tried(&self, together: &BTreeSet<(u64, u64)>) {
        for (i, row) in self.rows.iter().enumerate() {
            assert!(together.contains(&(*row, *row)), "row {row} was never the first");
            for later in &self.rows[i + 1..] {
                assert!(together.contains(&(*row, *later)), "rows {row} and {later} were not tried at once");
            }
        }
    }
}

fn changed<I: Clone>(input: &I, ways: &[fn(&mut I)]) -> I {
    let mut input = input.clone();
    ways.iter().for_each(|way| way(&mut input));
    input
}

/// The answer as it must be: the model's, which must be the first of the rows that hold.
fn by_rows<T>(answer: Result<T, u64>, first: Option<u64>) -> Result<T, u64> {
    assert_eq!(answer.as_ref().err().copied(), first);
    answer
}

/// What the calls on test sets take and are lent. The kind is for the writer.
#[derive(Clone)]
struct Set {
    kind: u64,
    board: Board,
    k: u64,
    vectors: Vec<u64>,
    responses: Vec<u64>,
    state: Vec<u64>,
    room: usize,
}

/// Three nets with one receiver each, class 3, nets 0 and 1 tied and net 2 floating, with this much room.
fn accepted_sets(room: usize) -> Vec<Set> {
    let accepted = |net: Network| {
        let (vectors, responses) = tied_and_floating(net);
        Set { kind: PARALLEL, board: net.into(), k: 3, vectors, responses, state: vec![3, 3, 0], room }
    };
    each_combination(3).map(accepted).to_vec()
}

/// The same, and the same with a second receiver on net 1, which reads what the first one does.
fn accepted_boards(room: usize) -> Vec<Set> {
    let with_another = |mut set: Set| {
        set.board.owners.push(1);
        set.state.push(3);
        set.responses.iter_mut().for_each(|word| *word |= (*word & 2) << 2);
        set
    };
    accepted_sets(room).into_iter().flat_map(|set| [set.clone(), with_another(set)]).collect()
}

/// The gate's extra vector and walking vectors, and what they answer to them.
fn tied_and_floating(net: Network) -> (Vec<u64>, Vec<u64>) {
    let (vectors, responses) = match (net.gate, net.level) {
        (OR, 0) => ([0, 1, 2, 4], [0, 3, 3, 0]),
        (OR, _) => ([0, 1, 2, 4], [4, 7, 7, 4]),
        (_, 0) => ([7, 6, 5, 3], [3, 0, 0, 3]),
        _ => ([7, 6, 5, 3], [7, 4, 4, 7]),
    };
    (vectors.to_vec(), responses.to_vec())
}

/// Ways for row 5.
fn net_count_ways() -> Vec<Way<Set>> {
    vec![
        (5, |i| i.board.network.nets = 0),
        (5, |i| i.board.network.nets = 1),
        (5, |i| i.board.network.nets = 49),
        (5, |i| i.board.network.nets = 64),
        (5, |i| i.board.network.nets = u64::MAX),
    ]
}

/// Ways for row 21: each clause of it.
fn receiver_ways() -> Vec<Way<Set>> {
    vec![
        (21, |i| i.board.owners.truncate(2)),
        (21, |i| i.board.owners.clear()),
        (21, |i| i.board.owners.resize(65, 0)),
        (21, |i| *i.board.owners.first_mut().unwrap_or(&mut 0) = 3),
        (21, |i| *i.board.owners.last_mut().unwrap_or(&mut 0) = u64::MAX),
        (21, |i| i.board.owners.iter_mut().for_each(|owner| *owner = (*owner).min(1))),
    ]
}

/// Ways for rows 17 and 20.
fn level_and_gate_ways() -> Vec<Way<Set>> {
    vec![
        (17, |i| i.board.network.level = 2),
        (17, |i| i.board.network.level = u64::MAX),
        (20, |i| i.board.network.gate = 2),
        (20, |i| i.board.network.gate = 256),
        (20, |i| i.board.network.gate = u64::MAX),
    ]
}

/// Ways for row 6.
fn class_ways() -> Vec<Way<Set>> {
    vec![
        (6, |i| i.k = 0),
        (6, |i| i.k = 4),
        (6, |i| i.k = 49),
        (6, |i| i.k = u64::MAX),
        (6, |i| (i.board.network.nets, i.k) = (2, 3)),
        (6, |i| (i.board, i.k) = (Network { nets: 11, ..i.board.network }.into(), 4)),
    ]
}

/// Ways for rows 7 and 8.
fn vector_ways() -> Vec<Way<Set>> {
    vec![
        (7, |i| (i.vectors, i.responses) = (vec![], vec![])),
        (7, |i| {
            i.vectors.resize(65, 0);
            i.responses.resize(65, 4);
        }),
        (8, |i| i.vectors.iter_mut().for_each(|word| *word |= 8)),
        (8, |i| i.vectors.iter_mut().for_each(|word| *word |= HIGH)),
        (8, |i| *i.vectors.last_mut().unwrap_or(&mut 0) |= HIGH),
    ]
}

/// Ways for rows 5, 6, 17, 20, 7 and 8.
fn set_ways() -> Vec<Way<Set>> {
    [net_count_ways(), class_ways(), level_and_gate_ways(), vector_ways()].concat()
}

/// Ways for rows 9 and 10. The lowest bit that is too high is that of the number of receivers.
fn response_ways() -> Vec<Way<Set>> {
    vec![
        (9, |i| i.responses.truncate(3)),
        (9, |i| i.responses.push(0)),
        (10, |i| i.responses.iter_mut().for_each(|word| *word |= 1 << i.board.receivers().min(63))),
        (10, |i| *i.responses.last_mut().unwrap_or(&mut 0) |= HIGH),
    ]
}

/// Ways for row 11: each clause of it.
fn state_ways() -> Vec<Way<Set>> {
    vec![
        (11, |i| i.state.truncate(2)),
        (11, |i| i.state.push(0)),
        (11, |i| i.state[0] = 8),
        (11, |i| *i.state.last_mut().unwrap() = HIGH),
        (11, |i| i.state[..2].copy_from_slice(&[1, 3])),
        (11, |i| *i.state.last_mut().unwrap() = 6),
    ]
}

#[test]
fn checker() {
    let table = Table { rows: &[5, 6, 17, 20, 7, 8], accepted: accepted_sets(0), ways: set_ways() };
    table.try_all(
        |i| rows_of_check(i.board.network, i.k, &i.vectors).holding(),
        |i, first| {
            let net = i.board.network;
            check_gives(net, i.k, &i.vectors, &by_rows(check(net, i.k, &i.vectors), first))
        },
    );
}

#[test]
fn own_receivers_of_a_network() {
    let room: Vec<Way<Set>> = vec![(12, |i| i.room = 2), (12, |i| i.room = 0)];
    let table = Table { rows: &[5, 12], accepted: accepted_sets(3), ways: [net_count_ways(), room].concat() };
    table.try_all(
        |i| rows_of_own_receivers(i.board.network.nets, i.room).holding(),
        |i, first| {
            let n = i.board.network.nets;
            own_receivers_gives(n, i.room, &by_rows(own_receivers(n, i.room), first))
        },
    );
}

#[test]
fn turning() {
    let room: Vec<Way<Set>> = vec![(12, |i| i.room = 2), (12, |i| i.room = 0)];
    let ways = [net_count_ways(), vector_ways(), room].concat();
    let table = Table { rows: &[5, 7, 8, 12], accepted: accepted_sets(3), ways };
    table.try_all(
        |i| rows_of_turn(i.board.network.nets, &i.vectors, i.room).holding(),
        |i, first| {
            let n = i.board.network.nets;
            turn_gives(n, &i.vectors, i.room, &by_rows(turn(n, &i.vectors, i.room), first))
        },
    );
}

/// What *turn back* takes and is lent.
#[derive(Clone)]
struct Turned {
    n: u64,
    count: u64,
    words: Vec<u64>,
    room: usize,
}

#[test]
fn turning_back() {
    let ways: Vec<Way<Turned>> = vec![
        (5, |i| i.n = 0),
        (5, |i| i.n = 1),
        (5, |i| i.n = 49),
        (5, |i| i.n = u64::MAX),
        (7, |i| i.count = 0),
        (7, |i| i.count = 65),
        (7, |i| i.count = 256 + 4),
        (7, |i| i.count = u64::MAX),
        (7, |i| i.words.truncate(2)),
        (7, |i| i.words.clear()),
        (7, |i| i.words.push(1)),
        (7, |i| i.words.resize(65, 1)),
        (8, |i| i.words.iter_mut().for_each(|word| *word |= 16)),
        (8, |i| *i.words.last_mut().unwrap_or(&mut 0) |= HIGH),
        (8, |i| *i.words.first_mut().unwrap_or(&mut 0) |= HIGH),
        (12, |i| i.room = 3),
        (12, |i| i.room = 0),
    ];
    let accepted = vec![Turned { n: 3, count: 4, words: vec![2, 4, 8], room: 4 }];
    let table = Table { rows: &[5, 7, 8, 12], accepted, ways };
    table.try_all(
        |i| rows_of_turn_back(i.n, i.count, &i.words, i.room).holding(),
        |i, first| {
            let answer = by_rows(turn_back(i.n, i.count, &i.words, i.room), first);
            turn_back_gives(i.n, i.count, &i.words, i.room, &answer)
        },
    );
}

/// What the calls on a chain take and are lent. The vectors are for the writer, their number and the TDO bytes for the
/// reader.
#[derive(Clone)]
struct Clocked {
    board: Board,
    chain: Chain,
    vectors: Vec<u64>,
    count: u64,
    tdo: Vec<u8>,
    room: usize,
}

/// Three nets with one receiver each, and with a second one on net 1, in the least cells, in more and in the most; four
/// vectors, and what TDO may be. The writer's room is a byte for each clock, the reader's a word for each vector.
fn accepted_clocks(room: impl Fn(usize) -> usize) -> Vec<Clocked> {
    let accepted = |network: Network, owners: &[u64], cells: u64| {
        let used: Vec<u64> = (cells - 3 - owners.len() as u64..cells).rev().collect();
        let chain = Chain { cells, drivers: used[..3].to_vec(), receivers: used[3..].to_vec() };
        let board = Board { network, owners: owners.to_vec() };
        let clocks = 5 * (cells as usize + 5);
        let tdo = (0..clocks).map(|clock| (clock % 3 % 2) as u8).collect();
        Clocked { board, chain, vectors: vec![0, 1, 2, 4], count: 4, tdo, room: room(clocks) }
    };
    let boards = [(&[0, 1, 2][..], 6), (&[0, 1, 2, 1], 7), (&[2, 0, 1], 9), (&[0, 1, 2, 1], 200)];
    let of_network = |network: Network| boards.map(|(owners, cells)| accepted(network, owners, cells));
    each_combination(3).into_iter().flat_map(of_network).collect()
}

/// Ways for rows 5 and 21, and for each clause of row 18. No level and no gate is refused.
fn chain_ways() -> Vec<Way<Clocked>> {
    vec![
        (5, |i| i.board.network.nets = 0),
        (5, |i| i.board.network.nets = 1),
        (5, |i| i.board.network.nets = 49),
        (5, |i| i.board.network.nets = u64::MAX),
        (5, |i| i.board.network = Network { nets: 64, level: 2, gate: 2 }),
        (21, |i| i.board.owners.truncate(2)),
        (21, |i| i.board.owners.clear()),
        (21, |i| i.board.owners.resize(65, 0)),
        (21, |i| *i.board.owners.first_mut().unwrap_or(&mut 0) = 3),
        (21, |i| *i.board.owners.last_mut().unwrap_or(&mut 0) = u64::MAX),
        (21, |i| i.board.owners.iter_mut().for_each(|owner| *owner = (*owner).min(1))),
        (18, |i| i.chain.cells = 0),
        (18, |i| i.chain.cells = 1),
        (18, |i| i.chain.cells = 3),
        (18, |i| i.chain.cells = 201),
        (18, |i| i.chain.cells = i.chain.cells.wrapping_add(256)),
        (18, |i| i.chain.cells = i.chain.cells.wrapping_add(1 << 32)),
        (18, |i| i.chain.cells = u64::MAX),
        (18, |i| i.chain.cells = i.chain.cells.wrapping_sub(1)),
        (18, |i| i.chain.drivers.truncate(2)),
        (18, |i| i.chain.drivers.clear()),
        (18, |i| i.chain.drivers.push(0)),
        (18, |i| i.chain.receivers.truncate(2)),
        (18, |i| i.chain.receivers.clear()),
        (18, |i| i.chain.receivers.push(0)),
        (18, |i| *i.chain.drivers.first_mut().unwrap_or(&mut 0) = i.chain.cells),
        (18, |i| *i.chain.drivers.last_mut().unwrap_or(&mut 0) = u64::MAX),
        (18, |i| *i.chain.receivers.first_mut().unwrap_or(&mut 0) = i.chain.cells),
        (18, |i| *i.chain.receivers.last_mut().unwrap_or(&mut 0) = u64::MAX),
        (18, |i| i.chain.drivers.fill(1)),
        (18, |i| i.chain.receivers.fill(1)),
        (18, |i| *i.chain.receivers.last_mut().unwrap_or(&mut 0) = *i.chain.drivers.last().unwrap_or(&0)),
    ]
}

#[test]
fn clock_writer() {
    let own: Vec<Way<Clocked>> = vec![
        (7, |i| i.vectors.clear()),
        (7, |i| i.vectors.resize(65, 0)),
        (8, |i| i.vectors.iter_mut().for_each(|word| *word |= 8)),
        (8, |i| *i.vectors.last_mut().unwrap_or(&mut 0) |= HIGH),
        (8, |i| *i.vectors.first_mut().unwrap_or(&mut 0) |= HIGH),
        (12, |i| i.room = i.room.saturating_sub(1)),
        (12, |i| i.room = 0),
    ];
    let accepted = accepted_clocks(|clocks| clocks);
    let table = Table { rows: &[5, 21, 7, 8, 18, 12], accepted, ways: [chain_ways(), own].concat() };
    table.try_all(
        |i| rows_of_write_clocks(&i.board, &i.chain, &i.vectors, i.room).holding(),
        |i, first| {
            let answer = by_rows(write_clocks(&i.board, &i.chain, &i.vectors, i.room), first);
            write_clocks_gives(&i.board, &i.chain, &i.vectors, i.room, &answer)
        },
    );
}

#[test]
fn clock_reader() {
    let own: Vec<Way<Clocked>> = vec![
        (7, |i| i.count = 0),
        (7, |i| i.count = 65),
        (7, |i| i.count = 256 + 4),
        (7, |i| i.count = u64::MAX),
        (19, |i| _ = i.tdo.pop()),
        (19, |i| i.tdo.push(0)),
        (19, |i| i.tdo.clear()),
        (19, |i| i.tdo.resize(14_000, 0)),
        (19, |i| i.count = 3),
        (19, |i| *i.tdo.first_mut().unwrap_or(&mut 0) = 2),
        (19, |i| *i.tdo.last_mut().unwrap_or(&mut 0) = 255),
        (12, |i| i.room = 3),
        (12, |i| i.room = 0),
    ];
    let accepted = accepted_clocks(|_| 4);
    let table = Table { rows: &[5, 21, 7, 18, 19, 12], accepted, ways: [chain_ways(), own].concat() };
    table.try_all(
        |i| rows_of_read_clocks(&i.board, &i.chain, i.count, &i.tdo, i.room).holding(),
        |i, first| {
            let answer = by_rows(read_clocks(&i.board, &i.chain, i.count, &i.tdo, i.room), first);
            read_clocks_gives(&i.board, &i.chain, i.count, &i.tdo, i.room, &answer)
        },
    );
}

#[test]
fn response_from_a_state() {
    let more_drivers: Way<Set> = (11, |i| (i.k, i.state[0], i.state[1]) = (1, 3, 3));
    let room: Vec<Way<Set>> = vec![(12, |i| i.room = 3), (12, |i| i.room = 0)];
    let table = Table {
        rows: &[5, 21, 6, 17, 20, 7, 8, 11, 12],
        accepted: accepted_boards(4),
        ways: [set_ways(), receiver_ways(), state_ways(), vec![more_drivers], room].concat(),
    };
    table.try_all(
        |i| rows_of_respond(&i.board, i.k, &i.vectors, &i.state, i.room).holding(),
        |i, first| {
            let answer = by_rows(respond(&i.board, i.k, &i.vectors, &i.state, i.room), first);
            respond_gives(&i.board, i.k, &i.vectors, &i.state, i.room, &answer)
        },
    );
}

/// Ways for row 13.
fn separation_ways() -> Vec<Way<Set>> {
    vec![
        // Without a walking vector, and without the extra vector or, where there is none, without another walking one.
        (13, |i| i.vectors = if i.board.network.gate == OR { vec![0, 1, 2, 2] } else { vec![7, 6, 5, 5] }),
        (13, |i| {
            i.vectors = match (i.board.network.gate, i.board.network.level) {
                (OR, 1) => vec![1, 1, 2, 4],
                (OR, _) => vec![1, 1, 4, 4],
                (_, 0) => vec![6, 6, 5, 3],
                _ => vec![6, 6, 3, 3],
            }
        }),
        (13, |i| {
            i.k = 2;
            i.vectors.fill(0);
        }),
    ]
}

#[test]
fn shorter_set() {
    let own: Vec<Way<Set>> = vec![
        (6, |i| (i.board, i.k) = (Network { nets: 4, ..i.board.network }.into(), 4)),
        (6, |i| (i.board, i.k) = (Network { nets: 10, ..i.board.network }.into(), 4)),
        (6, |i| (i.board, i.k) = (Network { nets: 48, ..i.board.network }.into(), 48)),
        (12, |i| i.room = 3),
        (12, |i| i.room = 0),
    ];
    let table = Table {
        rows: &[5, 6, 17, 20, 7, 8, 12, 13],
        accepted: accepted_sets(4),
        ways: [set_ways(), own, separation_ways()].concat(),
    };
    for allowed in [0, 2, u64::MAX] {
        table.try_all(
            |i| rows_of_shorten(i.board.network, i.k, &i.vectors, i.room).holding(),
            |i, first| {
                let net = i.board.network;
                let answer = by_rows(shorten(net, i.k, &i.vectors, allowed, i.room), first);
                shorten_gives(net, i.k, &i.vectors, allowed, i.room, &answer)
            },
        );
    }
}

#[test]
fn diagnosis() {
    let own: Vec<Way<Set>> = vec![
        (12, |i| i.room = i.board.receivers().saturating_sub(1)),
        (12, |i| i.room = 0),
        // Reaches that meet and differ, and a receiver that floats, but for what it reads on the first vector.
        (14, |i| *i.responses.get_mut(1).unwrap_or(&mut 0) ^= 2),
        (14, |i| *i.responses.get_mut(0).unwrap_or(&mut 0) ^= 4),
    ];
    let table = Table {
        rows: &[5, 21, 6, 17, 20, 7, 8, 9, 10, 12, 13, 14],
        accepted: accepted_boards(4),
        ways: [set_ways(), receiver_ways(), response_ways(), separation_ways(), own].concat(),
    };
    table.try_all(
        |i| rows_of_diagnose(&i.board, i.k, &i.vectors, &i.responses, i.room).holding(),
        |i, first| {
            let answer = by_rows(diagnose(&i.board, i.k, &i.vectors, &i.responses, i.room), first);
            diagnose_gives(&i.board, i.k, &i.vectors, &i.responses, i.room, &answer)
        },
    );
}

/// The room of the findings is counted in words, three a record.
#[test]
fn findings_of_a_state() {
    let room: Vec<Way<Set>> =
        vec![(12, |i| i.room = 3 * i.state.len() - 1), (12, |i| i.room = 1), (12, |i| i.room = 0)];
    let table = Table {
        rows: &[5, 21, 17, 20, 11, 12],
        accepted: accepted_boards(13),
        ways: [net_count_ways(), receiver_ways(), level_and_gate_ways(), state_ways(), room].concat(),
    };
    table.try_all(
        |i| rows_of_findings(&i.board, &i.state, i.room / 3).holding(),
        |i, first| {
            let answer = by_rows(findings(&i.board, &i.state, i.room / 3), first);
            findings_gives(&i.board, &i.state, i.room, &answer)
        },
    );
}

impl Set {
    fn job(&self) -> Job {
        let Set { kind, board, k, vectors, responses, .. } = self.clone();
        Job { kind, network: board.network, k, vectors, responses }
    }
}

/// Room of the writer's file is in bytes. With parallel words the accepted job needs 100 of them, with sequential ones
/// 93.
#[test]
fn job_writer() {
    let own: Vec<Way<Set>> = vec![
        (2, |i| i.kind = 0),
        (2, |i| i.kind = 3),
        (2, |i| i.kind = 5),
        (2, |i| i.kind = 256 + 2),
        (2, |i| i.kind = (1 << 32) + 4),
        (2, |i| i.kind = u64::MAX),
        (12, |i| i.room = i.room.saturating_sub(1)),
        (12, |i| i.room = 0),
    ];
    let with_kind = |kind: u64, room: usize| accepted_sets(room).into_iter().map(move |set| Set { kind, ..set });
    let table = Table {
        rows: &[2, 5, 6, 17, 20, 7, 8, 9, 10, 12],
        accepted: with_kind(PARALLEL, 100).chain(with_kind(SEQUENTIAL, 93)).collect(),
        ways: [set_ways(), response_ways(), own].concat(),
    };
    table.try_all(
        |i| rows_of_write_job(&i.job(), i.room).holding(),
        |i, first| write_job_gives(&i.job(), i.room, &by_rows(write_job(&i.job(), i.room), first)),
    );
}

/// A job file by its parts, and the room of the two lists.
#[derive(Clone)]
struct Parts {
    mark: Vec<u8>,
    nets: Vec<u8>,
    kind: u64,
    vectors: Vec<u8>,
    responses: Vec<u8>,
    /// Put in place of the number of entries, and after the end.
    count: Option<u8>,
    rest: Vec<u8>,
    rooms: (usize, usize),
}

impl Parts {
    fn file(&self) -> Vec<u8> {
        let mut file = laid_out(self.kind, &[self.nets.clone(), self.vectors.clone(), self.responses.clone()]);
        file.splice(..4, self.mark.clone());
        if let Some(count) = self.count {
            file[self.mark.len()] = count;
        }
        file.extend(&self.rest);
        file
    }
}

fn words(list: &[u64]) -> Vec<u8> {
    list.iter().flat_map(|word| word.to_le_bytes()).collect()
}

fn accepted_parts(kind: u64) -> Vec<Parts> {
    let accepted = |net: Network| {
        let (vectors, responses) = tied_and_floating(net);
        let vectors = match kind {
            SEQUENTIAL => [vec![4], words(&sequential_words(3, &vectors))].concat(),
            _ => words(&vectors),
        };
        Parts {
            mark: b"BSJ3".to_vec(),
            nets: vec![3, 3, net.level as u8, net.gate as u8],
            kind,
            vectors,
            responses: words(&responses),
            count: None,
            rest: vec![],
            rooms: (4, 4),
        }
    };
    each_combination(3).map(accepted).to_vec()
}

/// Ways for rows 1, 2 and 3.
fn layout_ways() -> Vec<Way<Parts>> {
    vec![
        (1, |i| i.mark = b"BSJ1".to_vec()),
        (1, |i| i.mark = b"BSJ2".to_vec()),
        (1, |i| i.mark = b"bSJ3".to_vec()),
        (2, |i| i.count = Some(2)),
        (2, |i| i.count = Some(4)),
        (2, |i| i.kind = 0),
        (2, |i| i.kind = 3),
        (2, |i| i.kind = 5),
        (2, |i| i.rest.push(0)),
        // Right layout, but over 2,048 bytes: rows on what the file says can hold too.
        (2, |i| i.responses.extend([0; 2048])),
        (3, |i| i.nets.push(0)),
        (3, |i| i.nets.truncate(3)),
        (3, |i| i.nets.truncate(2)),
        (3, |i| i.nets.truncate(1)),
        (3, |i| i.vectors.push(0)),
        (3, |i| i.responses.push(0)),
    ]
}

/// Ways for the rows on what a job file says, but for 7 and 8, and on the room of the lists.
fn content_ways() -> Vec<Way<Parts>> {
    vec![
        (5, |i| i.nets[0] = 0),
        (5, |i| i.nets[0] = 1),
        (5, |i| i.nets[0] = 49),
        (5, |i| i.nets[0] = 255),
        (6, |i| *i.nets.get_mut(1).unwrap_or(&mut 0) = 0),
        (6, |i| *i.nets.get_mut(1).unwrap_or(&mut 0) = 4),
        (6, |i| i.nets.iter_mut().zip([11, 4]).for_each(|(byte, number)| *byte = number)),
        (17, |i| *i.nets.get_mut(2).unwrap_or(&mut 0) = 2),
        (17, |i| *i.nets.get_mut(2).unwrap_or(&mut 0) = 255),
        (20, |i| *i.nets.get_mut(3).unwrap_or(&mut 0) = 2),
        (20, |i| *i.nets.get_mut(3).unwrap_or(&mut 0) = 255),
        (9, |i| i.responses.truncate(8)),
        (9, |i| i.responses.extend([0; 8])),
        (9, |i| i.responses.clear()),
        (10, |i| *i.responses.get_mut(0).unwrap_or(&mut 0) |= 8),
        (10, |i| *i.responses.get_mut(7).unwrap_or(&mut 0) |= 128),
        (12, |i| i.rooms.0 = 3),
        (12, |i| i.rooms.1 = 3),
        (12, |i| i.rooms = (0, 0)),
    ]
}

/// Ways for rows 7 and 8 with parallel words.
fn parallel_ways() -> Vec<Way<Parts>> {
    vec![
        (7, |i| i.vectors.clear()),
        (7, |i| i.vectors.resize(65 * 8, 0)),
        (8, |i| *i.vectors.get_mut(0).unwrap_or(&mut 0) |= 8),
        (8, |i| *i.vectors.get_mut(7).unwrap_or(&mut 0) |= 128),
    ]
}

/// Ways for rows 3, 7, 8 and 9 with a count of vectors and sequential words. The count is 4, and there are three words.
fn sequential_ways() -> Vec<Way<Parts>> {
    vec![
        (3, |i| i.vectors.clear()),
        (3, |i| i.vectors.truncate(24)),
        (3, |i| i.vectors.truncate(8)),
        (7, |i| *i.vectors.get_mut(0).unwrap_or(&mut 0) = 0),
        (7, |i| *i.vectors.get_mut(0).unwrap_or(&mut 0) = 65),
        (7, |i| *i.vectors.get_mut(0).unwrap_or(&mut 0) = 255),
        (7, |i| i.vectors.truncate(1)),
        (7, |i| i.vectors.truncate(17)),
        (7, |i| i.vectors.extend([0; 8])),
        (7, |i| i.vectors.resize(1 + 65 * 8, 0)),
        (8, |i| *i.vectors.get_mut(1).unwrap_or(&mut 0) |= 16),
        (8, |i| *i.vectors.get_mut(8).unwrap_or(&mut 0) |= 128),
        (9, |i| *i.vectors.get_mut(0).unwrap_or(&mut 0) ^= 1),
    ]
}

fn try_reader(kind: u64, ways: Vec<Way<Parts>>) {
    let table = Table {
        rows: &[1, 2, 3, 5, 6, 17, 20, 7, 8, 9, 10, 12],
        accepted: accepted_parts(kind),
        ways: [layout_ways(), content_ways(), ways].concat(),
    };
    table.try_all(
        |i| reader_rows_holding(&i.file(), i.rooms.0, i.rooms.1),
        |i, first| {
            let (file, rooms) = (i.file(), i.rooms);
            read_job_gives(&file, rooms.0, rooms.1, &by_rows(read_job(&file, rooms.0, rooms.1), first))
        },
    );
}

#[test]
fn job_reader() {
    try_reader(PARALLEL, parallel_ways());
}

#[test]
fn job_reader_with_sequential_words() {
    try_reader(SEQUENTIAL, sequential_ways());
}

/// What a session call takes and is lent.
#[derive(Clone)]
struct Step {
    record: Record,
    board: Board,
    answers: Vec<u64>,
    room: usize,
}

fn make(step: &Step, call: Call, first: Option<u64>) {
    let answer = by_rows(call.answer(&step.record), first);
    session_call_gives(&step.record.words(), &call, &answer);
}

fn begun(board: &Board) -> Record {
    model::begin(board, 4).unwrap().0
}

/// Four nets with one receiver each, and with a second one on nets 3 and 2.
fn boards_of_four_nets() -> Vec<Board> {
    let with_more = |network: Network| Board { network, owners: vec![0, 1, 2, 3, 3, 2] };
    each_combination(4).into_iter().flat_map(|net| [net.into(), with_more(net)]).collect()
}

#[test]
fn begin() {
    let ways: Vec<Way<Step>> = vec![
        (5, |i| i.board.network.nets = 0),
        (5, |i| i.board.network.nets = 1),
        (5, |i| i.board.network.nets = 49),
        (5, |i| i.board.network.nets = u64::MAX),
        (21, |i| i.board.owners.truncate(3)),
        (21, |i| i.board.owners.clear()),
        (21, |i| i.board.owners.resize(65, 0)),
        (21, |i| *i.board.owners.first_mut().unwrap_or(&mut 0) = 4),
        (21, |i| *i.board.owners.last_mut().unwrap_or(&mut 0) = u64::MAX),
        (21, |i| i.board.owners.iter_mut().for_each(|owner| *owner = (*owner).min(2))),
        (17, |i| i.board.network.level = 2),
        (17, |i| i.board.network.level = u64::MAX),
        (20, |i| i.board.network.gate = 2),
        (20, |i| i.board.network.gate = 256),
        (20, |i| i.board.network.gate = u64::MAX),
        (12, |i| i.room = 3),
        (12, |i| i.room = 0),
    ];
    let accepted = |board: Board| {
        let junk = Record { spent: 77, ..begun(&board) };
        Step { record: junk, board, answers: vec![], room: 4 }
    };
    let accepted = boards_of_four_nets().into_iter().map(accepted).collect();
    let table = Table { rows: &[5, 21, 17, 20, 12], accepted, ways };
    table.try_all(
        |i| rows_of_begin(&i.board, i.room).holding(),
        |i, first| make(i, Call::Begin { board: i.board.clone(), room: i.room }, first),
    );
}

/// Four nets: 0 and 1 tied, 2 floating, 3 sound. What they answer to step one and to step two.
fn answers_of_nets(net: Network) -> [Vec<u64>; 2] {
    match (net.gate, net.level) {
        (OR, 0) => [vec![11, 3, 3, 8], vec![3, 3, 0]],
        (OR, _) => [vec![15, 7, 7, 12], vec![4, 7, 7, 4]],
        (_, 0) => [vec![11, 0, 0, 8], vec![11, 8, 8, 11]],
        _ => [vec![15, 4, 4, 12], vec![12, 12, 15]],
    }
}

/// The same with the receivers of the board: the second of a net reads what the first one does.
fn answers(board: &Board) -> [Vec<u64>; 2] {
    let with_seconds = |word: u64| board.owners.iter().enumerate().map(|(r, net)| (word >> net & 1) << r).sum();
    answers_of_nets(board.network).map(|words| words.into_iter().map(with_seconds).collect())
}

/// Ways for row 4: each unused field, the net count, the level, the gate and the receivers.
fn record_ways() -> Vec<Way<Step>> {
    vec![
        (4, |i| i.record.step = 0),
        (4, |i| i.record.step = 3),
        (4, |i| i.record.step ^= 3),
        (4, |i| i.record.spent = 1),
        (4, |i| i.record.reaches[0] = 1),
        (4, |i| i.record.reaches[63] = 1),
        (4, |i| i.record.answers[7] = 1),
        (4, |i| i.record.network.nets = 1),
        (4, |i| i.record.network.nets = 49),
        (4, |i| i.record.network.level = 2),
        (4, |i| i.record.network.level = u64::MAX),
        (4, |i| i.record.network.gate = 2),
        (4, |i| i.record.network.gate = 256),
        (4, |i| i.record.network.gate = u64::MAX),
        (4, |i| i.record.receivers = 0),
        (4, |i| i.record.receivers = 3),
        (4, |i| i.record.receivers = 65),
        (4, |i| i.record.receivers = u64::MAX),
        (4, |i| i.record.owners[1] = 4),
        (4, |i| i.record.owners[1] = u64::MAX),
        (4, |i| i.record.owners[1] = 0),
        (4, |i| i.record.owners[i.board.receivers()] = 1),
        (4, |i| i.record.owners[63] = 1),
        (4, |i| i.record.owners.fill(0)),
    ]
}

/// Ways for rows 9 and 10. The lowest bit that is too high is that of the number of receivers.
fn answer_ways() -> Vec<Way<Step>> {
    vec![
        (9, |i| _ = i.answers.pop()),
        (9, |i| i.answers.push(0)),
        (9, |i| i.answers.clear()),
        (10, |i| *i.answers.get_mut(0).unwrap_or(&mut 0) |= 1 << i.board.receivers()),
        (10, |i| *i.answers.last_mut().unwrap_or(&mut 0) |= HIGH),
    ]
}

#[test]
fn first_answers() {
    let room: Vec<Way<Step>> = vec![(12, |i| i.room = i.room.saturating_sub(1)), (12, |i| i.room = 0)];
    let accepted = |board: Board| {
        let [first, second] = answers(&board);
        Step { record: begun(&board), board, answers: first, room: second.len() }
    };
    let accepted = boards_of_four_nets().into_iter().map(accepted).collect();
    let table = Table { rows: &[4, 9, 10, 12], accepted, ways: [record_ways(), answer_ways(), room].concat() };
    table.try_all(
        |i| rows_of_first_answers(&i.record, &i.answers, i.room).holding(),
        |i, first| make(i, Call::First { answers: i.answers.clone(), room: i.room }, first),
    );
}

#[test]
fn second_answers() {
    let unfit: Vec<Way<Step>> = vec![
        // A clear net that another's driver seems to reach; reaches that meet and differ; first answers that no state
        // gives.
        (14, |i| *i.answers.get_mut(1).unwrap_or(&mut 0) ^= 8),
        (14, |i| *i.answers.get_mut(1).unwrap_or(&mut 0) ^= 2),
        (14, |i| i.record.answers[3] = 4),
    ];
    let accepted = |board: Board| {
        let [first, second] = answers(&board);
        let record = model::first_answers(&begun(&board), &first, 4).unwrap().0;
        Step { record, board, answers: second, room: 0 }
    };
    let accepted = boards_of_four_nets().into_iter().map(accepted).collect();
    let table = Table { rows: &[4, 9, 10, 14], accepted, ways: [record_ways(), answer_ways(), unfit].concat() };
    table.try_all(
        |i| rows_of_second_answers(&i.record, &i.answers).holding(),
        |i, first| make(i, Call::Second { answers: i.answers.clone() }, first),
    );
}

/// The record with the other gate.
fn with_other_gate(record: &Record) -> Record {
    let network = Network { gate: 1 - record.network.gate, ..record.network };
    Record { network, ..record.clone() }
}

/// Makes the call on the record, whose answer must be this, and gives the record that it leaves.
fn made(record: &Record, call: Call, expected: Result<&[u64], u64>) -> Record {
    let answer = call.answer(record);
    session_call_gives(&record.words(), &call, &answer);
    assert_eq!(answer.as_ref().map(|(_, written)| &written[..]).map_err(|number| *number), expected);
    answer.map_or(record.clone(), |(left, _)| left)
}

/// A record whose gate is changed is another session's: it is accepted, and goes on with the gate that it now has.
#[test]
fn records_with_the_other_gate() {
    let begun_with_and = begun(&Network { nets: 4, level: 1, gate: AND }.into());
    let begun_with_or = begun(&Network { nets: 4, level: 1, gate: OR }.into());
    assert_eq!(with_other_gate(&begun_with_and), begun_with_or);
    let floating = Call::First { answers: vec![15; 4], room: 5 };
    let with_and = made(&begun_with_and, floating.clone(), Ok(&[14, 13, 11, 7]));
    let with_or = made(&begun_with_or, floating, Ok(&[0, 1, 2, 4, 8]));
    assert_eq!(with_other_gate(&with_and), with_or);
    for (record, count) in [(with_and, 4), (with_or, 5)] {
        for wrong in [count - 1, count + 1] {
            made(&record, Call::Second { answers: vec![15; wrong] }, Err(9));
        }
        let finished = made(&record, Call::Second { answers: vec![15; count] }, Ok(&[]));
        assert_eq!((finished.reaches, finished.spent), ([0; 64], 4 + count as u64));
    }
}

/// First answers of tied nets with AND, which with OR no state gives: the changed record waits, and no answers fit it.
#[test]
fn first_answers_of_the_other_gate() {
    let begun = begun(&Network { nets: 4, level: 0, gate: AND }.into());
    let [first, second] = answers_of_nets(begun.network);
    let waiting = made(&begun, Call::First { answers: first, room: 4 }, Ok(&[15, 14, 13, 11]));
    made(&waiting, Call::Second { answers: second.clone() }, Ok(&[]));
    let changed = with_other_gate(&waiting);
    made(&changed, Call::Second { answers: second }, Err(9));
    made(&changed, Call::Second { answers: vec![3, 3, 0] }, Err(14));
}

/// A record whose receivers are changed is another session's too: it goes on with those that it now has. Receivers 1
/// and 2 are on net 1; with receiver 2 on net 0 in place of that, its word of net 1 makes both nets unclear.
#[test]
fn records_with_other_receivers() {
    let network = Network { nets: 2, level: 1, gate: OR };
    let board = |owners: &[u64]| Board { network, owners: owners.to_vec() };
    let (one_way, other_way) = (begun(&board(&[0, 1, 1])), begun(&board(&[0, 1, 0])));
    let mut changed = one_way.clone();
    changed.owners[2] = 0;
    assert_eq!(changed, other_way);

    let sound = Call::First { answers: vec![1, 6], room: 3 };
    let finished = made(&one_way, sound.clone(), Ok(&[]));
    assert_eq!((&finished.reaches[..4], finished.spent), (&[1, 2, 2, 0][..], 2));
    let waiting = made(&changed, sound, Ok(&[0, 1, 2]));
    let found = made(&waiting, Call::Second { answers: vec![0, 1, 6] }, Ok(&[]));
    assert_eq!((&found.reaches[..4], found.spent), (&[1, 2, 2, 0][..], 5));

    // With the first receivers again it holds answers that leave no net unclear, and no call leaves it so.
    let mut back = waiting.clone();
    back.owners[2] = 1;
    made(&back, Call::Second { answers: vec![0, 1, 6] }, Err(4));
}

/// The number of receivers changed: one more is on net 0, since what is unused is 0; one fewer leaves an owner unused
/// that is not 0.
#[test]
fn records_with_another_number_of_receivers() {
    let network = Network { nets: 2, level: 1, gate: OR };
    let begun = begun(&Board { network, owners: vec![0, 1, 1] });
    let with = |receivers: u64| Record { receivers, ..begun.clone() };
    let answers = |words: [u64; 2]| Call::First { answers: words.to_vec(), room: 3 };
    made(&with(2), answers([1, 2]), Err(4));
    made(&with(3), answers([1 + 8, 6]), Err(10));
    let finished = made(&with(4), answers([1 + 8, 6]), Ok(&[]));
    assert_eq!(finished.reaches[..5], [1, 2, 2, 1, 0]);
    let all = u64::MAX;
    let finished = made(&with(64), answers([all - 6, 6]), Ok(&[]));
    assert_eq!((&finished.reaches[..4], finished.reaches[63]), (&[1, 2, 2, 1][..], 1));
    made(&with(65), answers([all - 6, 6]), Err(4));
}
