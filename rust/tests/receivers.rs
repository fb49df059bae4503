//! Lists of receivers, of each gate and soft level: every short list on two nets, lists of about 64, and random lists
//! on up to 48 nets with a receiver left out, put in or moved. Of each the six calls that take receivers, which refuse
//! it with 21 or do not.

mod support;

use model::network::{all_lists, response};
use model::rows::bad_receivers;
use model::session::WORDS;
use model::{Board, Chain, Network, Record};
use support::boards::with_some_receivers;
use support::calls::*;
use support::generator::Generator;
use support::networks::{each_combination, whole_walking_set};
use support::session::{session_call_gives, Call};

/// The own net's driver of each receiver, and driver 0 where there is no such net.
fn sound_state(board: &Board) -> Vec<u64> {
    let driver = |owner: &u64| 1 << if *owner < board.network.nets { *owner } else { 0 };
    board.owners.iter().map(driver).collect()
}

/// The calls on a chain, of the most cells: one for each net, and one for each receiver of the list. Level and gate
/// have no part in them.
fn try_clock_calls(board: &Board, less: usize) {
    let (drivers, receivers) = ((0..board.network.nets).collect(), (100..).take(board.receivers()).collect());
    let (chain, clocks) = (Chain { cells: 200, drivers, receivers }, 2 * 205);
    let room = clocks - less;
    write_clocks_gives(board, &chain, &[3], room, &model::write_clocks(board, &chain, &[3], room));
    let (tdo, room) = (vec![1; clocks], 1 - less);
    read_clocks_gives(board, &chain, 1, &tdo, room, &model::read_clocks(board, &chain, 1, &tdo, room));
}

/// Makes the six calls, where there is a class for class n, with room for the result and with less. Says whether row 21
/// admits the list.
fn try_calls(board: &Board) -> bool {
    let (net, n, m) = (board.network, board.network.nets, board.receivers());
    let (vectors, state) = (whole_walking_set(net), sound_state(board));
    // A word has 64 bits. Of more receivers these are the answers of the first.
    let responses = response(net, &vectors, &state[..m.min(64)]);
    let record = [7; WORDS];
    for less in [0, 1] {
        let room = vectors.len() - less;
        respond_gives(board, n, &vectors, &state, room, &model::respond(board, n, &vectors, &state, room));
        let room = m.saturating_sub(less);
        let read = model::diagnose(board, n, &vectors, &responses, room);
        diagnose_gives(board, n, &vectors, &responses, room, &read);
        findings_gives(board, &state, 3 * room, &model::findings(board, &state, room));
        let begin = Call::Begin { board: board.clone(), room: model::session::first_length(n) - less };
        session_call_gives(&record, &begin, &begin.answer(&Record::from_words(&record)));
        try_clock_calls(board, less);
    }
    !bad_receivers(board)
}

/// Every list of up to 5 receivers on nets 0 to 3.
fn short_lists() -> Vec<Vec<u64>> {
    (0..=5).flat_map(|length| all_lists(4, length)).collect()
}

/// Lists of about 64 receivers on nets 0 and 1 in turns, but for the last, and on one net alone.
fn long_lists() -> Vec<Vec<u64>> {
    let of_length = |length: u64| {
        let with_last = |last: u64| (1..length).map(|r| r % 2).chain([last]).collect();
        let alone = |net: u64| vec![net; length as usize];
        [with_last(0), with_last(1), with_last(2), with_last(u64::MAX), alone(0), alone(1)]
    };
    [63, 64, 65, 100].into_iter().flat_map(of_length).collect()
}

/// Of the short lists those of 2 to 5 receivers on nets 0 and 1, but not all on one, are admitted; of the long ones two
/// of 63 receivers and two of 64.
#[test]
fn every_list_on_2_nets() {
    let lists = [short_lists(), long_lists()].concat();
    assert_eq!(lists.len(), 1 + 4 + 16 + 64 + 256 + 1024 + 4 * 6);
    for network in each_combination(2) {
        let boards = lists.iter().map(|owners| Board { network, owners: owners.clone() });
        assert_eq!(boards.filter(try_calls).count(), 2 + 6 + 14 + 30 + 2 + 2);
    }
}

/// The same with a level or a gate that is refused, after 21, but for the calls on a chain.
#[test]
fn every_list_beside_a_bad_level_or_gate() {
    for network in [Network { nets: 2, level: 2, gate: 0 }, Network { nets: 2, level: 1, gate: 2 }] {
        for owners in [short_lists(), long_lists()].concat() {
            let board = Board { network, owners };
            let answer = if bad_receivers(&board) { 21 } else { 17 + 3 * u64::from(network.gate == 2) };
            respond_gives(&board, 2, &[0], &sound_state(&board), 1, &Err(answer));
            diagnose_gives(&board, 2, &[0], &[0], 64, &Err(answer));
            findings_gives(&board, &sound_state(&board), 300, &Err(answer));
            try_clock_calls(&board, 0);
            session_call_gives(&[7; WORDS], &Call::Begin { board, room: 2 }, &Err(answer));
        }
    }
}

/// A list that is admitted, and then one receiver left out, one put in, or one moved to another net or to none.
fn damaged(g: &mut Generator, board: &Board) -> Board {
    let (n, mut owners) = (board.network.nets, board.owners.clone());
    let place = g.below(owners.len());
    match g.below(4) {
        0 => _ = owners.remove(place),
        1 => owners.insert(place, g.below(n as usize) as u64),
        2 => owners[place] = *g.pick(&[n, n + 1, 63, 64, 1 << 32, u64::MAX]),
        _ => owners[place] = g.below(n as usize) as u64,
    }
    Board { network: board.network, owners }
}

#[test]
fn random_lists_on_2_to_48_nets() {
    let g = &mut Generator::new(31);
    let (mut admitted, mut refused) = (0, 0);
    for case in 0..470 {
        for net in each_combination(2 + case % 47) {
            let board = with_some_receivers(g, net);
            assert!(try_calls(&board));
            match try_calls(&damaged(g, &board)) {
                true => admitted += 1,
                false => refused += 1,
            }
        }
    }
    println!("lists with a receiver left out, put in or moved: {admitted} admitted, {refused} refused");
    assert!(admitted > 400 && refused > 400);
}

/// The list of own receivers, for every number of nets and every room near it.
#[test]
fn own_receivers() {
    for n in (0..=66).chain([u64::MAX]) {
        for room in 0..=66 {
            own_receivers_gives(n, room, &model::board::own_receivers(n, room));
        }
    }
}
