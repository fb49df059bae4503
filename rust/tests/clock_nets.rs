//! Several receivers on a net, by the wrappers: examples of document 02's request worked out by hand, the row of
//! refusals at each of its bounds and the rows around it, and one receiver a net said in each way.

use fontarelga::*;

/// Two nets. Net 0 is a clock net of three receivers, net 1 has one.
const CLOCK: [u64; 4] = [0, 0, 0, 1];
/// The second receiver of the clock net floats.
const ONE_OPEN: [u64; 4] = [1, 0, 1, 2];

/// Two nets of this gate and soft level with these receivers.
fn two_nets(gate: u64, level: u64, receivers: &[u64]) -> Board<'_> {
    Board::with(Network::new(2).with_level(level).with_gate(gate), receivers)
}

fn found(receivers: &[u64], state: &[u64]) -> Vec<(Kind, u64)> {
    let mut tables = [(OR, 0), (OR, 1), (AND, 0), (AND, 1)].map(|(gate, level)| {
        let table = findings(two_nets(gate, level, receivers), state).unwrap();
        assert!(table.iter().map(|finding| finding.reach).eq(state.iter().copied()));
        table.iter().map(|finding| (finding.kind, finding.partners)).collect::<Vec<_>>()
    });
    assert!(tables.iter().all(|table| *table == tables[0]), "gate and level have no part in the findings");
    std::mem::take(&mut tables[0])
}

#[test]
fn findings_at_each_receiver() {
    use Kind::*;
    // Receiver 2, on net 0, floats, and its net's driver is tied to that of net 1.
    assert_eq!(found(&[0, 1, 0], &[3, 3, 0]), [(Short, 2), (Short, 1), (Both, 2)]);
    // The one receiver that floats is open, and the others of its net are sound and no partners.
    assert_eq!(found(&CLOCK, &ONE_OPEN), [(Sound, 0), (Open, 0), (Sound, 0), (Sound, 0)]);
    assert_eq!(found(&CLOCK, &[1, 1, 1, 2]), [(Sound, 0); 4]);
    // The clock net's driver is gone, and all its receivers float.
    assert_eq!(found(&CLOCK, &[0, 0, 0, 2]), [(Open, 0), (Open, 0), (Open, 0), (Sound, 0)]);
    // One receiver of the clock net is pinned to net 1.
    assert_eq!(found(&CLOCK, &[1, 1, 2, 2]), [(Sound, 0), (Sound, 0), (Both, 2), (Short, 1)]);
    // Net 1's receiver is pinned to the clock net.
    assert_eq!(found(&CLOCK, &[1, 1, 1, 1]), [(Short, 2), (Short, 2), (Short, 2), (Both, 1)]);
    // Receiver 0 is on net 1 and receiver 1 on net 0: pinned so, and pinned straight.
    assert_eq!(found(&[1, 0], &[2, 1]), [(Sound, 0), (Sound, 0)]);
    assert_eq!(found(&[1, 0], &[1, 2]), [(Both, 1), (Both, 2)]);
}

/// Partners are nets and not receivers: receivers 2 and 3 are on net 0, and net 0 is a partner of net 1.
#[test]
fn partners_are_nets() {
    assert_eq!(found(&[0, 1, 0, 0], &[1, 1, 0, 1])[1], (Kind::Both, 1));
    assert_eq!(
        found(&[1, 1, 1, 0], &[1, 2, 2, 1]),
        [(Kind::Both, 1), (Kind::Sound, 0), (Kind::Sound, 0), (Kind::Short, 2)]
    );
}

#[test]
fn a_clock_net_is_read_back() {
    let cases: [(u64, u64, &[u64], &[u64]); 4] = [
        (OR, 1, &[0, 1, 2], &[2, 7, 10]),
        (OR, 0, &[1, 2], &[5, 8]),
        (AND, 1, &[2, 1], &[10, 7]),
        (AND, 0, &[3, 2, 1], &[13, 8, 5]),
    ];
    for (gate, level, vectors, responses) in cases {
        let board = two_nets(gate, level, &CLOCK);
        assert_eq!(respond(&board, 2, vectors, &ONE_OPEN).as_deref(), Ok(responses));
        assert_eq!(diagnose(&board, 2, vectors, responses).as_deref(), Ok(&ONE_OPEN[..]));
    }
}

/// Row 10 goes by the receivers and row 8 by the nets; row 11 wants a reach a receiver, and drivers for bits.
#[test]
fn bits_and_words_by_receivers() {
    let board = two_nets(OR, 1, &CLOCK);
    assert_eq!(diagnose(&board, 2, &[0, 1, 2], &[2, 7, 16]), Err(Refusal(10)));
    assert_eq!(diagnose(&board, 2, &[0, 1, 2], &[2, 7, 8]), Err(Refusal(14)));
    assert_eq!(diagnose(&board, 2, &[0, 1, 4], &[2, 7, 10]), Err(Refusal(8)));
    assert_eq!(respond(&board, 2, &[0], &[1, 0, 1]), Err(Refusal(11)));
    assert_eq!(respond(&board, 2, &[0], &[1, 0, 1, 2, 0]), Err(Refusal(11)));
    assert_eq!(respond(&board, 2, &[0], &[1, 0, 1, 4]), Err(Refusal(11)));
    assert_eq!(findings(&board, &[1, 0, 3, 2]), Err(Refusal(11)));
    assert_eq!(findings(&board, &[1, 2]), Err(Refusal(11)));
}

/// First answers, second vectors, second answers and count spent.
type Steps = (&'static [u64], &'static [u64], &'static [u64], u64);

#[test]
fn sessions_of_a_clock_net() {
    let sessions: [(u64, u64, Steps); 4] = [
        (OR, 1, (&[7, 10], &[0, 1], &[2, 7], 4)),
        (OR, 0, (&[5, 8], &[1], &[5], 3)),
        (AND, 1, (&[7, 10], &[2], &[10], 3)),
        (AND, 0, (&[5, 8], &[3, 2], &[13, 8], 4)),
    ];
    for (gate, level, (first, vectors, second, spent)) in sessions {
        let board = two_nets(gate, level, &CLOCK);
        let mut session = Session::begin(&board).unwrap();
        assert_eq!(session.to_drive(), [1, 2]);
        session.first_answers(first).unwrap();
        assert_eq!((session.to_drive(), session.reaches()), (vectors, None));
        session.second_answers(second).unwrap();
        assert_eq!((session.reaches(), session.spent()), (Some(&ONE_OPEN[..]), Some(spent)));
        assert_eq!((session.board(), session.receivers(), session.nets()), (board.clone(), &CLOCK[..], 2));
        // All three receivers return the clock's word: finished with p vectors.
        session.begin_anew(&board).unwrap();
        session.first_answers(&[7, 8]).unwrap();
        assert_eq!((session.reaches(), session.spent()), (Some(&[1, 1, 1, 2][..]), Some(2)));
    }
}

/// The word of net 0 comes back from a receiver of net 1 too, which so did not return its own: both nets are unclear.
#[test]
fn a_word_from_another_nets_receiver() {
    let mut session = Session::begin(two_nets(OR, 1, &[0, 1, 1])).unwrap();
    session.first_answers(&[3, 4]).unwrap();
    assert_eq!(session.to_drive(), [0, 1, 2]);
    session.second_answers(&[0, 3, 4]).unwrap();
    assert_eq!((session.reaches(), session.spent()), (Some(&[1, 1, 2][..]), Some(5)));
}

/// 64 receivers: every bit of a word is one's, and none is too high.
#[test]
fn sixty_four_receivers() {
    let mut receivers = [1; 64];
    receivers[0] = 0;
    let board = two_nets(OR, 1, &receivers);
    let mut sound = [2; 64];
    sound[0] = 1;
    let (all, others) = (u64::MAX, u64::MAX - 1);
    assert_eq!(respond(&board, 2, &[0, 1, 2, 3], &sound), Ok(vec![0, 1, others, all]));
    assert_eq!(diagnose(&board, 2, &[0, 1, 2], &[0, 1, others]).as_deref(), Ok(&sound[..]));
    assert_eq!(diagnose(&board, 2, &[0, 1, 2], &[all; 3]).as_deref(), Ok(&[0; 64][..]));
    assert_eq!(diagnose(&board, 2, &[0, 1, 2], &[1 << 63, 0, 0]), Err(Refusal(14)));
    assert!(findings(&board, &sound).unwrap().iter().all(|finding| finding.kind == Kind::Sound));

    let mut session = Session::begin(&board).unwrap();
    session.first_answers(&[1, others]).unwrap();
    assert_eq!((session.reaches(), session.spent()), (Some(&sound[..]), Some(2)));
    session.begin_anew(&board).unwrap();
    session.first_answers(&[all, all]).unwrap();
    assert_eq!(session.to_drive(), [0, 1, 2]);
    session.second_answers(&[all; 3]).unwrap();
    assert_eq!((session.reaches(), session.spent()), (Some(&[0; 64][..]), Some(5)));
}

/// What the four calls that take receivers say of a board: of response and diagnosis with this class.
fn calls_on(board: &Board, class: u64) -> [Result<(), Refusal>; 4] {
    let (n, own_drivers) = (board.network().nets(), board.receivers().iter().map(|net| 1u64.wrapping_shl(*net as u32)));
    let state: Vec<u64> = own_drivers.collect();
    let vectors: Vec<u64> = std::iter::once(0).chain((0..n.min(48)).map(|i| 1 << i)).collect();
    let answered = |vector: &u64| (0..64).zip(&state).map(|(r, reach)| u64::from(reach & vector != 0) << r).sum();
    let responses: Vec<u64> = vectors.iter().map(answered).collect();
    [
        respond(board, class, &vectors, &state).map(drop),
        diagnose(board, class, &vectors, &responses).map(|read| assert_eq!(read, state)),
        findings(board, &state).map(drop),
        Session::begin(board).map(drop),
    ]
}

/// The list of own receivers, with more of them on net 0.
fn own_and(n: u64, more: usize) -> Vec<u64> {
    (0..n).chain(std::iter::repeat_n(0, more)).collect()
}

/// The list of own receivers, with another net for the last of them.
fn own_but_last(n: u64, last: u64) -> Vec<u64> {
    (0..n - 1).chain([last]).collect()
}

#[test]
fn every_bound_of_row_21() {
    for n in [2, 3, 47, 48] {
        let accepted = [own_and(n, 0), own_and(n, 1), own_and(n, 64 - n as usize), (0..n).rev().collect()];
        let refused = [
            vec![],
            own_and(n - 1, 0),
            own_and(n, 65 - n as usize),
            // As many as they should be: one that names no net, one that has none.
            own_but_last(n, n),
            own_but_last(n, u64::MAX),
            own_but_last(n, 0),
            [own_and(n, 0), vec![n]].concat(),
            [own_and(n - 1, 0), vec![0; 64 - (n as usize - 1)]].concat(),
        ];
        for (level, gate) in [(0, OR), (1, OR), (0, AND), (1, AND)] {
            let network = Network::new(n).with_level(level).with_gate(gate);
            for receivers in &accepted {
                let [respond, _, findings, begin] = calls_on(&Board::with(network, receivers), n);
                assert_eq!([respond, findings, begin], [Ok(()); 3], "{n} {receivers:?}");
            }
            for receivers in &refused {
                assert_eq!(calls_on(&Board::with(network, receivers), n), [Err(Refusal(21)); 4], "{n} {receivers:?}");
            }
        }
        for receivers in &accepted {
            assert_eq!(calls_on(&Board::with(n, receivers), n), [Ok(()); 4], "{n} {receivers:?}");
        }
    }
}

/// Net count before receivers, receivers before class, level and gate.
#[test]
fn the_rows_around_row_21() {
    let bad_network = |nets: u64| Network::new(nets).with_level(2).with_gate(2);
    for nets in [0, 1, 49, u64::MAX] {
        assert_eq!(calls_on(&Board::with(bad_network(nets), &[0]), 0), [Err(Refusal(5)); 4]);
        assert_eq!(calls_on(&Board::with(bad_network(nets), &[]), 0), [Err(Refusal(5)); 4]);
    }
    for receivers in [&[][..], &[0], &[0, 0], &[0, 2], &[1, u64::MAX]] {
        assert_eq!(calls_on(&Board::with(bad_network(2), receivers), 0), [Err(Refusal(21)); 4]);
    }
    let refused =
        |network: Network, class: u64| calls_on(&Board::with(network, &[0, 1, 0]), class).map(|r| r.unwrap_err().0);
    assert_eq!(refused(bad_network(2), 0), [6, 6, 17, 17]);
    assert_eq!(refused(bad_network(2), 2), [17; 4]);
    assert_eq!(refused(bad_network(2).with_level(0), 0), [6, 6, 20, 20]);
    assert_eq!(refused(bad_network(2).with_level(0), 2), [20; 4]);
}

/// One receiver a net: the same board, and the same answers, whichever way it is said.
#[test]
fn one_receiver_a_net_in_each_way() {
    let (network, vectors, state) = (Network::new(4), [0, 1, 2, 4, 8], [3, 3, 0, 8]);
    let said = [Board::of(network), Board::of(4), Board::with(4, &[0, 1, 2, 3]), Board::from(network), Board::from(4)];
    for board in &said {
        assert_eq!((board, board.network(), board.receivers()), (&said[0], network, &[0, 1, 2, 3][..]));
        assert_eq!(Board::from(board), *board);
        assert_eq!(respond(board, 4, &vectors, &state), respond(network, 4, &vectors, &state));
        assert_eq!(diagnose(board, 4, &vectors, &[4, 7, 7, 4, 12]), Ok(state.to_vec()));
        assert_eq!(findings(board, &state), findings(4, &state));
        let (mut session, begun) = (Session::begin(board).unwrap(), Session::begin(4).unwrap());
        assert_eq!((&session, session.board()), (&begun, board.clone()));
        session.begin_anew(board.clone()).unwrap();
        assert_eq!(session, begun);
    }
    assert_ne!(Board::of(4), Board::of(Network::new(4).with_level(0)));
    assert_ne!(Board::of(4), Board::with(4, &[0, 1, 3, 2]));
}

/// An empty list does not stand for one receiver a net, and a net count that is refused has no list.
#[test]
fn empty_lists() {
    assert_eq!(calls_on(&Board::with(4, &[]), 4), [Err(Refusal(21)); 4]);
    for nets in [0, 1, 49, u64::MAX] {
        assert_eq!(Board::of(nets), Board::with(nets, &[]));
        assert_eq!(calls_on(&Board::of(nets), 1), [Err(Refusal(5)); 4]);
    }
}

#[test]
fn own_receivers_into_a_list() {
    for n in [2, 3, 47, 48] {
        let mut list = [77; 50];
        assert_eq!(raw::own_receivers(n, &mut list[..n as usize - 1]), 12);
        assert_eq!(list, [77; 50]);
        assert_eq!(raw::own_receivers(n, &mut list), 0);
        assert!(list[..n as usize].iter().copied().eq(0..n));
        assert!(list[n as usize..].iter().all(|word| *word == 77), "a longer list keeps its tail");
    }
    for n in [0, 1, 49, 64, u64::MAX] {
        let mut list = [77; 50];
        assert_eq!((raw::own_receivers(n, &mut list), raw::own_receivers(n, &mut [])), (5, 5));
        assert_eq!(list, [77; 50]);
    }
}

/// A refused call leaves the session, its receivers included.
#[test]
fn refused_receivers_leave_the_session() {
    let mut session = Session::begin(two_nets(OR, 1, &CLOCK)).unwrap();
    session.first_answers(&[7, 10]).unwrap();
    let waiting = session.clone();
    assert_eq!(session.begin_anew(two_nets(OR, 1, &[0, 0])), Err(Refusal(21)));
    assert_eq!(session.begin_anew(two_nets(OR, 1, &[])), Err(Refusal(21)));
    assert_eq!(session.second_answers(&[2, 16]), Err(Refusal(10)));
    assert_eq!((&session, session.receivers()), (&waiting, &CLOCK[..]));
}

#[test]
fn the_words_of_row_21() {
    let refusal = Session::begin(Board::with(2, &[0, 0])).unwrap_err();
    let words = "receivers: m below n or above 64, a receiver that names no net, or a net that has none";
    assert_eq!((refusal, refusal.to_string()), (Refusal(21), format!("refused 21: {words}")));
}
