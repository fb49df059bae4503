//! Clocks for a chain of boundary-scan cells. What is written and read is compared with the model, and what is written
//! is played on the model's chips, which follow IEEE 1149.1 and have a board of any gate and soft level between their
//! cells: they update the vectors, the last twice, and what they give at TDO is read as the response of the board. All
//! small chains, random ones of every length, both sides of each row's bound, and the order of the rows.

mod support;

use fontarelga::{raw, Session, Waits};
use model::board::all_owners;
use model::network::{all_lists, all_states, response};
use model::{read_clocks, write_clocks, Board, Chain, Network, OR};
use support::boards::*;
use support::calls::*;
use support::chains::*;
use support::generator::Generator;
use support::networks::{board_of_library, each_combination, is_said_alone, whole_walking_set};

/// Two nets with one receiver each.
fn two_nets() -> Board {
    each_combination(2)[1].into()
}

/// The clocks of a set that is admitted, by the library and by the model, with `longer` bytes of room beyond them.
fn written(board: &Board, chain: &Chain, vectors: &[u64], longer: usize) -> Vec<u8> {
    let room = (vectors.len() + 1) * (chain.cells as usize + 5) + longer;
    let clocks = write_clocks(board, chain, vectors, room).expect("admitted vectors");
    assert_eq!(clocks.len(), room - longer);
    write_clocks_gives(board, chain, vectors, room, &Ok(clocks.clone()));
    clocks
}

/// The responses from TDO bits that are admitted, by the library and by the model.
fn read(board: &Board, chain: &Chain, count: usize, tdo: &[u8], longer: usize) -> Vec<u64> {
    let responses = read_clocks(board, chain, count as u64, tdo, count + longer).expect("admitted TDO bits");
    assert_eq!(responses.len(), count);
    read_clocks_gives(board, chain, count as u64, tdo, count + longer, &Ok(responses.clone()));
    responses
}

/// Said without the model: net i's cell has bit i, and every other cell 0.
fn assert_carries(chain: &Chain, vector: u64, contents: &[bool]) {
    assert_eq!(contents.len() as u64, chain.cells);
    assert!(chain.drivers.iter().enumerate().all(|(i, cell)| contents[*cell as usize] == (vector >> i & 1 == 1)));
    assert_eq!(contents.iter().filter(|bit| **bit).count(), vector.count_ones() as usize);
}

/// The whole way: what is written is played on the bench, which updates the vectors in order, the last twice, and is
/// idle again; and what it gives at TDO is read. Gives the responses.
fn play_set(bench: &mut Bench, board: &Board, chain: &Chain, vectors: &[u64], longer: usize) -> Vec<u64> {
    let clocks = written(board, chain, vectors, longer);
    assert!(clocks.iter().all(|byte| *byte < 4));
    let played = bench.play(&clocks);
    assert!(bench.is_idle());
    let driven = vectors.iter().chain(vectors.last());
    assert_eq!(played.updated.len(), vectors.len() + 1);
    driven.zip(&played.updated).for_each(|(vector, contents)| assert_carries(chain, *vector, contents));
    read(board, chain, vectors.len(), &played.tdo, longer)
}

/// The same with this wiring state on a new bench. The responses are those of the state.
fn try_board(g: &mut Generator, board: &Board, state: &[u64], chain: &Chain, vectors: &[u64]) -> Vec<u64> {
    let mut bench = Bench::new(board, state, chain, g.word());
    let responses = play_set(&mut bench, board, chain, vectors, g.below(3));
    assert_eq!(responses, response(board.network, vectors, state), "{board:?} {state:?} {chain:?} {vectors:?}");
    responses
}

/// The same with a random wiring state.
fn try_some_board(g: &mut Generator, board: &Board, chain: &Chain, vectors: &[u64]) {
    let state = state(g, board, board.network.nets);
    try_board(g, board, &state, chain, vectors);
}

/// All chains of this many cells that the board can have.
fn all_chains(cells: u64, board: &Board) -> Vec<Chain> {
    let distinct = |used: &Vec<u64>| (1..used.len()).all(|i| !used[..i].contains(&used[i]));
    let lists = all_lists(cells, least_cells(board) as usize);
    lists.into_iter().filter(distinct).map(|used| chain_with(cells, board, &used)).collect()
}

/// The network with every list of this many receivers, in all chains of this many cells.
fn small_boards(network: Network, m: usize, cells: u64) -> impl Iterator<Item = (Board, Chain)> {
    let boards = all_owners(network, m).into_iter().map(move |owners| Board { network, owners });
    boards.flat_map(move |board| all_chains(cells, &board).into_iter().map(move |chain| (board.clone(), chain)))
}

/// Every chain of four to six cells that two nets can have, with two to four receivers, and every set of up to two
/// vectors.
#[test]
fn every_small_chain_written() {
    let (network, mut sets) = (each_combination(2)[0], 0);
    for (m, cells) in [(2, 4), (2, 5), (3, 5), (2, 6), (3, 6), (4, 6)] {
        for (board, chain) in small_boards(network, m, cells) {
            for vectors in (1..=2).flat_map(|length| all_lists(4, length)) {
                written(&board, &chain, &vectors, sets % 3);
                sets += 1;
            }
        }
    }
    println!("sets written for small chains: {sets}");
    assert_eq!(sets, 20 * (2 * 24 + 2 * 120 + 6 * 120 + 2 * 360 + 6 * 720 + 14 * 720));
}

/// Every state of two nets, of each gate and level, with two receivers in every chain of four cells, and with three in
/// every chain of five.
#[test]
fn every_small_board_played() {
    let g = &mut Generator::new(71);
    let mut boards = 0;
    for (network, m) in each_combination(2).into_iter().flat_map(|network| [(network, 2), (network, 3)]) {
        for (board, chain) in small_boards(network, m, 2 + m as u64) {
            for state in all_states(2, m, 2) {
                try_board(g, &board, &state, &chain, &[boards % 4]);
                try_board(g, &board, &state, &chain, &[3, 0, 1, 2]);
                boards += 1;
            }
        }
    }
    println!("small boards played: {boards}");
    assert_eq!(boards, 4 * (2 * 24 * 12 + 6 * 120 * 34));
}

/// Every list of TDO bits that a chain of four cells can give to one vector.
#[test]
fn every_list_of_tdo_bits() {
    let board = &each_combination(2)[0].into();
    for used in [[0, 1, 2, 3], [2, 3, 1, 0]] {
        let chain = chain_with(4, board, &used);
        for bits in 0..1_u64 << 18 {
            let tdo: Vec<u8> = (0..18).map(|clock| (bits >> clock & 1) as u8).collect();
            let expected = used[2..].iter().zip([1, 2]).map(|(cell, word)| word * (bits >> (12 + cell) & 1)).sum();
            let mut responses = [0];
            let number = raw::read_clocks(2, &chain_of_library(&chain), 1, &tdo, &mut responses);
            assert_eq!((number, responses), (0, [expected]));
        }
    }
}

/// The numbers of nets, receivers and vectors at their bounds and between.
fn sizes(g: &mut Generator) -> Vec<(u64, usize, usize)> {
    let mut sizes = Vec::new();
    for n in [2, 3, 5, 16, 31, 47, 48] {
        let between = n as usize + g.below(65 - n as usize);
        for m in [n as usize, between, 64] {
            sizes.extend([1, 2, 3 + g.below(60), 63, 64].map(|count| (n, m, count)));
        }
    }
    sizes
}

/// Every bound of nets, receivers, vectors and cells at once, and what lies between them.
#[test]
fn random_boards_of_each_size() {
    let g = &mut Generator::new(72);
    for (n, m, count) in sizes(g) {
        for network in each_combination(n) {
            let board = with_receivers(g, network, m);
            let (least, vectors) = (least_cells(&board), sparse_set(g, n, count, 2));
            for cells in [least, least + 1, least + g.below(201 - least as usize) as u64, 199, 200] {
                let chain = random_chain(g, &board, cells);
                try_some_board(g, &board, &chain, &vectors);
            }
        }
    }
}

/// One receiver for each net, said by the list and by the network alone.
#[test]
fn random_boards_of_one_receiver_a_net() {
    let g = &mut Generator::new(73);
    for network in (2..=48).flat_map(each_combination) {
        let board = network.into();
        assert!(is_said_alone(&board));
        let (chain, count) = (some_chain(g, &board), 1 + g.below(64));
        let vectors = sparse_set(g, network.nets, count, 3);
        try_some_board(g, &board, &chain, &vectors);
    }
}

/// Every length from the least to 200.
#[test]
fn chains_of_every_length() {
    let g = &mut Generator::new(74);
    for cells in 4..=200 {
        let n = 2 + g.below((cells as usize / 2 - 1).min(47)) as u64;
        let network = *g.pick(&each_combination(n));
        let most = (cells - network.nets).min(64) as usize;
        let m = network.nets as usize + g.below(most + 1 - network.nets as usize);
        let board = with_receivers(g, network, m);
        let (chain, vectors) = (random_chain(g, &board, cells), sparse_set(g, network.nets, 5, 2));
        try_some_board(g, &board, &chain, &vectors);
    }
}

/// From bytes to reaches: with a passed set, the diagnosis of what is read is the board's state.
#[test]
fn boards_diagnosed_through_the_chain() {
    let g = &mut Generator::new(75);
    for network in [2, 3, 4, 10, 33, 48].into_iter().flat_map(each_combination) {
        let n = network.nets;
        for (class, m) in [(1, n as usize), (2, 64), (n, n as usize), (n, 64)] {
            let (board, vectors) = (with_receivers(g, network, m), walking_set(g, network));
            let (state, chain) = (state(g, &board, class), some_chain(g, &board));
            let responses = try_board(g, &board, &state, &chain, &vectors);
            diagnose_gives(&board, class, &vectors, &responses, m, &Ok(state));
        }
    }
}

/// The two chips of the README and of the C example, by hand: nets 0 and 1 are tied together, and receiver 2 floats.
#[test]
fn two_chips() {
    let board: Board = Network { nets: 4, level: 1, gate: OR }.into();
    let chain = Chain { cells: 10, drivers: vec![6, 5, 9, 3], receivers: vec![2, 4, 0, 7] };
    let scans = [
        [1, 0, 0, 0, 0, 0, 0, 0, 0, 2, 0, 0, 1, 1, 0],
        [1, 0, 0, 0, 0, 0, 0, 0, 2, 0, 0, 0, 1, 1, 0],
        [1, 0, 0, 0, 0, 0, 0, 0, 0, 0, 0, 0, 3, 1, 0],
        [1, 0, 0, 0, 0, 0, 2, 0, 0, 0, 0, 0, 1, 1, 0],
        [1, 0, 0, 0, 0, 0, 0, 0, 0, 0, 0, 0, 1, 1, 0],
        [1, 0, 0, 0, 0, 0, 0, 0, 0, 0, 0, 0, 1, 1, 0],
    ];
    let (vectors, state) = ([1, 2, 4, 8, 0], [3, 3, 0, 8]);
    assert_eq!(written(&board, &chain, &vectors, 0), scans.concat());
    let g = &mut Generator::new(70);
    assert_eq!(try_board(g, &board, &state, &chain, &vectors), [7, 7, 4, 12, 4]);
    assert_eq!(fontarelga::diagnose(4, 4, &vectors, &[7, 7, 4, 12, 4]), Ok(state.to_vec()));
}

/// Both steps of a session, one after the other on the same bench, find the board's state.
#[test]
fn sessions_through_the_chain() {
    let g = &mut Generator::new(76);
    for network in [2, 4, 20, 48].into_iter().flat_map(each_combination) {
        let board = with_some_receivers(g, network);
        let (state, chain) = (state(g, &board, network.nets), some_chain(g, &board));
        let mut bench = Bench::new(&board, &state, &chain, g.word());
        let mut session = Session::begin(board_of_library(&board)).unwrap();
        while session.waits_for() != Waits::Nothing {
            let answers = play_set(&mut bench, &board, &chain, session.to_drive(), 0);
            match session.waits_for() {
                Waits::FirstAnswers => session.first_answers(&answers).unwrap(),
                _ => session.second_answers(&answers).unwrap(),
            }
        }
        assert_eq!(session.reaches(), Some(&state[..]));
    }
}

/// Clocks that are wrong in one way: with TMS a clock early or a clock late in each scan nothing is updated; with the
/// bits in the opposite order so are the cells; and without the last scan the last vector is updated once.
#[test]
fn wrong_clocks_are_told_by_what_they_update() {
    let g = &mut Generator::new(77);
    let board = two_nets();
    for cells in [4, 5, 9, 200] {
        let chain = random_chain(g, &board, cells);
        let (length, last) = (cells as usize + 5, cells as usize + 2);
        let right = written(&board, &chain, &[1, 3], 0);
        let updated = |bytes: &[u8]| Bench::new(&board, &[1, 2], &chain, 5).play(bytes).updated;
        let with_scans = |change: &dyn Fn(&mut [u8])| {
            let mut bytes = right.clone();
            bytes.chunks_mut(length).for_each(change);
            bytes
        };
        let early = with_scans(&|scan| (scan[last - 1], scan[last]) = (scan[last - 1] | 1, scan[last] & 2));
        let late = with_scans(&|scan| scan[last] &= 2);
        assert_eq!([updated(&early).len(), updated(&late).len()], [0; 2]);

        let backwards = with_scans(&|scan| {
            scan[last] &= 2;
            scan[3..=last].reverse();
            scan[last] |= 1;
        });
        let reversed = |contents: &Vec<bool>| contents.iter().rev().copied().collect::<Vec<bool>>();
        assert_eq!(updated(&backwards), updated(&right).iter().map(reversed).collect::<Vec<_>>());
        assert_eq!(updated(&right[..2 * length]), updated(&right)[..2]);
    }
}

/// A single 1 in each place of each vector: TDI is 1 at that net's cell in that scan, after the last vector in the one
/// that repeats it too, and nowhere else.
#[test]
fn every_bit_alone() {
    let g = &mut Generator::new(78);
    for (n, m, count, cells) in [(2, 2, 64, 4), (2, 64, 3, 200), (48, 48, 2, 96), (48, 64, 64, 200), (5, 9, 7, 30)] {
        let board = with_receivers(g, each_combination(n)[1], m);
        let chain = random_chain(g, &board, cells);
        let (length, none) = (cells as usize + 5, written(&board, &chain, &vec![0; count], 0));
        for (i, t) in (0..n as usize).flat_map(|i| (0..count).map(move |t| (i, t))) {
            let mut vectors = vec![0; count];
            vectors[t] = 1 << i;
            let mut expected = none.clone();
            let scans = if t == count - 1 { t..=t + 1 } else { t..=t };
            scans.for_each(|scan| expected[scan * length + 3 + chain.drivers[i] as usize] += 2);
            assert_eq!(written(&board, &chain, &vectors, 0), expected);
        }
    }
}

/// TDO 1 at one clock alone, and 0 at one alone: it counts at a receiver's cell in the shift of every scan but the
/// first, and nowhere else.
#[test]
fn every_clock_alone() {
    let g = &mut Generator::new(79);
    for (n, m, count, cells) in [(2, 2, 1, 4), (2, 64, 2, 200), (48, 48, 2, 96), (5, 9, 7, 30), (48, 64, 64, 113)] {
        let board = with_receivers(g, each_combination(n)[2], m);
        let chain = random_chain(g, &board, cells);
        let length = cells as usize + 5;
        let step = if count == 64 { 7 } else { 1 };
        for clock in (0..(count + 1) * length).step_by(step) {
            let (scan, place) = (clock / length, clock % length);
            let receiver = chain.receivers.iter().position(|cell| *cell as usize + 3 == place);
            let mut expected = vec![0; count];
            if let (Some(t), Some(r)) = (scan.checked_sub(1), receiver) {
                expected[t] = 1 << r;
            }
            let (mut tdo, turned) = (vec![0; (count + 1) * length], |word: &u64| !word & low_bits(m as u64));
            tdo[clock] = 1;
            assert_eq!(read(&board, &chain, count, &tdo, 0), expected);
            tdo.iter_mut().for_each(|byte| *byte = 1 - *byte);
            assert_eq!(read(&board, &chain, count, &tdo, 0), expected.iter().map(turned).collect::<Vec<u64>>());
        }
    }
}

/// The wrappers give what the calls on lent lists do, with any level and gate.
#[test]
fn wrappers() {
    let g = &mut Generator::new(80);
    for network in (2..=48).flat_map(each_combination) {
        let board = with_some_receivers(g, network);
        let (chain, count) = (some_chain(g, &board), 1 + g.below(64));
        let (vectors, said) = (sparse_set(g, network.nets, count, 2), board_of_library(&board));
        let unheard =
            fontarelga::Board::with(said.network().with_level(g.word()).with_gate(g.word()), said.receivers());
        let clocks = Ok(written(&board, &chain, &vectors, 0));
        let tdo: Vec<u8> = clocks.iter().flatten().map(|_| g.below(2) as u8).collect();
        let responses = Ok(read(&board, &chain, count, &tdo, 0));
        let chain = chain_of_library(&chain);
        for board in [&said, &unheard] {
            assert_eq!(fontarelga::write_clocks(board, &chain, &vectors), clocks);
            assert_eq!(fontarelga::read_clocks(board, &chain, count as u64, &tdo), responses);
        }
    }
}

/// No number is too great for the wrappers: the call's refusal is given.
#[test]
fn wrappers_on_any_numbers() {
    let right = fontarelga::Chain { cells: 4, driver_cells: vec![0, 1], receiver_cells: vec![2, 3] };
    for number in [0, 1, 3, 201, 256 + 4, 1 << 32, (1 << 32) + 4, 1 << 63, u64::MAX - 4, u64::MAX] {
        let refused = |row: u64| fontarelga::Refusal(row);
        let chain = fontarelga::Chain { cells: number, ..right.clone() };
        assert_eq!(fontarelga::write_clocks(2, &chain, &[1]), Err(refused(18)));
        assert_eq!(fontarelga::write_clocks(2, &chain, &[1; 100_000]), Err(refused(7)));
        assert_eq!(fontarelga::read_clocks(2, &chain, 1, &[0; 18]), Err(refused(18)));
        assert_eq!(fontarelga::read_clocks(2, &chain, u64::MAX, &[0; 18]), Err(refused(7)));
        let row = if (1..=64).contains(&number) { 19 } else { 7 };
        assert_eq!(fontarelga::read_clocks(2, &right, number, &[0; 17]), Err(refused(row)));
        if !(2..=48).contains(&number) {
            assert_eq!(fontarelga::write_clocks(number, &chain, &[1]), Err(refused(5)));
            assert_eq!(fontarelga::read_clocks(number, &chain, number, &[]), Err(refused(5)));
        }
    }
}

/// What follows what is written is left as it was.
#[test]
fn the_tails_of_the_lent_lists() {
    let chain = fontarelga::Chain { cells: 4, driver_cells: vec![0, 1], receiver_cells: vec![2, 3] };
    let (mut clocks, mut responses) = ([90; 20], [80, 81, 82]);
    let scan = [1, 0, 0, 2, 0, 0, 1, 1, 0];
    assert_eq!(raw::write_clocks(2, &chain, &[1], &mut clocks), 0);
    assert_eq!(clocks[..], [&scan[..], &scan, &[90, 90]].concat());
    assert_eq!(raw::read_clocks(2, &chain, 1, &[1; 18], &mut responses), 0);
    assert_eq!(responses, [3, 81, 82]);
    assert_eq!(raw::write_clocks(2, &chain, &[4], &mut clocks), 8);
    assert_eq!(raw::read_clocks(2, &chain, 1, &[2; 18], &mut responses), 19);
    assert_eq!((&clocks[18..], responses), (&[90, 90][..], [3, 81, 82]));
}

/// Makes *write clocks*, compares it with the model, and gives its number.
fn write_number(board: &Board, chain: &Chain, vectors: &[u64], room: usize) -> u64 {
    let answer = write_clocks(board, chain, vectors, room);
    write_clocks_gives(board, chain, vectors, room, &answer);
    code(&answer)
}

/// The same for *read clocks*.
fn read_number(board: &Board, chain: &Chain, count: u64, tdo: &[u8], room: usize) -> u64 {
    let answer = read_clocks(board, chain, count, tdo, room);
    read_clocks_gives(board, chain, count, tdo, room, &answer);
    code(&answer)
}

/// Both calls on a chain, with one vector and, unless the chain is too long for it, as many TDO bytes as clocks.
fn numbers(board: &Board, chain: &Chain) -> [u64; 2] {
    let tdo = vec![1; 2 * (chain.cells.min(300) as usize + 5)];
    [write_number(board, chain, &[1], 1000), read_number(board, chain, 1, &tdo, 64)]
}

#[test]
fn bounds_of_the_length() {
    let board = two_nets();
    for cells in (0..=260).chain([256 + 4, 512, 1 << 16, 1 << 32, (1 << 32) + 4, u64::MAX - 4, u64::MAX]) {
        let chain = Chain { cells, drivers: vec![0, 1], receivers: vec![2, 3] };
        let expected = if (4..=200).contains(&cells) { 0 } else { 18 };
        assert_eq!(numbers(&board, &chain), [expected; 2], "{cells}");
    }
}

/// Every way to choose two driver cells and two receiver cells below 6, in chains of two to five cells: each of them in
/// the chain, and no two alike.
#[test]
fn every_choice_of_cells() {
    let (board, mut admitted) = (two_nets(), 0);
    for (cells, used) in (2..=5).flat_map(|cells| all_lists(6, 4).into_iter().map(move |used| (cells, used))) {
        let in_chain = used.iter().all(|cell| *cell < cells);
        let alike = (0..4).any(|i| used[..i].contains(&used[i]));
        let expected = if in_chain && !alike { 0 } else { 18 };
        assert_eq!(numbers(&board, &chain_with(cells, &board, &used)), [expected; 2]);
        admitted += usize::from(expected == 0);
    }
    assert_eq!(admitted, 24 + 120);
}

/// As many driver cells as nets and receiver cells as receivers, and no other numbers.
#[test]
fn bounds_of_the_numbers_of_cells() {
    let g = &mut Generator::new(81);
    for (n, m) in [(2, 2), (2, 5), (3, 64), (48, 48), (48, 64)] {
        let board = with_receivers(g, each_combination(n)[3], m);
        for (drivers, receivers) in (0..=n + 2).flat_map(|d| (m as u64 - 2..=m as u64 + 2).map(move |r| (d, r))) {
            let chain =
                Chain { cells: 200, drivers: (0..drivers).collect(), receivers: (100..100 + receivers).collect() };
            let expected = if (drivers, receivers) == (n, m as u64) { 0 } else { 18 };
            assert_eq!(numbers(&board, &chain), [expected; 2]);
        }
    }
}

/// One cell of a random chain moved: outside, to an idle cell, or to one that is used.
#[test]
fn chains_with_one_cell_moved() {
    let g = &mut Generator::new(82);
    let (mut admitted, mut refused) = (0, 0);
    for case in 0..1000 {
        let network = *g.pick(&each_combination(2 + case % 47));
        let board = with_some_receivers(g, network);
        let mut chain = some_chain(g, &board);
        assert_eq!(numbers(&board, &chain), [0; 2]);
        let far = [chain.cells, chain.cells + 1, 255, 256, (1 << 32) + 1, u64::MAX];
        let cell = if g.once_in(3) { *g.pick(&far) } else { g.below(chain.cells as usize) as u64 };
        let list = if g.once_in(2) { &mut chain.drivers } else { &mut chain.receivers };
        let place = g.below(list.len());
        list[place] = cell;
        match numbers(&board, &chain) {
            [0, 0] => admitted += 1,
            numbers => {
                assert_eq!(numbers, [18; 2]);
                refused += 1;
            }
        }
    }
    println!("chains with one cell moved: {admitted} admitted, {refused} refused");
    assert!(admitted > 200 && refused > 200);
}

/// As many TDO bytes as clocks, for the number of vectors that is told and no other.
#[test]
fn bounds_of_the_number_of_tdo_bytes() {
    let board = two_nets();
    let chain = Chain { cells: 6, drivers: vec![5, 0], receivers: vec![2, 3] };
    for (count, length) in (1..=4).flat_map(|count| (0..=60).map(move |length| (count, length))) {
        let expected = if length == (count as usize + 1) * 11 { 0 } else { 19 };
        assert_eq!(read_number(&board, &chain, count, &vec![1; length], 4), expected);
    }
    let longest = Chain { cells: 200, ..chain };
    for (length, expected) in [(13_324, 19), (13_325, 0), (13_326, 19), (13_325 - 205, 19), (13_325 + 205, 19)] {
        assert_eq!(read_number(&board, &longest, 64, &vec![0; length], 64), expected);
    }
}

/// A byte above 1 at each clock, also where it is not looked at for a response.
#[test]
fn bounds_of_the_tdo_bytes() {
    let board = two_nets();
    let chain = Chain { cells: 5, drivers: vec![4, 0], receivers: vec![1, 3] };
    for clock in 0..30 {
        for (byte, expected) in (0..=255).map(|byte| (byte, if byte < 2 { 0 } else { 19 })) {
            let mut tdo = [1; 30];
            tdo[clock] = byte;
            assert_eq!(read_number(&board, &chain, 2, &tdo, 2), expected);
        }
    }
}

#[test]
fn bounds_of_the_vectors() {
    let (board, chain) = (two_nets(), Chain { cells: 4, drivers: vec![3, 0], receivers: vec![1, 2] });
    for (length, expected) in [(0, 7), (1, 0), (2, 0), (63, 0), (64, 0), (65, 7), (66, 7), (200, 7)] {
        assert_eq!(write_number(&board, &chain, &vec![3; length], 1000), expected);
        let tdo = vec![0; (length + 1) * 9];
        assert_eq!(read_number(&board, &chain, length as u64, &tdo, 64), expected);
    }
    for count in [256 + 1, 1 << 32, (1 << 32) + 1, u64::MAX] {
        assert_eq!(read_number(&board, &chain, count, &[0; 18], 64), 7);
    }
    for (place, bit) in (0..3).flat_map(|place| (0..64).map(move |bit| (place, bit))) {
        let mut vectors = [3; 3];
        vectors[place] = 1 << bit;
        assert_eq!(write_number(&board, &chain, &vectors, 36), if bit < 2 { 0 } else { 8 });
    }
}

/// Room for a byte for each clock, and for a word for each vector.
#[test]
fn bounds_of_the_room() {
    let g = &mut Generator::new(83);
    for (n, m, count, cells) in [(2, 2, 1, 4), (2, 3, 64, 5), (48, 48, 1, 96), (48, 64, 64, 200)] {
        let board = with_receivers(g, each_combination(n)[0], m);
        let (chain, clocks) = (random_chain(g, &board, cells), (count + 1) * (cells as usize + 5));
        let write = |room: usize| write_number(&board, &chain, &vec![1; count], room);
        assert_eq!([0, 1, clocks / 2, clocks - 1, clocks, clocks + 1].map(write), [12, 12, 12, 12, 0, 0]);
        let read = |room: usize| read_number(&board, &chain, count as u64, &vec![1; clocks], room);
        assert_eq!([0, count - 1, count, count + 1].map(read), [12, 12, 0, 0]);
    }
}

/// All rows at once, and then without the first, without the first two, and so on: the first that is left is answered.
#[test]
fn the_order_of_the_rows() {
    let network = each_combination(2)[1];
    let right = Chain { cells: 4, drivers: vec![0, 1], receivers: vec![2, 3] };
    let wrong = Chain { cells: 201, ..right.clone() };
    let (no_net, no_receiver) =
        (Board { network: Network { nets: 1, ..network }, owners: vec![] }, Board { network, owners: vec![] });
    let board = network.into();
    let too_high = [4; 65];
    assert_eq!(write_number(&no_net, &wrong, &too_high, 0), 5);
    assert_eq!(write_number(&no_receiver, &wrong, &too_high, 0), 21);
    assert_eq!(write_number(&board, &wrong, &too_high, 0), 7);
    assert_eq!(write_number(&board, &wrong, &too_high[1..], 0), 8);
    assert_eq!(write_number(&board, &wrong, &[3], 0), 18);
    assert_eq!(write_number(&board, &right, &[3], 17), 12);
    assert_eq!(write_number(&board, &right, &[3], 18), 0);

    assert_eq!(read_number(&no_net, &wrong, 0, &[2], 0), 5);
    assert_eq!(read_number(&no_receiver, &wrong, 0, &[2], 0), 21);
    assert_eq!(read_number(&board, &wrong, 0, &[2], 0), 7);
    assert_eq!(read_number(&board, &wrong, 1, &[2], 0), 18);
    assert_eq!(read_number(&board, &right, 1, &[2; 18], 0), 19);
    assert_eq!(read_number(&board, &right, 1, &[1; 18], 0), 12);
    assert_eq!(read_number(&board, &right, 1, &[1; 18], 1), 0);
}

/// The walking set of every number of nets at its greatest: 49 vectors of 48 nets on 112 cells, all of them used.
#[test]
fn walking_sets_of_every_number_of_nets() {
    let g = &mut Generator::new(84);
    for network in (2..=48).flat_map(each_combination) {
        let board = with_receivers(g, network, 64);
        let chain = random_chain(g, &board, least_cells(&board));
        try_some_board(g, &board, &chain, &whole_walking_set(network));
    }
}
