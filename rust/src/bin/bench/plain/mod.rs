//! Plain Rust versions of the calls: the baselines. They take and are lent the same lists as the library's calls, and
//! do the same work with the means of the standard library.

pub mod chain;
pub mod checker;
pub mod diagnosis;
pub mod findings;
pub mod job;
pub mod session;
pub mod shortening;
pub mod turning;

use fontarelga::{Board, Network, AND, OR};

/// The word of this many ones, 1 to 64.
fn low_ones(bits: u64) -> u64 {
    u64::MAX >> (64 - bits)
}

/// A bit at or above this many, 1 to 64, in some word.
pub fn has_high_bit(bits: u64, words: &[u64]) -> bool {
    words.iter().any(|word| word & !low_ones(bits) != 0)
}

/// m, the number of receivers.
pub fn receiver_count(board: &Board) -> u64 {
    board.receivers().len() as u64
}

/// Row 5.
fn admit_nets(n: u64) -> Result<(), u64> {
    if (2..=48).contains(&n) {
        Ok(())
    } else {
        Err(5)
    }
}

/// Row 21, after row 5.
fn admit_receivers(board: &Board) -> Result<(), u64> {
    let (n, receivers) = (board.network().nets(), board.receivers());
    let in_range = (n..=64).contains(&receiver_count(board)) && receivers.iter().all(|net| *net < n);
    if in_range && receivers.iter().fold(0, |named, net| named | 1 << net) == low_ones(n) {
        Ok(())
    } else {
        Err(21)
    }
}

/// Rows 17 and 20.
fn admit_level_and_gate(network: Network) -> Result<(), u64> {
    if network.level() > 1 {
        return Err(17);
    }
    if network.gate() > 1 {
        return Err(20);
    }
    Ok(())
}

/// Rows 5, 21, 17 and 20.
pub fn admit_board(board: &Board) -> Result<(), u64> {
    admit_nets(board.network().nets())?;
    admit_receivers(board)?;
    admit_level_and_gate(board.network())
}

/// Rows 5, 6, 17 and 20.
fn admit_before_vectors(network: Network, k: u64) -> Result<(), u64> {
    admit_nets(network.nets())?;
    admit_class(network, k)
}

/// Rows 5, 6, 17, 20, 7 and 8.
pub fn admit_set(network: Network, k: u64, vectors: &[u64]) -> Result<(), u64> {
    admit_before_vectors(network, k)?;
    admit_vectors(network.nets(), vectors)
}

/// The same rows, of which row 6 also turns away every class above 3.
pub fn admit_set_to_shorten(network: Network, k: u64, vectors: &[u64]) -> Result<(), u64> {
    admit_nets(network.nets())?;
    if k > 3 {
        return Err(6);
    }
    admit_class(network, k)?;
    admit_vectors(network.nets(), vectors)
}

/// Rows 5, 21, 6, 17, 20, 7 and 8.
pub fn admit_set_on_board(board: &Board, k: u64, vectors: &[u64]) -> Result<(), u64> {
    admit_nets(board.network().nets())?;
    admit_receivers(board)?;
    admit_class(board.network(), k)?;
    admit_vectors(board.network().nets(), vectors)
}

/// Rows 6, 17 and 20.
fn admit_class(network: Network, k: u64) -> Result<(), u64> {
    let n = network.nets();
    let most = if n <= 10 { n } else { 3 };
    if !(1..=most).contains(&k) && k != n {
        return Err(6);
    }
    admit_level_and_gate(network)
}

/// Row 7.
fn admit_vector_count(count: u64) -> Result<(), u64> {
    if (1..=64).contains(&count) {
        Ok(())
    } else {
        Err(7)
    }
}

/// Rows 7 and 8.
fn admit_vectors(n: u64, vectors: &[u64]) -> Result<(), u64> {
    admit_vector_count(vectors.len() as u64)?;
    if has_high_bit(n, vectors) {
        return Err(8);
    }
    Ok(())
}

/// Rows 7 and 8 on the sequential words of this many vectors.
fn admit_sequential(n: u64, count: u64, words: &[u64]) -> Result<(), u64> {
    if !(1..=64).contains(&count) || words.len() as u64 != n {
        return Err(7);
    }
    if has_high_bit(count, words) {
        return Err(8);
    }
    Ok(())
}

/// Rows 9 and 10, of m receivers.
pub fn admit_responses(m: u64, asked: usize, responses: &[u64]) -> Result<(), u64> {
    if responses.len() != asked {
        return Err(9);
    }
    if has_high_bit(m, responses) {
        return Err(10);
    }
    Ok(())
}

/// The number that a call returns.
pub fn code(answer: Result<(), u64>) -> u64 {
    answer.err().unwrap_or(0)
}

/// Bit i of each of these words, the first word's first: of parallel words a sequential one.
fn along(words: &[u64], i: u64) -> u64 {
    words.iter().enumerate().map(|(t, word)| (word >> i & 1) << t).sum()
}

/// The words along these words, one for each of their lowest bits: from parallel words the sequential ones.
pub fn turned(bits: u64, words: &[u64]) -> Vec<u64> {
    (0..bits).map(|i| along(words, i)).collect()
}

/// All n drivers.
pub fn all_drivers(network: Network) -> u64 {
    low_ones(network.nets())
}

/// The vector that class n and step two want beside the walking ones: with OR vector 0 at soft level 1, with AND all
/// ones at 0.
pub fn extra_vector(network: Network) -> Option<u64> {
    match (network.gate(), network.level()) {
        (OR, 1) => Some(0),
        (AND, 0) => Some(all_drivers(network)),
        _ => None,
    }
}

/// The lowest bits of a word that have the value which prevails among drivers tied together: 1 with OR, 0 with AND.
fn prevailing(gate: u64, bits: u64, word: u64) -> u64 {
    match gate {
        OR => word,
        _ => !word & low_ones(bits),
    }
}

/// The single driver of a walking vector, and from a driver its walking vector.
pub fn dominant(network: Network, word: u64) -> u64 {
    prevailing(network.gate(), network.nets(), word)
}

/// The receivers that the driver of a walking vector reaches, from their answer to it.
pub fn reached(board: &Board, answer: u64) -> u64 {
    prevailing(board.network().gate(), receiver_count(board), answer)
}

/// Puts the driver into the reach of each of these receivers.
pub fn put_driver(state: &mut [u64], receivers: u64, driver: u64) {
    state.iter_mut().enumerate().filter(|(r, _)| receivers >> r & 1 == 1).for_each(|(_, reach)| *reach |= driver);
}

/// Leaves the reach of each of these receivers empty.
pub fn put_floating(state: &mut [u64], receivers: u64) {
    state.iter_mut().enumerate().filter(|(r, _)| receivers >> r & 1 == 1).for_each(|(_, reach)| *reach = 0);
}

/// What the receivers of a state read on one vector.
pub fn read(network: Network, state: &[u64], vector: u64) -> u64 {
    let floating = network.level() == 1;
    let reads = |reach: u64| match network.gate() {
        OR => reach & vector != 0 || reach == 0 && floating,
        _ => reach & !vector == 0 && (reach != 0 || floating),
    };
    state.iter().enumerate().map(|(i, reach)| u64::from(reads(*reach)) << i).sum()
}

/// No two reaches that are not empty meet and differ.
pub fn reaches_agree(state: &[u64]) -> bool {
    let differ = |a: &u64, b: &u64| a & b != 0 && a != b;
    state.iter().enumerate().all(|(i, a)| state[..i].iter().all(|b| !differ(a, b)))
}
