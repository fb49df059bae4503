//! The findings: a pass over the receivers for each receiver.

use super::{admit_board, code, has_high_bit, reaches_agree};
use fontarelga::{Board, FINDING_WORDS};

/// Rows 5, 21, 17, 20, 11 for class n, and 12.
fn admit(board: &Board, state: &[u64], room: usize) -> Result<(), u64> {
    let m = board.receivers().len();
    admit_board(board)?;
    if state.len() != m || has_high_bit(board.network().nets(), state) || !reaches_agree(state) {
        return Err(11);
    }
    if room < m {
        return Err(12);
    }
    Ok(())
}

/// The other nets with a receiver that has a driver in common with receiver r or is reached by its net's driver, and
/// those whose driver reaches a receiver together with its net's driver or reaches r. `own` has the driver of each
/// receiver's net.
fn partners(own: &[u64], state: &[u64], r: usize) -> u64 {
    let (driver, reach) = (own[r], state[r]);
    let mut joined = reach;
    for (net, other) in own.iter().zip(state) {
        let reached = other & driver != 0;
        if reached {
            joined |= other;
        }
        if reached || reach & other != 0 {
            joined |= net;
        }
    }
    joined & !driver
}

/// The call.
pub fn findings(board: &Board, state: &[u64], table: &mut [u64]) -> u64 {
    code(admit(board, state, table.len() / FINDING_WORDS).map(|()| {
        let own: Vec<u64> = board.receivers().iter().map(|net| 1 << net).collect();
        for (r, record) in table.chunks_exact_mut(FINDING_WORDS).take(state.len()).enumerate() {
            let (reach, partners) = (state[r], partners(&own, state, r));
            let (open, short) = (reach & own[r] == 0, partners != 0);
            record.copy_from_slice(&[u64::from(open) + 2 * u64::from(short), reach, partners]);
        }
    }))
}
