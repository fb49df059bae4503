//! The response of a wiring state, with the rows of its call.

use crate::board::Board;
use crate::network::response;
use crate::rows::{bad_state, rows_of_set_on_board, Rows};

pub fn rows_of_respond<'a>(board: &'a Board, k: u64, vectors: &'a [u64], state: &'a [u64], room: usize) -> Rows<'a> {
    rows_of_set_on_board(board, k, vectors)
        .row(11, move || bad_state(board, k, state))
        .row(12, move || room < vectors.len())
}

/// The call *response from a state*.
pub fn respond(board: &Board, k: u64, vectors: &[u64], state: &[u64], room: usize) -> Result<Vec<u64>, u64> {
    rows_of_respond(board, k, vectors, state, room).admit()?;
    Ok(response(board.network, vectors, state))
}
