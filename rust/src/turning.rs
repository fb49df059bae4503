//! Test sets vector by vector, as parallel words, and net by net, as sequential words.

use crate::interface as raw;
use crate::refusal::Refusal;
use crate::sizes::{MOST_NETS, MOST_VECTORS};

/// The sequential words of a test set, one a net: bit t of word i is what driver i drives on vector t.
///
/// `nets` is n, 2 to 48. `vectors` has 1 to 64 parallel words, bit i for net i. [`turn_back`] undoes it.
///
/// Refused: 5, 7, 8.
///
/// ```
/// use fontarelga::{turn, turn_back, Refusal};
/// // Net 0 is driven to 1 on vector 1, net 1 on vector 2, and so on.
/// assert_eq!(turn(4, &[0, 1, 2, 4, 8]), Ok(vec![2, 4, 8, 16]));
/// assert_eq!(turn_back(4, 5, &[2, 4, 8, 16]), Ok(vec![0, 1, 2, 4, 8]));
/// assert_eq!(turn(4, &[16]), Err(Refusal(8)));
/// ```
pub fn turn(nets: u64, vectors: &[u64]) -> Result<Vec<u64>, Refusal> {
    let mut words = [0; MOST_NETS];
    Refusal::from_code(raw::turn(nets, vectors, &mut words))?;
    Ok(words[..nets as usize].to_vec())
}

/// The test set of these sequential words: as many parallel words as `count` says, bit i of vector t from bit t of word
/// i.
///
/// `nets` is n, 2 to 48, and `count` 1 to 64. `words` has n sequential words, net 0 first, without a bit at or above
/// `count`. [`turn`] undoes it.
///
/// Refused: 5, 7 (here also for words that are not n), 8 (a bit at or above `count`).
///
/// ```
/// use fontarelga::{turn_back, Refusal};
/// assert_eq!(turn_back(2, 3, &[1, 6]), Ok(vec![1, 2, 2]));
/// // A fourth vector, on which both nets are driven to 0.
/// assert_eq!(turn_back(2, 4, &[1, 6]), Ok(vec![1, 2, 2, 0]));
/// assert_eq!(turn_back(2, 2, &[1, 6]), Err(Refusal(8)));
/// assert_eq!(turn_back(3, 3, &[1, 6]), Err(Refusal(7)));
/// ```
pub fn turn_back(nets: u64, count: u64, words: &[u64]) -> Result<Vec<u64>, Refusal> {
    let mut vectors = [0; MOST_VECTORS];
    Refusal::from_code(raw::turn_back(nets, count, words, &mut vectors))?;
    Ok(vectors[..count as usize].to_vec())
}
