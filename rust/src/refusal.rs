use std::error::Error;
use std::fmt;

/// A call was turned away: the number of the row that held, the first in the table's order.
///
/// ```
/// use fontarelga::{check, Network};
/// let refusal = check(Network::new(49), 1, &[1]).unwrap_err();
/// assert_eq!(refusal.0, 5);
/// assert_eq!(refusal.to_string(), "refused 5: net count: n below 2 or above 48");
/// ```
#[derive(Clone, Copy, Debug, PartialEq, Eq, Hash)]
pub struct Refusal(pub u64);

impl Refusal {
    /// The table's words on the row: its place, and when it holds. There are n nets and m receivers, in a job file as
    /// many as nets.
    pub fn words(self) -> &'static str {
        match self.0 {
            1 => "file mark: first 4 bytes missing or different",
            2 => {
                "file contents: over 2,048 bytes, or count, table, kinds, offsets, lengths or end break the layout; \
                 or a kind to write that is neither 2 nor 4"
            }
            3 => {
                "file bodies: nets body not 4 bytes, vectors body of kind 4 not 1 byte more than a multiple of 8, \
                 or another not a multiple of 8"
            }
            4 => "session step: the record does not wait for this call, or no accepted calls leave such a record",
            5 => "net count: n below 2 or above 48",
            21 => "receivers: m below n or above 64, a receiver that names no net, or a net that has none",
            6 => {
                "class: k not 1, 2, 3, n or, for n up to 10, one from 4 to n - 1; or above n; \
                 or above 3 where a set is to be shortened"
            }
            17 => "soft level: neither 0 nor 1",
            20 => "gate: neither OR (0) nor AND (1)",
            7 => "vectors: fewer than 1 or more than 64, or sequential words that are not n",
            8 => "vectors: a bit at or above n, or in a sequential word at or above the number of vectors",
            9 => "responses: not as many as vectors",
            10 => "responses: a bit at or above m",
            11 => {
                "wiring state: not m words, a bit at or above n, more than k drivers, \
                 or two non-empty reaches that meet and differ"
            }
            12 => "lent list: shorter than the result, or than the set to be shortened",
            13 => "separation: the checker does not pass the set",
            14 => "fit: no state of the class fits",
            _ => "no row of the table",
        }
    }

    /// What a call's number says: 0 is accepted.
    pub(crate) fn from_code(code: u64) -> Result<(), Refusal> {
        match code {
            0 => Ok(()),
            number => Err(Refusal(number)),
        }
    }
}

impl fmt::Display for Refusal {
    fn fmt(&self, f: &mut fmt::Formatter<'_>) -> fmt::Result {
        write!(f, "refused {}: {}", self.0, self.words())
    }
}

impl Error for Refusal {}
