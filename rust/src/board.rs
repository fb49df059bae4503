use crate::interface as raw;
use crate::network::Network;
use crate::sizes::MOST_NETS;
use std::borrow::Cow;

/// A board: a network and its receivers, each of which belongs to a net.
///
/// The list of receivers has the net of each: receiver r is on net `receivers[r]`. There are n to 64 of them, at least
/// one on each net. Bit r of a response stands for receiver r, and word r of a wiring state is its reach.
///
/// Where a call takes a board, a [`Network`] will do, or the number of its nets: for one receiver a net, receiver i on
/// net i. A board can also be lent.
///
/// ```
/// use fontarelga::{findings, respond, Board, Kind, Network, Refusal};
/// let network = Network::new(2);
/// assert_eq!(Board::of(network), Board::with(network, &[0, 1]));
/// assert_eq!(findings(network, &[1, 2]), findings(Board::of(network), &[1, 2]));
///
/// // Net 0 is a clock net with three receivers, of which the second floats. Net 1 has one receiver.
/// let clock = Board::with(network, &[0, 0, 0, 1]);
/// assert_eq!(respond(&clock, 2, &[0, 1, 2], &[1, 0, 1, 2]), Ok(vec![2, 7, 10]));
/// let kinds: Vec<Kind> = findings(&clock, &[1, 0, 1, 2])?.iter().map(|finding| finding.kind).collect();
/// assert_eq!(kinds, [Kind::Sound, Kind::Open, Kind::Sound, Kind::Sound]);
///
/// // No receiver on net 1.
/// assert_eq!(findings(Board::with(network, &[0, 0]), &[1, 1]), Err(Refusal(21)));
/// # Ok::<(), Refusal>(())
/// ```
#[derive(Clone, Debug, PartialEq, Eq, Hash)]
pub struct Board<'a> {
    network: Network,
    receivers: Cow<'a, [u64]>,
}

impl Board<'static> {
    /// The network with one receiver a net: receiver i is on net i.
    ///
    /// Any number of nets is taken here. One that the calls refuse with 5 has an empty list.
    pub fn of(network: impl Into<Network>) -> Board<'static> {
        let network = network.into();
        let mut receivers = vec![0; MOST_NETS];
        match raw::own_receivers(network.nets(), &mut receivers) {
            0 => receivers.truncate(network.nets() as usize),
            _ => receivers.clear(),
        }
        Board { network, receivers: Cow::Owned(receivers) }
    }
}

impl<'a> Board<'a> {
    /// The network with these receivers: the list has the net of each.
    ///
    /// Any list is taken here. The calls accept one of n to 64 receivers that names nets only, and each net at least
    /// once. They refuse others with 21, the empty list among them: it does not stand for one receiver a net.
    pub fn with(network: impl Into<Network>, receivers: &'a [u64]) -> Board<'a> {
        Board { network: network.into(), receivers: Cow::Borrowed(receivers) }
    }

    /// The network.
    pub fn network(&self) -> Network {
        self.network
    }

    /// The net of each receiver.
    pub fn receivers(&self) -> &[u64] {
        &self.receivers
    }
}

/// As [`Board::of`].
impl From<Network> for Board<'_> {
    fn from(network: Network) -> Self {
        Board::of(network)
    }
}

// As with `Network`, the only number that converts.
/// As [`Board::of`].
impl From<u64> for Board<'_> {
    fn from(nets: u64) -> Self {
        Board::of(nets)
    }
}

/// The same board, lent.
impl<'a> From<&'a Board<'_>> for Board<'a> {
    fn from(board: &'a Board<'_>) -> Self {
        Board::with(board.network, &board.receivers)
    }
}
