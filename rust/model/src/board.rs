//! The receivers of a network, each belonging to a net.

use crate::network::{all_lists, Network};
use crate::rows::{bad_net_count, bad_receivers, Rows};

/// A network and the net of each of its receivers, of any numbers.
#[derive(Clone, Debug, PartialEq, Eq, Hash)]
pub struct Board {
    pub network: Network,
    pub owners: Vec<u64>,
}

impl Board {
    /// m, the number of receivers.
    pub fn receivers(&self) -> usize {
        self.owners.len()
    }
}

/// Said alone, m = n means receiver i on net i. The list ends at 65, for numbers that no network has.
impl From<Network> for Board {
    fn from(network: Network) -> Board {
        Board { network, owners: (0..network.nets.min(65)).collect() }
    }
}

/// Every list of m receivers that n nets can have.
pub fn all_owners(network: Network, m: usize) -> Vec<Vec<u64>> {
    let admitted = |owners: &Vec<u64>| !bad_receivers(&Board { network, owners: owners.clone() });
    all_lists(network.nets, m).into_iter().filter(admitted).collect()
}

pub fn rows_of_own_receivers<'a>(n: u64, room: usize) -> Rows<'a> {
    Rows::new().row(5, move || bad_net_count(n)).row(12, move || (room as u64) < n)
}

/// The call *own receivers*: receiver i on net i.
pub fn own_receivers(n: u64, room: usize) -> Result<Vec<u64>, u64> {
    rows_of_own_receivers(n, room).admit()?;
    Ok((0..n).collect())
}

#[cfg(test)]
mod tests {
    use super::*;
    use crate::network::OR;

    fn network_of(nets: u64) -> Network {
        Network { nets, level: 1, gate: OR }
    }

    fn admits(nets: u64, owners: &[u64]) -> bool {
        !bad_receivers(&Board { network: network_of(nets), owners: owners.to_vec() })
    }

    #[test]
    fn own_receivers_by_hand() {
        assert_eq!(own_receivers(3, 3), Ok(vec![0, 1, 2]));
        assert_eq!(own_receivers(48, 64).map(|owners| (owners.len(), owners[47])), Ok((48, 47)));
        assert_eq!([(1, 64), (49, 64), (u64::MAX, 0)].map(|(n, room)| own_receivers(n, room)), [5; 3].map(Err));
        assert_eq!([(2, 1), (48, 47), (48, 0)].map(|(n, room)| own_receivers(n, room)), [12; 3].map(Err));
        assert_eq!(Board::from(network_of(3)).owners, [0, 1, 2]);
    }

    /// Too few, too many, one that names no net, and a net without any.
    #[test]
    fn row_21_by_hand() {
        assert!([&[0, 1][..], &[1, 0], &[0, 1, 0], &[1, 1, 1, 0]].iter().all(|owners| admits(2, owners)));
        assert!(![&[][..], &[0], &[0, 0], &[1, 1, 1], &[0, 1, 2], &[0, u64::MAX, 1]].iter().any(|o| admits(2, o)));
        let front_and = |more: usize| [vec![0], vec![1; more]].concat();
        assert_eq!([62, 63, 64].map(|more| admits(2, &front_and(more))), [true, true, false]);
        let all: Vec<u64> = (0..48).collect();
        assert_eq!([admits(48, &all), admits(48, &all[1..]), admits(47, &all)], [true, false, false]);
        let all_and = |more: usize| [&all[..], &vec![0; more]].concat();
        assert_eq!([admits(48, &all_and(16)), admits(48, &all_and(17))], [true, false]);
    }

    /// Lists of two nets that are not all on one of them, and ways to put four receivers on three nets.
    #[test]
    fn lists_of_receivers_counted_by_hand() {
        let count = |n: u64, m: usize| all_owners(network_of(n), m).len();
        assert_eq!([2, 3, 4].map(|m| count(2, m)), [4 - 2, 8 - 2, 16 - 2]);
        assert_eq!([count(3, 2), count(3, 3), count(3, 4)], [0, 6, 6 * 6]);
    }
}
