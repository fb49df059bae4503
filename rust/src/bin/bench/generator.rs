//! Random vectors, lists of receivers, wiring states and chains.

use fontarelga::{Board, Chain};

/// A small generator (splitmix64).
pub struct Generator(pub u64);

impl Generator {
    pub fn word(&mut self) -> u64 {
        self.0 = self.0.wrapping_add(0x9E37_79B9_7F4A_7C15);
        let mut z = self.0;
        z = (z ^ (z >> 30)).wrapping_mul(0xBF58_476D_1CE4_E5B9);
        z = (z ^ (z >> 27)).wrapping_mul(0x94D0_49BB_1331_11EB);
        z ^ (z >> 31)
    }

    pub fn below(&mut self, limit: usize) -> usize {
        (self.word() % limit as u64) as usize
    }

    /// A vector of n bits, a quarter of them 1.
    pub fn sparse(&mut self, n: u64) -> u64 {
        self.word() & self.word() & (u64::MAX >> (64 - n))
    }

    /// The net of each of m receivers: one a net, and the others on any.
    pub fn receivers(&mut self, n: u64, m: u64) -> Vec<u64> {
        (0..m).map(|r| if r < n { r } else { self.below(n as usize) as u64 }).collect()
    }

    /// A chain for n nets and m receivers, which uses its cells in any order.
    pub fn chain(&mut self, n: u64, m: usize, cells: usize) -> Chain {
        let mut used: Vec<u64> = (0..cells as u64).collect();
        (1..cells).rev().for_each(|last| used.swap(last, self.below(last + 1)));
        let receiver_cells = used.split_off(n as usize)[..m].to_vec();
        Chain { cells: cells as u64, driver_cells: used, receiver_cells }
    }

    /// What TDO is at each clock while these responses are read: in all places but theirs anything.
    pub fn tdo(&mut self, chain: &Chain, responses: &[u64]) -> Vec<u8> {
        let scan = chain.cells as usize + 5;
        let mut tdo: Vec<u8> = (0..(responses.len() + 1) * scan).map(|_| self.below(2) as u8).collect();
        for (t, word) in responses.iter().enumerate() {
            for (r, cell) in chain.receiver_cells.iter().enumerate() {
                tdo[(t + 1) * scan + 3 + *cell as usize] = (word >> r & 1) as u8;
            }
        }
        tdo
    }

    /// A state of class k: drivers in groups of at most k; each receiver has the group of its net's driver, another, or
    /// none.
    pub fn state(&mut self, board: &Board, k: u64) -> Vec<u64> {
        let n = board.network().nets();
        let mut groups: Vec<u64> = Vec::new();
        for driver in 0..n {
            let place = self.below(2 * n as usize);
            match groups.get_mut(place) {
                Some(group) if u64::from(group.count_ones()) < k => *group |= 1 << driver,
                _ => groups.push(1 << driver),
            }
        }
        let of =
            |net: u64| groups.iter().copied().find(|group| group >> net & 1 == 1).expect("a group for each driver");
        let reach = |r: usize, net: u64, choice: usize| match choice {
            0 => 0,
            1 => groups[r % groups.len()],
            _ => of(net),
        };
        board.receivers().iter().enumerate().map(|(r, net)| reach(r, *net, self.below(10))).collect()
    }
}
