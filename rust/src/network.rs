/// The gate of a wired OR: a receiver reads 1 if a driver in its reach drives 1, else 0.
pub const OR: u64 = 0;
/// The gate of a wired AND: a receiver reads 0 if a driver in its reach drives 0, else 1.
pub const AND: u64 = 1;

/// A network: n nets, each with one driver, its soft level and its gate. With its receivers it is a
/// [`Board`](crate::Board).
///
/// The gate says what a receiver reads, [`OR`] or [`AND`]. With either, a receiver that floats, since no driver reaches
/// it, reads the soft level. Of drivers tied together, where one at 1 makes the receivers read 1, a bench takes [`OR`];
/// where one at 0 makes them read 0, it takes [`AND`]. It takes the level that its receivers float to.
///
/// Class n and step two of a session take a walking vector for each net, and the extra vector where there is one:
///
/// | Gate | Soft level | Walking vectors have | Extra vector |
/// |---|---|---|---|
/// | OR | 0 | a single 1 | none |
/// | OR | 1 | a single 1 | 0 |
/// | AND | 0 | a single 0 | all ones |
/// | AND | 1 | a single 0 | none |
///
/// Where a call takes a network, the number of its nets will do, for OR and soft level 1:
///
/// ```
/// use fontarelga::{check, Network, Verdict, AND, OR};
/// assert_eq!(Network::from(4), Network::new(4));
/// assert_eq!(Network::new(4), Network::new(4).with_level(1).with_gate(OR));
/// assert_eq!(check(4, 4, &[1, 2, 4, 8]), check(Network::new(4), 4, &[1, 2, 4, 8]));
/// let pull_down = Network::new(4).with_level(0);
/// assert_eq!(check(pull_down, 4, &[1, 2, 4, 8]), Ok(Verdict::Pass));
/// let wired_and = pull_down.with_gate(AND);
/// assert_eq!(check(wired_and, 4, &[15, 14, 13, 11, 7]), Ok(Verdict::Pass));
/// assert_eq!(check(wired_and, 4, &[14, 13, 11, 7]), Ok(Verdict::Pair { a: 0, b: 15 }));
/// ```
#[derive(Clone, Copy, Debug, PartialEq, Eq, Hash)]
pub struct Network {
    nets: u64,
    level: u64,
    gate: u64,
}

impl Network {
    /// A network of this many nets, wired-OR, whose floating receivers read 1 (soft level 1).
    ///
    /// Any number is taken here. The calls accept 2 to 48, and refuse others with 5.
    pub const fn new(nets: u64) -> Network {
        Network { nets, level: 1, gate: OR }
    }

    /// The same network at another soft level: floating receivers read this.
    ///
    /// Any number is taken here. The calls accept 0 and 1, and refuse others with 17.
    #[must_use]
    pub const fn with_level(self, level: u64) -> Network {
        Network { level, ..self }
    }

    /// The same network with another gate.
    ///
    /// Any number is taken here. The calls accept [`OR`] and [`AND`], and refuse others with 20.
    #[must_use]
    pub const fn with_gate(self, gate: u64) -> Network {
        Network { gate, ..self }
    }

    /// The number of nets.
    pub const fn nets(self) -> u64 {
        self.nets
    }

    /// The soft level.
    pub const fn level(self) -> u64 {
        self.level
    }

    /// The gate.
    pub const fn gate(self) -> u64 {
        self.gate
    }
}

// The only number that converts: with a second one, `check(4, ..)` would not say which is meant.
/// As [`Network::new`].
impl From<u64> for Network {
    fn from(nets: u64) -> Network {
        Network::new(nets)
    }
}
