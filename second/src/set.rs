//! Sets of terminals: a 64-bit word in which terminal `a` has the worth 2^a.

#[derive(Clone, Copy, PartialEq, Eq, PartialOrd, Ord, Hash, Debug, Default)]
pub struct TerminalSet(pub u64);

impl TerminalSet {
    pub const EMPTY: TerminalSet = TerminalSet(0);

    pub fn one(terminal: u8) -> TerminalSet {
        TerminalSet(1 << terminal)
    }

    pub fn join(self, other: TerminalSet) -> TerminalSet {
        TerminalSet(self.0 | other.0)
    }

    pub fn holds(self, terminal: u8) -> bool {
        self.0 >> terminal & 1 == 1
    }

    pub fn is_empty(self) -> bool {
        self.0 == 0
    }

    /// Whether every terminal of this set is in the other one.
    pub fn within(self, other: TerminalSet) -> bool {
        self.0 & !other.0 == 0
    }

    /// Whether every terminal of this set is below `count`, which is at most 64.
    pub fn below(self, count: usize) -> bool {
        count == 64 || self.0 >> count == 0
    }

    /// The terminals of the set, rising.
    pub fn terminals(self) -> impl Iterator<Item = u8> {
        let mut rest = self.0;
        std::iter::from_fn(move || {
            if rest == 0 {
                return None;
            }
            let lowest = rest.trailing_zeros() as u8;
            rest &= rest - 1;
            Some(lowest)
        })
    }
}
