//! A set of signals: bit s of the word stands for signal s.

#[derive(Clone, Copy, Debug, Default, PartialEq, Eq)]
pub struct Signals(pub u64);

impl Signals {
    pub fn has(self, signal: usize) -> bool {
        self.0 >> signal & 1 == 1
    }

    pub fn raise(&mut self, signal: usize) {
        self.0 |= 1 << signal;
    }

    pub fn drop(&mut self, signal: usize) {
        self.0 &= !(1 << signal);
    }

    pub fn both(self, other: Signals) -> Signals {
        Signals(self.0 & other.0)
    }

    pub fn without(self, other: Signals) -> Signals {
        Signals(self.0 & !other.0)
    }

    pub fn lowest(self) -> Option<usize> {
        (self.0 != 0).then(|| self.0.trailing_zeros() as usize)
    }
}

impl FromIterator<usize> for Signals {
    fn from_iter<I: IntoIterator<Item = usize>>(signals: I) -> Signals {
        let mut set = Signals::default();
        for signal in signals {
            set.raise(signal);
        }
        set
    }
}
