//! What pairs came to: how many, and a number that depends on each of them and on their order. Both sides must come to the
//! same, or the benchmark stops. A count stands in it as a run writes it, 0 for none and else one more than it is.

#[derive(Clone, Copy, Debug, Default, PartialEq)]
pub struct Sum {
    pub pairs: u32,
    pub mixed: u32,
}

impl Sum {
    pub fn add(&mut self, action: u16, count: Option<u16>, mark: u16) {
        self.add_written([action as u32, count.map_or(0, |c| c as u32 + 1), mark as u32]);
    }

    /// A pair's numbers as a run writes them.
    pub fn add_written(&mut self, pair: [u32; 3]) {
        self.pairs = self.pairs.wrapping_add(1);
        for n in pair {
            self.mixed = self.mixed.wrapping_mul(31).wrapping_add(n);
        }
    }

    /// As the crate `bench` answers it.
    pub fn of_word(word: u64) -> Self {
        Sum { pairs: (word >> 32) as u32, mixed: word as u32 }
    }
}
