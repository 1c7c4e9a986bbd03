//! What a change of map carries over, and the steps by which `oracle.rs` brings it about on an original made anew: each gives one
//! pair or enters a mode, whatever the tables say.

use crate::calls::{Context, Pair};

#[derive(Clone, Default)]
pub struct Carried {
    pub mode: u16,
    pub context: Context,
    pub queue: Vec<Pair>,
    pub trail: Vec<u16>,
    pub sequences: Vec<Sequence>,
}

/// What a sequence remembers.
#[derive(Clone)]
pub struct Sequence {
    pub number: u16,
    pub pairs: Vec<Pair>,
    pub is_broken: bool,
}

/// A step of no map: its pair or next mode, and the statuses of the pair in sequences.
#[derive(Clone, Default)]
pub struct Told {
    pub pair: Option<Pair>,
    pub next: Option<u16>,
    pub statuses: Vec<(u16, u16)>,
}

const BREAK: u16 = 1;
const RESTART: u16 = 3;
const TRACK: u16 = 4;

impl Sequence {
    /// The first pair begins it anew, the others are tracked; another pair breaks it.
    fn told(&self) -> Vec<Told> {
        let one = |pair, status| Told { pair: Some(pair), next: None, statuses: vec![(self.number, status)] };
        let status = |at| if at == 0 { RESTART } else { TRACK };
        let mut told: Vec<Told> = self.pairs.iter().enumerate().map(|(at, &pair)| one(pair, status(at))).collect();
        if self.is_broken {
            told.push(one(Pair { action: 0, context: Context::default() }, BREAK));
        }
        told
    }
}

impl Carried {
    /// Mode and sequences. What is queued by it is no part of what is carried over.
    pub fn entered(&self) -> Vec<Told> {
        let mode = Told { next: Some(self.mode), ..Told::default() };
        std::iter::once(mode).chain(self.sequences.iter().flat_map(Sequence::told)).collect()
    }

    /// The queue.
    pub fn waiting(&self) -> Vec<Told> {
        self.queue.iter().map(|&pair| Told { pair: Some(pair), ..Told::default() }).collect()
    }
}
