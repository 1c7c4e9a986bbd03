//! On which chain of our index an edge is, by the numbers of crates/keyparts/src/index.rt. No answer depends on it: by it maps
//! and lists are made in which many edges are on one chain, and what was met is counted.

const FACTOR: u64 = 1_607_379_325;
const BELOW: u64 = 4_194_304;

/// How many chains of Key edges there are.
pub const KEYS: usize = 1024;

/// Edges whose event is no key are on one chain where the numbers of their nodes differ by a multiple of this.
pub const ALIKE: usize = 256;

/// The chain of the edge that a node has for a key.
pub fn of_key(node: u16, key: u16) -> usize {
    let mixed = (u64::from(node) + 65_536 * u64::from(key)) * FACTOR;
    (mixed / BELOW) as usize % KEYS
}
