//! Large map files, for the times of reading and writing. The limits on nodes and edges keep a thousand bindings near 20,000
//! bytes, so a map of 60,000 has longer paths and steps.

use crate::inputs::{map_of, put_numbers, SEED};

pub const LARGE: usize = 60_000;

/// A machine keeps no more binding calls, so a map has no more.
pub const KEPT: u16 = 1024;

pub const MAPPING: u16 = 0;
pub const PREFIX: u16 = 1;

/// A key that takes three bytes.
const WIDE: u16 = 20_000;

/// (repeat, event) as numbers of a map file.
pub type Part = Vec<u16>;

pub fn once_key(k: u16) -> Part {
    vec![0, 0, k]
}

pub fn once_class(c: u16) -> Part {
    vec![0, 1, c]
}

pub fn once_any() -> Part {
    vec![0, 2]
}

pub fn once_fall() -> Part {
    vec![0, 3]
}

pub fn max_key(n: u16, k: u16) -> Part {
    vec![2, n, 0, k]
}

pub fn max_class(n: u16, class: u16) -> Part {
    vec![2, n, 1, class]
}

/// A binding's numbers, in mode 0.
fn binding(kind: u16, path: &[Part], step: &[u16]) -> Vec<u16> {
    binding_in(0, kind, path, step)
}

/// A binding's numbers.
pub fn binding_in(mode: u16, kind: u16, path: &[Part], step: &[u16]) -> Vec<u16> {
    let mut numbers = vec![kind, mode, path.len() as u16];
    numbers.extend(path.iter().flatten());
    numbers.extend(step);
    numbers
}

const ONE_ACTION: [u16; 6] = [0, 1, 1, 0, 0, 0];
/// Four actions and a mark, three bytes each.
const LONG_STEP: [u16; 9] = [0, 4, WIDE, WIDE, WIDE, WIDE, 0, 0, WIDE];

/// A file of bindings alone, from those that are given one after another while they fit, filled to the size with bindings of
/// no part, which do nothing. No machine keeps more of them.
fn file(mut bindings: impl FnMut(usize) -> Option<Vec<u16>>) -> (usize, Vec<u8>) {
    let idle = binding(PREFIX, &[], &[]);
    let head = [0, 0, 0].len() + 3;
    let mut body = vec![];
    let mut count = 0;
    let mut given = 0;
    while count < KEPT {
        let mut next = vec![];
        match bindings(given) {
            Some(numbers) => put_numbers(&numbers, &mut next),
            None => put_numbers(&idle, &mut next),
        }
        if head + body.len() + next.len() > LARGE {
            break;
        }
        body.extend(next);
        given += 1;
        count += 1;
    }
    while count < KEPT && head + body.len() + idle.len() <= LARGE {
        put_numbers(&idle, &mut body);
        count += 1;
    }
    (given, headed(count, body))
}

/// Empty tables, a count and the bindings.
fn headed(count: u16, body: Vec<u8>) -> Vec<u8> {
    let mut bytes = vec![];
    put_numbers(&[0, 0, 0, count], &mut bytes);
    [bytes, body].concat()
}

pub struct Large {
    pub what: String,
    pub bytes: Vec<u8>,
}

/// Some 960 mappings of eight keys, of which seven are the same for all, with the longest step.
fn long_bindings() -> Large {
    let (given, bytes) = file(|i| {
        let mut path = vec![once_key(WIDE); 7];
        path.push(once_key(WIDE + 1 + i as u16));
        Some(binding(MAPPING, &path, &LONG_STEP))
    });
    Large { what: format!("{given} mappings of eight keys, seven of them shared, with four actions and a mark"), bytes }
}

/// Half of the mappings that a machine keeps, bound twice.
fn bound_again() -> Large {
    let paths: Vec<Vec<Part>> = map_of(KEPT / 2, SEED)
        .bindings
        .iter()
        .filter(|b| b.action.is_some())
        .map(|b| b.keys().into_iter().map(once_key).collect())
        .collect();
    let (given, bytes) = file(|i| Some(binding(MAPPING, &paths[i % paths.len()], &ONE_ACTION)));
    Large { what: format!("{given} mappings of one and two keys: {}, bound twice", KEPT / 2), bytes }
}

/// Three paths of 765 nodes and 1,530 edges.
fn long_runs(i: usize) -> Vec<u16> {
    binding(MAPPING, &[max_key(255, WIDE + i as u16)], &ONE_ACTION)
}

/// The longest paths in the fewest bytes, over a table of edges that is full.
fn long_searches() -> Large {
    let (_, bytes) = file(|i| match i {
        0..3 => Some(long_runs(i)),
        3..489 => Some(binding(PREFIX, &[once_key(i as u16)], &[])),
        _ => Some(binding(MAPPING, &vec![once_any(); 32], &ONE_ACTION)),
    });
    let what = "3 times Max(255) of a key and 486 prefixes of one key, then one mapping of 32 Any parts, bound again and again";
    Large { what: what.into(), bytes }
}

/// As many repeats as a part may have, over a table of edges that is nearly full: each binding walks 255 nodes.
fn long_repeats() -> Large {
    let (_, bytes) = file(|i| match i {
        0 => Some(long_runs(0)),
        1..630 => Some(binding(PREFIX, &[once_key(i as u16)], &[])),
        630..1014 => Some(binding(MAPPING, &[max_key(255, WIDE + 1)], &ONE_ACTION)),
        _ => None,
    });
    let what = "629 prefixes of one key, then 384 times Max(255) of one key (made to be slow)";
    Large { what: what.into(), bytes }
}

/// As many calls as a machine keeps, each as long as it can be: the first makes the nodes of a path of 32 keys, and the others
/// follow its edges whatever their repeats are.
pub fn full() -> Large {
    let keys = WIDE..WIDE + 32;
    let plain: Vec<Part> = keys.clone().map(once_key).collect();
    let mut repeated: Vec<Part> = keys.map(|k| max_key(255, k)).collect();
    repeated[31] = plain[31].clone();
    let mut body = vec![];
    for path in std::iter::once(&plain).chain(std::iter::repeat(&repeated)).take(KEPT as usize) {
        put_numbers(&binding(MAPPING, path, &LONG_STEP), &mut body);
    }
    Large { what: format!("{KEPT} mappings of 32 parts, with four actions and a mark"), bytes: headed(KEPT, body) }
}

pub fn large() -> Vec<Large> {
    vec![long_bindings(), bound_again(), long_searches(), long_repeats(), full()]
}
