//! Bindings and keys from a fixed seed, the same for both sides, and the map file that says the bindings.

use crate::bytes::put_number;

pub const SEED: u64 = 20_261_116;

/// Every key has so many rounds: more than any needs.
pub const BUDGET: u16 = 1000;

pub const DIGITS: std::ops::RangeInclusive<u16> = 48..=57;

/// Keys from here on are bound by no map.
const UNBOUND: u16 = 3000;

/// A small generator (xorshift), so that a seed gives the same inputs on every machine.
pub struct Seeded(u64);

impl Seeded {
    pub fn new(seed: u64) -> Self {
        Seeded(seed.wrapping_mul(0x9E37_79B9_7F4A_7C15) | 1)
    }

    pub fn below(&mut self, n: u16) -> u16 {
        self.0 ^= self.0 << 13;
        self.0 ^= self.0 >> 7;
        self.0 ^= self.0 << 17;
        ((self.0 >> 32) % n as u64) as u16
    }

    fn one_of<'a, T>(&mut self, items: &'a [T]) -> &'a T {
        &items[self.below(items.len() as u16) as usize]
    }

    fn shuffle<T>(&mut self, items: &mut [T]) {
        for i in (1..items.len()).rev() {
            items.swap(i, self.below(i as u16 + 1) as usize);
        }
    }
}

#[derive(Clone, Copy, PartialEq)]
pub enum Event {
    Key(u16),
    Class(u16),
}

/// A mapping with one action, or a prefix without a step; all in mode 0, each part once.
#[derive(Clone)]
pub struct Binding {
    pub path: Vec<Event>,
    pub action: Option<u16>,
}

pub struct Rule {
    pub low: u16,
    pub high: u16,
    pub sequence: u16,
    pub status: u16,
}

/// Tables and bindings: what a map file says.
pub struct Map {
    /// (class, low, high)
    pub classes: Vec<(u16, u16, u16)>,
    pub rules: Vec<Rule>,
    pub bindings: Vec<Binding>,
}

/// Half of the mappings have one key, half have two, of which some fifty begin with the same key. A prefix takes the digits as
/// a count. Lower actions are remembered, higher ones end what is remembered.
pub fn map_of(count: u16, seed: u64) -> Map {
    let mut seeded = Seeded::new(seed ^ count as u64);
    let mut keys: Vec<u16> = (*DIGITS.end() + 1..UNBOUND).collect();
    seeded.shuffle(&mut keys);
    let mut fresh = keys.into_iter();
    let mut take = |n: u16| fresh.by_ref().take(n as usize).collect::<Vec<u16>>();
    let singles = take(count / 2);
    let leaders = take(count / 50 + 1);
    let seconds = take(50);
    let mut pairs: Vec<(u16, u16)> = leaders.iter().flat_map(|&l| seconds.iter().map(move |&s| (l, s))).collect();
    seeded.shuffle(&mut pairs);
    let one = singles.into_iter().map(|k| vec![Event::Key(k)]);
    let two = pairs.into_iter().map(|(a, b)| vec![Event::Key(a), Event::Key(b)]);
    let mut paths: Vec<Vec<Event>> = one.chain(two).take(count as usize).collect();
    seeded.shuffle(&mut paths);
    let digits = Binding { path: vec![Event::Class(0)], action: None };
    let mappings = paths.into_iter().map(|path| Binding { path, action: Some(1 + seeded.below(127)) });
    Map {
        classes: vec![(0, *DIGITS.start(), *DIGITS.end()), (1, 97, 122)],
        rules: vec![
            Rule { low: 1, high: 63, sequence: 0, status: 0 },
            Rule { low: 64, high: 127, sequence: 0, status: 1 },
        ],
        bindings: std::iter::once(digits).chain(mappings).collect(),
    }
}

/// What a clerk types: three times in four a count of one to four digits, and then a mapping's keys. One in ten is a
/// mistake: a key that no binding has, alone or in the place of a mapping's last key.
pub fn keys_of(map: &Map, count: usize, seed: u64) -> Vec<u16> {
    let mut seeded = Seeded::new(seed.rotate_left(17) ^ map.bindings.len() as u64);
    let mappings: Vec<&Binding> = map.bindings.iter().filter(|b| b.action.is_some()).collect();
    let mut keys = vec![];
    while keys.len() < count {
        if seeded.below(4) != 0 {
            for _ in 0..=seeded.below(4) {
                keys.push(*DIGITS.start() + seeded.below(10));
            }
        }
        keys.extend(seeded.one_of(&mappings).keys());
        if seeded.below(10) == 0 {
            keys.pop();
            keys.push(UNBOUND + seeded.below(100));
        }
    }
    keys.truncate(count);
    keys
}

/// Tapes of one kind of key each, to see what a kind costs. The digits are zeros, so that no count passes 65,535: our side
/// refuses such a key and ends there. The mapping behind them gives a pair, which shows that all were taken.
pub fn kinds_of(map: &Map, count: usize, seed: u64) -> [(&'static str, Vec<u16>); 4] {
    let mut seeded = Seeded::new(seed);
    let of_length = |n: usize| -> Vec<&Binding> {
        map.bindings.iter().filter(|b| b.action.is_some() && b.path.len() == n).collect()
    };
    let mut typed = |mappings: Vec<&Binding>| -> Vec<u16> {
        std::iter::repeat_with(|| seeded.one_of(&mappings).keys()).flatten().take(count).collect()
    };
    let last = of_length(1)[0].keys();
    let digits = std::iter::repeat_n(*DIGITS.start(), count - 1).chain(last);
    [
        ("digits, taken by a class", digits.collect()),
        ("mappings of one key", typed(of_length(1))),
        ("mappings of two keys", typed(of_length(2))),
        ("keys that no binding has", (UNBOUND..UNBOUND + 100).cycle().take(count).collect()),
    ]
}

// ---- bytes

pub fn put_numbers(ns: &[u16], out: &mut Vec<u8>) {
    ns.iter().for_each(|&n| put_number(n as u32, out));
}

/// All numbers of good bytes.
pub fn numbers(bytes: &[u8]) -> Vec<u32> {
    let mut out = vec![];
    let (mut value, mut shift) = (0u32, 0);
    for b in bytes {
        value |= ((b & 0x7F) as u32) << shift;
        shift += 7;
        if *b < 0x80 {
            out.push(value);
            (value, shift) = (0, 0);
        }
    }
    out
}

impl Binding {
    /// The keys to type for it, if no class is in its path.
    pub fn keys(&self) -> Vec<u16> {
        self.path.iter().map(|(Event::Key(k) | Event::Class(k))| *k).collect()
    }

    fn put(&self, out: &mut Vec<u8>) {
        let kind = if self.action.is_some() { 0 } else { 1 };
        put_numbers(&[kind, 0, self.path.len() as u16], out);
        for event in &self.path {
            match event {
                Event::Key(k) => put_numbers(&[0, 0, *k], out),
                Event::Class(c) => put_numbers(&[0, 1, *c], out),
            }
        }
        if let Some(action) = self.action {
            put_numbers(&[0, 1, action, 0, 0, 0], out);
        }
    }
}

impl Map {
    pub fn bytes(&self) -> Vec<u8> {
        let mut out = vec![];
        put_number(self.classes.len() as u32, &mut out);
        self.classes.iter().for_each(|&(class, low, high)| put_numbers(&[class, low, high], &mut out));
        put_numbers(&[0, self.rules.len() as u16], &mut out);
        for r in &self.rules {
            put_numbers(&[0, r.low, r.high, r.sequence, r.status], &mut out);
        }
        put_number(self.bindings.len() as u32, &mut out);
        self.bindings.iter().for_each(|b| b.put(&mut out));
        out
    }
}
