//! Random lists of calls. A seed gives the same list on every machine. The alphabets are small, so that paths collide,
//! keys meet bindings and actions meet rules.

use crate::calls::{Call, ClassEntry, Context, Event, ModeEntry, Part, Repeat, Rule, Step, Tables};
use crate::changing::with_changes;

/// SplitMix64: a generator of a few lines that needs no crate.
pub struct Random(u64);

impl Random {
    pub fn from_seed(seed: u64) -> Self {
        Random(seed.wrapping_mul(0x9E37_79B9_7F4A_7C15) ^ 0xD1B5_4A32_D192_ED03)
    }

    pub fn next(&mut self) -> u64 {
        self.0 = self.0.wrapping_add(0x9E37_79B9_7F4A_7C15);
        let mut z = self.0;
        z = (z ^ (z >> 30)).wrapping_mul(0xBF58_476D_1CE4_E5B9);
        z = (z ^ (z >> 27)).wrapping_mul(0x94D0_49BB_1331_11EB);
        z ^ (z >> 31)
    }

    /// A number below n.
    pub fn below(&mut self, n: u64) -> u64 {
        self.next() % n
    }

    pub fn small(&mut self, n: u16) -> u16 {
        self.below(n as u64) as u16
    }

    /// Holds in `percent` of a hundred cases.
    pub fn chance(&mut self, percent: u64) -> bool {
        self.below(100) < percent
    }

    pub fn pick<T: Copy>(&mut self, from: &[T]) -> T {
        from[self.below(from.len() as u64) as usize]
    }
}

#[derive(Clone, Copy, Debug, PartialEq)]
pub enum Kind {
    /// Every call and every value.
    Usual,
    /// Only what the list reader takes: mappings whose parts are a key, a class or any, taken once.
    Plain,
    /// Many keys at a time, for full trails, queues and sequences.
    Long,
    /// Many repeats, for nodes and edges that run out.
    Big,
}

pub struct Gen {
    pub random: Random,
    kind: Kind,
    keys: Vec<u16>,
    modes: u16,
    longest: u64,
    /// The percentage of calls that are given a value out of its range.
    odd: u64,
    /// Whether class 0 takes digits, which are then typed in runs that a count may have no room for.
    counting: bool,
    /// The mode and path of each binding so far: others begin with them.
    known: Vec<(u16, Vec<Part>)>,
}

const KEYS: [u16; 10] = [97, 98, 106, 27, 48, 50, 57, 0, 122, 32_767];

/// Numbers to type: none, counts of which one more has a byte more, the largest count and one more, a few digits of them, and
/// others that pass it at the fifth digit or later.
const NUMBERS: [&str; 14] = [
    "0", "42", "127", "6553", "6554", "9999", "16383", "65535", "65536", "65540", "70000", "655350", "655361",
    "1234567",
];

/// Tables whose class 0 has the digits, before whatever else they have.
pub fn with_digits(mut tables: Tables) -> Tables {
    tables.classes.truncate(15);
    tables.classes.insert(0, ClassEntry { class: 0, low: 48, high: 57 });
    tables
}

/// The list of calls of a seed.
pub fn list_of(seed: u64, kind: Kind) -> Vec<Call> {
    Gen::new(seed, kind).list()
}

impl Gen {
    pub fn new(seed: u64, kind: Kind) -> Self {
        let mut random = Random::from_seed(seed);
        let count = 2 + random.below(3);
        let mut keys: Vec<u16> = (0..count).map(|_| random.pick(&KEYS)).collect();
        if random.chance(40) {
            keys.push(27);
            let base = keys[0] % 32_768;
            keys.push(32_768 + base);
        }
        let modes = if random.chance(10) { 16 } else { 1 + random.small(3) };
        let longest = if random.chance(10) { 6 } else { 1 + random.below(3) };
        let odd = if random.chance(30) { 15 } else { 0 };
        let counting = random.chance(15);
        Gen { random, kind, keys, modes, longest, odd, counting, known: vec![] }
    }

    pub fn is_plain(&self) -> bool {
        self.kind == Kind::Plain
    }

    // ---- values

    pub fn key(&mut self) -> u16 {
        if self.random.chance(4) {
            return self.random.pick(&[65_535, 32_768, 32_795, 1000, 12_345]);
        }
        let keys = self.keys.clone();
        self.random.pick(&keys)
    }

    pub fn digit(&mut self) -> u16 {
        48 + self.random.small(10)
    }

    /// The keys of a number, now and then behind zeros or with further digits.
    pub fn number(&mut self) -> Vec<u16> {
        let zeros = if self.random.chance(25) { self.random.below(4) } else { 0 };
        let further = if self.random.chance(40) { self.random.below(4) } else { 0 };
        let number = self.random.pick(&NUMBERS).bytes().map(u16::from);
        let keys = vec![48; zeros as usize].into_iter().chain(number).chain((0..further).map(|_| self.digit()));
        keys.collect()
    }

    /// A key; where digits are counted, often a number.
    pub fn typed(&mut self) -> Vec<u16> {
        if self.counting && self.random.chance(40) {
            self.number()
        } else {
            vec![self.key()]
        }
    }

    pub fn mode(&mut self) -> u16 {
        if self.random.chance(50) {
            return 0;
        }
        self.random.small(self.modes)
    }

    fn maybe_mode(&mut self, percent: u64) -> Option<u16> {
        self.random.chance(percent).then(|| self.mode())
    }

    fn class(&mut self) -> u16 {
        if self.random.chance(3) {
            255
        } else {
            self.random.small(3)
        }
    }

    fn action(&mut self) -> u16 {
        if self.random.chance(3) {
            65_535
        } else {
            self.random.small(6)
        }
    }

    fn actions(&mut self, most: u64) -> Vec<u16> {
        let count = self.random.below(most + 1);
        (0..count).map(|_| self.action()).collect()
    }

    fn event(&mut self) -> Event {
        match self.random.below(100) {
            0..=59 => Event::Key(self.key()),
            60..=77 => Event::Class(self.class()),
            78..=91 => Event::Any,
            _ if self.kind == Kind::Plain => Event::Any,
            _ => Event::Fallthrough,
        }
    }

    fn repeat(&mut self) -> Repeat {
        if self.kind == Kind::Plain || self.random.chance(55) {
            return Repeat::Once;
        }
        let n = match self.random.below(100) {
            _ if self.kind == Kind::Big => 100 + self.random.small(156),
            0..=91 => self.random.small(4),
            92..=97 => 4 + self.random.small(8),
            _ => 20 + self.random.small(20),
        };
        if self.random.chance(50) {
            Repeat::Min(n)
        } else {
            Repeat::Max(n)
        }
    }

    pub fn part(&mut self) -> Part {
        Part { repeat: self.repeat(), event: self.event() }
    }

    /// A mode and a path in it, now and then an earlier one that is cut or goes on.
    pub fn way(&mut self) -> (u16, Vec<Part>) {
        let way = if !self.known.is_empty() && self.random.chance(30) {
            self.known_way()
        } else {
            (self.mode(), self.path())
        };
        self.known.push(way.clone());
        way
    }

    fn known_way(&mut self) -> (u16, Vec<Part>) {
        let at = self.random.below(self.known.len() as u64) as usize;
        let (mode, mut path) = self.known[at].clone();
        match self.random.below(3) {
            0 => path.truncate(1 + self.random.below(3) as usize),
            1 if path.len() < 32 => path.push(self.part_after()),
            _ => {},
        }
        (mode, path)
    }

    /// A part behind a known path: often the Fallthrough edge that a step of its end may have made.
    fn part_after(&mut self) -> Part {
        if self.kind != Kind::Plain && self.random.chance(40) {
            return Part { repeat: self.repeat(), event: Event::Fallthrough };
        }
        self.part()
    }

    fn path(&mut self) -> Vec<Part> {
        let count = match self.random.below(100) {
            0..=1 => 0,
            2 => 32,
            _ => 1 + self.random.below(self.longest),
        };
        (0..count).map(|_| self.part()).collect()
    }

    pub fn step(&mut self) -> Step {
        let mut step = Step {
            flag: self.random.chance(15),
            actions: if self.random.chance(60) { vec![self.action()] } else { self.actions(4) },
            next: self.maybe_mode(20),
            fallthrough: self.maybe_mode(20),
            mark: self.random.chance(15).then(|| 1 + self.random.small(9)),
        };
        // An action or a next mode leaves the place, and what lies behind it is not met.
        if self.random.chance(if step.fallthrough.is_some() { 70 } else { 10 }) {
            (step.actions, step.next) = (vec![], None);
        } else if self.random.chance(5) {
            (step.actions, step.next) = (vec![], Some(self.mode()));
        }
        step
    }

    // ---- tables

    pub fn class_entry(&mut self) -> ClassEntry {
        let (a, b) = (self.key(), self.key());
        let (low, high) = if self.random.chance(30) { (48, 57) } else { (a.min(b), a.max(b)) };
        ClassEntry { class: self.class(), low, high }
    }

    fn mode_entry(&mut self) -> ModeEntry {
        ModeEntry {
            enter: if self.random.chance(30) { self.actions(2) } else { vec![] },
            unmapped: if self.random.chance(50) { self.actions(4) } else { vec![] },
            next: self.maybe_mode(25),
        }
    }

    pub fn rule(&mut self) -> Rule {
        let (a, b) = (self.action(), self.action());
        let sequence = if self.random.chance(90) { self.random.small(2) } else { self.random.small(8) };
        let status = if self.random.chance(40) { 4 } else { self.random.small(5) };
        Rule { mode: self.mode(), low: a.min(b), high: a.max(b), sequence, status }
    }

    pub fn tables(&mut self) -> Tables {
        let classes = if self.random.chance(3) { 16 } else { self.random.below(5) };
        let modes = if self.random.chance(3) { 16 } else { self.random.below(self.modes as u64 + 1) };
        let rules = if self.random.chance(3) { 64 } else { self.random.below(6) };
        let mut tables = Tables {
            classes: (0..classes).map(|_| self.class_entry()).collect(),
            modes: (0..modes).map(|_| self.mode_entry()).collect(),
            rules: (0..rules).map(|_| self.rule()).collect(),
        };
        if rules == 64 && self.random.chance(50) {
            // one push then fills a sequence
            tables.rules.fill(Rule { mode: 0, low: 0, high: 65_535, sequence: 0, status: 4 });
        }
        if self.counting {
            with_digits(tables)
        } else {
            tables
        }
    }

    // ---- calls

    pub fn binding(&mut self) -> Call {
        if self.counting && self.random.chance(40) {
            return self.counting_binding();
        }
        let prefixes = if self.kind == Kind::Plain { 0 } else { 25 };
        let (mode, path) = self.way();
        if !self.random.chance(prefixes) {
            return Call::Map(mode, path, self.step());
        }
        let step = self.random.chance(40).then(|| self.step());
        Call::Prefix(mode, path, step)
    }

    /// A binding that takes digits by class 0: a prefix, a run of any length, or some digits and perhaps a part behind them.
    fn counting_binding(&mut self) -> Call {
        let mode = self.mode();
        let digits = |repeat| Part { repeat, event: Event::Class(0) };
        match self.random.below(4) {
            _ if self.kind == Kind::Plain => {},
            0 => return Call::Prefix(mode, vec![digits(Repeat::Once)], None),
            1 => return Call::Prefix(mode, vec![digits(Repeat::Once)], Some(self.step())),
            2 => return Call::Map(mode, vec![digits(Repeat::Min(0)), self.part()], self.step()),
            _ => {},
        }
        let mut path = vec![digits(Repeat::Once); 1 + self.random.below(6) as usize];
        if self.random.chance(50) {
            path.push(self.part());
        }
        Call::Map(mode, path, self.step())
    }

    /// Few rounds; or enough for most keys; or enough to fill the queue (257 and more).
    pub fn budget(&mut self) -> u16 {
        match self.random.below(100) {
            0..=19 => self.random.small(6),
            20..=79 => 40,
            80..=91 => 300,
            92..=98 => 1000,
            _ => 65_535,
        }
    }

    fn presses(&mut self) -> Vec<Call> {
        let keys = self.typed();
        keys.into_iter().map(|key| Call::Key { key, budget: self.budget() }).collect()
    }

    fn override_context(&mut self) -> Context {
        Context { count: self.random.small(3), typed: self.random.chance(50), mark: self.random.small(3) }
    }

    /// A repeat, now and then two of the same sequence in a row: the second tells whether merged pairs were stored.
    fn repeats(&mut self) -> Vec<Call> {
        let sequence = self.random.small(3);
        let over = self.random.chance(60).then(|| self.override_context());
        let first = Call::Repeat(sequence, over);
        if self.random.chance(50) {
            vec![first, Call::Repeat(sequence, None)]
        } else {
            vec![first]
        }
    }

    pub fn calls(&mut self) -> Vec<Call> {
        match self.random.below(100) {
            0..=11 => vec![self.binding()],
            12..=68 => self.presses(),
            69..=83 => vec![Call::Pop],
            84..=93 => self.repeats(),
            94..=97 => vec![Call::Reset],
            _ => vec![Call::Open(self.tables())],
        }
    }

    /// Some 60 to 70 times the same key, now and then with a reset after each: a reset keeps the trail.
    fn burst(&mut self) -> Vec<Call> {
        let press = Call::Key { key: self.key(), budget: self.budget() };
        let once = if self.random.chance(40) { vec![press, Call::Reset] } else { vec![press] };
        vec![once; 60 + self.random.below(11) as usize].concat()
    }

    /// A binding that takes many nodes and edges: up to 255 repeats, each key of its own.
    fn big_binding(&mut self) -> Call {
        let key = 200 + self.random.small(40);
        let n = if self.random.chance(60) { 255 } else { 1 + self.random.small(255) };
        let repeat = match self.random.below(10) {
            0..=4 => Repeat::Max(n),
            5..=6 => Repeat::Min(n),
            _ => Repeat::Once,
        };
        let mut path = vec![Part { repeat, event: Event::Key(key) }];
        if self.random.chance(25) {
            path.push(self.part());
        }
        match self.random.below(3) {
            0 => Call::Map(self.mode(), path, self.step()),
            1 => Call::Prefix(self.mode(), path, None),
            _ => Call::Prefix(self.mode(), path, Some(self.step())),
        }
    }

    fn many_nodes(&mut self) -> Vec<Call> {
        (0..5 + self.random.below(12)).map(|_| self.big_binding()).collect()
    }

    /// A Max takes two edges for a node, and a prefix of one key without a step an edge and no node: edges run out first.
    fn many_edges(&mut self) -> Vec<Call> {
        let mode = self.mode();
        let prefix = |repeat, key| Call::Prefix(mode, vec![Part { repeat, event: Event::Key(key) }], None);
        let mut calls: Vec<Call> = (0..4).map(|i| prefix(Repeat::Max(254 + self.random.small(2)), 300 + i)).collect();
        calls.extend((0..4 + self.random.small(16)).map(|i| prefix(Repeat::Once, 400 + i)));
        calls.extend((0..3).map(|_| self.big_binding()));
        calls
    }

    pub fn list(&mut self) -> Vec<Call> {
        let mut list = vec![];
        if self.counting || self.random.chance(85) {
            list.push(Call::Open(self.tables()));
        }
        for _ in 0..1 + self.random.below(7) {
            list.push(self.binding());
        }
        if self.kind == Kind::Big {
            let bindings = if self.random.chance(40) { self.many_edges() } else { self.many_nodes() };
            list.extend(bindings);
        }
        let length = list.len() + 4 + self.random.below(25) as usize;
        while list.len() < length {
            let calls = self.calls();
            list.extend(calls);
        }
        if self.kind == Kind::Long {
            let keys = self.burst();
            list.extend(keys);
            list.extend((0..8).flat_map(|_| self.calls()));
        }
        let odd = self.odd;
        for call in &mut list {
            if self.random.chance(odd) {
                self.damage(call);
            }
        }
        if self.random.chance(30) {
            return with_changes(self, list);
        }
        list
    }

    // ---- values out of their ranges

    pub fn damage(&mut self, call: &mut Call) {
        match call {
            Call::Open(t) => self.damage_tables(t),
            Call::Change(t, bindings) => match self.random.below(bindings.len() as u64 + 1) {
                0 => self.damage_tables(t),
                n => self.damage(&mut bindings[n as usize - 1]),
            },
            Call::Map(mode, path, step) => match self.random.below(3) {
                0 => *mode = self.bad_mode(),
                1 => self.damage_path(path),
                _ => self.damage_step(step),
            },
            Call::Prefix(mode, path, step) => match (self.random.below(3), step) {
                (0, Some(step)) => self.damage_step(step),
                (1, _) => *mode = self.bad_mode(),
                _ => self.damage_path(path),
            },
            Call::Repeat(sequence, _) => *sequence = self.random.pick(&[8, 9, 65_535]),
            Call::Key { .. } | Call::Pop | Call::Reset => {},
        }
    }

    fn bad_mode(&mut self) -> u16 {
        self.random.pick(&[16, 17, 65_535])
    }

    fn damage_path(&mut self, path: &mut Vec<Part>) {
        let parts = path.len() as u64;
        let at = self.random.below(parts.max(1)) as usize;
        match self.random.below(4) {
            0 => path.resize(33, Part { repeat: Repeat::Once, event: Event::Key(97) }),
            _ if parts == 0 => {},
            1 => path[at].event = Event::Class(self.random.pick(&[256, 300])),
            2 if self.kind != Kind::Plain => path[at].repeat = Repeat::Min(self.random.pick(&[256, 300])),
            3 if self.kind != Kind::Plain => path[at].repeat = Repeat::Max(self.random.pick(&[256, 300])),
            _ => path[at].event = Event::Class(65_535),
        }
    }

    fn damage_step(&mut self, step: &mut Step) {
        match self.random.below(4) {
            0 => step.actions = vec![1, 2, 3, 4, 5],
            1 => step.next = Some(self.bad_mode()),
            2 => step.fallthrough = Some(self.bad_mode()),
            _ => step.mark = Some(0),
        }
    }

    fn damage_tables(&mut self, t: &mut Tables) {
        match self.random.below(11) {
            0 => t.classes.push(ClassEntry { class: 300, low: 0, high: 1 }),
            1 => t.classes.push(ClassEntry { class: 1, low: 2, high: 1 }),
            2 => t.classes.resize(17, ClassEntry { class: 0, low: 0, high: 0 }),
            3 => t.modes.insert(0, ModeEntry { enter: vec![1; 5], ..ModeEntry::default() }),
            4 => t.modes.insert(0, ModeEntry { unmapped: vec![1; 5], ..ModeEntry::default() }),
            5 => t.modes.insert(0, ModeEntry { next: Some(16), ..ModeEntry::default() }),
            6 => t.modes.resize(17, ModeEntry::default()),
            7 => t.rules.push(Rule { mode: 0, low: 2, high: 1, sequence: 0, status: 0 }),
            8 => t.rules.push(Rule { mode: 16, low: 1, high: 1, sequence: 0, status: 0 }),
            9 => {
                let (sequence, status) = self.random.pick(&[(8, 0), (0, 5)]);
                t.rules.push(Rule { mode: 0, low: 1, high: 1, sequence, status });
            },
            _ => t.rules.resize(65, Rule { mode: 0, low: 1, high: 1, sequence: 0, status: 2 }),
        }
    }
}
