//! Document 01's E1 to E10 as lists of calls with the answers it names: they hold model and original to the paper itself. The
//! paper has E1's map as bytes too, which its machine must write.

use crate::calls::{Answer, Call, ClassEntry, Context, Event, Pair, Part, Repeat, Rule, Step, Tables};
use crate::play::Both;

type Tried = (Call, Answer);

pub struct Edge {
    pub name: &'static str,
    tries: Vec<Tried>,
    /// The map that the paper has as bytes.
    file: Option<&'static [u8]>,
}

const MAP_OF_E1: [u8; 25] = [
    0x01, 0x00, 0x30, 0x39, 0x00, 0x00, 0x02, 0x01, 0x00, 0x01, 0x00, 0x01, 0x00, 0x00, 0x00, 0x01, 0x00, 0x00, 0x72,
    0x00, 0x01, 0x07, 0x00, 0x00, 0x00,
];

impl Edge {
    /// How what is given differs from what the paper names.
    pub fn check(&self) -> Result<(), String> {
        let mut both = Both::fresh();
        for (call, answer) in &self.tries {
            let given = both.call(call)?.answer;
            if given != *answer {
                return Err(format!("{}: {call:?} gives {given}, not {answer}", self.name));
            }
        }
        let file = both.model.file();
        if self.file.is_some_and(|f| f != file) {
            return Err(format!("{}: writes {file:02X?}, which is not the paper's map", self.name));
        }
        Ok(())
    }
}

// ---- the words of an edge

fn once(event: Event) -> Part {
    Part { repeat: Repeat::Once, event }
}

fn keys(keys: &[u8]) -> Vec<Part> {
    keys.iter().map(|&k| once(Event::Key(k as u16))).collect()
}

fn does(action: u16) -> Step {
    Step { actions: vec![action], ..Step::default() }
}

fn map(path: Vec<Part>, step: Step) -> Tried {
    (Call::Map(0, path, step), Answer::Accepted)
}

fn prefix(path: Vec<Part>) -> Tried {
    (Call::Prefix(0, path, None), Answer::Accepted)
}

fn open(classes: Vec<ClassEntry>, rules: Vec<Rule>) -> Tried {
    (Call::Open(Tables { classes, modes: vec![], rules }), Answer::Accepted)
}

fn key(key: u16, rounds: u32) -> Tried {
    (Call::Key { key, budget: 1000 }, Answer::Rounds(rounds))
}

fn within(budget: u16, key: u8, answer: Answer) -> Tried {
    (Call::Key { key: key as u16, budget }, answer)
}

fn gives(action: u16, count: Option<u16>) -> Tried {
    let context = Context { count: count.unwrap_or(0), typed: count.is_some(), mark: 0 };
    (Call::Pop, Answer::Pair(Pair { action, context }))
}

fn nothing() -> Tried {
    (Call::Pop, Answer::Nothing)
}

fn doubles(rest: Vec<Tried>) -> Vec<Tried> {
    [vec![map(keys(b"jj"), does(1)), map(keys(b"kk"), does(2))], rest].concat()
}

// ---- the edges

pub fn edges() -> Vec<Edge> {
    let digits = vec![ClassEntry { class: 0, low: 48, high: 57 }];
    let tracked = vec![Rule { mode: 0, low: 0, high: 65_535, sequence: 0, status: 4 }];
    let falls = Step { fallthrough: Some(1), ..does(1) };
    let behind = vec![once(Event::Key(97)), once(Event::Fallthrough)];
    let (a, q, r, z) = (b'a', b'q', b'r' as u16, b'z' as u16);
    let edge = |name, tries| Edge { name, tries, file: None };
    vec![
        Edge {
            name: "E1",
            tries: vec![
                open(digits, vec![]),
                prefix(vec![once(Event::Class(0))]),
                map(keys(b"r"), does(7)),
                key(52, 1),
                nothing(),
                key(50, 1),
                nothing(),
                key(r, 1),
                gives(7, Some(42)),
                nothing(),
                key(z, 1),
                gives(0, None),
                nothing(),
            ],
            file: Some(&MAP_OF_E1),
        },
        edge(
            "E2",
            doubles(vec![
                key(106, 1),
                nothing(),
                key(107, 2),
                gives(0, None),
                nothing(),
                key(107, 1),
                gives(2, None),
                nothing(),
            ]),
        ),
        edge(
            "E3",
            doubles(vec![
                key(106, 1),
                within(1, b'k', Answer::RefusedRounds(8, 1)),
                within(2, b'k', Answer::Rounds(2)),
            ]),
        ),
        edge(
            "E4",
            vec![
                map(vec![Part { repeat: Repeat::Min(0), event: Event::Key(97) }], does(1)),
                within(256, q, Answer::RefusedRounds(8, 256)),
                within(257, q, Answer::RefusedRounds(5, 257)),
                nothing(),
            ],
        ),
        edge(
            "E5",
            vec![
                map(keys(&[27]), does(1)),
                map(keys(b"b"), does(2)),
                key(32_866, 3),
                gives(1, None),
                gives(2, None),
                nothing(),
            ],
        ),
        edge("E6", vec![map(keys(b"a"), does(1)), prefix(keys(b"a")), key(97, 1), nothing()]),
        edge("E7", vec![prefix(keys(b"a")), map(keys(b"a"), does(1)), key(97, 1), gives(1, None), nothing()]),
        edge("E8", vec![map(keys(b"a"), falls), (Call::Map(0, behind, does(2)), Answer::Refused(4))]),
        edge("E9", vec![(Call::Repeat(3, None), Answer::Accepted), nothing()]),
        edge(
            "E10",
            [
                vec![open(vec![], tracked)],
                vec![key(a as u16, 1); 64],
                vec![within(1000, a, Answer::RefusedRounds(6, 1))],
            ]
            .concat(),
        ),
    ]
}
