//! The inputs of docs/DIFFERENCES.md, each on the original alone and on the model: what came of the calls, and the actions
//! that are popped after them. What is written here of both sides was worked out from the page; it must be what they do.

use crate::calls::{Answer, Call, ClassEntry, Context, Event, ModeEntry, Pair, Part, Repeat, Rule, Step, Tables};
use crate::model::Model;
use crate::oracle::{Attempt, Oracle};

/// An input: the entry of the page, its words for the input, the calls, and what each side makes of them.
struct Input {
    entry: u32,
    words: &'static str,
    calls: Vec<Call>,
    original: &'static str,
    model: &'static str,
}

/// Entries that no input shows, and why.
const NOT_RUN: [(&str, &str); 5] = [
    ("2", "the original's node numbers are private, and it has no find"),
    ("12, a status of 5", "the original's SequenceStatus has five values, so that none can be given"),
    ("13", "what is left out has no counterpart here"),
    ("14", "the original is given the tables' instance alone"),
    ("15", "what is added has no counterpart in the original"),
];

// ---- words

fn part(repeat: Repeat, event: Event) -> Part {
    Part { repeat, event }
}

fn once(event: Event) -> Part {
    part(Repeat::Once, event)
}

fn key_of(letter: char) -> u16 {
    letter as u16
}

fn letter(letter: char) -> Part {
    once(Event::Key(key_of(letter)))
}

fn max(n: u16, letter: char) -> Part {
    part(Repeat::Max(n), Event::Key(key_of(letter)))
}

fn does(action: u16) -> Step {
    Step { actions: vec![action], ..Step::default() }
}

fn map(path: &[Part], step: Step) -> Call {
    Call::Map(0, path.to_vec(), step)
}

fn map_a(step: Step) -> Call {
    map(&[letter('a')], step)
}

fn press(letter: char) -> Call {
    Call::Key { key: key_of(letter), budget: 1000 }
}

fn open(change: impl FnOnce(&mut Tables)) -> Call {
    let mut tables = Tables::default();
    change(&mut tables);
    Call::Open(tables)
}

fn tracked() -> Call {
    open(|t| t.rules = vec![Rule { mode: 0, low: 0, high: 0, sequence: 0, status: 4 }])
}

/// Four parts that take 1,020 nodes and 2,040 edges, and one more.
fn large(last: Part) -> Vec<Part> {
    vec![max(255, 'a'), max(255, 'b'), max(255, 'c'), max(255, 'd'), last]
}

fn input(entry: u32, words: &'static str, calls: &[Vec<Call>], original: &'static str, model: &'static str) -> Input {
    Input { entry, words, calls: calls.concat(), original, model }
}

// ---- the inputs

fn behaviour() -> Vec<Input> {
    let twice = vec![press('q'), press('q'), Call::Repeat(0, None)];
    vec![
        input(
            1,
            "mapping a with action 1, key a",
            &[vec![map_a(does(1)), press('a')]],
            "done ×2; pops 1",
            "ok ×2; pops 1",
        ),
        input(
            3,
            "a rule that tracks action 0, reset, key q twice, repeat",
            &[vec![tracked(), Call::Reset], twice],
            "done ×5; pops 0 ×4",
            "ok ×5; pops 0 ×4",
        ),
    ]
}

/// Calls that the original panics at, never ends, or takes with a part of the work left.
fn panics() -> Vec<Input> {
    let behind = [letter('a'), once(Event::Fallthrough)];
    let e8 = vec![map(&behind[..1], Step { fallthrough: Some(1), ..Step::default() }), map(&behind, does(2))];
    let then = vec![press('a'), press('q')];
    let e4 = map(&[part(Repeat::Min(0), Event::Key(97))], does(1));
    let short = Call::Key { key: key_of('q'), budget: 256 };
    let silent = map(&[part(Repeat::Min(0), Event::Fallthrough)], does(1));
    vec![
        input(
            4,
            "mapping a that falls to mode 1, mapping (a, Fallthrough)",
            &[e8.clone()],
            "done, panics; pops nothing",
            "ok, refused 4; pops nothing",
        ),
        input(
            5,
            "mapping Min(0) a with action 1, key q with a budget of 256",
            &[vec![e4, short]],
            "done, endless; pops 1 and more",
            "ok, refused 8; pops nothing",
        ),
        input(
            5,
            "mapping Min(0) Fallthrough, key q",
            &[vec![silent, press('q')]],
            "done, endless; pops nothing",
            "ok, refused 8; pops nothing",
        ),
        input(
            11,
            "the mappings of 4, keys a and q",
            &[e8, then],
            "done, panics, done ×2; pops 2, 0",
            "ok, refused 4, ok ×2; pops 0",
        ),
    ]
}

/// Nodes and edges: just enough of them, and one too few.
fn full_graphs() -> Vec<Input> {
    let mapped = |last| vec![map(&large(last), does(1))];
    let es = |n| vec![press('e'); n];
    let prefixes: Vec<Call> = ('f'..='m').map(|c| Call::Prefix(0, vec![letter(c)], None)).collect();
    vec![
        input(
            6,
            "mapping Max(255) a, b, c and d, Max(4) e; key e 4 times",
            &[mapped(max(4, 'e')), es(4)],
            "done ×5; pops 1",
            "ok ×5; pops 1",
        ),
        input(
            6,
            "mapping Max(255) a, b, c and d, Max(5) e; key e 5 times",
            &[mapped(max(5, 'e')), es(5)],
            "done ×6; pops 1",
            "refused 2, ok ×5; pops 0 ×5",
        ),
        input(
            7,
            "mapping Max(255) a, b, c and d, e; prefixes f to m; keys l and m",
            &[mapped(letter('e')), prefixes, vec![press('l'), press('m')]],
            "done ×11; pops nothing",
            "ok ×8, refused 3, ok ×2; pops 0",
        ),
    ]
}

/// Queue, sequence and trail, passed by one.
fn full_lists() -> Vec<Input> {
    let a_then_b = vec![map(&[part(Repeat::Min(0), Event::Key(97)), letter('b')], does(1))];
    let repeats = |n| vec![Call::Repeat(0, None); n];
    let over = vec![Call::Repeat(0, Some(Context { count: 5, typed: true, mark: 0 })), Call::Pop];
    vec![
        input(
            8,
            "key q 257 times",
            &[vec![press('q'); 257]],
            "done ×257; pops 0 ×257",
            "ok ×256, refused 5; pops 0 ×256",
        ),
        input(
            9,
            "a rule that tracks action 0, key q 65 times, repeat",
            &[vec![tracked()], vec![press('q'); 65], repeats(1)],
            "done ×67; pops 0 ×130",
            "ok ×65, refused 6, ok; pops 0 ×128",
        ),
        input(
            10,
            "mapping (Min(0) a, b), key a 65 times, key b",
            &[a_then_b, vec![press('a'); 65], vec![press('b')]],
            "done ×67; pops 1",
            "ok ×65, refused 7, ok; pops 1",
        ),
        input(
            11,
            "a rule that tracks action 0, key q, repeat 255 times, repeat with count 5, pop, repeat",
            &[vec![tracked(), press('q')], repeats(255), over, repeats(1)],
            "done ×260; pops 0 with count 5, 0 ×256",
            "ok ×257, refused 5, ok ×2; pops 0 ×256",
        ),
    ]
}

/// Binding calls that are kept: 1,024 of no part, and one more.
fn kept_calls() -> Vec<Input> {
    let idle = vec![Call::Prefix(0, vec![], None); 1024];
    vec![input(
        16,
        "1,024 prefixes of no part, mapping a with action 1, key a",
        &[idle, vec![map_a(does(1)), press('a')]],
        "done ×1026; pops 1",
        "ok ×1024, refused 11, ok; pops 0",
    )]
}

/// 65535, which each side counts, and 65536, whose last digit we refuse; by a mapping that gives a pair, and by a prefix.
fn too_large_counts() -> Vec<Input> {
    let digits = open(|t| t.classes = vec![ClassEntry { class: 0, low: 48, high: 57 }]);
    let typed = |binding: &Call, number: &str| -> Vec<Call> {
        [vec![digits.clone(), binding.clone()], number.chars().map(press).collect()].concat()
    };
    let five = map(&[part(Repeat::Max(5), Event::Class(0))], does(1));
    let kept = Call::Prefix(0, vec![part(Repeat::Once, Event::Class(0))], None);
    vec![
        input(
            17,
            "class 0 for the digits, mapping Max(5) Class 0 with action 1, keys 6 5 5 3 5",
            &[typed(&five, "65535")],
            "done ×7; pops 1 with count 65535",
            "ok ×7; pops 1 with count 65535",
        ),
        input(
            17,
            "class 0 for the digits, prefix Class 0, keys 6 5 5 3 6",
            &[typed(&kept, "65536")],
            "done ×7; pops nothing",
            "ok ×6, refused 12; pops nothing",
        ),
        input(
            17,
            "class 0 for the digits, mapping Max(5) Class 0 with action 1, keys 6 5 5 3 6",
            &[typed(&five, "65536")],
            "done ×7; pops 1 with count 65535",
            "ok ×6, refused 12; pops nothing",
        ),
    ]
}

/// Values and counts one over their ranges. The tables, the mark and the step's actions are the instance's: there the
/// original is seen to take what it gives.
fn ranges() -> Vec<Input> {
    let over = |(words, call)| input(12, words, &[vec![call]], "done; pops nothing", "refused 1; pops nothing");
    [over_in_calls(), over_in_tables()].concat().into_iter().map(over).chain(over_in_steps()).collect()
}

type Told = (&'static str, Call);

fn over_in_calls() -> Vec<Told> {
    let in_path = |p: Part| map(&[p], does(1));
    vec![
        ("mapping a in mode 16", Call::Map(16, vec![letter('a')], does(1))),
        ("mapping class 256", in_path(once(Event::Class(256)))),
        ("mapping Min(256) Any", in_path(part(Repeat::Min(256), Event::Any))),
        ("mapping Max(256) Any", in_path(part(Repeat::Max(256), Event::Any))),
        ("mapping of 33 parts", map(&vec![letter('a'); 33], does(1))),
        ("repeat of sequence 8", Call::Repeat(8, None)),
    ]
}

fn over_in_tables() -> Vec<Told> {
    let entry = ClassEntry { class: 0, low: 0, high: 0 };
    let rule = Rule { mode: 0, low: 0, high: 0, sequence: 0, status: 2 };
    vec![
        ("open with a class entry of low 1 and high 0", open(|t| t.classes = vec![ClassEntry { low: 1, ..entry }])),
        ("open with class 256", open(|t| t.classes = vec![ClassEntry { class: 256, ..entry }])),
        ("open with 17 class entries", open(|t| t.classes = vec![entry; 17])),
        ("open with 17 modes", open(|t| t.modes = vec![ModeEntry::default(); 17])),
        ("open with 65 rules", open(|t| t.rules = vec![rule; 65])),
        ("open with a rule of sequence 8", open(|t| t.rules = vec![Rule { sequence: 8, ..rule }])),
    ]
}

fn over_in_steps() -> Vec<Input> {
    let step =
        |words, step, original| input(12, words, &[vec![map_a(step), press('a')]], original, "refused 1, ok; pops 0");
    let (five, one) = ("done ×2; pops 1 ×5", "done ×2; pops 1");
    vec![
        step("mapping a with 5 actions, key a", Step { actions: vec![1; 5], ..Step::default() }, five),
        step("mapping a with next mode 16, key a", Step { next: Some(16), ..does(1) }, one),
        step("mapping a that falls to mode 16, key a", Step { fallthrough: Some(16), ..does(1) }, one),
        step("mapping a with a mark of 0, key a", Step { mark: Some(0), ..does(1) }, one),
    ]
}

// ---- both sides

/// The most pairs that are popped: an endless key leaves some ten thousands.
const POPPED: usize = 300;

fn on_the_original(calls: &[Call]) -> String {
    let mut original = Oracle::fresh();
    let outcome = |call| match original.attempt(call) {
        Attempt::Done(_) => "done".into(),
        Attempt::Panicked => "panics".into(),
        Attempt::Endless => "endless".into(),
    };
    let outcomes = calls.iter().map(outcome).collect();
    let pop = || match original.attempt(&Call::Pop) {
        Attempt::Done(pair) => pair,
        _ => None,
    };
    told(outcomes, std::iter::from_fn(pop).take(POPPED).collect())
}

fn on_the_model(calls: &[Call]) -> String {
    let mut model = Model::fresh(Tables::default());
    let outcome = |call| match model.call(call) {
        Answer::Refused(n) | Answer::RefusedRounds(n, _) => format!("refused {n}"),
        _ => "ok".into(),
    };
    let outcomes = calls.iter().map(outcome).collect();
    told(outcomes, model.queue())
}

fn told(outcomes: Vec<String>, pairs: Vec<Pair>) -> String {
    let action = |p: &Pair| match p.context {
        Context { typed: false, .. } => p.action.to_string(),
        Context { count, .. } => format!("{} with count {count}", p.action),
    };
    let popped = match pairs.len() {
        0 => "nothing".into(),
        POPPED => format!("{} and more", action(&pairs[0])),
        _ => shortened(pairs.iter().map(action).collect()),
    };
    format!("{}; pops {popped}", shortened(outcomes))
}

/// Words, with equal ones in a row as one.
fn shortened(words: Vec<String>) -> String {
    let group = |g: &[String]| if g.len() == 1 { g[0].clone() } else { format!("{} ×{}", g[0], g.len()) };
    words.chunk_by(|a, b| a == b).map(group).collect::<Vec<_>>().join(", ")
}

/// Prints each input with what both sides make of it. Whether all is as it must be.
pub fn differences() -> bool {
    let mut inputs = [behaviour(), panics(), full_graphs(), full_lists(), ranges(), kept_calls(), too_large_counts()]
        .into_iter()
        .flatten()
        .collect::<Vec<_>>();
    inputs.sort_by_key(|i| i.entry);
    let mut right = true;
    for Input { entry, words, calls, original, model } in inputs {
        println!("{entry}: {words}");
        for (side, must, is) in
            [("original", original, on_the_original(&calls)), ("model", model, on_the_model(&calls))]
        {
            println!("    {side}: {is}");
            if is != must {
                println!("    but the {side} must give: {must}");
                right = false;
            }
        }
    }
    NOT_RUN.iter().for_each(|(entry, why)| println!("{entry}: not run: {why}"));
    right
}
