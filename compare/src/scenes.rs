//! Lists of calls that lead to one edge of the documents each: repeats with overrides, half-typed runs, flags, falls across
//! modes, repeats of parts at their ends, edges of one node and of nodes on one chain, numbers of every length in a map file, and
//! each limit reached exactly and passed by one.

use crate::calllist::{Item, List, OddChange, Room};
use crate::calls::{Call, ClassEntry, Context, Event, ModeEntry, Part, Repeat, Rule, Step, Tables};
use crate::chains;
use crate::changing::{self, with_changes};
use crate::gen::{with_digits, Gen, Kind, Random};
use crate::graph::Graph;
use crate::typing;
use crate::writing::file_of;

pub type Scene = fn(&mut Gen) -> Vec<Call>;

const SCENES: [Scene; 22] = [
    overrides,
    half_typed,
    flagged,
    falls,
    few_repeats,
    many_repeats,
    counts,
    counts_on_a_trail,
    counts_before_pairs,
    counts_tried_again,
    full_queue,
    full_trail,
    full_stack,
    full_sequence,
    full_tables,
    full_nodes,
    full_edges,
    numbers_at_edges,
    few_actions,
    edges_of_one_node,
    nodes_on_one_chain,
    keys_on_one_chain,
];

/// These have hundreds of calls or more, so they come seldom.
const LONG_SCENES: [Scene; 5] = [kept_calls, kept_with_full_graph, kept_and_opened, longest_file, file_of_65_536];

/// Those whose digits come to a count's limit.
const COUNTING: [Scene; 4] = [counts, counts_on_a_trail, counts_before_pairs, counts_tried_again];

/// The calls of a seed in one of these.
pub fn counting_of(seed: u64) -> Vec<Call> {
    let mut g = Gen::new(seed, Kind::Usual);
    one_of(&mut g, &COUNTING)(&mut g)
}

/// The calls of a seed: a scene, or a list of some kind.
pub fn calls_of(seed: u64) -> Vec<Call> {
    let mut g = Gen::new(seed, Kind::Usual);
    let (which, scene) = (g.random.below(100), g.random.below(SCENES.len() as u64));
    let mut other = |kind| Gen::new(g.random.next(), kind).list();
    match which {
        0..=1 => one_of(&mut g, &LONG_SCENES)(&mut g),
        2..=4 => one_of(&mut g, &changing::LONG_SCENES)(&mut g),
        5..=40 => {
            let calls = SCENES[scene as usize](&mut g);
            if g.random.chance(15) {
                return with_changes(&mut g, calls);
            }
            calls
        },
        41..=47 => one_of(&mut g, &typing::SCENES)(&mut g),
        48..=65 => one_of(&mut g, &changing::SCENES)(&mut g),
        66..=80 => other(Kind::Usual),
        81..=87 => other(Kind::Plain),
        88..=95 => other(Kind::Long),
        _ => other(Kind::Big),
    }
}

/// The list of a seed for `callplay`: its calls, now and then with find, hint, write, odd kinds and what is no call, and at its
/// end finds and writes.
pub fn list_of(seed: u64) -> List {
    let mut g = Gen::new(seed, Kind::Plain);
    let calls = calls_of(seed);
    let is_long = calls.len() > 200;
    let often = if is_long { g.random.pick(&[0, 0, 1]) } else { g.random.pick(&[0, 3, 10]) };
    let finds = if g.random.chance(70) { finds(&mut g, &calls) } else { vec![] };
    let mut list = vec![];
    for call in calls {
        if g.random.chance(often) {
            list.push(beside(&mut g));
        }
        let call = writable(call);
        list.extend(odd_change(&mut g, &call));
        list.push(Item::Call(call));
    }
    list.extend(finds);
    if is_long {
        list.extend([Room::Short, Room::Exact].map(Item::Write));
    }
    if g.random.chance(40) {
        list.extend((0..1 + g.random.below(3)).map(|_| Item::Write(room(&mut g))));
    }
    if g.random.chance(4) {
        let at = g.random.below(list.len() as u64 + 1) as usize;
        list.insert(at, Item::Malformed(malformed(&mut g)));
    }
    with_hints(seed, list)
}

/// So many items at a list's end are where a full machine meets what is too much.
const LAST: usize = 40;

/// The list with hints right before and right after a share of its opens, bindings and changes, a larger one at its end, and most
/// of all at that of a long list. All else is as without them.
fn with_hints(seed: u64, list: List) -> List {
    let mut random = Random::from_seed(!seed);
    let last = list.len().saturating_sub(LAST);
    let late = if last > 200 { 60 } else { 30 };
    let mut hinted = vec![];
    for (at, item) in list.into_iter().enumerate() {
        let asked = is_of_the_map(&item) && random.chance(if at < last { 2 } else { late });
        if asked && hinted.last() != Some(&Item::Hint) {
            hinted.push(Item::Hint);
        }
        hinted.push(item);
        if asked {
            hinted.push(Item::Hint);
        }
    }
    hinted
}

fn is_of_the_map(item: &Item) -> bool {
    matches!(item, Item::Call(Call::Open(_) | Call::Map(..) | Call::Prefix(..) | Call::Change(..)))
}

fn beside(g: &mut Gen) -> Item {
    match g.random.below(10) {
        0..=3 => Item::Find(g.random.pick(&[0, 0, 1, 2, 15, 16, 65_535]), g.random.pick(&[0, 1, 2, 3, 4, 5, 65_535])),
        4..=5 => Item::Hint,
        6..=7 => Item::Write(room(g)),
        _ => Item::Unknown(unknown(g)),
    }
}

/// Now and then, before a change, the same with an odd binding among its own, of which one may be refused before it.
fn odd_change(g: &mut Gen, change: &Call) -> Option<Item> {
    let Call::Change(tables, bindings) = change else { return None };
    let count = bindings.len();
    if !g.random.chance(if count > 1000 { 80 } else { 20 }) {
        return None;
    }
    let at = if g.random.chance(70) { count } else { g.random.below(count as u64 + 1) as usize };
    let (before, behind) = (bindings[..at].to_vec(), bindings[at..].to_vec());
    Some(Item::OddChange(OddChange { tables: tables.clone(), before, odd: unknown(g), behind }))
}

/// Finds of actions that bindings of the list have, most of them in their modes; and of action 0.
fn finds(g: &mut Gen, calls: &[Call]) -> List {
    let bound: Vec<(u16, u16)> = calls.iter().flat_map(bound_actions).collect();
    let Some(&last) = bound.last() else { return vec![Item::Find(0, 0)] };
    let some = |g: &mut Gen| {
        let (mode, action) = g.random.pick(&bound);
        match g.random.below(10) {
            0..=5 => Item::Find(mode, action),
            6 => Item::Find(g.random.small(18), action),
            7 => Item::Find(mode, 0),
            _ => Item::Find(last.0, last.1),
        }
    };
    (0..1 + g.random.below(8)).map(|_| some(g)).collect()
}

/// The actions of a binding's step, with its mode; in a change of all of them.
fn bound_actions(call: &Call) -> Vec<(u16, u16)> {
    match call {
        Call::Change(_, bindings) => bindings.iter().flat_map(bound_actions).collect(),
        Call::Map(mode, _, step) | Call::Prefix(mode, _, Some(step)) => {
            step.actions.iter().map(|&a| (*mode, a)).collect()
        },
        _ => vec![],
    }
}

/// Room for a file: just enough, a byte too little or too much, or some number, now and then more than `callplay` lends.
fn room(g: &mut Gen) -> Room {
    match g.random.below(100) {
        0..=39 => Room::Exact,
        40..=59 => Room::Short,
        60..=69 => Room::Long,
        70..=74 => Room::Of(0),
        75..=84 => Room::Of(g.random.below(400) as usize),
        85..=91 => Room::Of(g.random.pick(&[6000, 65_534, 65_535])),
        _ => Room::Of(g.random.pick(&[65_536, 65_537, 70_000, 300_000])),
    }
}

/// A mapping with a kind of repeat, a kind of event or a flag that there is not.
fn unknown(g: &mut Gen) -> Vec<u32> {
    let odd = g.random.pick(&[4, 5, 127, 128, 65_535]);
    let does = [0, 1, 1, 0, 0, 0];
    match g.random.below(3) {
        0 => [&[0, 0, 1, odd - 1, 2, 0, 97][..], &does].concat(),
        1 => [&[2, 0, 1, 0, odd][..], &does].concat(),
        _ => vec![0, 0, 1, 0, 0, 97, odd - 2, 1, 1, 0, 0, 0],
    }
}

/// A kind of call that there is not, an override that is neither 0 nor 1, or whose count is neither typed nor not, a number in a
/// longer form or over 65,535, an early end.
fn malformed(g: &mut Gen) -> Vec<u8> {
    let ways: [&[u8]; 20] = [
        &[11],
        // a change: its end or a number that is none, and a kind of binding that there is not, behind one that is refused too
        &[10],
        &[10, 0, 0, 0],
        &[10, 0, 0, 0, 1],
        &[10, 0, 0, 0, 1, 3, 0, 0],
        &[10, 17, 0, 0, 1],
        &[10, 0, 0, 0, 2, 1, 16, 0, 3, 0, 0],
        &[10, 0, 0, 0, 2, 1, 16, 0, 1, 0x80, 0],
        &[0xFF, 0xFF, 3],
        &[5, 0, 2],
        &[5, 0, 1, 2, 0, 0],
        // a sequence that there is not, which would be refused if the call were whole
        &[5, 8, 1, 2, 5, 0],
        &[5, 8, 1, 1, 5],
        &[5, 0, 1, 0xFF, 0xFF, 3, 0, 0],
        &[0x84, 0],
        &[3, 0x80],
        &[3, 97],
        &[0, 0, 1, 0, 0],
        &[9],
        &[9, 0x80, 0x80, 4],
    ];
    let at = g.random.below(ways.len() as u64) as usize;
    // bytes that are no number: behind an early end they must be met, behind the others they must not
    let behind: &[u8] = if g.random.chance(50) { &[0xFF, 0xFF, 0xFF, 0xFF] } else { &[] };
    [ways[at], behind].concat()
}

/// The call in a form that can be written as numbers: a mark of 0 means none there, and mode 65,535 has no number.
fn writable(mut call: Call) -> Call {
    if let Call::Change(_, bindings) = &mut call {
        *bindings = std::mem::take(bindings).into_iter().map(writable).collect();
    }
    let fit = |s: &mut Step| {
        s.mark = s.mark.filter(|&m| m != 0);
        s.next = s.next.map(|m| m.min(65_534));
        s.fallthrough = s.fallthrough.map(|m| m.min(65_534));
    };
    match &mut call {
        Call::Map(_, _, step) | Call::Prefix(_, _, Some(step)) => fit(step),
        _ => {},
    }
    call
}

// ---- words

pub fn once(event: Event) -> Part {
    Part { repeat: Repeat::Once, event }
}

pub fn path(keys: &[u16]) -> Vec<Part> {
    keys.iter().map(|&k| once(Event::Key(k))).collect()
}

pub fn does(action: u16) -> Step {
    Step { actions: vec![action], ..Step::default() }
}

pub fn press(key: u16) -> Call {
    Call::Key { key, budget: 1000 }
}

pub fn presses(keys: &[u16]) -> Vec<Call> {
    keys.iter().map(|&k| press(k)).collect()
}

pub fn track(sequence: u16) -> Rule {
    Rule { mode: 0, low: 0, high: 65_535, sequence, status: 4 }
}

pub fn one_of<'a, T>(g: &mut Gen, items: &'a [T]) -> &'a T {
    &items[g.random.below(items.len() as u64) as usize]
}

pub fn some_keys(g: &mut Gen, most: u64) -> Vec<u16> {
    (0..1 + g.random.below(most)).map(|_| g.key()).collect()
}

/// A number near an edge: at most two off.
pub fn about(g: &mut Gen, n: u64) -> usize {
    (n + g.random.below(5) - 2) as usize
}

pub fn usual(g: &mut Gen, times: u64) -> Vec<Call> {
    (0..times).flat_map(|_| g.calls()).collect()
}

// ---- scenes

fn over(g: &mut Gen) -> Context {
    let (count, mark) = (g.random.pick(&[0, 1, 2, 65_535]), g.random.pick(&[0, 0, 3, 65_535]));
    Context { count, typed: g.random.chance(50), mark }
}

/// Tracked pairs, then repeats of them with one override and another: each must be stored.
fn overrides(g: &mut Gen) -> Vec<Call> {
    let mut tables = g.tables();
    let sequence = g.random.small(8);
    tables.rules.truncate(63);
    tables.rules.insert(0, track(sequence));
    let mut calls = vec![Call::Open(tables)];
    calls.extend((0..g.random.below(4)).map(|_| g.binding()));
    calls.extend(presses(&some_keys(g, 6)));
    for _ in 0..2 + g.random.below(3) {
        let by = if g.random.chance(75) { Some(over(g)) } else { None };
        calls.push(Call::Repeat(sequence, by));
        if g.random.chance(30) {
            let more = usual(g, 2);
            calls.extend(more);
        }
    }
    calls.push(Call::Repeat(sequence, None));
    calls
}

/// Some keys of a path, and then a key that decomposes there.
fn half_typed(g: &mut Gen) -> Vec<Call> {
    let way = some_keys(g, 4);
    let rest = if g.random.chance(50) { way[0] % 32_768 } else { g.key() % 32_768 };
    let mut calls = vec![Call::Open(g.tables()), Call::Map(0, path(&way), g.step())];
    if g.random.chance(50) {
        calls.push(Call::Map(0, path(&[27]), g.step()));
    }
    if g.random.chance(40) {
        calls.push(Call::Map(0, path(&[27, rest]), g.step()));
    }
    if g.random.chance(40) {
        let half = &way[..1 + g.random.below(way.len() as u64) as usize];
        calls.push(Call::Map(0, path(&[half, &[27]].concat()), g.step()));
    }
    for _ in 0..3 {
        let half = g.random.below(way.len() as u64 + 1) as usize;
        calls.extend(presses(&way[..half]));
        calls.push(Call::Key { key: 32_768 + rest, budget: g.budget() });
    }
    calls
}

/// A flagged step with nothing behind it, with a longer path behind it, or with a mode to fall to.
fn flagged(g: &mut Gen) -> Vec<Call> {
    let (mode, way) = (g.mode(), some_keys(g, 2));
    let step = Step { flag: true, fallthrough: None, ..g.step() };
    let mut calls = vec![Call::Open(g.tables())];
    let ways = g.random.below(4);
    if ways == 0 {
        calls.push(Call::Map(mode, path(&way), Step { fallthrough: Some(g.mode()), ..step.clone() }));
    }
    calls.push(if g.random.chance(80) {
        Call::Map(mode, path(&way), step)
    } else {
        Call::Prefix(mode, path(&way), Some(step))
    });
    if ways == 1 {
        let longer = [&path(&way)[..], &[g.part()]].concat();
        calls.push(Call::Map(mode, longer, g.step()));
    }
    calls.push(Call::Map(g.mode(), path(&some_keys(g, 2)), g.step()));
    for _ in 0..2 {
        calls.extend(presses(&way));
        calls.extend(presses(&some_keys(g, 3)));
    }
    calls
}

/// From mode to mode by steps that fall, now and then back to the first.
fn falls(g: &mut Gen) -> Vec<Call> {
    let last = 1 + g.random.small(5);
    let mut calls = vec![Call::Open(g.tables())];
    for mode in 0..last {
        let to = if mode + 1 == last && g.random.chance(30) { 0 } else { mode + 1 };
        let quiet = g.random.chance(70);
        let step = Step { fallthrough: Some(to), ..g.step() };
        let step = if quiet { Step { actions: vec![], next: None, ..step } } else { step };
        let way = if g.random.chance(60) { path(&[g.key()]) } else { vec![g.part()] };
        calls.push(Call::Map(mode, way, step));
        if g.random.chance(40) {
            calls.push(Call::Map(mode, path(&some_keys(g, 2)), g.step()));
        }
    }
    calls.push(Call::Map(last, path(&some_keys(g, 2)), g.step()));
    for _ in 0..3 {
        calls.extend(presses(&some_keys(g, 5)));
        calls.push(Call::Key { key: g.key(), budget: g.budget() });
    }
    calls
}

fn edge_repeat(g: &mut Gen, numbers: &[u16]) -> Repeat {
    let n = g.random.pick(numbers);
    if g.random.chance(50) {
        Repeat::Min(n)
    } else {
        Repeat::Max(n)
    }
}

fn repeated(g: &mut Gen, parts: u64, numbers: &[u16]) -> Call {
    let count = 1 + g.random.below(parts);
    let at = g.random.below(count);
    let part = |g: &mut Gen, i| {
        let event = if g.random.chance(85) { Event::Key(g.key()) } else { g.part().event };
        let repeat = if i == at { edge_repeat(g, numbers) } else { Repeat::Once };
        Part { repeat, event }
    };
    let way: Vec<Part> = (0..count).map(|i| part(g, i)).collect();
    match g.random.below(4) {
        0 => Call::Prefix(g.mode(), way, None),
        1 => Call::Prefix(g.mode(), way, Some(g.step())),
        _ => Call::Map(g.mode(), way, g.step()),
    }
}

/// Parts of Min and Max at 0, 1 and 2 in every place of a path, and many keys.
fn few_repeats(g: &mut Gen) -> Vec<Call> {
    let mut calls = vec![Call::Open(g.tables())];
    calls.extend((0..1 + g.random.below(4)).map(|_| repeated(g, 3, &[0, 1, 2])));
    calls.extend(presses(&some_keys(g, 12)));
    calls.push(Call::Key { key: g.key(), budget: g.budget() });
    calls
}

fn many_repeats(g: &mut Gen) -> Vec<Call> {
    let mut calls = vec![Call::Open(g.tables())];
    calls.extend((0..1 + g.random.below(6)).map(|_| repeated(g, 3, &[0, 1, 2, 255, 255, 255])));
    let key = g.key();
    calls.extend(vec![press(key); g.random.below(70) as usize]);
    calls.extend(presses(&some_keys(g, 6)));
    calls
}

/// Digits, up to more than a count can hold; some have a Key edge, go by another class or by Any, or have no edge, and do not
/// count. A key that decomposes has a digit behind its first key, which a prefix may take.
fn counts(g: &mut Gen) -> Vec<Call> {
    let (low, high) = g.random.pick(&[(48, 57), (48, 54), (48, 54), (0, 65_535)]);
    let mut tables = with_digits(g.tables());
    tables.classes[0] = ClassEntry { class: 0, low, high };
    if g.random.chance(50) {
        tables.classes.truncate(15);
        tables.classes.insert(0, ClassEntry { class: 1, low: 55, high: 57 });
    }
    let step = g.random.chance(20).then(|| Step { mark: Some(7), ..Step::default() });
    let mut calls = vec![Call::Open(tables), Call::Prefix(0, vec![once(Event::Class(0))], step)];
    let others = [
        Call::Prefix(0, vec![once(Event::Class(1))], None),
        Call::Prefix(0, path(&[g.digit()]), None),
        Call::Prefix(0, path(&[27]), None),
        Call::Map(0, vec![once(Event::Any)], g.step()),
        Call::Prefix(0, vec![once(Event::Any)], None),
    ];
    calls.extend(others.into_iter().filter(|_| g.random.chance(50)));
    calls.push(Call::Map(0, path(&[g.key()]), g.step()));
    for _ in 0..3 {
        calls.extend(presses(&g.number()));
        calls.push(press(55 + g.random.small(3)));
        if g.random.chance(40) {
            calls.push(press(32_768 + g.digit()));
        }
        calls.extend(presses(&some_keys(g, 2)));
    }
    calls
}

/// About 64 digits on the trail, and further ones: 12 where the count passes its limit, and else 7.
fn counts_on_a_trail(g: &mut Gen) -> Vec<Call> {
    let repeat = g.random.pick(&[Repeat::Min(0), Repeat::Min(1), Repeat::Max(255)]);
    let run = Part { repeat, event: Event::Class(0) };
    let mut calls = vec![Call::Open(with_digits(g.tables()))];
    calls.push(Call::Map(0, vec![run, once(Event::Key(200))], g.step()));
    let number = g.number();
    calls.extend(vec![press(48); about(g, 64) - number.len()]);
    calls.extend(presses(&number));
    for _ in 0..5 {
        let budget = g.random.pick(&[1000, 5000, 65_535]);
        let key = g.random.pick(&[48, 48, 53, 57, 200, 5]);
        calls.push(if g.random.chance(10) { Call::Reset } else { Call::Key { key, budget } });
    }
    calls
}

/// Mappings of some digits, where no more pairs can wait or be remembered, or nearly so.
fn counts_before_pairs(g: &mut Gen) -> Vec<Call> {
    let digits = |n| vec![once(Event::Class(0)); n];
    let pairs = g.random.pick(&[1, 2, 4]);
    let (most, rules) = g.random.pick(&[(64, 1), (256, 0)]);
    let entry = ModeEntry { unmapped: vec![0; pairs], ..ModeEntry::default() };
    let tables = Tables { modes: vec![entry], rules: vec![track(0); rules], ..Tables::default() };
    let mut calls = vec![Call::Open(with_digits(tables))];
    calls.push(Call::Map(0, digits(5), Step { flag: false, actions: vec![7; pairs], ..g.step() }));
    calls.push(Call::Map(0, [digits(4), path(&[200])].concat(), g.step()));
    calls.extend(vec![press(5); about(g, most / pairs as u64 + 1)]);
    for _ in 0..4 {
        calls.extend(presses(&g.number()));
        calls.push(one_of(g, &[Call::Reset, Call::Reset, Call::Pop, press(200)]).clone());
    }
    calls
}

/// Digits that go by Key edges behind a key, until one without an edge gives that key up: then they are tried again, and count.
fn counts_tried_again(g: &mut Gen) -> Vec<Call> {
    let way = [&[97][..], &g.number()].concat();
    let mut calls = vec![Call::Open(with_digits(g.tables())), Call::Prefix(0, vec![once(Event::Class(0))], None)];
    calls.push(Call::Map(0, path(&[&way[..], &[200]].concat()), g.step()));
    for _ in 0..3 {
        let typed = if g.random.chance(70) { way.len() } else { g.random.below(way.len() as u64) as usize };
        calls.extend(presses(&way[..typed]));
        let budget = if g.random.chance(50) { 4 + g.random.small(5) } else { 1000 };
        calls.push(Call::Key { key: g.random.pick(&[5, 5, 53, 97]), budget });
        calls.push(one_of(g, &[Call::Reset, Call::Pop, press(200)]).clone());
    }
    calls
}

/// About 256 waiting pairs, and then a key, a reset or a repeat that adds some.
fn full_queue(g: &mut Gen) -> Vec<Call> {
    let pairs = 1 + g.random.below(4);
    let unmapped = vec![1; pairs as usize];
    let modes = vec![ModeEntry { enter: vec![], unmapped, next: None }, ModeEntry::default()];
    let mut tables = Tables { classes: vec![], modes, rules: g.tables().rules };
    tables.modes[1].enter = vec![2; g.random.below(5) as usize];
    if g.random.chance(70) {
        tables.rules = vec![Rule { mode: 0, low: 1, high: 1, sequence: 0, status: g.random.pick(&[0, 2, 3]) }];
    }
    let mut calls = vec![Call::Open(tables)];
    calls.push(Call::Map(0, path(&[97]), Step { next: Some(1), ..does(3) }));
    calls.extend(vec![press(5); about(g, 256 / pairs)]);
    for _ in 0..6 {
        let more = match g.random.below(6) {
            0 => vec![Call::Reset],
            1 => vec![Call::Pop; 1 + g.random.below(3) as usize],
            2 => vec![press(97)],
            3 | 4 => vec![Call::Repeat(0, None)],
            _ => vec![press(5)],
        };
        calls.extend(more);
    }
    calls
}

/// About 64 keys that need more, perhaps with resets between, and then one that ends the run.
fn full_trail(g: &mut Gen) -> Vec<Call> {
    let (low, high) = if g.random.chance(40) { (32_768, 65_535) } else { (97, 98) };
    let mut tables = g.tables();
    tables.classes.truncate(15);
    tables.classes.insert(0, ClassEntry { class: 7, low, high });
    let mode = g.mode();
    let run =
        Part { repeat: g.random.pick(&[Repeat::Min(0), Repeat::Min(1), Repeat::Max(255)]), event: Event::Class(7) };
    let mut calls = vec![Call::Open(tables), Call::Map(mode, vec![run, once(Event::Key(200))], g.step())];
    if mode != 0 {
        calls.extend([Call::Map(0, path(&[300]), Step { next: Some(mode), ..Step::default() }), press(300)]);
    }
    if g.random.chance(30) {
        calls.push(Call::Map(0, path(&[27, 27, 27]), g.step()));
    }
    let typed = if g.random.chance(30) { vec![press(low), Call::Reset] } else { vec![press(low)] };
    calls.extend(vec![typed; about(g, 64)].concat());
    for _ in 0..3 {
        let budget = g.random.pick(&[1000, 5000, 65_535]);
        calls.push(Call::Key { key: g.random.pick(&[200, 5, low, high, 32_768 + 200]), budget });
    }
    calls
}

/// About 64 keys that decompose, the first of them given up in a mode where they do. Both parts of some need more there, and
/// then the second part of another is unmapped: with keys still to try, that gives the longest stacks.
fn full_stack(g: &mut Gen) -> Vec<Call> {
    let whole = ClassEntry { class: 7, low: 32_768, high: 65_535 };
    let parts = ClassEntry { class: 1, low: 0, high: 100 };
    let first = ModeEntry { next: Some(1), ..ModeEntry::default() };
    let tables = Tables { classes: vec![whole, parts], modes: vec![first], rules: vec![] };
    let run = |repeat, class| vec![Part { repeat, event: Event::Class(class) }, once(Event::Key(200))];
    let mut calls = vec![Call::Open(tables), Call::Map(0, run(Repeat::Max(255), 7), g.step())];
    calls.push(Call::Map(1, run(Repeat::Min(g.random.pick(&[2, 30, 64, 64])), 1), g.step()));
    let joining = 28 + g.random.below(6) as usize;
    calls.extend(vec![press(32_768 + 5); joining]);
    calls.extend(vec![press(32_768 + 110); about(g, 63) - joining]);
    calls.push(Call::Key { key: g.random.pick(&[101, 101, 5, 32_768 + 101]), budget: 65_535 });
    calls.extend(presses(&some_keys(g, 3)));
    calls
}

/// About 64 tracked pairs, one or several at a push.
fn full_sequence(g: &mut Gen) -> Vec<Call> {
    let rules = g.random.pick(&[1, 1, 2, 3, 63, 64]);
    let mut tables = g.tables();
    tables.rules = vec![track(0); rules];
    if g.random.chance(30) {
        tables.rules[rules - 1] = g.rule();
    }
    if rules > 32 && g.random.chance(50) {
        // a reset breaks the sequence, so that entering must fill it anew and once more
        let entry = ModeEntry { enter: vec![1; 1 + g.random.below(2) as usize], ..ModeEntry::default() };
        tables.modes = vec![entry];
    }
    let mut calls = vec![Call::Open(tables)];
    calls.extend((0..g.random.below(2)).map(|_| g.binding()));
    let key = g.key();
    calls.extend(vec![press(key); about(g, 64 / rules as u64 + 2)]);
    calls.push(Call::Reset);
    let more = usual(g, 8);
    calls.extend(more);
    calls
}

/// Each table, list, path and number at its limit or one over.
fn full_tables(g: &mut Gen) -> Vec<Call> {
    let size = |g: &mut Gen, most: usize| if g.random.chance(10) { most + 1 } else { most };
    let actions = |g: &mut Gen| -> Vec<u16> { vec![65_535; if g.random.chance(8) { 5 } else { 4 }] };
    let class = if g.random.chance(10) { 256 } else { 255 };
    let entry =
        ModeEntry { enter: actions(g), unmapped: actions(g), next: Some(if g.random.chance(90) { 15 } else { 16 }) };
    let rule = Rule { sequence: if g.random.chance(90) { 7 } else { 8 }, ..g.rule() };
    let (classes, modes, rules) = (size(g, 16), size(g, 16), size(g, 64));
    let mut tables = Tables {
        classes: (0..classes).map(|_| g.class_entry()).collect(),
        modes: vec![entry; modes],
        rules: vec![rule; rules],
    };
    tables.classes[15] = ClassEntry { class, low: 0, high: 65_535 };
    let parts = size(g, 32);
    let step = Step {
        actions: actions(g),
        next: Some(15),
        fallthrough: g.random.chance(50).then_some(15),
        mark: Some(65_535),
        flag: false,
    };
    let mode = if g.random.chance(90) { 15 } else { 16 };
    let mut calls = vec![Call::Open(tables), Call::Map(mode, vec![once(Event::Class(255)); parts], step)];
    calls.extend(presses(&some_keys(g, 40)));
    let more = usual(g, 6);
    calls.extend(more);
    calls
}

/// Few actions on many nodes: a path bound again, a prefix over a mapping, a mapping over a prefix, which goes to the root; some
/// steps flagged, some without an action.
fn few_actions(g: &mut Gen) -> Vec<Call> {
    let modes = [g.random.small(16), 15];
    let step = |g: &mut Gen| Step {
        flag: g.random.chance(30),
        actions: (0..g.random.below(4)).map(|_| g.random.small(5)).collect(),
        next: g.random.chance(30).then(|| g.random.small(16)),
        ..Step::default()
    };
    let mut calls = vec![];
    for _ in 0..4 + g.random.below(12) {
        let (mode, way) = (g.random.pick(&modes), path(&[g.random.small(6)]));
        calls.push(match g.random.below(6) {
            0 => Call::Prefix(mode, way, None),
            1 => Call::Prefix(mode, way, Some(step(g))),
            _ => Call::Map(mode, way, step(g)),
        });
    }
    calls.extend(presses(&some_keys(g, 4)));
    calls
}

// ---- full graphs

/// Bindings over keys of their own that leave so many nodes and edges unused, as near as can be.
pub struct Fill {
    pub graph: Graph,
    pub calls: Vec<Call>,
    next_key: u16,
}

impl Fill {
    pub fn new() -> Self {
        Fill { graph: Graph::fresh(), calls: vec![], next_key: 1000 }
    }

    pub fn add(&mut self, call: Call) {
        let _ = self.graph.bind(&call);
        self.calls.push(call);
    }

    fn fresh_key(&mut self) -> Event {
        self.next_key += 1;
        Event::Key(self.next_key)
    }

    /// So many nodes, with two edges for each (Max) or about one (Min).
    pub fn nodes(&mut self, g: &mut Gen, nodes: usize, with_max: bool) {
        let mode = g.mode();
        let mut left = nodes;
        while left > 0 {
            let n = left.min(255);
            let repeat = match (n, with_max) {
                (1, _) => Repeat::Once,
                (_, true) => Repeat::Max(n as u16),
                // a Min makes two nodes at its end
                (_, false) => Repeat::Min(n as u16 - 1),
            };
            let event = self.fresh_key();
            self.add(Call::Map(mode, vec![Part { repeat, event }], g.step()));
            left = left.saturating_sub(n);
        }
    }

    /// Makes this node, and those before it. The keys that lead to it in mode 0.
    fn way_to(&mut self, g: &mut Gen, node: usize) -> Vec<u16> {
        let next = 16 + self.graph.size().0;
        if node < next {
            return vec![];
        }
        let with_max = g.random.chance(30);
        self.nodes(g, node - next, with_max);
        let (way, on) = (self.fresh_key(), self.fresh_key());
        self.add(Call::Prefix(0, vec![once(way), once(on)], None));
        assert_eq!(15 + self.graph.size().0, node, "the way leads to another node");
        vec![self.next_key - 1]
    }

    /// A binding of so many keys that makes a node for each.
    pub fn of_keys(&mut self, g: &mut Gen, keys: usize) -> Call {
        let way = (0..keys).map(|_| once(self.fresh_key())).collect();
        let (mode, step) = (g.mode(), g.step());
        if g.random.chance(50) {
            Call::Map(mode, way, step)
        } else {
            Call::Prefix(mode, way, Some(step))
        }
    }

    /// So many edges and no node.
    pub fn edges(&mut self, g: &mut Gen, edges: usize) {
        let mode = g.mode();
        for _ in 0..edges {
            let event = self.fresh_key();
            self.add(Call::Prefix(mode, vec![once(event)], None));
        }
    }
}

fn small_bindings(g: &mut Gen, fill: &mut Fill) -> Vec<Call> {
    let mut calls = vec![];
    for _ in 0..4 + g.random.below(5) {
        let event = fill.fresh_key();
        let way = vec![Part { repeat: edge_repeat(g, &[0, 1, 2]), event }];
        calls.push(match g.random.below(5) {
            0 => Call::Map(g.mode(), way, g.step()),
            1 => Call::Prefix(g.mode(), way, Some(g.step())),
            2 => Call::Map(g.mode(), vec![once(event)], g.step()),
            // an action that no other step has
            3 => Call::Map(g.mode(), vec![once(event)], does(fill.next_key)),
            _ => g.binding(),
        });
    }
    calls
}

/// Bindings where so many nodes are left: of one too many, which is met behind the others; of all but one; again of one too
/// many; of the last; and of one more.
fn last_nodes(g: &mut Gen, fill: &mut Fill, left: usize) -> Vec<Call> {
    [left + 1, left.saturating_sub(1), 2, 1, 1].map(|keys| fill.of_keys(g, keys)).into()
}

/// All nodes but a few taken, and then bindings that need some.
fn full_nodes(g: &mut Gen) -> Vec<Call> {
    let mut fill = Fill::new();
    (0..g.random.below(3)).for_each(|_| fill.add(g.binding()));
    let with_max = g.random.chance(20);
    let spare = g.random.below(4) as usize;
    let left = 1024 - fill.graph.size().0;
    fill.nodes(g, left - spare, with_max);
    if g.random.chance(50) {
        let last = last_nodes(g, &mut fill, spare);
        fill.calls.extend(last);
    }
    finish(g, fill)
}

/// All edges but a few taken, with nodes to spare.
fn full_edges(g: &mut Gen) -> Vec<Call> {
    let mut fill = Fill::new();
    fill.nodes(g, 1010, true);
    let spare = g.random.below(5) as usize;
    let left = 2048usize.saturating_sub(fill.graph.size().1 + spare);
    fill.edges(g, left);
    if g.random.chance(30) {
        // its last node is made, and has no edge
        let beyond = fill.of_keys(g, spare + 1);
        fill.calls.push(beyond);
    }
    finish(g, fill)
}

fn finish(g: &mut Gen, mut fill: Fill) -> Vec<Call> {
    let last = small_bindings(g, &mut fill);
    let tables = if g.random.chance(50) { g.tables() } else { Tables::default() };
    let mut calls = vec![Call::Open(tables)];
    calls.append(&mut fill.calls);
    calls.extend(last);
    for _ in 0..4 {
        let bound = 1000 + g.random.small(fill.next_key - 999);
        calls.extend([press(bound), press(g.key())]);
    }
    calls
}

// ---- following

/// Keys, and ranges that hold some of them: classes share keys, and one class may have several ranges.
const TYPED: [u16; 5] = [48, 50, 97, 98, 40_000];
const RANGES: [(u16, u16); 6] = [(0, 65_535), (48, 57), (97, 98), (50, 97), (98, 98), (97, 65_535)];

fn shared_classes(g: &mut Gen) -> Tables {
    let entry = |g: &mut Gen| {
        let (low, high) = g.random.pick(&RANGES);
        ClassEntry { class: g.random.small(5), low, high }
    };
    let entries = if g.random.chance(10) { 16 } else { 2 + g.random.below(6) };
    Tables { classes: (0..entries).map(|_| entry(g)).collect(), ..Tables::default() }
}

/// A binding whose path ends with a part for the event, and which shows itself by its action.
fn ending(g: &mut Gen, way: &[Part], event: Event, action: u16) -> Call {
    let repeat = if g.random.chance(15) { edge_repeat(g, &[0, 1, 2]) } else { Repeat::Once };
    let path = [way, &[Part { repeat, event }]].concat();
    match g.random.below(10) {
        0 => Call::Prefix(0, path, None),
        1 | 2 => Call::Prefix(0, path, Some(does(action))),
        3 => Call::Map(0, path, Step { fallthrough: Some(g.random.small(2)), ..Step::default() }),
        _ => Call::Map(0, path, does(action)),
    }
}

fn some_event(g: &mut Gen) -> Event {
    match g.random.below(10) {
        0..=4 => Event::Class(g.random.small(5)),
        5 => Event::Any,
        6 => Event::Fallthrough,
        _ => Event::Key(g.random.pick(&TYPED)),
    }
}

/// Bindings at the ends of these ways in mode 0, of every event and in any order, some of one event again; then the ways with a
/// key behind them.
fn edges_at(g: &mut Gen, ways: &[Vec<u16>], events: u64) -> Vec<Call> {
    let mut calls = vec![];
    for i in 0..events {
        let way = one_of(g, ways);
        let event = some_event(g);
        calls.push(ending(g, &path(way), event, 100 + i as u16));
    }
    for _ in 0..4 + g.random.below(10) {
        let way = one_of(g, ways);
        calls.extend(presses(way));
        calls.push(Call::Key { key: g.random.pick(&TYPED), budget: 40 });
        if g.random.chance(20) {
            calls.push(Call::Reset);
        }
    }
    calls
}

/// Many edges of one node, a root or not, of which several are for one key.
fn edges_of_one_node(g: &mut Gen) -> Vec<Call> {
    let way = one_of(g, &[vec![], vec![300], vec![300, 301]]).clone();
    let events = 4 + g.random.below(10);
    [vec![Call::Open(shared_classes(g))], edges_at(g, &[way], events)].concat()
}

/// Nodes whose numbers differ by this have their edges for one key on one chain, for more than a third of all keys.
const KEYS_ALIKE: usize = 831;

/// Edges for the same keys at nodes that share a chain of the index: that of their edges for no key, or those of many keys. No
/// edge of one may be taken at another.
fn nodes_on_one_chain(g: &mut Gen) -> Vec<Call> {
    let apart = g.random.pick(&[chains::ALIKE, chains::ALIKE, chains::ALIKE, KEYS_ALIKE]);
    let first = g.random.pick(&[0, 0, 16, 20]);
    let mut fill = Fill::new();
    let mut ways = vec![];
    for node in (first..).step_by(apart).take_while(|&node| node < 1040).take(2 + g.random.below(4) as usize) {
        ways.push(fill.way_to(g, node));
    }
    let mut calls = vec![Call::Open(shared_classes(g))];
    calls.append(&mut fill.calls);
    let events = 6 + g.random.below(14);
    calls.extend(edges_at(g, &ways, events));
    calls
}

/// Keys whose edges are on one chain of the index, at the root of mode 0 and at nodes behind it. Not all are bound, and some are
/// bound again.
fn keys_on_one_chain(g: &mut Gen) -> Vec<Call> {
    let chain = chains::of_key(0, g.key());
    let mut fill = Fill::new();
    let nodes = [0, 16, 17];
    let ways = nodes.map(|node| (fill.way_to(g, node), chained(chain, node as u16)));
    let some = |g: &mut Gen, most: u64| -> Vec<u16> {
        let (way, keys) = one_of(g, &ways);
        [&way[..], &[keys[g.random.below(most) as usize]]].concat()
    };
    let mut calls = vec![Call::Open(shared_classes(g))];
    calls.append(&mut fill.calls);
    for i in 0..6 + g.random.small(20) {
        let way = some(g, 8);
        calls.push(if g.random.chance(20) {
            Call::Prefix(0, path(&way), None)
        } else {
            Call::Map(0, path(&way), does(100 + i))
        });
    }
    calls.extend((0..12).flat_map(|_| presses(&some(g, 12))));
    calls
}

/// The 64 keys whose edges from the node are on the chain.
fn chained(chain: usize, node: u16) -> Vec<u16> {
    (0..=u16::MAX).filter(|&key| chains::of_key(node, key) == chain).collect()
}

// ---- map files

/// Numbers of one, two and three bytes, each length at its ends.
const WIDE: [u16; 8] = [0, 1, 127, 128, 16_383, 16_384, 32_767, 65_535];
const BYTES: [u16; 5] = [0, 1, 127, 128, 255];

fn wide_actions(g: &mut Gen) -> Vec<u16> {
    (0..g.random.below(5)).map(|_| g.random.pick(&WIDE)).collect()
}

fn some_mode(g: &mut Gen) -> Option<u16> {
    g.random.chance(60).then(|| g.random.small(16))
}

fn wide_tables(g: &mut Gen) -> Tables {
    let class = |g: &mut Gen| {
        let (a, b) = (g.random.pick(&WIDE), g.random.pick(&WIDE));
        ClassEntry { class: g.random.pick(&BYTES), low: a.min(b), high: a.max(b) }
    };
    let rule = |g: &mut Gen| {
        let (a, b) = (g.random.pick(&WIDE), g.random.pick(&WIDE));
        let (mode, sequence, status) = (g.random.small(16), g.random.small(8), g.random.small(5));
        Rule { mode, low: a.min(b), high: a.max(b), sequence, status }
    };
    let mode = |g: &mut Gen| ModeEntry { enter: wide_actions(g), unmapped: wide_actions(g), next: some_mode(g) };
    let mut tables = Tables {
        classes: (0..g.random.below(17)).map(|_| class(g)).collect(),
        modes: (0..g.random.below(17)).map(|_| mode(g)).collect(),
        rules: (0..g.random.below(65)).map(|_| rule(g)).collect(),
    };
    // modes at the end that are as those past the end: they are written all the same
    let plain = g.random.below(4) as usize;
    let longer = (tables.modes.len() + plain).min(16);
    tables.modes.resize(longer, ModeEntry::default());
    tables
}

fn wide_step(g: &mut Gen) -> Step {
    Step {
        flag: g.random.chance(30),
        actions: wide_actions(g),
        next: some_mode(g),
        fallthrough: some_mode(g),
        mark: Some(g.random.pick(&WIDE)).filter(|&m| m != 0),
    }
}

/// A part with a number of any length. Large repeats take many nodes, so they come seldom.
fn wide_part(g: &mut Gen) -> Part {
    let n = if g.random.chance(12) { g.random.pick(&BYTES) } else { g.random.small(2) };
    let event = match g.random.below(10) {
        0..=4 => Event::Key(g.random.pick(&WIDE)),
        5..=7 => Event::Class(g.random.pick(&BYTES)),
        8 => Event::Any,
        _ => Event::Fallthrough,
    };
    Part { repeat: g.random.pick(&[Repeat::Once, Repeat::Min(n), Repeat::Max(n)]), event }
}

fn wide_binding(g: &mut Gen) -> Call {
    let parts = if g.random.chance(10) { 32 } else { g.random.below(5) };
    let (mode, way) = (g.random.small(16), (0..parts).map(|_| wide_part(g)).collect());
    match g.random.below(4) {
        0 => Call::Prefix(mode, way, None),
        1 => Call::Prefix(mode, way, Some(wide_step(g))),
        _ => Call::Map(mode, way, wide_step(g)),
    }
}

/// Every number of a map file at the ends of one, two and three bytes; then some keys, and bindings that are refused.
fn numbers_at_edges(g: &mut Gen) -> Vec<Call> {
    let mut calls = vec![Call::Open(wide_tables(g))];
    calls.extend((0..g.random.below(12)).map(|_| wide_binding(g)));
    calls.extend((0..g.random.below(4)).map(|_| press(g.random.pick(&WIDE))));
    if g.random.chance(40) {
        let behind = [&path(&[1])[..], &[once(Event::Fallthrough)]].concat();
        let falls = Step { fallthrough: Some(1), ..does(1) };
        calls.push(Call::Map(0, path(&[1]), falls));
        calls.push(Call::Map(g.random.pick(&[16, 17, 65_535]), vec![], does(1)));
        calls.push(Call::Map(0, behind, does(2)));
    }
    calls
}

// ---- kept calls

/// A binding of no part: it makes no node and no edge, and is kept.
pub fn empty_binding(g: &mut Gen, short: bool) -> Call {
    match g.random.below(3) {
        _ if short => Call::Prefix(g.random.small(16), vec![], None),
        0 => Call::Prefix(g.random.small(16), vec![], None),
        1 => Call::Prefix(g.random.small(16), vec![], Some(wide_step(g))),
        _ => Call::Map(g.random.small(16), vec![], wide_step(g)),
    }
}

/// So many kept calls beside those that are there, most of them of no part.
pub fn fill_kept(g: &mut Gen, calls: &mut Vec<Call>, kept: usize) {
    let short = g.random.chance(60);
    calls.extend((0..kept).map(|_| empty_binding(g, short)));
}

/// Bindings of every outcome: 11 where all calls are kept, else accepted; and 1 and 4, which are met before 11. The last makes
/// two nodes where there is room.
pub fn late_bindings(g: &mut Gen) -> Vec<Call> {
    let refused = |g: &mut Gen| match g.random.below(4) {
        0 => Call::Map(16, vec![], does(1)),
        1 => Call::Prefix(0, vec![Part { repeat: Repeat::Min(256), event: Event::Any }], None),
        2 => Call::Map(0, path(&[300]), Step { actions: vec![1; 5], ..Step::default() }),
        // behind the fall of `falling`
        _ => Call::Map(0, [&path(&[301])[..], &[once(Event::Fallthrough)]].concat(), does(2)),
    };
    let mut calls = vec![];
    for _ in 0..2 + g.random.below(4) {
        calls.push(match g.random.below(5) {
            0 | 1 => refused(g),
            2 => empty_binding(g, true),
            3 => Call::Prefix(0, path(&[302]), None),
            _ => g.binding(),
        });
    }
    calls.push(Call::Map(0, path(&[604, 605]), does(1)));
    calls
}

/// A step that falls to mode 1.
pub fn falling() -> Call {
    Call::Map(0, path(&[301]), Step { fallthrough: Some(1), ..Step::default() })
}

/// 1,024 calls kept, or one or two fewer, and then bindings.
fn kept_calls(g: &mut Gen) -> Vec<Call> {
    let mut calls = vec![Call::Open(g.tables()), falling()];
    calls.extend((0..g.random.below(6)).map(|_| Call::Map(0, path(&[g.random.small(9)]), g.step())));
    let rest = 1024 - (calls.len() - 1) - g.random.below(3) as usize;
    fill_kept(g, &mut calls, rest);
    calls.extend(late_bindings(g));
    calls.extend(presses(&some_keys(g, 4)));
    calls
}

/// The same where no node is left, or no edge: a binding that needs one is refused by 2 or 3, before 11.
fn kept_with_full_graph(g: &mut Gen) -> Vec<Call> {
    let mut fill = Fill::new();
    fill.add(falling());
    let of_edges = g.random.chance(50);
    let nodes = if of_edges { 1010 } else { 1024 };
    let left = nodes - fill.graph.size().0;
    // a Max takes two edges for a node, which are too many for all nodes
    fill.nodes(g, left, of_edges);
    if of_edges {
        let left = 2048 - fill.graph.size().1;
        fill.edges(g, left);
    }
    let mut calls = vec![Call::Open(Tables::default())];
    calls.append(&mut fill.calls);
    let rest = 1025 - calls.len() - g.random.below(2) as usize;
    fill_kept(g, &mut calls, rest);
    let new = [Call::Map(0, path(&[600, 601]), does(1)), Call::Prefix(0, path(&[602, 603]), None)];
    calls.extend(new);
    calls.extend(late_bindings(g));
    calls
}

/// All calls kept, then an open, refused or not, after which they begin anew or are still there.
fn kept_and_opened(g: &mut Gen) -> Vec<Call> {
    let mut calls = kept_calls(g);
    if g.random.chance(50) {
        calls.push(Call::Open(Tables { modes: vec![ModeEntry::default(); 17], ..Tables::default() }));
        calls.push(empty_binding(g, true));
    }
    calls.push(Call::Open(g.tables()));
    let more = usual(g, 6);
    calls.extend(more);
    calls.extend(late_bindings(g));
    calls
}

/// So many calls of the longest form. The first makes the nodes of a path; the others follow its edges whatever their repeats
/// are.
fn longest_calls(g: &mut Gen, count: usize) -> Vec<Call> {
    let keys: Vec<u16> = (0..32).map(|i| 16_384 + i).collect();
    let repeat = |g: &mut Gen| g.random.pick(&[Repeat::Min(255), Repeat::Max(255), Repeat::Max(128)]);
    let step =
        |g: &mut Gen| Step { actions: vec![65_535; 4], mark: Some(65_535), next: some_mode(g), ..Step::default() };
    let mut calls = vec![Call::Map(0, path(&keys), step(g))];
    while calls.len() < count {
        let mut way = path(&keys);
        way[..31].iter_mut().for_each(|p| p.repeat = repeat(g));
        calls.push(Call::Map(0, way, step(g)));
    }
    calls
}

/// All calls kept and each of the longest form, some 250,000 bytes as a file.
fn longest_file(g: &mut Gen) -> Vec<Call> {
    let count = 1023 + g.random.below(3) as usize;
    [vec![Call::Open(wide_tables(g))], longest_calls(g, count)].concat()
}

/// A file of 65,536 bytes, or a little more or less: a list of so many bytes still goes to `callplay`.
fn file_of_65_536(g: &mut Gen) -> Vec<Call> {
    let length = g.random.pick(&[65_000, 65_534, 65_535, 65_536, 65_536, 65_537]);
    let tables = Tables { modes: vec![ModeEntry::default(); 2], ..Tables::default() };
    let mut bindings = longest_calls(g, 260);
    let left = length - file_of(&tables, &bindings).len();
    // a mapping of eight, nine or ten bytes, by its mark, and then prefixes of three
    let mark = [None, Some(128), Some(16_384)][(left - 8) % 3];
    bindings.push(Call::Map(0, vec![], Step { mark, ..Step::default() }));
    bindings.extend(vec![Call::Prefix(0, vec![], None); (left - 8) / 3]);
    assert_eq!(file_of(&tables, &bindings).len(), length);
    [vec![Call::Open(tables)], bindings].concat()
}
