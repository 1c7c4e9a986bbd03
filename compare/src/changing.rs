//! Changes of map: put into any list, by what it has come to there; and lists that lead to one edge of a change each.

use crate::calls::{Call, ClassEntry, Event, ModeEntry, Part, Repeat, Rule, Step, Tables};
use crate::gen::{with_digits, Gen, Kind};
use crate::graph::limits;
use crate::met::aside;
use crate::model::Model;
use crate::scenes::{
    about, does, empty_binding, falling, fill_kept, late_bindings, once, one_of, path, press, presses, some_keys,
    usual, Fill, Scene,
};

pub const SCENES: [Scene; 14] = [
    walked,
    walked,
    walked,
    walked,
    walked,
    walked_far,
    walked_with_digits,
    walked_after_a_fall,
    from_a_deeper_place,
    refused_in_order,
    to_the_same_map,
    to_a_full_graph,
    with_full_state,
    in_a_row,
];

/// These have changes of a thousand bindings.
pub const LONG_SCENES: [Scene; 2] = [to_all_kept, past_all_kept];

/// Those that are short enough for a theorem.
const SHORT: [Scene; 7] =
    [walked, walked, walked_with_digits, walked_after_a_fall, from_a_deeper_place, to_the_same_map, in_a_row];

/// Those that have plain mappings alone for a generator of such.
const PLAIN: [Scene; 4] = [walked, walked_after_a_fall, from_a_deeper_place, to_the_same_map];

/// The calls of a seed in one of these.
pub fn changing_of(seed: u64) -> Vec<Call> {
    let mut g = Gen::new(seed, Kind::Usual);
    one_of(&mut g, &SHORT)(&mut g)
}

pub fn plain_of(seed: u64) -> Vec<Call> {
    let mut g = Gen::new(seed, Kind::Plain);
    one_of(&mut g, &PLAIN)(&mut g)
}

// ---- in any list

/// A list with one change or several, most of them where keys are on the trail. All else is as without them.
pub fn with_changes(g: &mut Gen, list: Vec<Call>) -> Vec<Call> {
    let mut model = Model::fresh(Tables::default());
    let mut left = 1 + g.random.below(3);
    let mut changed = vec![];
    for call in list {
        let often = if model.trail().is_empty() { 4 } else { 25 };
        if left > 0 && g.random.chance(often) {
            left -= 1;
            changed.push(change(g, &model));
            aside(|| model.call(changed.last().unwrap()));
        }
        aside(|| model.call(&call));
        changed.push(call);
    }
    if left > 0 {
        changed.push(change(g, &model));
        changed.extend(presses(&some_keys(g, 4)));
    }
    changed
}

/// What a list comes to.
fn played(list: &[Call]) -> Model {
    let mut model = Model::fresh(Tables::default());
    for call in list {
        aside(|| model.call(call));
    }
    model
}

/// To the very same map, to that with a binding more or less, to one that has the trail, or to another; some are refused.
fn change(g: &mut Gen, model: &Model) -> Call {
    let same = |g: &mut Gen, percent| if g.random.chance(percent) { model.tables().clone() } else { g.tables() };
    let (tables, bindings) = match g.random.below(10) {
        0..=1 => (model.tables().clone(), model.kept()),
        2..=3 => (same(g, 70), edited(g, model.kept())),
        4..=6 => {
            let tables = same(g, 50);
            let bindings = along(g, &tables, model.mode(), model.trail());
            (tables, bindings)
        },
        _ => (g.tables(), some_bindings(g, 6)),
    };
    let mut change = Call::Change(tables, bindings);
    if g.random.chance(10) {
        g.damage(&mut change);
    }
    change
}

fn some_bindings(g: &mut Gen, most: u64) -> Vec<Call> {
    (0..g.random.below(most)).map(|_| g.binding()).collect()
}

fn edited(g: &mut Gen, mut bindings: Vec<Call>) -> Vec<Call> {
    let count = bindings.len() as u64;
    match g.random.below(3) {
        0 if count > 0 => drop(bindings.remove(g.random.below(count) as usize)),
        1 if count > 0 => bindings.swap(0, g.random.below(count) as usize),
        _ => bindings.push(g.binding()),
    }
    bindings
}

/// Bindings whose paths begin with the trail, or with some of it.
fn along(g: &mut Gen, tables: &Tables, mode: u16, trail: &[u16]) -> Vec<Call> {
    let mut bindings = some_bindings(g, 3);
    for _ in 0..1 + g.random.below(2) {
        let keys = if g.random.chance(75) { trail.len() } else { g.random.below(trail.len() as u64 + 1) as usize };
        let mode = if g.random.chance(85) { mode } else { g.mode() };
        let mut way = way_of(g, tables, &trail[..keys.min(31)]);
        if g.random.chance(70) {
            way.push(g.part());
        }
        bindings.push(if g.is_plain() || g.random.chance(85) {
            Call::Map(mode, way, g.step())
        } else {
            Call::Prefix(mode, way, None)
        });
    }
    bindings
}

/// The keys, some of them by a class that they have in the tables or by Any.
fn way_of(g: &mut Gen, tables: &Tables, keys: &[u16]) -> Vec<Part> {
    let event = |g: &mut Gen, key| match (g.random.below(10), tables.memberships(key).first()) {
        (0..=1, Some(&class)) => Event::Class(class),
        (2, _) => Event::Any,
        _ => Event::Key(key),
    };
    keys.iter().map(|&key| once(event(g, key))).collect()
}

// ---- the trail

/// Class 1 is in the old tables alone, class 2 in the new.
fn wide(class: u16) -> Tables {
    Tables { classes: vec![ClassEntry { class, low: 0, high: 65_535 }], ..Tables::default() }
}

/// A map in which a key enters the mode, and that key.
fn entering(mode: u16) -> Vec<Call> {
    match mode {
        0 => vec![],
        _ => vec![Call::Map(0, path(&[300]), Step { next: Some(mode), ..does(1) }), press(300)],
    }
}

/// Bindings by which the way's keys need more up to one of them, and that one ends in some way, or needs more too.
fn ends(g: &mut Gen, mode: u16, way: &[Part]) -> Vec<Call> {
    let last = way.len() - 1;
    let at = if g.random.chance(40) { last } else { g.random.below(way.len() as u64) as usize };
    let (before, with) = (&way[..at], &way[..=at]);
    let map = |way: &[Part], keys: &[u16], step| Call::Map(mode, [way, &path(keys)].concat(), step);
    let here = |flag| map(with, &[], Step { flag, ..does(6) });
    let longer = map(way, &[201], does(5));
    match g.random.below(if g.is_plain() { 8 } else { 11 }) {
        0 | 1 => vec![longer],
        2 => vec![here(false)],
        3 => vec![longer, here(false)],
        4 => vec![here(true)],
        5 => vec![longer, here(true)],
        6 => vec![map(before, &[204], does(9))],
        7 => vec![map(before, &[], Step { flag: true, fallthrough: Some(g.mode()), ..does(8) })],
        8 => vec![Call::Prefix(mode, with.to_vec(), None)],
        9 => {
            let falls = Part { repeat: Repeat::Max(2), event: Event::Key(202) };
            vec![map(&[before, &[falls]].concat(), &[203], does(8))]
        },
        // the key leads to the root itself, which then holds a flagged step
        _ => vec![Call::Prefix(mode, way[..1].to_vec(), None), map(&way[..1], &[], Step { flag: true, ..does(6) })],
    }
}

/// The keys by their own edges, by a class of the old tables or the new ones, or by Any.
fn mixed(g: &mut Gen, keys: &[u16]) -> Vec<Part> {
    let event = |g: &mut Gen, key| match g.random.below(12) {
        0 => Event::Class(1),
        1..=2 => Event::Class(2),
        3 => Event::Any,
        _ => Event::Key(key),
    };
    keys.iter().map(|&key| once(event(g, key))).collect()
}

/// A map in which a few keys need more, perhaps in another mode or before a reset; and one in which they end in some way, in the
/// entered mode or another.
fn walked(g: &mut Gen) -> Vec<Call> {
    let (mode, count) = (g.random.pick(&[0, 0, 1, 15]), g.random.pick(&[1, 2, 3, 3, 4]));
    let mut keys: Vec<u16> = (0..count).map(|_| g.key()).collect();
    if g.random.chance(15) {
        keys[0] = 32_768 + 97;
    }
    let mut calls = vec![Call::Open(wide(1))];
    calls.extend(some_bindings(g, 2));
    calls.push(Call::Map(mode, path(&[&keys[..], &[200]].concat()), g.step()));
    calls.extend(entering(mode));
    calls.extend(presses(&keys));
    let is_reset = g.random.chance(20);
    if is_reset {
        calls.push(Call::Reset);
    }
    let entered = if is_reset { 0 } else { mode };
    let mut bindings = vec![];
    if g.random.chance(50) {
        bindings.push(Call::Map(entered, path(&[27, 205]), does(4)));
    }
    let mut modes = vec![mode, 0];
    modes.dedup();
    for mode in modes {
        if mode == entered || g.random.chance(50) {
            let way = mixed(g, &keys);
            bindings.extend(ends(g, mode, &way));
        }
    }
    let tables = if g.random.chance(80) { wide(2) } else { wide(1) };
    calls.push(Call::Change(tables, bindings));
    calls.extend(presses(&[g.random.pick(&[201, 201, 205]), 201, keys[0]]));
    calls
}

/// 63 keys or 64 that need more, the last of them another.
fn walked_far(g: &mut Gen) -> Vec<Call> {
    let (count, event) = (63 + g.random.below(2) as usize, Event::Class(7));
    let mut tables = wide(7);
    tables.rules.push(g.rule());
    let run = Part { repeat: g.random.pick(&[Repeat::Min(0), Repeat::Min(1)]), event };
    let mut calls = vec![Call::Open(tables.clone()), Call::Map(0, vec![run, once(Event::Key(200))], does(1))];
    calls.extend(vec![press(97); count - 1]);
    calls.push(press(98));
    let runs = [Repeat::Min(1), Repeat::Min(2), Repeat::Min(62), Repeat::Max(count as u16 - 1)];
    let first = Part { repeat: g.random.pick(&runs), event: g.random.pick(&[Event::Key(97), event]) };
    let way = [first, once(Event::Key(98))];
    let bindings = match g.random.below(3) {
        0 => vec![Call::Map(0, vec![run, once(Event::Key(201))], does(5))],
        1 => vec![Call::Map(0, vec![first, once(Event::Key(204))], does(9))],
        _ => ends(g, 0, &way),
    };
    calls.push(Call::Change(tables, bindings));
    calls.extend(presses(&[g.random.pick(&[201, 200, 97]), 97]));
    calls
}

/// A count or none, digits on the trail by edges that do not count, and a map in which class 0 has them.
fn walked_with_digits(g: &mut Gen) -> Vec<Call> {
    let tables = with_digits(Tables::default());
    let digits: Vec<u16> = (0..1 + g.random.below(3)).map(|_| g.digit()).collect();
    let keys = [&[97][..], &digits].concat();
    let counts = Call::Prefix(0, vec![once(Event::Class(0))], None);
    let mut calls =
        vec![Call::Open(tables.clone()), counts, Call::Map(0, path(&[&keys[..], &[200]].concat()), does(1))];
    let count = g.random.pick(&["", "", "", "0", "7", "42", "6553", "6554", "65535"]);
    calls.extend(count.bytes().map(|digit| press(digit.into())));
    calls.extend(presses(&keys));
    let event = g.random.pick(&[Event::Class(0), Event::Class(0), Event::Any]);
    let way = [&path(&[97])[..], &vec![once(event); digits.len()]].concat();
    calls.push(Call::Change(tables, vec![Call::Map(0, [&way[..], &path(&[201])].concat(), does(5))]));
    calls.extend(presses(&[g.random.pick(&[201, 201, 53]), 201]));
    calls
}

/// A step that falls leaves the place in another mode than the entered one, and keys that need more follow there. The new map
/// has them in either mode.
fn walked_after_a_fall(g: &mut Gen) -> Vec<Call> {
    let (mode, other) = g.random.pick(&[(0, 1), (0, 15), (1, 0), (2, 1)]);
    let keys = [98, 99][..1 + g.random.below(2) as usize].to_vec();
    let falls = Step { fallthrough: Some(other), ..Step::default() };
    let mut calls = vec![Call::Open(wide(1)), Call::Map(mode, path(&[97]), falls)];
    calls.push(Call::Map(other, path(&[&keys[..], &[200]].concat()), does(2)));
    calls.extend(entering(mode));
    calls.push(press(97));
    calls.extend(presses(&keys));
    let mut bindings = vec![];
    for (mode, action) in [(mode, 5), (other, 6)] {
        if g.random.chance(70) {
            bindings.push(Call::Map(mode, path(&[&keys[..], &[201]].concat()), does(action)));
        }
    }
    if !g.is_plain() && g.random.chance(20) {
        // the entered mode's root has a fall
        bindings.push(Call::Map(mode, vec![Part { repeat: Repeat::Max(1), event: Event::Key(96) }], g.step()));
    }
    calls.push(Call::Change(wide(2), bindings));
    calls.extend(presses(&[201, 98, 201]));
    calls
}

/// A step without action leaves the place where it is and the trail empty, at its node, or at another mode's root behind a fall.
fn from_a_deeper_place(g: &mut Gen) -> Vec<Call> {
    let other = 1 + g.random.small(15);
    let falls = g.random.chance(50);
    let step = Step { fallthrough: falls.then_some(other), ..Step::default() };
    let mut calls =
        vec![Call::Open(g.tables()), Call::Map(0, path(&[97, 98]), does(4)), Call::Map(0, path(&[97]), step)];
    if !g.is_plain() {
        calls.push(Call::Prefix(other, path(&[99]), None));
    }
    calls.push(Call::Map(other, path(&[98]), does(3)));
    calls.push(press(97));
    if falls && g.random.chance(70) {
        calls.push(press(99));
    }
    let model = played(&calls);
    let bindings = if g.random.chance(60) { model.kept() } else { vec![Call::Map(0, path(&[98]), does(7))] };
    let tables = if g.random.chance(80) { model.tables().clone() } else { odd_tables() };
    calls.push(Call::Change(tables, bindings));
    calls.extend(presses(&[98, 97, 98]));
    calls
}

// ---- refused

fn odd_tables() -> Tables {
    Tables { modes: vec![ModeEntry::default(); 17], ..Tables::default() }
}

/// Waiting pairs and keys on the trail; a change whose bindings would be refused by two numbers or three, in some order, behind
/// tables that may be refused; and calls that show the old map.
fn refused_in_order(g: &mut Gen) -> Vec<Call> {
    let mut calls = vec![Call::Open(wide(1)), Call::Map(0, path(&[97, 98, 200]), does(3))];
    calls.extend(presses(&[5, 97, 98]));
    let mut fill = Fill::new();
    fill.add(falling());
    fill.add(g.binding());
    for _ in 0..2 + g.random.below(2) {
        match g.random.below(4) {
            0 => fill.add(Call::Map(g.random.pick(&[16, 65_535]), path(&[97]), does(1))),
            1 => fill.add(Call::Map(0, [&path(&[301])[..], &[once(Event::Fallthrough)]].concat(), does(2))),
            2 => too_many_nodes(g, &mut fill),
            _ => too_many_edges(g, &mut fill),
        }
    }
    calls.push(Call::Change(if g.random.chance(25) { odd_tables() } else { wide(2) }, fill.calls));
    calls.extend(presses(&[g.random.pick(&[200, 200, 97])]));
    calls.extend(late_bindings(g));
    calls
}

fn too_many_nodes(g: &mut Gen, fill: &mut Fill) {
    let left = limits().nodes.saturating_sub(fill.graph.size().0);
    let spare = left.min(g.random.below(3) as usize);
    fill.nodes(g, left - spare, false);
    let last = fill.of_keys(g, spare + 1);
    fill.add(last);
}

fn too_many_edges(g: &mut Gen, fill: &mut Fill) {
    let left = 1010usize.saturating_sub(fill.graph.size().0);
    fill.nodes(g, left, true);
    let left = limits().edges.saturating_sub(fill.graph.size().1);
    fill.edges(g, left + 1);
}

// ---- maps

/// To the map that is there, now and then with a reset or a pop before it.
fn to_the_same_map(g: &mut Gen) -> Vec<Call> {
    let mut calls = vec![Call::Open(g.tables())];
    let keys = some_keys(g, 3);
    calls.extend(some_bindings(g, 3));
    calls.push(Call::Map(0, path(&[&keys[..], &[200]].concat()), g.step()));
    let more = usual(g, 6);
    calls.extend(more);
    calls.extend(presses(&keys));
    let before = [vec![], vec![Call::Reset], vec![Call::Pop]];
    calls.extend(one_of(g, &before).clone());
    let model = played(&calls);
    calls.push(Call::Change(model.tables().clone(), model.kept()));
    calls.extend(presses(&[g.random.pick(&[200, 5]), keys[0]]));
    calls
}

/// To a map that takes all nodes or all edges, or nearly so; and bindings that need some.
fn to_a_full_graph(g: &mut Gen) -> Vec<Call> {
    let mut calls = vec![Call::Open(g.tables())];
    calls.extend(some_bindings(g, 4));
    calls.extend(presses(&some_keys(g, 4)));
    let mut fill = Fill::new();
    let spare = g.random.pick(&[0, 0, 1, 2]);
    if g.random.chance(50) {
        fill.nodes(g, limits().nodes - spare, false);
    } else {
        fill.nodes(g, 1010, true);
        let left = limits().edges - fill.graph.size().1;
        fill.edges(g, left - spare);
    }
    calls.push(Call::Change(g.tables(), std::mem::take(&mut fill.calls)));
    calls.push(fill.of_keys(g, spare + 1));
    calls.push(fill.of_keys(g, 1));
    calls.extend(presses(&some_keys(g, 4)));
    calls
}

/// About 256 waiting pairs, or 64 remembered ones, that the rules of the new map name or not.
fn with_full_state(g: &mut Gen) -> Vec<Call> {
    let (pairs, rule) = g.random.pick(&[(256, 0), (64, 1), (64, 1)]);
    let mut tables = g.tables();
    let sequence = g.random.small(8);
    let track = |status| Rule { mode: 0, low: 0, high: 65_535, sequence, status };
    tables.rules = vec![track(4); rule];
    let mut calls = vec![Call::Open(tables), Call::Map(0, path(&[97, 98, 200]), does(3))];
    calls.extend(vec![press(5); about(g, pairs)]);
    calls.extend(presses(&[97, 98]));
    if g.random.chance(30) {
        calls.push(Call::Reset);
    }
    let rules = one_of(g, &[vec![], vec![track(4)], vec![track(0)]]).clone();
    let next = Tables { rules, ..g.tables() };
    calls.push(Call::Change(next, vec![Call::Map(0, path(&[97, 98, 201]), does(5))]));
    calls.extend(presses(&[g.random.pick(&[201, 5]), 5]));
    calls.extend([Call::Repeat(sequence, None), press(5), Call::Repeat(sequence, None)]);
    calls
}

/// Changes with bindings and keys between.
fn in_a_row(g: &mut Gen) -> Vec<Call> {
    let mut calls = vec![];
    for _ in 0..2 + g.random.below(4) {
        let mut bindings = some_bindings(g, 5);
        if g.random.chance(30) {
            bindings.push(falling());
        }
        calls.push(Call::Change(g.tables(), bindings));
        calls.extend(some_bindings(g, 3));
        if g.random.chance(30) {
            calls.extend(late_bindings(g));
        }
        calls.extend(presses(&some_keys(g, 3)));
        if g.random.chance(15) {
            calls.push(Call::Open(g.tables()));
        }
    }
    calls
}

// ---- kept calls

/// So many bindings that all are kept, where no node is left, or no edge, or enough.
fn bindings_of(g: &mut Gen, count: usize) -> Vec<Call> {
    let mut fill = Fill::new();
    fill.add(falling());
    match g.random.below(3) {
        0 => fill.nodes(g, limits().nodes - 1, false),
        1 => {
            fill.nodes(g, 1009, true);
            let left = limits().edges - fill.graph.size().1;
            fill.edges(g, left);
        },
        _ => {},
    }
    let mut bindings = fill.calls;
    let rest = count - bindings.len();
    fill_kept(g, &mut bindings, rest);
    bindings
}

/// To 1,024 bindings or fewer, from a map that has as many or from another; and further bindings.
fn to_all_kept(g: &mut Gen) -> Vec<Call> {
    let count = g.random.pick(&[1022, 1023, 1024, 1024]);
    let (many, few) = (bindings_of(g, count), some_bindings(g, 4));
    let changes = if g.random.chance(50) { vec![many, few] } else { vec![few, many] };
    let mut calls = vec![Call::Open(g.tables())];
    for bindings in changes {
        calls.push(Call::Change(g.tables(), bindings));
        calls.extend(late_bindings(g));
        calls.extend(presses(&some_keys(g, 3)));
    }
    calls
}

/// To 1,025 bindings, of which the last would be refused with 11, or is with an older number.
fn past_all_kept(g: &mut Gen) -> Vec<Call> {
    let mut bindings = bindings_of(g, 1024);
    bindings.push(match g.random.below(6) {
        0 => Call::Map(16, vec![], does(1)),
        1 => Call::Map(0, [&path(&[301])[..], &[once(Event::Fallthrough)]].concat(), does(2)),
        2 => empty_binding(g, true),
        _ => Call::Map(0, path(&[600, 601]), does(1)),
    });
    if g.random.chance(20) {
        bindings.push(g.binding());
    }
    let mut calls = vec![Call::Open(wide(1)), Call::Map(0, path(&[97, 98, 200]), does(3))];
    calls.extend(presses(&[97, 98]));
    calls.push(Call::Change(wide(1), bindings));
    calls.extend(presses(&[200]));
    calls.extend(late_bindings(g));
    calls
}
