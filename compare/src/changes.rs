//! A change of map: which of its cases the model met. How the trail is walked is in `walk.rs`, all else in `model.rs`.

use crate::calls::{decompose, digit_of, tables_valid, Answer, Call, Context, Event, Pair, Tables};
use crate::graph::{limits, Follow, NodeAction, NodeId};
use crate::met::{aside, expect_all, expect_named, met_named, met_named_if};
use crate::model::Model;
use crate::walk::{walk, Lost, Walk};

/// What a change finds.
pub struct Old {
    pub model: Model,
    /// Whether its map was brought by a change.
    pub is_changed: bool,
}

/// What a report shows of changes even when it is never met.
pub fn expect() {
    expect_all(&REFUSALS);
    expect_all(&STATES);
    expect_all(&MAPS);
    expect_all(&KEPT);
    expect_all(&LOST);
    expect_all(&LOOKS);
    [1, 2, 3, 4, 11].iter().for_each(|&n| expect_named(past_kept(n)));
    KEYS.iter().flat_map(|key| ENDS.map(|(_, end)| lost_by(key, end))).for_each(expect_named);
    expect_named(binding_after("accepted"));
    [1, 2, 3, 4, 11].iter().for_each(|n| expect_named(binding_after(&format!("refused {n}"))));
}

pub fn note(old: &Old, tables: &Tables, bindings: &[Call], answer: Answer, new: &Model) {
    match answer {
        Answer::Refused(n) => note_refused(&old.model, tables, bindings, n, new),
        _ => {
            note_state(&old.model, tables);
            note_maps(old, new);
            note_trail(&old.model, new);
        },
    }
}

// ---- refused

const REFUSALS: [&str; 8] = [
    "change: refused 1 by the tables",
    "change: refused 1 by the tables, before a binding with another number",
    "change: refused by a binding",
    "change: refused by a binding, before one with a higher number",
    "change: refused by a binding, before one with a lower number",
    "change: refused when its bindings had made nodes",
    "change: refused with keys on the trail",
    "change: refused with no key on the trail, and a place that is no root",
];

fn past_kept(refusal: u16) -> String {
    format!("change: its 1,025th binding refused {refusal}")
}

fn note_refused(old: &Model, tables: &Tables, bindings: &[Call], refusal: u16, new: &Model) {
    let by_tables = !tables_valid(tables);
    let numbers = refusals(bindings);
    let met = [
        by_tables,
        by_tables && numbers.iter().any(|&n| n != 1),
        !by_tables,
        !by_tables && numbers.iter().any(|&n| n > refusal),
        !by_tables && numbers.iter().any(|&n| n < refusal),
        new.ended().nodes > 0,
        !old.trail().is_empty(),
        old.trail().is_empty() && old.place() != root_of(old),
    ];
    note_each(&REFUSALS, met);
    if new.ended().kept == limits().kept {
        met_named(past_kept(refusal));
    }
}

/// The numbers by which bindings are refused, if a machine is given one after the other.
fn refusals(bindings: &[Call]) -> Vec<u16> {
    let mut model = Model::fresh(Tables::default());
    let number = |b| match aside(|| model.call(b)) {
        Answer::Refused(n) => Some(n),
        _ => None,
    };
    bindings.iter().filter_map(number).collect()
}

fn note_each<const N: usize>(names: &[&str; N], met: [bool; N]) {
    names.iter().zip(met).for_each(|(words, met)| met_named_if(met, words));
}

// ---- accepted: what passes over, and the maps

const STATES: [&str; 11] = [
    "change: in a mode other than 0",
    "change: with waiting pairs",
    "change: with 256 waiting pairs",
    "change: with a count",
    "change: with a typed 0",
    "change: with a mark",
    "change: with remembered pairs",
    "change: with remembered pairs of a broken sequence",
    "change: with remembered pairs of a sequence that the new rules do not name",
    "change: with a waiting pair that has a typed 0",
    "change: with a remembered pair that has a typed 0",
];

fn note_state(old: &Model, tables: &Tables) {
    let carried = old.carried();
    let remembered = || carried.sequences.iter().filter(|s| !s.pairs.is_empty());
    let is_zero = |c: Context| c.typed && c.count == 0;
    let has_zero = |pairs: &[Pair]| pairs.iter().any(|p| is_zero(p.context));
    let met = [
        carried.mode != 0,
        !carried.queue.is_empty(),
        carried.queue.len() == 256,
        carried.context.count != 0,
        is_zero(carried.context),
        carried.context.mark != 0,
        remembered().next().is_some(),
        remembered().any(|s| s.is_broken),
        remembered().any(|s| tables.rules.iter().all(|r| r.sequence != s.number)),
        has_zero(&carried.queue),
        remembered().any(|s| has_zero(&s.pairs)),
    ];
    note_each(&STATES, met);
}

const MAPS: [&str; 10] = [
    "change: to a map without bindings",
    "change: to a map of 1,024 nodes",
    "change: to a map of 2,048 edges",
    "change: to a map of 1,024 bindings",
    "change: of a map of 1,024 kept calls, to one of fewer",
    "change: of a map that a change brought",
    "change: to the very same map",
    "change: to the very same map, and the place moves",
    "change: no key on the trail, and a place that was no root",
    "change: no key on the trail, and a place that was the root of another mode",
];

fn note_maps(old: &Old, new: &Model) {
    let Old { model: old, is_changed } = old;
    let (nodes, edges) = new.graph().size();
    let is_same = old.kept() == new.kept() && old.tables() == new.tables();
    let (untyped, was_root) = (old.trail().is_empty(), old.place() < 16);
    let met = [
        new.keeps() == 0,
        nodes == limits().nodes,
        edges == limits().edges,
        new.keeps() == limits().kept,
        old.keeps() == limits().kept && new.keeps() < limits().kept,
        *is_changed,
        is_same,
        is_same && old.place() != new.place(),
        untyped && !was_root,
        untyped && was_root && old.place() != root_of(old),
    ];
    note_each(&MAPS, met);
}

fn root_of(model: &Model) -> NodeId {
    model.mode() as NodeId
}

// ---- the trail

const KEPT: [&str; 17] = [
    "change: the trail kept",
    "change: the trail kept, of 64 keys",
    "change: the trail kept, in the very same map",
    "change: the trail kept, after a reset",
    "change: the trail kept, past a flagged step with edges",
    "change: the trail kept, past a root that holds a flagged step",
    "change: the trail kept, by the new tables' classes alone",
    "change: the trail kept, with a digit by class 0, which does not count",
    "change: the trail kept, with a digit by class 0, and none was typed",
    "change: the trail kept, with a digit by class 0 that would take the count past 65,535",
    "change: the trail kept, with a key by Any, which sets no mark",
    "change: the trail kept, with a key of 32,768 or more",
    "change: the trail kept, and lost from mode 0",
    "change: the trail kept, and at another node from mode 0",
    "change: the trail kept, and lost from the mode of the old place",
    "change: the trail kept, and at another node from the mode of the old place",
    "change: the trail kept, where a key fell through in the old map",
];

const LOST: [&str; 6] = [
    "change: the trail lost",
    "change: the trail lost, by the 64th key",
    "change: the trail lost, and kept by the old tables' classes",
    "change: the trail lost, and kept from mode 0",
    "change: the trail lost, and kept from the mode of the old place",
    "change: the trail lost, by a key of 32,768 or more whose first key has an edge",
];

const KEYS: [&str; 3] = ["its only key", "a key before the last", "the last of several keys"];

const ENDS: [(Lost, &str); 5] = [
    (Lost::Stuck, "which has no edge"),
    (Lost::Falls, "which falls through"),
    (Lost::Consumed, "which a root consumes"),
    (Lost::Runs, "whose step would run"),
    (Lost::FlaggedEnd, "which ends at a flagged step without edges"),
];

fn lost_by(key: &str, end: &str) -> String {
    format!("change: the trail lost by {key}, {end}")
}

fn note_trail(old: &Model, new: &Model) {
    if old.trail().is_empty() {
        return;
    }
    let walk = walked(old, new, old.mode());
    match walk.end {
        Ok(place) => note_kept(old, new, &walk, place),
        Err(lost) => note_lost(old, new, &walk, lost),
    }
}

/// The old trail in the new map, from a mode's root.
fn walked(old: &Model, new: &Model, mode: u16) -> Walk {
    walk(new.graph(), new.tables(), mode as NodeId, old.trail())
}

/// The same with the old tables.
fn walked_as_before(old: &Model, new: &Model) -> Walk {
    walk(new.graph(), old.tables(), root_of(old), old.trail())
}

fn mode_of_place(model: &Model) -> u16 {
    model.graph().get_node(model.place()).mode
}

fn note_kept(old: &Model, new: &Model, walk: &Walk, place: NodeId) {
    let keys = || old.trail().iter().zip(&walk.way);
    let flagged = |node: NodeId| matches!(&new.graph().get_node(node).action, NodeAction::Step(_));
    let counts = |key, event| if event == Event::Class(0) { digit_of(key) } else { None };
    let passes = |digit| old.context().count as u32 * 10 + digit as u32 > 65_535;
    let elsewhere = mode_of_place(old);
    let met = [
        true,
        old.trail().len() == 64,
        old.kept() == new.kept() && old.tables() == new.tables(),
        old.place() == root_of(old),
        walk.way.iter().any(|&(_, node)| flagged(node)),
        walk.way.iter().any(|&(_, node)| flagged(node) && node < 16),
        walked_as_before(old, new).end.is_err(),
        keys().any(|(&key, way)| counts(key, way.0).is_some()),
        !old.context().typed && keys().any(|(&key, way)| counts(key, way.0).is_some()),
        keys().any(|(&key, way)| counts(key, way.0).is_some_and(passes)),
        keys().any(|(&key, way)| way.0 == Event::Any && key != old.context().mark),
        old.trail().iter().any(|&key| decompose(key).is_some()),
        walked(old, new, 0).end.is_err(),
        walked(old, new, 0).end.is_ok_and(|other| other != place),
        walked(old, new, elsewhere).end.is_err(),
        walked(old, new, elsewhere).end.is_ok_and(|other| other != place),
        walk_of_old(old).end.is_err(),
    ];
    note_each(&KEPT, met);
}

/// The trail in its own map.
fn walk_of_old(old: &Model) -> Walk {
    walk(old.graph(), old.tables(), root_of(old), old.trail())
}

fn note_lost(old: &Model, new: &Model, walk: &Walk, lost: Lost) {
    let (at, count) = (walk.way.len(), old.trail().len());
    let place = walk.way.last().map_or(root_of(old), |way| way.1);
    let first = decompose(old.trail()[at]).map(|keys| keys.0);
    let goes_on = |key| aside(|| matches!(new.graph().follow_edge(new.tables(), place, key), Follow::Successor(..)));
    let met = [
        true,
        at == 63,
        walked_as_before(old, new).end.is_ok(),
        walked(old, new, 0).end.is_ok(),
        walked(old, new, mode_of_place(old)).end.is_ok(),
        matches!(lost, Lost::Stuck | Lost::Falls) && first.is_some_and(goes_on),
    ];
    note_each(&LOST, met);
    let key = match count {
        1 => KEYS[0],
        _ if at + 1 < count => KEYS[1],
        _ => KEYS[2],
    };
    ENDS.iter().filter(|(end, _)| *end == lost).for_each(|(_, end)| met_named(lost_by(key, end)));
}

// ---- in a map that a change brought

const LOOKS: [&str; 3] = [
    "find: in a map that a change brought",
    "hint: in a map that a change brought",
    "write: a map that a change brought",
];

pub fn note_find(is_changed: bool) {
    met_named_if(is_changed, LOOKS[0]);
}

pub fn note_hint(is_changed: bool) {
    met_named_if(is_changed, LOOKS[1]);
}

pub fn note_write(is_changed: bool) {
    met_named_if(is_changed, LOOKS[2]);
}

fn binding_after(answer: &str) -> String {
    format!("map or prefix: in a map that a change brought: {answer}")
}

pub fn note_binding(answer: Answer) {
    met_named(binding_after(&answer.to_string()));
}
