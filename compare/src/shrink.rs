//! The smallest input found that still shows a difference: a step after another that makes it smaller, as long as one does.

use std::time::Instant;

use crate::calllist::{Item, List, OddChange, Room};
use crate::calls::{Call, ClassEntry, Context, Event, ModeEntry, Part, Repeat, Rule, Step, Tables};
use crate::cases::Case;
use crate::mapfile;
use crate::writing::file_of;

/// Goes to a smaller input that differs, and on from there, until none does or the time is over.
pub fn smallest<T>(start: T, smaller: fn(&T) -> Vec<T>, differs: impl Fn(&T) -> bool, until: Instant) -> T {
    let mut best = start;
    loop {
        let (mut tries, mut at, mut found) = (smaller(&best), 0, false);
        while at < tries.len() && Instant::now() < until {
            if differs(&tries[at]) {
                best = tries.swap_remove(at);
                // the next ones of the same sort stand at the same place
                tries = smaller(&best);
                found = true;
            } else {
                at += 1;
            }
        }
        if !found || Instant::now() >= until {
            return best;
        }
    }
}

// ---- what is smaller

/// The most pieces that are tried one by one: a long input is first cut by larger ones.
const PIECES: usize = 600;

/// Without some of the items: halves, quarters and so on down to single ones.
fn fewer<T: Clone>(items: &[T]) -> Vec<Vec<T>> {
    let mut all = vec![];
    let mut size = items.len();
    while size > items.len() / PIECES {
        for start in (0..items.len()).step_by(size) {
            let end = (start + size).min(items.len());
            all.push([&items[..start], &items[end..]].concat());
        }
        size /= 2;
    }
    all
}

/// With one item made smaller.
fn lesser<T: Clone>(items: &[T], smaller: impl Fn(&T) -> Vec<T>) -> Vec<Vec<T>> {
    let mut all = vec![];
    if items.len() > PIECES {
        return all;
    }
    for (at, item) in items.iter().enumerate() {
        for less in smaller(item) {
            let mut items = items.to_vec();
            items[at] = less;
            all.push(items);
        }
    }
    all
}

fn fewer_or_lesser<T: Clone>(items: &[T], smaller: impl Fn(&T) -> Vec<T>) -> Vec<Vec<T>> {
    [fewer(items), lesser(items, smaller)].concat()
}

fn numbers(n: u16) -> Vec<u16> {
    let mut all: Vec<u16> = [0, 1, 2, n / 2, n.saturating_sub(1)].into_iter().filter(|&m| m < n).collect();
    all.dedup();
    all
}

fn number(n: &u16) -> Vec<u16> {
    numbers(*n)
}

fn lesser_rooms(room: usize) -> Vec<usize> {
    [0, room / 2, room.saturating_sub(1)].into_iter().filter(|&n| n < room).collect()
}

fn optional(n: Option<u16>) -> Vec<Option<u16>> {
    match n {
        Some(n) => std::iter::once(None).chain(numbers(n).into_iter().map(Some)).collect(),
        None => vec![],
    }
}

/// Values made from one by replacing a part of it.
fn with<T: Clone, P>(whole: &T, parts: Vec<P>, put: impl Fn(&mut T, P)) -> Vec<T> {
    let made = |part| {
        let mut new = whole.clone();
        put(&mut new, part);
        new
    };
    parts.into_iter().map(made).collect()
}

// ---- calls

fn smaller_part(p: &Part) -> Vec<Part> {
    let repeats = match p.repeat {
        Repeat::Once => vec![],
        Repeat::Min(n) => std::iter::once(Repeat::Once).chain(numbers(n).into_iter().map(Repeat::Min)).collect(),
        Repeat::Max(n) => std::iter::once(Repeat::Once).chain(numbers(n).into_iter().map(Repeat::Max)).collect(),
    };
    let events = match p.event {
        Event::Key(k) => numbers(k).into_iter().map(Event::Key).collect(),
        Event::Class(c) => numbers(c).into_iter().map(Event::Class).collect(),
        _ => vec![],
    };
    [with(p, repeats, |p, r| p.repeat = r), with(p, events, |p, e| p.event = e)].concat()
}

fn smaller_step(s: &Step) -> Vec<Step> {
    let flags = if s.flag { vec![false] } else { vec![] };
    [
        with(s, flags, |s, f| s.flag = f),
        with(s, fewer_or_lesser(&s.actions, number), |s, a| s.actions = a),
        with(s, optional(s.next), |s, m| s.next = m),
        with(s, optional(s.fallthrough), |s, m| s.fallthrough = m),
        with(s, optional(s.mark).into_iter().filter(|m| *m != Some(0)).collect(), |s, m| s.mark = m),
    ]
    .concat()
}

fn smaller_class(c: &ClassEntry) -> Vec<ClassEntry> {
    [
        with(c, numbers(c.class), |c, n| c.class = n),
        with(c, numbers(c.low), |c, n| c.low = n),
        with(c, numbers(c.high), |c, n| c.high = n),
    ]
    .concat()
}

fn smaller_mode(m: &ModeEntry) -> Vec<ModeEntry> {
    [
        with(m, fewer_or_lesser(&m.enter, number), |m, a| m.enter = a),
        with(m, fewer_or_lesser(&m.unmapped, number), |m, a| m.unmapped = a),
        with(m, optional(m.next), |m, n| m.next = n),
    ]
    .concat()
}

fn smaller_rule(r: &Rule) -> Vec<Rule> {
    [
        with(r, numbers(r.mode), |r, n| r.mode = n),
        with(r, numbers(r.low), |r, n| r.low = n),
        with(r, numbers(r.high), |r, n| r.high = n),
        with(r, numbers(r.sequence), |r, n| r.sequence = n),
    ]
    .concat()
}

fn smaller_tables(t: &Tables) -> Vec<Tables> {
    [
        with(t, fewer_or_lesser(&t.classes, smaller_class), |t, c| t.classes = c),
        with(t, fewer_or_lesser(&t.modes, smaller_mode), |t, m| t.modes = m),
        with(t, fewer_or_lesser(&t.rules, smaller_rule), |t, r| t.rules = r),
    ]
    .concat()
}

fn smaller_context(c: &Context) -> Vec<Context> {
    let untyped = if c.typed { vec![false] } else { vec![] };
    [
        with(c, untyped, |c, t| c.typed = t),
        with(c, numbers(c.count), |c, n| c.count = n),
        with(c, numbers(c.mark), |c, n| c.mark = n),
    ]
    .concat()
}

fn smaller_call(call: &Call) -> Vec<Call> {
    match call {
        Call::Open(t) => smaller_tables(t).into_iter().map(Call::Open).collect(),
        Call::Map(mode, path, step) => [
            fewer_or_lesser(path, smaller_part).into_iter().map(|p| Call::Map(*mode, p, step.clone())).collect(),
            numbers(*mode).into_iter().map(|m| Call::Map(m, path.clone(), step.clone())).collect(),
            smaller_step(step).into_iter().map(|s| Call::Map(*mode, path.clone(), s)).collect::<Vec<_>>(),
        ]
        .concat(),
        Call::Prefix(mode, path, step) => [
            fewer_or_lesser(path, smaller_part).into_iter().map(|p| Call::Prefix(*mode, p, step.clone())).collect(),
            numbers(*mode).into_iter().map(|m| Call::Prefix(m, path.clone(), step.clone())).collect(),
            smaller_prefix_step(step).into_iter().map(|s| Call::Prefix(*mode, path.clone(), s)).collect::<Vec<_>>(),
        ]
        .concat(),
        Call::Key { key, budget } => [
            numbers(*key).into_iter().map(|key| Call::Key { key, budget: *budget }).collect(),
            numbers(*budget).into_iter().map(|budget| Call::Key { key: *key, budget }).collect::<Vec<_>>(),
        ]
        .concat(),
        Call::Repeat(sequence, over) => [
            numbers(*sequence).into_iter().map(|s| Call::Repeat(s, *over)).collect(),
            over.map_or(vec![], |_| vec![Call::Repeat(*sequence, None)]),
            over.map_or(vec![], |c| smaller_context(&c))
                .into_iter()
                .map(|c| Call::Repeat(*sequence, Some(c)))
                .collect(),
        ]
        .concat(),
        Call::Change(tables, bindings) => [
            fewer_or_lesser(bindings, smaller_call).into_iter().map(|b| Call::Change(tables.clone(), b)).collect(),
            smaller_tables(tables).into_iter().map(|t| Call::Change(t, bindings.clone())).collect::<Vec<_>>(),
        ]
        .concat(),
        Call::Pop | Call::Reset => vec![],
    }
}

fn smaller_prefix_step(step: &Option<Step>) -> Vec<Option<Step>> {
    match step {
        Some(s) => std::iter::once(None).chain(smaller_step(s).into_iter().map(Some)).collect(),
        None => vec![],
    }
}

fn smaller_item(item: &Item) -> Vec<Item> {
    match item {
        Item::Call(call) => smaller_call(call).into_iter().map(Item::Call).collect(),
        Item::Find(mode, action) => [
            numbers(*mode).into_iter().map(|m| Item::Find(m, *action)).collect(),
            numbers(*action).into_iter().map(|a| Item::Find(*mode, a)).collect::<Vec<_>>(),
        ]
        .concat(),
        Item::Write(Room::Of(room)) => lesser_rooms(*room).into_iter().map(|n| Item::Write(Room::Of(n))).collect(),
        Item::OddChange(change) => smaller_change(change).into_iter().map(Item::OddChange).collect(),
        Item::Hint | Item::Write(_) | Item::Unknown(_) | Item::Malformed(_) => vec![],
    }
}

fn smaller_change(c: &OddChange) -> Vec<OddChange> {
    [
        with(c, smaller_tables(&c.tables), |c, t| c.tables = t),
        with(c, fewer_or_lesser(&c.before, smaller_call), |c, b| c.before = b),
        with(c, fewer_or_lesser(&c.behind, smaller_call), |c, b| c.behind = b),
    ]
    .concat()
}

pub fn smaller_list(list: &List) -> Vec<List> {
    fewer_or_lesser(list, smaller_item)
}

// ---- cases

/// The map with less in it, where it can be read.
fn smaller_maps(map: &[u8]) -> Vec<Vec<u8>> {
    let Some((tables, bindings)) = mapfile::bindings_of(map) else { return vec![] };
    [
        fewer_or_lesser(&bindings, smaller_call).iter().map(|b| file_of(&tables, b)).collect(),
        smaller_tables(&tables).iter().map(|t| file_of(t, &bindings)).collect::<Vec<_>>(),
    ]
    .concat()
}

fn smaller_byte(byte: &u8) -> Vec<u8> {
    numbers(*byte as u16).into_iter().map(|n| n as u8).collect()
}

fn smaller_bytes(bytes: &[u8]) -> Vec<Vec<u8>> {
    fewer_or_lesser(bytes, smaller_byte)
}

/// An input of `keyplay`: a smaller map behind its own length, fewer keys, or other bytes.
pub fn smaller_input(input: &Vec<u8>) -> Vec<Vec<u8>> {
    let Some((map, keys)) = mapfile::map_and_keys(input) else { return smaller_bytes(input) };
    let maps = [smaller_maps(map), smaller_bytes(map)].concat();
    [
        maps.iter().map(|m| mapfile::input_with(m, keys)).collect(),
        smaller_bytes(keys).iter().map(|k| mapfile::input_with(map, k)).collect(),
        smaller_bytes(input),
    ]
    .concat()
}

pub fn smaller_case(case: &Case) -> Vec<Case> {
    [
        with(case, smaller_maps(&case.map), |c, map| c.map = map),
        with(case, smaller_bytes(&case.keys), |c, keys| c.keys = keys),
        with(case, smaller_bytes(&case.map), |c, map| c.map = map),
        with(case, numbers(case.budget), |c, budget| c.budget = budget),
        with(case, lesser_rooms(case.lent.len()), |c, room| c.lent.truncate(room)),
    ]
    .concat()
}
