//! Counts that are typed and counts that are not: which of their cases were met. What types and how contexts are merged is in
//! `model.rs` and `calls.rs`.

use crate::calls::{digit_of, Context, Event, Pair};
use crate::met::{expect_all, expect_named, met_named, met_named_if};

/// What a report shows of them even when it is never met.
pub fn expect() {
    expect_all(&EVENTS);
    expect_all(&TAKES);
    expect_all(&WRITTEN);
    [TAKEN, POPPED, WRITES, PRINTS].iter().for_each(|what| expect_sorts(what));
    OVERS.iter().flat_map(|over| SORTS.map(|old| merged(over, old))).for_each(expect_named);
}

// ---- sorts of counts

const SORTS: [&str; 4] = ["none typed", "a typed 0", "a typed 65,535", "another typed count"];

fn sort_of(c: Context) -> &'static str {
    match (c.typed, c.count) {
        (false, _) => SORTS[0],
        (true, 0) => SORTS[1],
        (true, 65_535) => SORTS[2],
        (true, _) => SORTS[3],
    }
}

const TAKEN: &str = "take, for a pair";
pub const POPPED: &str = "pop";
const WRITES: &str = "run: writes";
const PRINTS: &str = "keyplay: prints";

fn counted(what: &str, sort: &str) -> String {
    format!("{what}: {sort}")
}

pub fn expect_sorts(what: &str) {
    SORTS.iter().for_each(|sort| expect_named(counted(what, sort)));
}

pub fn note_sort(what: &str, c: Context) {
    met_named(counted(what, sort_of(c)));
}

// ---- typing

/// For the counts alone: what has come since the context was taken, and what that take had.
#[derive(Clone, Copy, Default)]
pub struct Typing {
    /// Whether Any, or a step, has set the mark since the last digit that counted.
    by_any: bool,
    by_step: bool,
    /// Whether a digit has gone by a Key edge.
    by_key: bool,
    /// Whether digits counted before a change of map.
    is_changed: bool,
    was_typed: bool,
}

const EVENTS: [&str; 7] = [
    "event: a 0 counts, where none was typed",
    "event: a digit counts behind others, with Any between",
    "event: a digit counts behind others, with a step's mark between",
    "event: a digit goes by its Key edge, and none is typed",
    "event: a digit goes by another class, and none is typed",
    "event: a digit goes by Any, and none is typed",
    "event: class 0 takes a key that is no digit, and none is typed",
];

const TAKES: [&str; 6] = [
    "take: a typed count that no pair has",
    "take, for a pair: none typed, and the last take had a typed count",
    "take, for a pair: none typed, with a mark",
    "take, for a pair: none typed, behind a digit that went by its Key edge",
    "take, for a pair: a 0, typed before a change of map",
    "take, for a pair: another count, typed before a change of map",
];

impl Typing {
    /// A digit counts on what was typed before.
    pub fn digit(&mut self, old: Context, digit: u16) {
        met_named_if(!old.typed && digit == 0, EVENTS[0]);
        met_named_if(old.typed && self.by_any, EVENTS[1]);
        met_named_if(old.typed && self.by_step, EVENTS[2]);
        (self.by_any, self.by_step) = (false, false);
    }

    /// A key goes by an edge, before the hook runs.
    pub fn event(&mut self, old: Context, event: Event, key: u16) {
        let is_digit = digit_of(key).is_some();
        self.by_any |= event == Event::Any;
        self.by_key |= event == Event::Key(key) && is_digit;
        let Some(words) = not_typed_by(event, is_digit) else { return };
        met_named_if(!old.typed, words);
    }

    pub fn step_mark(&mut self) {
        self.by_step = true;
    }

    /// After a change that was accepted.
    pub fn change(&mut self, context: Context) {
        self.is_changed |= context.typed;
    }

    /// The context is taken, for pairs or for none.
    pub fn take(&mut self, taken: Context, for_pairs: bool) {
        if for_pairs {
            note_sort(TAKEN, taken);
        }
        let met = [
            !for_pairs && taken.typed,
            for_pairs && !taken.typed && self.was_typed,
            for_pairs && !taken.typed && taken.mark != 0,
            for_pairs && !taken.typed && self.by_key,
            for_pairs && taken.typed && self.is_changed && taken.count == 0,
            for_pairs && taken.typed && self.is_changed && taken.count != 0,
        ];
        TAKES.iter().zip(met).for_each(|(words, met)| met_named_if(met, words));
        *self = Typing { was_typed: taken.typed, ..Typing::default() };
    }
}

/// What is met by a key that goes by such an edge and does not count, if it could be taken for a digit that does.
fn not_typed_by(event: Event, is_digit: bool) -> Option<&'static str> {
    match (event, is_digit) {
        (Event::Key(_), true) => Some(EVENTS[3]),
        (Event::Class(0), false) => Some(EVENTS[6]),
        (Event::Class(0), true) => None,
        (Event::Class(_), true) => Some(EVENTS[4]),
        (Event::Any, true) => Some(EVENTS[5]),
        _ => None,
    }
}

// ---- merge

/// An override that is not typed may have a count, which is not used.
const OVERS: [&str; 5] =
    ["none typed", "a typed 0", "a typed 65,535", "another typed count", "none typed, but a number"];

fn over_of(c: Context) -> &'static str {
    if !c.typed && c.count != 0 {
        OVERS[4]
    } else {
        sort_of(c)
    }
}

fn merged(over: &str, old: &str) -> String {
    format!("merge: {over} over {old}")
}

/// A remembered pair is merged.
pub fn note_merge(old: Context, over: Context) {
    met_named(merged(over_of(over), sort_of(old)));
}

// ---- the run and `keyplay`

/// Counts of which one more has a byte more than they have.
const WRITTEN: [&str; 3] = [
    "run: writes a typed 127, in two bytes",
    "run: writes a typed 16,383, in three bytes",
    "run: refused 10 by the last byte, where the pair's count has a byte less than what is written",
];

fn is_longer(c: Context) -> bool {
    c.typed && [127, 16_383].contains(&c.count)
}

/// The pairs of a run that was accepted.
pub fn note_written(pairs: &[Pair]) {
    for Pair { context, .. } in pairs {
        note_sort(WRITES, *context);
        met_named_if(is_longer(*context) && context.count == 127, WRITTEN[0]);
        met_named_if(is_longer(*context) && context.count == 16_383, WRITTEN[1]);
    }
}

/// A pair that so many bytes too few are left for.
pub fn note_too_long(pair: &Pair, missing: usize) {
    met_named_if(missing == 1 && is_longer(pair.context), WRITTEN[2]);
}

pub fn note_printed(pairs: &[Pair]) {
    pairs.iter().for_each(|p| note_sort(PRINTS, p.context));
}
