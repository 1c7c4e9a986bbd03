//! Lists in which counts are typed or not: zeros, digits that do not count, marks between digits, overrides of every sort, and a
//! change of map between digits and their action. A generator of plain mappings gets such lists without prefixes.

use crate::calls::{Call, ClassEntry, Context, Event, Part, Step, Tables};
use crate::gen::{Gen, Kind};
use crate::scenes::{does, once, one_of, path, press, presses, track, Scene};

pub const SCENES: [Scene; 6] = [zeros, digits_that_do_not_count, marks_between, overridden, overridden, changed];

/// The calls of a seed in one of these.
pub fn typing_of(seed: u64) -> Vec<Call> {
    let mut g = Gen::new(seed, Kind::Usual);
    one_of(&mut g, &SCENES)(&mut g)
}

pub fn plain_of(seed: u64) -> Vec<Call> {
    let mut g = Gen::new(seed, Kind::Plain);
    one_of(&mut g, &SCENES)(&mut g)
}

// ---- words

/// The key whose pair takes what was typed, and one that sets a mark.
const ACTS: u16 = 200;
const MARKS: u16 = 201;

const NUMBERS: [&str; 8] = ["0", "0", "00", "7", "127", "16383", "65535", "65536"];

fn keys_of(number: &str) -> Vec<u16> {
    number.bytes().map(u16::from).collect()
}

/// Class 0 for these digits; all pairs of mode 0 are remembered.
fn digits(low: u16, high: u16) -> Tables {
    Tables { classes: vec![ClassEntry { class: 0, low, high }], modes: vec![], rules: vec![track(0)] }
}

/// The same for all digits, now and then with the lists of modes.
fn all_digits(g: &mut Gen) -> Tables {
    let modes = if g.random.chance(50) { g.tables().modes } else { vec![] };
    Tables { modes, ..digits(48, 57) }
}

/// Parts that go on, and behind them the key that acts. A prefix goes on for ever; a plain mapping has the key behind it.
fn goes_on(g: &Gen, event: Event, action: u16) -> Call {
    if g.is_plain() {
        Call::Map(0, vec![once(event), once(Event::Key(ACTS))], does(action))
    } else {
        Call::Prefix(0, vec![once(event)], None)
    }
}

/// Bindings by which digits count, at most so many where all are plain, and the key acts.
fn counting(g: &mut Gen, most: usize, action: u16) -> Vec<Call> {
    let acts = |n| Call::Map(0, [vec![once(Event::Class(0)); n], path(&[ACTS])].concat(), does(action));
    if g.is_plain() {
        return (0..=most).map(acts).collect();
    }
    let step = g.random.chance(20).then(|| Step { mark: Some(7), ..Step::default() });
    vec![Call::Prefix(0, vec![once(Event::Class(0))], step), acts(0)]
}

/// A number, and the key that acts, now and then twice or after a reset, which takes the count.
fn typed(g: &mut Gen) -> Vec<Call> {
    let mut calls = presses(&keys_of(g.random.pick(&NUMBERS)));
    if g.random.chance(15) {
        calls.push(Call::Reset);
    }
    calls.extend(vec![press(ACTS); 1 + g.random.below(2) as usize]);
    calls
}

// ---- scenes

fn zeros(g: &mut Gen) -> Vec<Call> {
    let mut calls = vec![Call::Open(all_digits(g))];
    calls.extend(counting(g, 5, 7));
    for _ in 0..2 + g.random.below(3) {
        calls.extend(typed(g));
        calls.extend(one_of(g, &[vec![], vec![Call::Pop], vec![press(5)]]).clone());
    }
    calls
}

/// Digits that count, and others that go by their Key edge, by another class or by Any, or have no edge. Among the keys are some
/// that are no digits, which class 0 may have too.
fn digits_that_do_not_count(g: &mut Gen) -> Vec<Call> {
    let mut tables = digits(g.random.pick(&[48, 46]), 54);
    tables.classes.insert(0, ClassEntry { class: 1, low: 55, high: 56 });
    let mut calls = vec![Call::Open(tables)];
    calls.extend(counting(g, 2, 7));
    for (event, action) in [(Event::Key(53), 8), (Event::Class(1), 9), (Event::Any, 6)] {
        if g.random.chance(75) {
            calls.push(goes_on(g, event, action));
        }
    }
    for _ in 0..3 {
        let keys =
            (0..1 + g.random.below(2)).map(|_| g.random.pick(&[48, 53, 53, 55, 57, 57, 46, 97])).collect::<Vec<_>>();
        calls.extend(presses(&keys));
        calls.push(press(ACTS));
    }
    calls
}

/// Digits, then a key by Any or one whose step sets the mark, and digits again.
fn marks_between(g: &mut Gen) -> Vec<Call> {
    let class = |n| -> Vec<Part> { vec![once(Event::Class(0)); n] };
    let between = [class(1), path(&[MARKS])].concat();
    let mark = Step { mark: Some(5), ..Step::default() };
    let mut calls = vec![Call::Open(all_digits(g))];
    calls.extend(counting(g, 2, 7));
    calls.push(Call::Map(0, between.clone(), mark));
    calls.push(Call::Map(0, [between, class(1), path(&[ACTS])].concat(), does(8)));
    if g.is_plain() {
        let any = [class(1), vec![once(Event::Any)], class(1), path(&[ACTS])].concat();
        calls.push(Call::Map(0, any, does(9)));
    } else if g.random.chance(70) {
        calls.push(Call::Prefix(0, vec![once(Event::Any)], None));
    }
    for _ in 0..3 {
        let (first, key, last) = (g.random.pick(&[48, 48, 53]), g.random.pick(&[97, MARKS]), g.digit());
        calls.extend(presses(&[first, key, last, ACTS]));
    }
    calls
}

/// An override is not typed, whatever its count; or typed, with 0 or another.
fn over(g: &mut Gen) -> Context {
    let (count, mark) = (g.random.pick(&[0, 0, 9, 65_535]), g.random.pick(&[0, 0, 3]));
    Context { count, typed: g.random.chance(50), mark }
}

/// Remembered pairs with a count and without one, and repeats of them with one override after the other.
fn overridden(g: &mut Gen) -> Vec<Call> {
    let mut calls = vec![Call::Open(digits(48, 57))];
    calls.extend(counting(g, 5, 7));
    for _ in 0..1 + g.random.below(2) {
        calls.extend(typed(g));
    }
    for _ in 0..3 + g.random.below(3) {
        let by = g.random.chance(80).then(|| over(g));
        calls.extend(vec![Call::Pop; g.random.below(3) as usize]);
        calls.push(Call::Repeat(0, by));
    }
    calls
}

/// A change of map between digits and the key that acts, or between digits, with pairs that wait and that are remembered.
fn changed(g: &mut Gen) -> Vec<Call> {
    let mut calls = vec![Call::Open(digits(48, 57))];
    calls.extend(counting(g, 5, 7));
    calls.extend(typed(g));
    calls.extend(presses(&keys_of(g.random.pick(&NUMBERS[..5]))));
    let bindings = counting(g, 5, 8);
    let bindings = if g.random.chance(80) { bindings } else { vec![Call::Map(0, path(&[ACTS]), does(8))] };
    calls.push(Call::Change(all_digits(g), bindings));
    if g.random.chance(40) {
        calls.push(press(48));
    }
    calls.extend([press(ACTS), press(ACTS), Call::Repeat(0, g.random.chance(30).then(|| over(g)))]);
    calls
}
