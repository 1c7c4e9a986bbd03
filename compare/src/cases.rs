//! Random map files with key tapes, whole and damaged: one number has another value or a longer form, or there is a cut or a
//! byte too many.

use crate::bytes::put_number;
use crate::calls::{Call, Event, ModeEntry, Part, Repeat, Step, Tables};
use crate::gen::{with_digits, Gen, Kind};
use crate::mapfile;
use crate::met::aside;
use crate::scenes;
use crate::writing::{bytes_of, file_of, numbers_of};

#[derive(Clone)]
pub struct Case {
    pub map: Vec<u8>,
    pub keys: Vec<u8>,
    pub budget: u16,
    pub lent: Vec<u8>,
}

// ---- cases

const EDGES: [u32; 22] =
    [0, 1, 2, 3, 4, 5, 7, 8, 15, 16, 17, 32, 33, 64, 65, 127, 128, 255, 256, 65_535, 65_536, 2_097_151];

/// The case of a seed.
pub fn case_of(seed: u64) -> Case {
    let mut g = Gen::new(seed, Kind::Usual);
    if g.random.chance(18) {
        return typed_counts(&mut g);
    }
    let tables = g.tables();
    let mut bindings: Vec<Call> = (0..g.random.below(5)).map(|_| g.binding()).collect();
    bindings.extend(refused_bindings(&mut g));
    let map = damaged(numbers_of(&tables, &bindings), 50, &mut g);
    let tape: Vec<u32> = (0..g.random.below(8)).flat_map(|_| g.typed()).map(u32::from).collect();
    let keys = damaged(tape, 15, &mut g);
    let budget = g.budget();
    let room = if g.random.chance(60) { g.random.below(21) } else { 60 };
    Case { map, keys, budget, lent: vec![0xAA; room as usize] }
}

/// Now and then bindings that meet the refusal 4. (2 and 3 are met where COMPARE_LIMITS makes the limits small.)
fn refused_bindings(g: &mut Gen) -> Vec<Call> {
    if g.random.chance(6) {
        behind_a_fall(g)
    } else {
        vec![]
    }
}

/// A mapping whose step falls to some mode, and one whose path goes on over that edge: it ends on the mode's root.
fn behind_a_fall(g: &mut Gen) -> Vec<Call> {
    let (mode, path) = g.way();
    let falls = Step { fallthrough: Some(g.mode()), ..g.step() };
    let on = [&path[..], &[Part { repeat: Repeat::Once, event: Event::Fallthrough }]].concat();
    vec![Call::Map(mode, path, falls), Call::Map(mode, on, g.step())]
}

/// The numbers' bytes, in `percent` of a hundred cases with one damage or two.
fn damaged(mut numbers: Vec<u32>, percent: u64, g: &mut Gen) -> Vec<u8> {
    if !g.random.chance(percent) {
        return bytes_of(&numbers);
    }
    let at = g.random.below(numbers.len().max(1) as u64) as usize;
    match g.random.below(6) {
        0 if !numbers.is_empty() => {
            numbers[at] = g.random.pick(&EDGES);
            bytes_of(&numbers)
        },
        1 if !numbers.is_empty() => longer(&numbers, at, g),
        2 if !numbers.is_empty() => {
            numbers[at] = g.random.pick(&EDGES);
            cut_behind(numbers, at, g)
        },
        3 if !numbers.is_empty() => {
            let last = numbers.len() - 1;
            cut_behind(numbers, last - g.random.below(2).min(last as u64) as usize, g)
        },
        _ => damaged_bytes(bytes_of(&numbers), g),
    }
}

/// The numbers up to a place, and soon behind it no number: which of two refusals is met first?
fn cut_behind(mut numbers: Vec<u32>, at: usize, g: &mut Gen) -> Vec<u8> {
    numbers.truncate(at + g.random.below(3) as usize);
    let mut bytes = bytes_of(&numbers);
    let end: &[u8] = if g.random.chance(50) { &[0x80, 0x00] } else { &[] };
    bytes.extend(end);
    bytes
}

/// One number in a form with a group of zeros too many.
fn longer(numbers: &[u32], at: usize, g: &mut Gen) -> Vec<u8> {
    let mut bytes = bytes_of(&numbers[..=at]);
    *bytes.last_mut().unwrap() |= 0x80;
    bytes.extend(vec![0x80; g.random.below(3) as usize]);
    bytes.push(0);
    bytes.extend(bytes_of(&numbers[at + 1..]));
    bytes
}

fn damaged_bytes(mut bytes: Vec<u8>, g: &mut Gen) -> Vec<u8> {
    let at = g.random.below(bytes.len() as u64 + 1) as usize;
    let byte = g.random.small(256) as u8;
    match g.random.below(5) {
        0 => bytes.truncate(at),
        1 => bytes.push(byte),
        2 => bytes.insert(at, byte),
        3 if at < bytes.len() => bytes[at] = byte,
        4 if at < bytes.len() => bytes[at] |= 0x80,
        _ => bytes.push(0x80),
    }
    bytes
}

// ---- cases at every limit

/// The case of a seed for a comparison at scale: a small one, the bindings and keys of a list, or one of full size.
pub fn any_case_of(seed: u64) -> Case {
    let mut g = Gen::new(seed, Kind::Long);
    match g.random.below(10_000) {
        0..=3999 => case_of(seed),
        4000..=9971 => case_of_calls(&scenes::calls_of(seed), &mut g),
        9972..=9991 => full_of_bindings(&mut g),
        9992..=9996 => full_output(&mut g),
        9997..=9998 => full_input(&mut g, many_keys),
        _ => full_input(&mut g, many_bindings),
    }
}

/// The bindings and keys of a list, behind the tables that it opens first.
fn case_of_calls(calls: &[Call], g: &mut Gen) -> Case {
    let tables =
        calls.iter().find_map(|c| if let Call::Open(t) = c { Some(t.clone()) } else { None }).unwrap_or_default();
    let is_binding = |c: &&Call| matches!(c, Call::Map(..) | Call::Prefix(..));
    let bindings: Vec<Call> = calls.iter().filter(is_binding).cloned().collect();
    let tape: Vec<u32> =
        calls.iter().filter_map(|c| if let Call::Key { key, .. } = c { Some(*key as u32) } else { None }).collect();
    let map = damaged(numbers_of(&tables, &bindings), 20, g);
    let keys = damaged(tape, 5, g);
    let budget = g.budget();
    let room = room_for(&map, &keys, budget, g);
    Case { map, keys, budget, lent: vec![0xAA; room] }
}

/// Room enough; or just enough, or a byte too little or too much.
fn room_for(map: &[u8], keys: &[u8], budget: u16, g: &mut Gen) -> usize {
    if g.random.chance(70) {
        return g.random.pick(&[3000, 10_000]);
    }
    room_about(map, keys, budget, g)
}

/// Room for what the run writes, or for a byte less or more.
fn room_about(map: &[u8], keys: &[u8], budget: u16, g: &mut Gen) -> usize {
    // the run itself is counted where it is compared
    let written = aside(|| mapfile::exported(map, keys, budget, &vec![0; 66_000]));
    let length = written.map_or(0, |(code, _)| code as usize / 32);
    (length + 1).saturating_sub(g.random.below(3) as usize)
}

/// A few pairs, each with none typed or with a count for which the bytes of a count and of one more are as many or not; and an
/// output of just enough bytes, or one too few or too many.
fn typed_counts(g: &mut Gen) -> Case {
    let numbers = ["", "", "0", "0", "126", "127", "127", "16382", "16383", "16383", "65534", "65535", "65535"];
    let acted = |g: &mut Gen| [g.random.pick(&numbers).as_bytes(), &[97]].concat();
    let prefix = Call::Prefix(0, vec![scenes::once(Event::Class(0))], None);
    let bindings = [prefix, Call::Map(0, scenes::path(&[97]), scenes::does(7))];
    let map = file_of(&with_digits(Tables::default()), &bindings);
    let keys = (0..1 + g.random.below(3)).flat_map(|_| acted(g)).collect::<Vec<u8>>();
    let room = room_about(&map, &keys, 1000, g);
    Case { map, keys, budget: 1000, lent: vec![0xAA; room] }
}

/// About as many pairs of four bytes as fill 65,536, four for each key.
fn full_output(g: &mut Gen) -> Case {
    let entry = ModeEntry { unmapped: vec![200; 4], ..ModeEntry::default() };
    let tables = Tables { modes: vec![entry], ..Tables::default() };
    let keys = vec![97; 4095 + g.random.below(3) as usize];
    let room = g.random.pick(&[65_535, 65_536, 65_537, 70_000]);
    Case { map: file_of(&tables, &[]), keys, budget: 1000, lent: vec![0xAA; room] }
}

/// About as many bindings as a machine keeps, and at the end a number that is cut or out of its range, or bytes too many: what
/// is met first, 11 after a binding's last number, or 1 or 9 before it or behind?
fn full_of_bindings(g: &mut Gen) -> Case {
    let mut bindings = vec![Call::Prefix(g.random.small(16), vec![], None); 1023 + g.random.below(3) as usize];
    bindings.push(match g.random.below(4) {
        0 => Call::Prefix(16, vec![], None),
        1 => Call::Map(0, vec![], Step { mark: Some(1), ..g.step() }),
        _ => g.binding(),
    });
    let mut map = file_of(&g.tables(), &bindings);
    match g.random.below(5) {
        0 => map.truncate(map.len() - 1),
        1 => map.truncate(map.len() - 3),
        2 => map.push(0),
        3 => map.extend([0x80, 0]),
        _ => {},
    }
    Case { map, keys: vec![97; g.random.below(3) as usize], budget: 1000, lent: vec![0xAA; 100] }
}

/// About 65,536 bytes as the input of `keyplay`, which has three for the map's length; or far more, for the archive.
fn full_input(g: &mut Gen, of: fn(usize) -> (Vec<u8>, Vec<u8>)) -> Case {
    let size = g.random.pick(&[65_532, 65_533, 65_534, 150_000]);
    let (map, keys) = of(size);
    Case { map, keys, budget: 1000, lent: vec![0xAA; 100] }
}

/// A mapping of so many keys, the same for all, with the longest step: five bytes a key, and 22 more.
fn long_binding(parts: usize) -> Call {
    let key = Part { repeat: Repeat::Once, event: Event::Key(20_000) };
    let step = Step { actions: vec![20_000; 4], mark: Some(20_000), ..Step::default() };
    Call::Map(0, vec![key; parts], step)
}

/// So many bytes, most of them keys that a prefix takes. The map is padded to a length of three bytes.
fn many_keys(size: usize) -> (Vec<u8>, Vec<u8>) {
    let any = Call::Prefix(0, vec![Part { repeat: Repeat::Once, event: Event::Any }], None);
    let map = file_of(&Tables::default(), &[vec![any], vec![long_binding(0); 1000]].concat());
    let keys = vec![97; size - map.len()];
    (map, keys)
}

/// So many bytes, most of them those of about a thousand bindings, with a few keys.
fn many_bindings(size: usize) -> (Vec<u8>, Vec<u8>) {
    let parts = (size / 1000 - 22).div_ceil(5);
    let count = (size - 10) / (22 + 5 * parts);
    let map = file_of(&Tables::default(), &vec![long_binding(parts); count]);
    let keys = vec![97; size - map.len()];
    (map, keys)
}

// ---- inputs of keyplay

pub fn input_of(seed: u64) -> Vec<u8> {
    input_of_case(case_of(seed), seed)
}

/// A case as the input of `keyplay`: the map's length, now and then a wrong one, the map and the keys.
pub fn input_of_case(case: Case, seed: u64) -> Vec<u8> {
    let mut g = Gen::new(seed, Kind::Plain);
    let length = match g.random.below(12) {
        0 => case.map.len() as u32 + g.random.below(9) as u32,
        1 => g.random.pick(&EDGES),
        _ => case.map.len() as u32,
    };
    let mut input = vec![];
    put_number(length, &mut input);
    input.extend(case.map);
    input.extend(case.keys);
    if g.random.chance(5) {
        input.truncate(g.random.below(input.len() as u64) as usize);
    }
    input
}
