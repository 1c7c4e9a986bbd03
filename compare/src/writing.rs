//! The map file that a machine writes: document 01's layout, first as numbers, so that a damage can hit one of them, and then as
//! bytes. `mapfile.rs` reads it.

use crate::bytes::put_number;
use crate::calls::{Call, Event, Part, Repeat, Step, Tables};

fn put_list(items: &[u16], out: &mut Vec<u32>) {
    out.push(items.len() as u32);
    out.extend(items.iter().map(|&n| n as u32));
}

fn optional(mode: Option<u16>) -> u32 {
    mode.map_or(0, |m| m as u32 + 1)
}

/// The modes are as many as the tables were given.
pub fn put_tables(t: &Tables, out: &mut Vec<u32>) {
    out.push(t.classes.len() as u32);
    for c in &t.classes {
        out.extend([c.class, c.low, c.high].map(u32::from));
    }
    out.push(t.modes.len() as u32);
    for m in &t.modes {
        put_list(&m.enter, out);
        put_list(&m.unmapped, out);
        out.push(optional(m.next));
    }
    out.push(t.rules.len() as u32);
    for r in &t.rules {
        out.extend([r.mode, r.low, r.high, r.sequence, r.status].map(u32::from));
    }
}

fn put_part(p: &Part, out: &mut Vec<u32>) {
    match p.repeat {
        Repeat::Once => out.push(0),
        Repeat::Min(n) => out.extend([1, n as u32]),
        Repeat::Max(n) => out.extend([2, n as u32]),
    }
    match p.event {
        Event::Key(k) => out.extend([0, k as u32]),
        Event::Class(c) => out.extend([1, c as u32]),
        Event::Any => out.push(2),
        Event::Fallthrough => out.push(3),
    }
}

fn put_step(s: &Step, out: &mut Vec<u32>) {
    out.push(s.flag as u32);
    put_list(&s.actions, out);
    out.extend([optional(s.next), optional(s.fallthrough), s.mark.unwrap_or(0) as u32]);
}

fn put_parts(kind: u32, mode: u16, path: &[Part], step: Option<&Step>, out: &mut Vec<u32>) {
    out.extend([kind, mode as u32, path.len() as u32]);
    path.iter().for_each(|p| put_part(p, out));
    if let Some(s) = step {
        put_step(s, out);
    }
}

pub fn put_binding(binding: &Call, out: &mut Vec<u32>) {
    match binding {
        Call::Map(mode, path, s) => put_parts(0, *mode, path, Some(s), out),
        Call::Prefix(mode, path, None) => put_parts(1, *mode, path, None, out),
        Call::Prefix(mode, path, s) => put_parts(2, *mode, path, s.as_ref(), out),
        _ => unreachable!("a map file holds bindings only"),
    }
}

/// Tables, and bindings in their order.
pub fn numbers_of<'a, B>(tables: &Tables, bindings: B) -> Vec<u32>
where
    B: IntoIterator<Item = &'a Call, IntoIter: ExactSizeIterator>,
{
    let bindings = bindings.into_iter();
    let mut out = vec![];
    put_tables(tables, &mut out);
    out.push(bindings.len() as u32);
    bindings.for_each(|b| put_binding(b, &mut out));
    out
}

pub fn bytes_of(numbers: &[u32]) -> Vec<u8> {
    let mut out = vec![];
    numbers.iter().for_each(|&n| put_number(n, &mut out));
    out
}

pub fn file_of<'a, B>(tables: &Tables, bindings: B) -> Vec<u8>
where
    B: IntoIterator<Item = &'a Call, IntoIter: ExactSizeIterator>,
{
    bytes_of(&numbers_of(tables, bindings))
}

/// What C gets of a file for an output that was `lent`: length × 32 + refusal, and the output. All of it may be used.
pub fn written(file: &[u8], lent: &[u8]) -> (u64, Vec<u8>) {
    if file.len() > lent.len() {
        return (10, vec![0; lent.len()]);
    }
    (file.len() as u64 * 32, [file, &lent[file.len()..]].concat())
}

/// Two digits for each byte.
pub fn hexadecimal(bytes: &[u8]) -> String {
    bytes.iter().map(|b| format!("{b:02x}")).collect()
}
