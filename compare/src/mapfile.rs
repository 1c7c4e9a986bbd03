//! The map file, the run and `keyplay` of documents 01 and 02, written from their words over model and original together.

use crate::bytes::put_number;
use crate::calls::{Answer, Call, ClassEntry, Event, ModeEntry, Pair, Part, Repeat, Rule, Step, Tables};
use crate::graph::{limits, Graph};
use crate::met::aside;
use crate::play::Both;
use crate::typed;

/// Why a run ended: refused by a number, or because model and original differ.
pub enum Stop {
    Refused(u16),
    Differs(String),
}

impl From<String> for Stop {
    fn from(message: String) -> Self {
        Stop::Differs(message)
    }
}

type Read<T> = Result<T, Stop>;

fn refused<T>(n: u16) -> Read<T> {
    Err(Stop::Refused(n))
}

// ---- numbers

pub struct Reader<'a> {
    bytes: &'a [u8],
    at: usize,
}

impl<'a> Reader<'a> {
    pub fn new(bytes: &'a [u8]) -> Self {
        Reader { bytes, at: 0 }
    }

    fn at_end(&self) -> bool {
        self.at == self.bytes.len()
    }

    /// 9 where bytes are left.
    fn ended(&self) -> Read<()> {
        if self.at_end() {
            Ok(())
        } else {
            refused(9)
        }
    }

    fn rest(&self) -> &'a [u8] {
        &self.bytes[self.at..]
    }

    /// 9 where it ends early, is over 65,535 or has a last group of 0 behind others.
    fn number(&mut self) -> Read<u16> {
        let mut value: u32 = 0;
        for (i, &byte) in self.rest().iter().enumerate() {
            let group = (byte & 0x7F) as u32;
            if i > 2 || (i == 2 && group > 3) {
                return refused(9);
            }
            value |= group << (7 * i);
            if byte < 0x80 {
                if i > 0 && group == 0 {
                    return refused(9);
                }
                self.at += i + 1;
                return Ok(value as u16);
            }
        }
        refused(9)
    }

    /// A number in a range, tested when it is read.
    fn within(&mut self, low: u16, high: u16) -> Read<u16> {
        let n = self.number()?;
        if n < low || n > high {
            return refused(1);
        }
        Ok(n)
    }

    fn list<T>(&mut self, most: u16, item: impl Fn(&mut Self) -> Read<T>) -> Read<Vec<T>> {
        let count = self.within(0, most)?;
        (0..count).map(|_| item(self)).collect()
    }

    fn actions(&mut self) -> Read<Vec<u16>> {
        self.list(4, Reader::number)
    }

    fn optional_mode(&mut self) -> Read<Option<u16>> {
        Ok(self.within(0, 16)?.checked_sub(1))
    }

    // ---- tables

    fn class(&mut self) -> Read<ClassEntry> {
        let class = self.within(0, 255)?;
        let low = self.number()?;
        let high = self.within(low, u16::MAX)?;
        Ok(ClassEntry { class, low, high })
    }

    fn mode(&mut self) -> Read<ModeEntry> {
        Ok(ModeEntry { enter: self.actions()?, unmapped: self.actions()?, next: self.optional_mode()? })
    }

    fn rule(&mut self) -> Read<Rule> {
        let mode = self.within(0, 15)?;
        let low = self.number()?;
        let high = self.within(low, u16::MAX)?;
        Ok(Rule { mode, low, high, sequence: self.within(0, 7)?, status: self.within(0, 4)? })
    }

    fn tables(&mut self) -> Read<Tables> {
        Ok(Tables {
            classes: self.list(16, Reader::class)?,
            modes: self.list(16, Reader::mode)?,
            rules: self.list(64, Reader::rule)?,
        })
    }

    // ---- bindings

    fn part(&mut self) -> Read<Part> {
        let repeat = match self.within(0, 2)? {
            0 => Repeat::Once,
            1 => Repeat::Min(self.within(0, 255)?),
            _ => Repeat::Max(self.within(0, 255)?),
        };
        let event = match self.within(0, 3)? {
            0 => Event::Key(self.number()?),
            1 => Event::Class(self.within(0, 255)?),
            2 => Event::Any,
            _ => Event::Fallthrough,
        };
        Ok(Part { repeat, event })
    }

    fn step(&mut self) -> Read<Step> {
        Ok(Step {
            flag: self.within(0, 1)? == 1,
            actions: self.actions()?,
            next: self.optional_mode()?,
            fallthrough: self.optional_mode()?,
            mark: Some(self.number()?).filter(|&m| m != 0),
        })
    }

    fn binding(&mut self) -> Read<Call> {
        let kind = self.within(0, 2)?;
        let mode = self.within(0, 15)?;
        let path = self.list(32, Reader::part)?;
        Ok(match kind {
            0 => Call::Map(mode, path, self.step()?),
            1 => Call::Prefix(mode, path, None),
            _ => Call::Prefix(mode, path, Some(self.step()?)),
        })
    }
}

// ---- the run

/// A call's answer, where a refusal ends the run.
fn must(both: &mut Both, call: &Call) -> Read<Answer> {
    match both.call(call)?.answer {
        Answer::Refused(n) | Answer::RefusedRounds(n, _) => refused(n),
        answer => Ok(answer),
    }
}

fn read_map(map: &[u8]) -> Read<Both> {
    let mut reader = Reader::new(map);
    let mut both = Both::fresh();
    let tables = reader.tables()?;
    must(&mut both, &Call::Open(tables))?;
    for _ in 0..reader.number()? {
        let binding = reader.binding()?;
        must(&mut both, &binding)?;
    }
    reader.ended()?;
    Ok(both)
}

/// Tables and bindings of a map file that can be read whole.
pub fn bindings_of(map: &[u8]) -> Option<(Tables, Vec<Call>)> {
    let mut reader = Reader::new(map);
    let tables = reader.tables().ok()?;
    let count = reader.number().ok()?;
    let bindings = (0..count).map(|_| reader.binding().ok()).collect::<Option<Vec<Call>>>()?;
    reader.at_end().then_some((tables, bindings))
}

/// Why a map cannot be read, if it cannot.
pub fn map_refusal(map: &[u8]) -> Option<u16> {
    refusal_of(aside(|| judge_map(map)))
}

/// What a map is refused with, in the order in which it is read: a binding after its last number.
fn judge_map(map: &[u8]) -> Read<()> {
    let mut reader = Reader::new(map);
    reader.tables()?;
    let (mut graph, count) = (Graph::fresh(), reader.number()?);
    for at in 0..count as usize {
        graph.bind(&reader.binding()?).map_err(Stop::Refused)?;
        if at == limits().kept {
            return refused(11);
        }
    }
    reader.ended()
}

/// Why a map that has no binding cannot be read, if it cannot.
pub fn tables_refusal(map: &[u8]) -> Option<u16> {
    let mut reader = Reader::new(map);
    let read = reader.tables().and_then(|_| reader.number()).and_then(|_| reader.ended());
    refusal_of(read)
}

/// Why bytes cannot be read as one binding and no more, if they cannot.
pub fn binding_refusal(binding: &[u8]) -> Option<u16> {
    let mut reader = Reader::new(binding);
    let read = reader.binding().and_then(|_| reader.ended());
    refusal_of(read)
}

fn refusal_of(read: Read<()>) -> Option<u16> {
    match read {
        Err(Stop::Refused(n)) => Some(n),
        _ => None,
    }
}

fn read_keys(bytes: &[u8]) -> Read<Vec<u16>> {
    let mut reader = Reader::new(bytes);
    let mut keys = vec![];
    while !reader.at_end() {
        keys.push(reader.number()?);
    }
    Ok(keys)
}

fn pair_bytes(p: &Pair) -> Vec<u8> {
    let mut bytes = vec![];
    for n in [p.action as u32, p.context.count_number(), p.context.mark as u32] {
        put_number(n, &mut bytes);
    }
    bytes
}

/// The pairs of a run whose output has `room` bytes.
pub fn run(map: &[u8], keys: &[u8], budget: u16, room: usize) -> Read<Vec<Pair>> {
    let mut both = read_map(map)?;
    let keys = read_keys(keys)?;
    let mut left = room.min(65_536);
    let mut pairs = vec![];
    for key in keys {
        must(&mut both, &Call::Key { key, budget })?;
        while let Answer::Pair(pair) = must(&mut both, &Call::Pop)? {
            let size = pair_bytes(&pair).len();
            if size > left {
                typed::note_too_long(&pair, size - left);
                return refused(10);
            }
            left -= size;
            pairs.push(pair);
        }
    }
    Ok(pairs)
}

/// The run as C sees it: what it returns, and the output, which was `lent` before.
pub fn exported(map: &[u8], keys: &[u8], budget: u16, lent: &[u8]) -> Result<(u32, Vec<u8>), String> {
    match run(map, keys, budget, lent.len()) {
        Ok(pairs) => {
            typed::note_written(&pairs);
            let written: Vec<u8> = pairs.iter().flat_map(pair_bytes).collect();
            let output = [&written[..], &lent[written.len()..]].concat();
            Ok((written.len() as u32 * 32, output))
        },
        Err(Stop::Refused(n)) => Ok((n as u32, vec![0; lent.len()])),
        Err(Stop::Differs(message)) => Err(message),
    }
}

/// Map and keys of an input of `keyplay`: the map's length, the map, then keys.
fn split(input: &[u8]) -> Read<(&[u8], &[u8])> {
    let mut reader = Reader::new(input);
    let length = reader.number()? as usize;
    reader.rest().split_at_checked(length).ok_or(Stop::Refused(9))
}

/// The same, where the input has both.
pub fn map_and_keys(input: &[u8]) -> Option<(&[u8], &[u8])> {
    split(input).ok()
}

pub fn input_with(map: &[u8], keys: &[u8]) -> Vec<u8> {
    let mut input = vec![];
    put_number(map.len() as u32, &mut input);
    [&input[..], map, keys].concat()
}

fn play_input(input: &[u8]) -> Read<Vec<Pair>> {
    if input.len() > 65_536 {
        return refused(9);
    }
    let (map, keys) = split(input)?;
    run(map, keys, 1000, 65_536)
}

/// What the program `keyplay` prints.
pub fn keyplay(input: &[u8]) -> Result<String, String> {
    match play_input(input) {
        Ok(pairs) => {
            typed::note_printed(&pairs);
            let line = |p: &Pair| format!("{} {} {}\n", p.action, p.context.count_text(), p.context.mark);
            Ok(String::from("action count mark\n") + &pairs.iter().map(line).collect::<String>())
        },
        Err(Stop::Refused(n)) => Ok(format!("refused {n}\n")),
        Err(Stop::Differs(message)) => Err(message),
    }
}
