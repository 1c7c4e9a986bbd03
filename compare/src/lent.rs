//! A list of calls on one lent machine of the archive, by its C functions. Each answer is written as the line that `callplay`
//! prints for it, so that library and program are held to the same lines. A refused call, and one that only looks, must leave
//! every byte of the machine as it was: that is more than the contracts say, which speak of what the bytes mean. A written file
//! must open another machine, and that one must have the same hint and write the same file.
//!
//! C gets the tables as a map without bindings, a binding as its bytes, and a change as its map file. Every value that a list can
//! hold can be said so: one that is out of its range is refused with 1 when it is read, and a count that is too large before
//! what it counts. But an override whose count is not typed is said as one without a count, which must come to the same.

use crate::bytes::put_number;
use crate::calllist::{bytes_of_item, differing, file_in, Item, Room};
use crate::calls::{Answer, Call, Context, Pair, Tables};
use crate::graph::limits;
use crate::machine::Machine;
use crate::mapfile::{binding_refusal, bindings_of, map_refusal, tables_refusal};
use crate::met::{expect_all, expect_named, met_named, met_named_if};
use crate::typed;
use crate::writing::{file_of, hexadecimal};

/// A count of `repeat_over` over it is refused: it is the number of a typed 65,535.
const LARGEST: u32 = 65_536;

const CALLS: &str = "C: calls of lists";
const KEPT: &str = "C: refused or looking, and no byte of the machine changed";
const DAMAGED: &str = "C: a byte too few or too many, refused";
const LARGE: &str = "C: repeat_over with a count over 65,536, refused";
const LARGE_BY_ONE: &str = "C: repeat_over with a count of 65,537, refused";
/// By the sort of a count, with the numbers 0, 1, 65,536 and another.
const REPEATED: &str = "C: repeat_over, accepted, with";
const POPPED: &str = "C: pop";
const PASSED: &str = "C: a key whose count would pass 65,535, refused 12";
const AGAIN: &str = "C: a written file opens a machine that has the same hint and writes it again";
const ONE_MORE: &str = "C: a file of 1,024 bindings and one more, refused 11";
const CHANGED: &str = "C: an accepted change, after which the machine writes the file that it was given";
const NO_CHANGE: &str = "C: a change to what is no map file, refused";
const TO_A_FILE: &str = "C: a change to the map of a run";

pub fn expect_calls() {
    let answers = [1, 2, 3, 4, 9, 11].map(|n| format!("refused {n}")).into_iter().chain(["ok".into()]);
    answers.for_each(|answer| expect_named(format!("{TO_A_FILE}: {answer}")));
    expect_all(&[CALLS, KEPT, DAMAGED, LARGE, LARGE_BY_ONE, PASSED, AGAIN, ONE_MORE, CHANGED, NO_CHANGE]);
    [REPEATED, POPPED].iter().for_each(|what| typed::expect_sorts(what));
}

/// How the machine differs from the lines, if it does.
pub fn difference(calls: &[(Item, String)]) -> Option<String> {
    play(calls).err()
}

/// How a change to a map file, whole or damaged, differs from what is read in it, if it does.
pub fn change_difference(map: &[u8]) -> Option<String> {
    change_to(map).err()
}

fn change_to(map: &[u8]) -> Result<(), String> {
    let mut machine = opened()?;
    let must = map_refusal(map).map_or("ok".into(), |n| format!("refused {n}"));
    holds(&mut machine, "the change to a map file", &must, |m| settled(m.change(map)))?;
    met_named(format!("{TO_A_FILE}: {must}"));
    match must.as_str() {
        "ok" => write_changed(&mut machine, map),
        _ => Ok(()),
    }
}

/// A list begins with empty tables, and C with an open.
fn opened() -> Result<Machine, String> {
    let mut machine = Machine::lent();
    holds(&mut machine, "the first open", "ok", |m| settled(m.open(&map_of(&Tables::default()))))?;
    Ok(machine)
}

fn play(calls: &[(Item, String)]) -> Result<(), String> {
    let mut machine = opened()?;
    for (item, line) in calls {
        refuse_beside(&mut machine, item)?;
        if !has_function(item) {
            continue;
        }
        let is = answered(&mut machine, item)?;
        if *line != is {
            return Err(format!("the lent machine at {item:?}: {}", differing(line, &is)));
        }
        met_named(CALLS.into());
        if is.starts_with("refused 12 ") {
            met_named(PASSED.into());
        }
        note_repeated(item, &is);
        match item {
            Item::Write(Room::Of(room)) => read_back(&mut machine, *room)?,
            Item::Call(Call::Change(..)) if is.starts_with("ok") => write_changed(&mut machine, &changed_to(item))?,
            _ => {},
        }
    }
    Ok(())
}

/// For the counts alone: C gives the number of a count that is not typed whatever the count is.
fn note_repeated(item: &Item, is: &str) {
    match item {
        Item::Call(Call::Repeat(_, Some(over))) if is.starts_with("ok") => typed::note_sort(REPEATED, *over),
        _ => {},
    }
}

/// What is no call has no function in C, unless it begins as a binding does.
fn has_function(item: &Item) -> bool {
    !matches!(item, Item::Malformed(bytes) if bytes[0] > 2)
}

fn map_of(tables: &Tables) -> Vec<u8> {
    file_of(tables, &[])
}

// ---- what C returns, as words

/// The answer in the words of `callplay`, and whether the machine must be as it was.
struct Told {
    words: String,
    keeps: bool,
}

fn told(words: String, keeps: bool) -> Told {
    Told { words, keeps }
}

/// A number that the call never returns: no line has these words.
fn no_answer(code: u64) -> Told {
    told(format!("the number {code}"), false)
}

fn settled(code: u64) -> Told {
    match code {
        0 => told("ok".into(), false),
        1..=31 => told(format!("refused {code}"), true),
        _ => no_answer(code),
    }
}

fn pressed(code: u64) -> Told {
    let (rounds, refusal) = (code / 32, code % 32);
    match refusal {
        0 => told(format!("ok rounds {rounds}"), false),
        _ => told(format!("refused {refusal} rounds {rounds}"), true),
    }
}

/// A count that is not typed is 0.
fn popped(code: u64) -> Told {
    let part = |shift: u32| (code >> shift) as u16;
    let context = Context { count: part(16), typed: code >> 49 & 1 == 1, mark: part(32) };
    let is_pair = code >> 48 & !2 == 1 && (context.typed || context.count == 0);
    match code {
        0 => told("nothing".into(), true),
        _ if is_pair => {
            typed::note_sort(POPPED, context);
            told(Answer::Pair(Pair { action: part(0), context }).to_string(), false)
        },
        _ => no_answer(code),
    }
}

fn found(code: u64) -> Told {
    match (code / 32, code % 32) {
        (0, 0) => told("none".into(), true),
        (0, refusal) => told(format!("refused {refusal}"), true),
        (node, 0) => told(format!("node {}", node - 1), true),
        _ => no_answer(code),
    }
}

fn free(code: u64) -> Told {
    match code % 32 {
        0 => told(format!("free {}", code / 32), true),
        _ => no_answer(code),
    }
}

// ---- files

/// What every byte of an output and of some behind it holds before it is lent.
const LENT: u8 = 0xAA;
const BEHIND: usize = 16;

/// The file that a machine writes to so many bytes, or the words for what comes of it instead.
fn written(machine: &mut Machine, room: usize) -> Result<Vec<u8>, String> {
    let mut output = vec![LENT; room + BEHIND];
    let code = machine.write(&mut output[..room]);
    let (length, refusal) = ((code / 32) as usize, code % 32);
    let (used, least) = if refusal == 0 { (length, length) } else { (room, 0) };
    if used > room || length != least {
        return Err(no_answer(code).words);
    }
    let stays = output[used..].iter().all(|&b| b == LENT);
    output.truncate(used);
    match refusal {
        _ if !stays => Err(format!("the number {code}, with bytes written behind the output's end or the file's")),
        0 => Ok(output),
        _ if output.iter().any(|&b| b != 0) => Err(format!("refused {refusal}, with an output that is not all zeros")),
        _ => Err(format!("refused {refusal}")),
    }
}

fn filed(machine: &mut Machine, room: usize) -> Told {
    let words = written(machine, room).map_or_else(|words| words, |file| format!("file {}", hexadecimal(&file)));
    told(words, true)
}

/// Where a file fits, another machine is opened with it, and must have the same hint and write the file again, and once more
/// after a change to it; and with one binding more than a machine keeps, it must be refused.
fn read_back(machine: &mut Machine, room: usize) -> Result<(), String> {
    let Ok(file) = written(machine, room) else { return Ok(()) };
    let mut other = Machine::lent();
    let left = watched(machine, "the hint", |m| free(m.free()))?;
    let again = format!("file {}", hexadecimal(&file));
    holds(&mut other, "the open of a written file", "ok", |m| settled(m.open(&file)))?;
    holds(&mut other, "the hint after the open of a written file", &left, |m| free(m.free()))?;
    holds(&mut other, "the write of an opened file", &again, |m| filed(m, file.len()))?;
    holds(&mut other, "the change to the same file", "ok", |m| settled(m.change(&file)))?;
    holds(&mut other, "the write after that change", &again, |m| filed(m, file.len()))?;
    met_named(AGAIN.into());
    let (tables, mut bindings) = bindings_of(&file).expect("the file is the model's, which can be read");
    if bindings.len() < limits().kept {
        return Ok(());
    }
    bindings.push(Call::Prefix(0, vec![], None));
    met_named(ONE_MORE.into());
    let longer = file_of(&tables, &bindings);
    holds(machine, "the open of a file of too many bindings", "refused 11", |m| settled(m.open(&longer)))?;
    holds(machine, "the change to such a file", "refused 11", |m| settled(m.change(&longer)))
}

/// After an accepted change the machine writes the file that it was given.
fn write_changed(machine: &mut Machine, file: &[u8]) -> Result<(), String> {
    met_named(CHANGED.into());
    let must = format!("file {}", hexadecimal(file));
    holds(machine, "the write after a change", &must, |m| filed(m, file.len()))
}

/// The map file of a change.
fn changed_to(item: &Item) -> Vec<u8> {
    file_in(item).expect("a change has a map file")
}

// ---- calls

fn called(machine: &mut Machine, item: &Item) -> Told {
    match item {
        Item::Call(Call::Open(tables)) => settled(machine.open(&map_of(tables))),
        Item::Call(Call::Key { key, budget }) => pressed(machine.key(*key, *budget)),
        Item::Call(Call::Pop) => popped(machine.pop()),
        Item::Call(Call::Repeat(sequence, None)) => settled(machine.repeat(*sequence)),
        Item::Call(Call::Repeat(sequence, Some(c))) => {
            settled(machine.repeat_over(*sequence, c.count_number(), c.mark))
        },
        Item::Call(Call::Reset) => settled(machine.reset()),
        Item::Find(mode, action) => found(machine.find(*mode, *action)),
        Item::Hint => free(machine.free()),
        Item::Write(Room::Of(room)) => filed(machine, *room),
        Item::Write(_) => unreachable!("a list that was played has each room as a number"),
        Item::Call(Call::Change(..)) | Item::OddChange(_) => settled(machine.change(&changed_to(item))),
        // a binding that is whole, has an odd kind or flag, or ends early
        Item::Call(Call::Map(..) | Call::Prefix(..)) | Item::Unknown(_) | Item::Malformed(_) => {
            settled(machine.bind(&bytes_of_item(item)))
        },
    }
}

/// The item's line, with the mode where `callplay` has one.
fn answered(machine: &mut Machine, item: &Item) -> Result<String, String> {
    let words = watched(machine, &format!("{item:?}"), |m| called(m, item))?;
    let mode = watched(machine, "mode", |m| told(m.mode().to_string(), true))?;
    Ok(match item {
        Item::Malformed(_) => words,
        _ => format!("{words} mode {mode}"),
    })
}

/// Makes a call, and tells a byte that it should not have written.
fn watched(machine: &mut Machine, name: &str, call: impl Fn(&mut Machine) -> Told) -> Result<String, String> {
    machine.move_elsewhere();
    let Told { words, keeps } = call(machine);
    if keeps && !machine.is_as_before() {
        let words: String = words.chars().take(100).collect();
        return Err(format!("the lent machine at {name}: {words:?} must leave every byte as it was, and does not"));
    }
    if !machine.kept_within() {
        return Err(format!("the lent machine at {name}: bytes behind the machine are written"));
    }
    if keeps {
        met_named(KEPT.into());
    }
    Ok(words)
}

/// The same where only one answer is right.
fn holds(machine: &mut Machine, name: &str, must: &str, call: impl Fn(&mut Machine) -> Told) -> Result<(), String> {
    let is = watched(machine, name, call)?;
    if is == must {
        return Ok(());
    }
    Err(format!("the lent machine at {name}: {}", differing(must, &is)))
}

// ---- calls that only C can make: refused, before the item's own call

fn refuse_beside(machine: &mut Machine, item: &Item) -> Result<(), String> {
    match item {
        Item::Call(Call::Open(tables)) => refuse_damaged(machine, map_of(tables), tables_refusal, Machine::open),
        Item::Call(Call::Map(..) | Call::Prefix(..)) => {
            refuse_damaged(machine, bytes_of_item(item), binding_refusal, Machine::bind)
        },
        Item::Call(Call::Change(..)) => refuse_damaged(machine, changed_to(item), map_refusal, Machine::change),
        Item::Malformed(_) => file_in(item).map_or(Ok(()), |file| refuse_change(machine, &file)),
        Item::Call(Call::Repeat(sequence, over)) => refuse_large(machine, *sequence, over.unwrap_or_default()),
        _ => Ok(()),
    }
}

/// Counts that are too large, by one and by more; of one the lowest 16 bits are those of the item's own.
fn refuse_large(machine: &mut Machine, sequence: u16, over: Context) -> Result<(), String> {
    let more = over.count as u32;
    for count in [LARGEST + 1, 2 * LARGEST + over.count_number(), u32::MAX - more] {
        met_named(LARGE.into());
        met_named_if(count == LARGEST + 1, LARGE_BY_ONE);
        let name = format!("repeat_over {sequence} {count} {}", over.mark);
        holds(machine, &name, "refused 1", |m| settled(m.repeat_over(sequence, count, over.mark)))?;
    }
    Ok(())
}

/// A change that `callplay` cannot read. A file is read in an order of its own, so the number may be another.
fn refuse_change(machine: &mut Machine, file: &[u8]) -> Result<(), String> {
    let must = map_refusal(file).expect("such bytes are no map file");
    met_named(NO_CHANGE.into());
    let name = format!("a change to the bytes {file:02X?}");
    holds(machine, &name, &format!("refused {must}"), |m| settled(m.change(file)))
}

/// The bytes without the last of them, and with a number more.
fn refuse_damaged(
    machine: &mut Machine,
    bytes: Vec<u8>,
    refusal: fn(&[u8]) -> Option<u16>,
    call: fn(&mut Machine, &[u8]) -> u64,
) -> Result<(), String> {
    let mut longer = bytes.clone();
    put_number(0, &mut longer);
    for damaged in [&bytes[..bytes.len() - 1], &longer] {
        let must = refusal(damaged).expect("such bytes cannot be read");
        met_named(DAMAGED.into());
        holds(machine, &format!("the bytes {damaged:02X?}"), &format!("refused {must}"), |m| {
            settled(call(m, damaged))
        })?;
    }
    Ok(())
}
