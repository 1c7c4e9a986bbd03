//! The input of the program `callplay` and what it must print. An input is numbers as in a map file: the three tables, then
//! calls to the end. The answers are those of model and original; find's, the hint's and a written map file are the model's.
//! The same lines hold for the calls of C on one machine.

use crate::calls::{Answer, Call, Tables};
use crate::changes;
use crate::finds;
use crate::graph::limits;
use crate::hints;
use crate::mapfile::bindings_of;
use crate::met::{aside, expect_all, expect_named, met_named, met_named_if};
use crate::play::{Both, Seen};
use crate::writing::{bytes_of, hexadecimal, numbers_of, put_binding, put_tables};

/// What may stand in a list.
#[derive(Clone, Debug, PartialEq)]
pub enum Item {
    Call(Call),
    Find(u16, u16),
    Hint,
    Write(Room),
    /// A call with a number that is no kind or flag: it is answered with 1, and the play goes on.
    Unknown(Vec<u32>),
    /// A change with such a binding, which is refused with 1 in its turn.
    OddChange(OddChange),
    /// What is no call. It ends the play with 9, whatever follows.
    Malformed(Vec<u8>),
}

pub type List = Vec<Item>;

/// Tables, bindings, the numbers of one with an odd kind or flag, and bindings behind it.
#[derive(Clone, Debug, PartialEq)]
pub struct OddChange {
    pub tables: Tables,
    pub before: Vec<Call>,
    pub odd: Vec<u32>,
    pub behind: Vec<Call>,
}

/// The bytes that are lent to a writer: so many, or by the length of the file that is to be written.
#[derive(Clone, Copy, Debug, PartialEq)]
pub enum Room {
    Of(usize),
    Exact,
    /// A byte too few.
    Short,
    /// A byte more than needed.
    Long,
}

impl Room {
    fn for_file(self, length: usize) -> usize {
        match self {
            Room::Of(room) => room,
            Room::Exact => length,
            Room::Short => length - 1,
            Room::Long => length + 1,
        }
    }
}

/// The most bytes that `callplay` lends to the writer. C may lend more.
const MOST_ROOM: usize = 65_535;

/// What must be and what is. A file can have hundreds of thousands of digits: of long words only those from the first
/// difference on are shown.
pub fn differing(must: &str, is: &str) -> String {
    if must.len().max(is.len()) <= 2000 {
        return format!("must be {must:?}, is {is:?}");
    }
    let from = must.chars().zip(is.chars()).take_while(|(a, b)| a == b).count().saturating_sub(20);
    let shown = |words: &str| words.chars().skip(from).take(100).collect::<String>();
    let lengths = format!("{} and {} characters", must.len(), is.len());
    format!("{lengths}: from {from} on must be {:?}, is {:?}", shown(must), shown(is))
}

/// One input, and what must be printed.
pub struct Play {
    pub input: Vec<u8>,
    pub lines: Vec<String>,
}

// ---- the input

fn put_call(call: &Call, out: &mut Vec<u32>) {
    match call {
        Call::Open(_) => unreachable!("an input has one open, its tables"),
        Call::Map(..) | Call::Prefix(..) => put_binding(call, out),
        Call::Key { key, budget } => out.extend([3, *key as u32, *budget as u32]),
        Call::Pop => out.push(4),
        Call::Repeat(sequence, None) => out.extend([5, *sequence as u32, 0]),
        Call::Repeat(sequence, Some(c)) => {
            out.extend([5, *sequence as u32, 1, c.typed as u32, c.count as u32, c.mark as u32]);
        },
        Call::Reset => out.push(6),
        Call::Change(tables, bindings) => {
            out.push(CHANGE);
            out.extend(numbers_of(tables, bindings));
        },
    }
}

/// The number of a change. A map file's numbers follow it.
const CHANGE: u32 = 10;

impl OddChange {
    fn put(&self, out: &mut Vec<u32>) {
        out.push(CHANGE);
        put_tables(&self.tables, out);
        out.push((self.before.len() + 1 + self.behind.len()) as u32);
        self.before.iter().for_each(|b| put_binding(b, out));
        out.extend(&self.odd);
        self.behind.iter().for_each(|b| put_binding(b, out));
    }

    /// The number of its refusal on the model.
    fn refusal(&self, both: &Both) -> u16 {
        let before = Call::Change(self.tables.clone(), self.before.clone());
        match aside(|| both.model.clone().call(&before)) {
            Answer::Refused(n) => n,
            _ => 1,
        }
    }
}

/// The map file of an item that begins as a change does.
pub fn file_in(item: &Item) -> Option<Vec<u8>> {
    let bytes = match item {
        Item::Call(Call::Change(..)) | Item::OddChange(_) | Item::Malformed(_) => bytes_of_item(item),
        _ => return None,
    };
    bytes.split_first().filter(|(first, _)| **first as u32 == CHANGE).map(|(_, file)| file.to_vec())
}

/// An item's bytes. Those of a binding are the map file's too.
pub fn bytes_of_item(item: &Item) -> Vec<u8> {
    let mut numbers = vec![];
    match item {
        Item::Call(call) => put_call(call, &mut numbers),
        Item::Find(mode, action) => numbers.extend([7, *mode as u32, *action as u32]),
        Item::Hint => numbers.push(8),
        Item::Write(Room::Of(room)) => numbers.extend([9, *room as u32]),
        Item::Write(_) => unreachable!("the file's length is known before the call is written"),
        Item::Unknown(call) => numbers.extend(call),
        Item::OddChange(change) => change.put(&mut numbers),
        Item::Malformed(bytes) => return bytes.clone(),
    }
    bytes_of(&numbers)
}

impl Play {
    fn opened(tables: &Tables) -> Self {
        let mut numbers = vec![];
        put_tables(tables, &mut numbers);
        Play { input: bytes_of(&numbers), lines: vec![] }
    }

    fn add(&mut self, item: &Item, line: String) {
        self.input.extend(bytes_of_item(item));
        self.lines.push(line);
    }

    fn is_refused(&self) -> bool {
        self.lines.last().is_some_and(|line| line == "refused 9")
    }
}

// ---- the answers

fn settled(seen: &Seen) -> String {
    let answer = match seen.answer {
        Answer::Accepted => "ok".into(),
        Answer::Rounds(rounds) => format!("ok rounds {rounds}"),
        other => other.to_string(),
    };
    format!("{answer} mode {}", seen.mode)
}

fn find(both: &Both, mode: u16, action: u16) -> String {
    changes::note_find(both.is_changed());
    format!("{} mode {}", finds::answer(both.model.graph(), mode, action), both.model.mode())
}

fn hint(both: &Both) -> String {
    changes::note_hint(both.is_changed());
    format!("{} mode {}", hints::answer(both.model.graph(), both.last()), both.model.mode())
}

/// The file's line. The file must be read as the model's own tables and bindings, and give the same bindings again.
fn write(both: &Both, room: Room) -> Result<String, String> {
    let (file, mode) = (both.model.file(), both.model.mode());
    let room = room.for_file(file.len());
    let read = bindings_of(&file).is_some_and(|(tables, bindings)| both.model.is_bound_by(&tables, &bindings));
    if !read {
        return Err(format!("the model's file {} is not read as it was", hexadecimal(&file)));
    }
    note_write(file.len(), room, both.model.keeps());
    changes::note_write(both.is_changed());
    let answer = if file.len() > room { "refused 10".into() } else { format!("file {}", hexadecimal(&file)) };
    Ok(format!("{answer} mode {mode}"))
}

const WRITTEN: &str = "write: a file";
const WRITTEN_EXACTLY: &str = "write: a file that fills the output to its last byte";
const WRITTEN_EMPTY: &str = "write: a file without bindings";
const WRITTEN_FULL: &str = "write: a file of 1,024 bindings";
const WRITTEN_EDGE: &str = "write: a file of 65,536 bytes";
const WRITTEN_FAR: &str = "write: a file of more than 65,536 bytes";
const REFUSED: &str = "write: refused 10";
const REFUSED_BY_ONE: &str = "write: refused 10, a byte too short";
const REFUSED_FAR: &str = "write: refused 10, with more than 65,536 bytes lent";

/// What a report shows of writing even when it is never met.
pub fn expect_writes() {
    expect_all(&[
        WRITTEN,
        WRITTEN_EXACTLY,
        WRITTEN_EMPTY,
        WRITTEN_FULL,
        WRITTEN_EDGE,
        WRITTEN_FAR,
        REFUSED,
        REFUSED_BY_ONE,
        REFUSED_FAR,
    ]);
}

/// For the counts alone.
fn note_write(length: usize, room: usize, kept: usize) {
    let fits = length <= room;
    met_named_if(fits, WRITTEN);
    met_named_if(length == room, WRITTEN_EXACTLY);
    met_named_if(fits && kept == 0, WRITTEN_EMPTY);
    met_named_if(fits && kept == limits().kept, WRITTEN_FULL);
    met_named_if(fits && length == 65_536, WRITTEN_EDGE);
    met_named_if(fits && length > 65_536, WRITTEN_FAR);
    met_named_if(!fits, REFUSED);
    met_named_if(length == room + 1, REFUSED_BY_ONE);
    met_named_if(!fits && room > 65_536, REFUSED_FAR);
}

const ODD: &str = "change: with a kind or flag that there is not";

const ODD_TYPED: &str = "a malformed call: an override whose count is neither typed nor not";
const ODD_KIND: &str = "a malformed call: of a kind that there is not";

/// What a report shows of such changes even when it is never met, 1 in its turn and the refusal of a binding before it; and of
/// such an override and such a call.
pub fn expect_odd() {
    [1, 2, 3, 4, 11].iter().for_each(|n| expect_named(format!("{ODD}: refused {n}")));
    [ODD_TYPED, ODD_KIND].iter().for_each(|what| expect_named((*what).into()));
}

/// Whether the bytes are a whole repeat but for that.
fn has_odd_typed(bytes: &[u8]) -> bool {
    matches!(bytes, [5, _, 1, 2..=127, _, _, ..])
}

/// What a list comes to.
pub struct Plays {
    /// The inputs of `callplay`, in order. An accepted open begins a new one; a refused one is an input of its own.
    pub inputs: Vec<Play>,
    /// The items with their lines as they come on one machine, the opens among them, and writes with more room than
    /// `callplay` lends.
    pub calls: Vec<(Item, String)>,
}

/// The plays of a list. At its end the queue is popped and each remembered sequence repeated, so that what it left is seen.
pub fn plays(list: &[Item]) -> Result<Plays, String> {
    let mut playing = Playing::begun();
    for item in list {
        playing.item(item)?;
    }
    playing.show_rest()?;
    playing.plays.inputs.retain(|p| !p.lines.is_empty());
    Ok(playing.plays)
}

/// A list on its way.
struct Playing {
    both: Both,
    plays: Plays,
}

impl Playing {
    fn begun() -> Self {
        let plays = Plays { inputs: vec![Play::opened(&Tables::default())], calls: vec![] };
        Playing { both: Both::fresh(), plays }
    }

    fn item(&mut self, item: &Item) -> Result<(), String> {
        match item {
            Item::Call(Call::Open(tables)) => self.open(item, tables),
            _ if self.is_refused() => Ok(()),
            _ => self.add(item),
        }
    }

    fn open(&mut self, item: &Item, tables: &Tables) -> Result<(), String> {
        let seen = self.both.call(&Call::Open(tables.clone()))?;
        let mut play = Play::opened(tables);
        let was = self.plays.inputs.pop().unwrap();
        if seen.answer == Answer::Accepted {
            self.plays.inputs.extend([was, play]);
        } else {
            play.lines.push("refused 1".into());
            self.plays.inputs.extend([play, was]);
        }
        self.plays.calls.push((item.clone(), settled(&seen)));
        Ok(())
    }

    fn add(&mut self, item: &Item) -> Result<(), String> {
        let item = match item {
            Item::Write(room) => Item::Write(Room::Of(room.for_file(self.both.model.file().len()))),
            other => other.clone(),
        };
        let line = answer(&mut self.both, &item)?;
        self.put(&item, line);
        Ok(())
    }

    fn put(&mut self, item: &Item, line: String) {
        self.plays.calls.push((item.clone(), line.clone()));
        if !matches!(item, Item::Write(Room::Of(room)) if *room > MOST_ROOM) {
            self.plays.inputs.last_mut().unwrap().add(item, line);
        }
    }

    fn is_refused(&self) -> bool {
        self.plays.inputs.last().unwrap().is_refused()
    }

    fn show_rest(&mut self) -> Result<(), String> {
        if self.is_refused() {
            return Ok(());
        }
        self.empty_queue()?;
        for sequence in 0..8 {
            if !self.both.model.sequence(sequence).is_empty() {
                self.add(&Item::Call(Call::Repeat(sequence, None)))?;
                self.empty_queue()?;
            }
        }
        Ok(())
    }

    fn empty_queue(&mut self) -> Result<(), String> {
        loop {
            let seen = self.both.call(&Call::Pop)?;
            self.put(&Item::Call(Call::Pop), settled(&seen));
            if seen.answer == Answer::Nothing {
                return Ok(());
            }
        }
    }
}

fn answer(both: &mut Both, item: &Item) -> Result<String, String> {
    Ok(match item {
        Item::Call(call) => settled(&both.call(call)?),
        Item::Find(mode, action) => find(both, *mode, *action),
        Item::Hint => hint(both),
        Item::Write(room) => write(both, *room)?,
        Item::Unknown(_) => {
            met_named("a kind or flag that there is not: refused 1".into());
            format!("refused 1 mode {}", both.model.mode())
        },
        Item::OddChange(change) => {
            let refusal = change.refusal(both);
            met_named(format!("{ODD}: refused {refusal}"));
            format!("refused {refusal} mode {}", both.model.mode())
        },
        Item::Malformed(bytes) => {
            met_named("a malformed call: refused 9".into());
            met_named_if(has_odd_typed(bytes), ODD_TYPED);
            met_named_if(matches!(bytes[..], [11..=127, ..]), ODD_KIND);
            "refused 9".into()
        },
    })
}
