//! What a comparison met: each branch of the key loop, each refusal and each limit, counted as the model meets it, so that
//! a reader sees at its end that nothing was left out.

use std::cell::{Cell, RefCell};
use std::collections::BTreeMap;

use crate::calls::Repeat;

macro_rules! places {
    ($($place:ident: $words:literal,)*) => {
        #[derive(Clone, Copy)]
        pub enum Met { $($place),* }
        const WORDS: &[&str] = &[$($words),*];
    };
}

places! {
    ByKey: "follow: the Key edge",
    ByFirstClass: "follow: the Class edge of the first membership",
    ByLaterClass: "follow: the Class edge of a later membership",
    ByAny: "follow: the Any edge",
    Stuck: "follow: no edge",
    KeyMadeAfterClass: "follow: the Key edge, made after a Class edge for the key",
    KeyMadeAfterAny: "follow: the Key edge, made after Any",
    KeyMadeAfterFall: "follow: the Key edge, made after Fallthrough",
    ClassMadeAfterClass: "follow: a Class edge, made after that of a later membership",
    ClassMadeAfterAny: "follow: a Class edge, made after Any",
    ClassMadeAfterFall: "follow: a Class edge, made after Fallthrough",
    AnyMadeAfterFall: "follow: Any, made after Fallthrough",
    ClassTwice: "follow: the edge of a class that two entries give the key",
    ReplacedTaken: "follow: an edge that has had another end",
    KeyBehindOthers: "follow: the Key edge, behind others on its chain",
    NoKeyButOthers: "follow: no Key edge, but others on its chain",
    BehindAlike: "follow: a Class, Any or Fallthrough edge, made after a Class or Any edge of another node on its chain",
    NoneButAlike: "follow: no such edge, but a Class or Any edge of another node on its chain",
    FallsToEmpty: "follow: falls to an empty node, again",
    FallsToRoot: "follow: falls to a root, the trail clears",
    FallsToStep: "follow: falls to a step, tried again after it",
    FallsToFlagged: "follow: falls to a flagged step, whose flag is not tested",
    FallsAcross: "follow: falls to a node of another mode",
    AtStep: "arrive: a step runs",
    AtFlaggedOpen: "arrive: a flagged step with edges, more is needed",
    AtFlaggedEnd: "arrive: a flagged step without edges, unmapped",
    AtEmpty: "arrive: an empty node, more is needed",
    AtRoot: "arrive: a root, consumed",
    Decomposed: "unmapped: decomposed on an empty trail",
    DecomposedHalf: "unmapped: decomposed after a half-typed run",
    GivenUp: "unmapped: the key itself is given up",
    GivenUpHalf: "unmapped: the trail's first key is given up, the others are tried again",
    UnmappedDefault: "unmapped: an empty list gives action 0",
    UnmappedList: "unmapped: a list of actions",
    UnmappedNext: "unmapped: a next mode",
    UnmappedElsewhere: "unmapped: at a node of another mode than the entered one",
    StepNothing: "step: no action and no next mode",
    StepNext: "step: a next mode alone gives action 0",
    StepActions: "step: actions",
    StepBoth: "step: actions and a next mode",
    StepMark: "step: sets the mark",
    EnterActions: "enter: actions",
    EnterSame: "enter: the mode that was entered already",
    Digit: "event: a digit counts",
    LeadingZero: "event: a zero counts, with a count of 0",
    NoDigit: "event: class 0 takes a key that is no digit",
    CountPassed: "event: a digit is refused with 12",
    CountPassedByOne: "event: a digit is refused with 12, at 65,536",
    CountPassedFull: "event: a digit is refused with 12, behind a count of 65,535",
    PassingByKey: "event: none for a digit that would pass 65,535, and goes by its Key edge",
    PassingByClass: "event: none for a digit that would pass 65,535, and goes by another class",
    PassingByAny: "event: Any alone for a digit that would pass 65,535",
    PassingStuck: "event: none for a digit that would pass 65,535, and has no edge",
    CountLater: "12: in a later round of the key",
    CountAfterPairs: "12: after pairs that the key has given",
    CountBeforeQueue: "12: before 5, where the round would also pass 256 pairs",
    CountBeforeTracked: "12: before 6, where the round would also pass 64 pairs of a sequence",
    CountBeforeTrail: "12: before 7, where the key would also be the 65th on the trail",
    BudgetFirst: "8: where the round that is due would be refused with 12",
    AnyMark: "event: Any sets the mark",
    Atom: "sequence: Atom",
    Break: "sequence: Break",
    Ignore: "sequence: Ignore",
    Restart: "sequence: Restart",
    TrackAnew: "sequence: Track begins anew",
    TrackOn: "sequence: Track appends",
    RepeatEmpty: "repeat: nothing remembered",
    RepeatPlain: "repeat: pairs as they are",
    RepeatOver: "repeat: pairs with an override",
    RepeatOverStored: "repeat: pairs that an override has changed, as they are",
    RepeatOverTwice: "repeat: pairs that an override has changed, with an override",
    ResetTrail: "reset: with keys on the trail",
    ResetTracked: "reset: with remembered pairs",
    EdgeReplaced: "graph: an edge is replaced",
    EdgeFollowed: "graph: an edge on the way exists and is followed",
    FallBehindMin: "graph: a Fallthrough edge behind a Min on the way",
    NodesFull: "full: a call ends with 1,024 nodes",
    EdgesFull: "full: a call ends with 2,048 edges",
    KeptFull: "full: a call is kept as the 1,024th",
    QueueFull: "full: a push makes 256 pairs",
    QueueFullRepeat: "full: a repeat makes 256 pairs",
    TrackedFull: "full: a Track makes 64 pairs",
    TrailFull: "full: a key makes a trail of 64",
    CountFull: "full: a digit makes a count of 65,535",
}

/// Where a part stands in its path.
#[derive(Clone, Copy)]
pub enum Place {
    OnTheWay,
    PrefixAlone,
    PrefixLast,
    MappingLast,
}

const PLACES: [&str; 4] = ["on the way", "alone in a prefix", "last of a prefix", "last of a mapping"];
const NUMBERS: [&str; 5] = ["0", "1", "2", "255", "other"];

#[derive(Clone)]
struct Counts {
    places: Vec<u64>,
    /// By place: once, then Min and Max for each of the numbers.
    parts: [[u64; 11]; 4],
    named: BTreeMap<String, u64>,
    most_stacked: usize,
}

impl Counts {
    fn new() -> Self {
        Counts { places: vec![0; WORDS.len()], parts: [[0; 11]; 4], named: BTreeMap::new(), most_stacked: 0 }
    }
}

thread_local! {
    static COUNTS: RefCell<Counts> = RefCell::new(Counts::new());
    static ASIDE: Cell<bool> = const { Cell::new(false) };
}

fn counting(count: impl FnOnce(&mut Counts)) {
    if !ASIDE.get() {
        COUNTS.with(|c| count(&mut c.borrow_mut()));
    }
}

/// Work of which nothing is counted: what would come of something else.
pub fn aside<T>(work: impl FnOnce() -> T) -> T {
    let was = ASIDE.replace(true);
    let done = work();
    ASIDE.set(was);
    done
}

pub fn met(place: Met) {
    counting(|c| c.places[place as usize] += 1);
}

/// One or the other.
pub fn met_which(test: bool, yes: Met, no: Met) {
    met(if test { yes } else { no });
}

pub fn met_if(test: bool, place: Met) {
    if test {
        met(place);
    }
}

pub fn met_part(place: Place, repeat: Repeat) {
    let column = match repeat {
        Repeat::Once => 0,
        Repeat::Min(n) => 1 + number_column(n),
        Repeat::Max(n) => 6 + number_column(n),
    };
    counting(|c| c.parts[place as usize][column] += 1);
}

fn number_column(n: u16) -> usize {
    match n {
        0..=2 => n as usize,
        255 => 3,
        _ => 4,
    }
}

/// What has no place of its own: an answer, by the kind of call.
pub fn met_named(words: String) {
    counting(|c| *c.named.entry(words).or_default() += 1);
}

pub fn met_named_if(test: bool, words: &str) {
    if test {
        met_named(words.into());
    }
}

/// A name that is shown even when it is never met.
pub fn expect_named(words: String) {
    counting(|c| {
        c.named.entry(words).or_default();
    });
}

pub fn expect_all(names: &[&str]) {
    names.iter().for_each(|words| expect_named(words.to_string()));
}

pub fn stacked(keys: usize) {
    counting(|c| c.most_stacked = c.most_stacked.max(keys));
}

/// The words of all that has been counted so far, with the counts.
pub fn counted() -> BTreeMap<String, u64> {
    COUNTS.with(|c| {
        let c = c.borrow();
        let places = WORDS.iter().zip(&c.places).map(|(words, &times)| (words.to_string(), times));
        c.named.clone().into_iter().chain(places).collect()
    })
}

// ---- the report

/// Prints what was met and what was not. Whether all was.
pub fn print() -> bool {
    let c = COUNTS.with(|c| c.borrow().clone());
    for (words, times) in &c.named {
        println!("{times:>12}  {words}");
    }
    for (words, times) in WORDS.iter().zip(&c.places) {
        println!("{times:>12}  {words}");
    }
    print_parts(&c);
    println!("{:>12}  keys to try at once, at most", c.most_stacked);
    let never = never(&c);
    println!("never met: {}", if never.is_empty() { "nothing of these".into() } else { never.join("; ") });
    never.is_empty()
}

fn print_parts(c: &Counts) {
    println!("{:>18} {:>9}  Min and Max of {}", "parts", "Once", NUMBERS.join(", "));
    for (place, row) in PLACES.iter().zip(&c.parts) {
        let (mins, maxs) = (words_of(&row[1..6]), words_of(&row[6..]));
        println!("{place:>18} {:>9}  Min {mins}  Max {maxs}", row[0]);
    }
}

fn words_of(numbers: &[u64]) -> String {
    numbers.iter().map(u64::to_string).collect::<Vec<_>>().join(" ")
}

fn never(c: &Counts) -> Vec<&str> {
    let named = c.named.iter().filter(|(_, &times)| times == 0).map(|(words, _)| words.as_str());
    let places = WORDS.iter().zip(&c.places).filter(|(_, &times)| times == 0).map(|(words, _)| *words);
    let parts = PLACES.iter().zip(&c.parts).filter(|(_, row)| row.contains(&0)).map(|(place, _)| *place);
    named.chain(places).chain(parts).collect()
}
