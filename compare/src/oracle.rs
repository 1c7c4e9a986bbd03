//! The unchanged original as a machine of document 01: an instance of its traits that takes its meaning from tables.
//! The traits pass no tables along, so those of the machine at work stand in a thread's own variable. So does the count of
//! rounds, which the original does not keep: the traits' functions that `follow_edge` and what comes after it call tell. And so
//! does the round in which a count first passed 65,535: the original's event hook cannot refuse.
//!
//! The original cannot change its map. After a change it is made anew with the new one, and what passes over is brought about on
//! it by a key that no list has, at which the instance does what it is told. Whether a key of the trail needs more is seen on the
//! original too, with an event hook that does nothing.

use std::cell::{Cell, RefCell};
use std::panic::{catch_unwind, resume_unwind, set_hook, take_hook, AssertUnwindSafe};

use keybindings::{
    BindingMachine, EdgeEvent, EdgePathPart, EdgeRepeat, InputKey, InputKeyClass, InputKeyState, InputState,
    ModalMachine, Mode, ModeKeys, ModeSequence, SequenceStatus, Step,
};

use crate::calls::{self, Call, Event, Pair, Part, Repeat, Tables};
use crate::carried::{Carried, Told};
use crate::status::status_of;

thread_local! {
    static TABLES: RefCell<Tables> = RefCell::new(Tables::default());
}

fn with_tables<T>(look: impl FnOnce(&Tables) -> T) -> T {
    TABLES.with(|t| look(&t.borrow()))
}

// ---- rounds

/// No accepted key makes more, since a budget is at most this.
const MOST_ROUNDS: u32 = 65_535;

/// The rounds made by the key at work, the most it may make, whether the last one may still be told of again, and the first in
/// which the count was cut.
#[derive(Clone, Copy)]
struct Rounds {
    made: u32,
    most: u32,
    open: bool,
    cut: Option<u32>,
}

impl Rounds {
    const fn within(most: u32) -> Self {
        Rounds { made: 0, most, open: false, cut: None }
    }
}

thread_local! {
    static ROUNDS: Cell<Rounds> = const { Cell::new(Rounds::within(MOST_ROUNDS)) };
}

/// What is thrown out of the original when it begins a round too many.
struct OverBudget;

fn begin_round() {
    let r = ROUNDS.get();
    if r.made == r.most {
        resume_unwind(Box::new(OverBudget));
    }
    ROUNDS.set(Rounds { made: r.made + 1, open: true, ..r });
}

fn end_round() {
    ROUNDS.set(Rounds { open: false, ..ROUNDS.get() });
}

fn cut_in_round() {
    let r = ROUNDS.get();
    ROUNDS.set(Rounds { cut: r.cut.or(Some(r.made)), ..r });
}

// ---- what the instance goes by

#[derive(Clone)]
enum By {
    Tables,
    /// The tables, but the event hook does nothing, and a step that is to run or a key that is unmapped ends the work.
    Following,
    /// The first edge ends the work: is it that of a root for the key that no list has?
    Asking,
    /// What is told, whatever the tables say.
    Told(Told),
}

thread_local! {
    static BY: RefCell<By> = const { RefCell::new(By::Tables) };
    /// Whether the key that was followed last came to a flagged step.
    static AT_FLAGGED: Cell<bool> = const { Cell::new(false) };
}

struct NeedsNoMore;

struct AtRoot(bool);

/// Work on the original by something else than the tables alone, and what is thrown out of it.
fn by<T>(what: By, work: impl FnOnce() -> T) -> std::thread::Result<T> {
    BY.set(what);
    let done = catch_unwind(AssertUnwindSafe(work));
    BY.set(By::Tables);
    done
}

fn told() -> Option<Told> {
    BY.with_borrow(|by| if let By::Told(told) = by { Some(told.clone()) } else { None })
}

/// A step is to run, or a key is unmapped.
fn stop_following() {
    match BY.with_borrow(By::clone) {
        By::Following => resume_unwind(Box::new(NeedsNoMore)),
        By::Asking => resume_unwind(Box::new(AtRoot(false))),
        By::Tables | By::Told(_) => {},
    }
}

// A call of `follow_edge` is told of by
// - `event` alone, where it takes a Key edge;
// - `memberships`, where the node has edges but none for the key itself, then by `event`, if it takes a Class or Any edge;
// - `decompose` alone, where the node has no edges. Such a node holds a step that ran, so `step` came between. A root
//   without edges would be the exception: `Oracle::empty` gives every root one that no key of a list takes.
// `decompose` also follows the other two, in the same round.

// ---- the instance

#[derive(Clone, Copy, Debug, Eq, Hash, PartialEq)]
pub enum TableKey {
    Of(u16),
    /// The key that no list has.
    Own,
}

impl InputKey for TableKey {
    type Error = ();

    fn decompose(&mut self) -> Option<Self> {
        stop_following();
        if !ROUNDS.get().open {
            begin_round();
        }
        end_round();
        let TableKey::Of(key) = *self else { return None };
        let (first, rest) = calls::decompose(key)?;
        *self = TableKey::Of(rest);
        Some(TableKey::Of(first))
    }

    fn from_macro_str(_: &str) -> Result<Vec<Self>, ()> {
        Err(())
    }

    fn get_char(&self) -> Option<char> {
        None
    }
}

#[derive(Clone, Debug, Eq, Hash, PartialEq)]
pub struct TableClass(u16);

/// The class of the key that no list has. Every root has an edge for it.
const OWN: TableClass = TableClass(u16::MAX);

impl InputKeyClass<TableKey> for TableClass {
    fn memberships(key: &TableKey) -> Vec<Self> {
        begin_round();
        match key {
            TableKey::Of(key) => with_tables(|t| t.memberships(*key)).into_iter().map(TableClass).collect(),
            TableKey::Own => vec![OWN],
        }
    }
}

#[derive(Clone, Debug, Default, PartialEq)]
pub struct TableState(calls::Context);

impl InputState for TableState {
    type Output = calls::Context;
    type CursorHint = ();

    fn reset(&mut self) {
        self.0 = calls::Context::default();
    }

    fn take(&mut self) -> calls::Context {
        self.0.take()
    }

    fn merge(original: calls::Context, overrides: &calls::Context) -> calls::Context {
        original.merge(*overrides)
    }
}

impl InputKeyState<TableKey, TableClass> for TableState {
    fn event(&mut self, event: &EdgeEvent<TableKey, TableClass>, key: &TableKey) {
        if matches!(event, EdgeEvent::Key(_)) {
            begin_round();
        }
        match (BY.with_borrow(By::clone), key) {
            (By::Tables, TableKey::Of(key)) => self.take_event(event, *key),
            (By::Asking, _) => resume_unwind(Box::new(AtRoot(*event == EdgeEvent::Class(OWN)))),
            _ => {},
        }
    }
}

impl TableState {
    fn take_event(&mut self, event: &EdgeEvent<TableKey, TableClass>, key: u16) {
        match (event, calls::digit_of(key)) {
            (EdgeEvent::Class(TableClass(0)), Some(digit)) => self.count(digit),
            (EdgeEvent::Any, _) => self.0.mark = key,
            _ => {},
        }
    }

    /// Document 01's count, which is cut at 65,535. Document 02 refuses such a key, request (iv), and a hook of the original
    /// cannot. So the instance tells the round, and `play.rs` holds the model to it and takes the key back. A digit that counts
    /// types, request (vii).
    fn count(&mut self, digit: u16) {
        let count = self.0.count as u32 * 10 + digit as u32;
        if count > 65_535 {
            cut_in_round();
        }
        self.0.count = count.min(65_535) as u16;
        self.0.typed = true;
    }
}

#[derive(Clone, Copy, Debug, Default, Eq, Hash, PartialEq)]
pub struct TableMode(u16);

impl Mode<u16, TableState> for TableMode {
    fn enter(&self, _: Self, _: &mut TableState) -> Vec<u16> {
        if told().is_some() {
            return vec![];
        }
        with_tables(|t| t.mode(self.0).enter)
    }
}

impl ModeKeys<TableKey, u16, TableState> for TableMode {
    fn unmapped(&self, _: &TableKey, _: &mut TableState) -> (Vec<u16>, Option<Self>) {
        let entry = with_tables(|t| t.mode(self.0));
        (entry.unmapped, entry.next.map(TableMode))
    }
}

#[derive(Clone, Copy, Debug, Eq, Hash, PartialEq)]
pub struct TableSequence(u16);

impl ModeSequence<TableSequence, u16, TableState> for TableMode {
    fn sequences(&self, action: &u16, _: &calls::Context) -> Vec<(TableSequence, SequenceStatus)> {
        let rules = told().map_or_else(|| with_tables(|t| t.sequences(self.0, *action)), |told| told.statuses);
        rules.into_iter().map(|(s, status)| (TableSequence(s), status_of(status))).collect()
    }
}

#[derive(Clone, Debug)]
pub struct TableStep(calls::Step);

impl Step<TableKey> for TableStep {
    type A = u16;
    type State = TableState;
    type Class = TableClass;
    type M = TableMode;
    type Sequence = TableSequence;

    fn is_unmapped(&self) -> bool {
        AT_FLAGGED.set(self.0.flag);
        self.0.flag
    }

    fn fallthrough(&self) -> Option<TableMode> {
        self.0.fallthrough.map(TableMode)
    }

    fn step(&self, state: &mut TableState) -> (Vec<u16>, Option<TableMode>) {
        stop_following();
        end_round();
        if let Some(told) = told() {
            state.0 = told.pair.map_or(state.0, |p| p.context);
            return (told.pair.iter().map(|p| p.action).collect(), told.next.map(TableMode));
        }
        if let Some(mark) = self.0.mark {
            state.0.mark = mark;
        }
        (self.0.actions.clone(), self.0.next.map(TableMode))
    }
}

fn path_of(path: &[Part]) -> Vec<EdgePathPart<TableKey, TableClass>> {
    path.iter().map(|p| (repeat_of(p.repeat), event_of(p.event))).collect()
}

fn repeat_of(repeat: Repeat) -> EdgeRepeat {
    match repeat {
        Repeat::Once => EdgeRepeat::Once,
        Repeat::Min(n) => EdgeRepeat::Min(n as usize),
        Repeat::Max(n) => EdgeRepeat::Max(n as usize),
    }
}

fn event_of(event: Event) -> EdgeEvent<TableKey, TableClass> {
    match event {
        Event::Key(k) => EdgeEvent::Key(TableKey::Of(k)),
        Event::Class(c) => EdgeEvent::Class(TableClass(c)),
        Event::Any => EdgeEvent::Any,
        Event::Fallthrough => EdgeEvent::Fallthrough,
    }
}

// ---- the machine

/// The original, and the calls that made it what it is. It cannot be copied, so after a call that panicked it is made
/// anew from these.
pub struct Oracle {
    machine: ModalMachine<TableKey, TableStep>,
    start: Start,
    done: Vec<Call>,
}

/// An open with tables, or a change to tables and bindings with what it has carried over.
#[derive(Clone, Default)]
struct Start {
    tables: Tables,
    bindings: Vec<Call>,
    carried: Carried,
}

/// The rounds that a key made, and the first of them in which its count was cut.
#[derive(Clone, Copy, Debug, PartialEq)]
pub struct Made {
    pub rounds: u32,
    pub cut: Option<u32>,
}

/// What came of a call. Endless is a key that makes more rounds than any budget has.
pub enum Attempt {
    Done(Option<Pair>),
    Panicked,
    Endless,
}

/// Work in which a panic prints nothing.
fn quietly<T>(work: impl FnOnce() -> T) -> T {
    let loud = take_hook();
    set_hook(Box::new(|_| {}));
    let done = work();
    set_hook(loud);
    done
}

impl Oracle {
    pub fn fresh() -> Self {
        Oracle::empty(Start::default())
    }

    fn opened(tables: &Tables) -> Self {
        Oracle::empty(Start { tables: tables.clone(), ..Start::default() })
    }

    fn empty(start: Start) -> Self {
        let mut machine = ModalMachine::empty();
        for mode in 0..16 {
            let own = (EdgeRepeat::Once, EdgeEvent::Class(OWN));
            machine.add_mapping(TableMode(mode), &[own], &TableStep(calls::Step::default()));
        }
        Oracle { machine, start, done: vec![] }
    }

    /// A call that document 01 accepts. The pair is what a pop gave.
    pub fn accept(&mut self, call: &Call) -> Result<Option<Pair>, String> {
        if let Call::Open(tables) = call {
            *self = Oracle::opened(tables);
            return Ok(None);
        }
        self.done.push(call.clone());
        catch_unwind(AssertUnwindSafe(|| self.perform(call)))
            .map_err(|_| format!("the original panics or makes more than {MOST_ROUNDS} rounds at {call:?}"))
    }

    /// A call that document 01 may refuse, on the original as it stands: what came of it stays.
    pub fn attempt(&mut self, call: &Call) -> Attempt {
        if let Call::Open(tables) = call {
            *self = Oracle::opened(tables);
            return Attempt::Done(None);
        }
        match quietly(|| catch_unwind(AssertUnwindSafe(|| self.perform(call)))) {
            Ok(pair) => Attempt::Done(pair),
            Err(thrown) if thrown.is::<OverBudget>() => Attempt::Endless,
            Err(_) => Attempt::Panicked,
        }
    }

    /// What the last key made.
    pub fn made(&self) -> Made {
        let Rounds { made, cut, .. } = ROUNDS.get();
        Made { rounds: made, cut }
    }

    /// What the original makes of a key in so many rounds at most, unless it panics.
    pub fn makes(&mut self, most: u32, key: u16) -> Option<Made> {
        ROUNDS.set(Rounds::within(most));
        let thrown = catch_unwind(AssertUnwindSafe(|| self.machine_with_tables().input_key(TableKey::Of(key)))).err();
        let made = self.made();
        self.again();
        thrown.is_none_or(|t| t.is::<OverBudget>()).then_some(made)
    }

    /// Whether the original panics at a call, as its `assert_eq!` on the mode does. That is an answer here and no news, so
    /// nothing is printed.
    pub fn panics_at(&mut self, call: &Call) -> bool {
        let panicked = quietly(|| catch_unwind(AssertUnwindSafe(|| self.perform(call)))).is_err();
        self.again();
        panicked
    }

    /// The machine made anew from the calls that were accepted.
    fn again(&mut self) {
        let mut fresh = Oracle::begun(self.start.clone());
        for call in &self.done {
            fresh.perform(call);
        }
        fresh.done = std::mem::take(&mut self.done);
        *self = fresh;
    }

    fn perform(&mut self, call: &Call) -> Option<Pair> {
        let m = self.machine_with_tables();
        match call {
            Call::Open(_) | Call::Change(..) => unreachable!("open and change make a new machine"),
            Call::Map(mode, path, step) => m.add_mapping(TableMode(*mode), &path_of(path), &TableStep(step.clone())),
            Call::Prefix(mode, path, step) => {
                m.add_prefix(TableMode(*mode), &path_of(path), &step.clone().map(TableStep));
            },
            Call::Key { key, .. } => {
                ROUNDS.set(Rounds::within(MOST_ROUNDS));
                m.input_key(TableKey::Of(*key));
            },
            Call::Pop => return m.pop().map(|(action, context)| Pair { action, context }),
            Call::Repeat(sequence, over) => m.repeat(TableSequence(*sequence), *over),
            Call::Reset => m.reset_mode(),
        }
        None
    }

    fn machine_with_tables(&mut self) -> &mut ModalMachine<TableKey, TableStep> {
        TABLES.with(|t| t.replace(self.start.tables.clone()));
        &mut self.machine
    }

    pub fn mode(&self) -> u16 {
        self.machine.mode().0
    }

    pub fn context(&mut self) -> calls::Context {
        self.machine.state().0
    }
}

// ---- a change of map

impl Oracle {
    /// The original with a new map and with what passes over. The trail is that of the old map, and stays where it can be walked:
    /// whether it does.
    pub fn changed(tables: &Tables, bindings: &[Call], carried: Carried) -> Result<(Self, bool), String> {
        let mut start = Start { tables: tables.clone(), bindings: bindings.to_vec(), carried };
        let made = quietly(|| {
            catch_unwind(AssertUnwindSafe(|| {
                let is_kept = start.walks();
                if !is_kept {
                    start.carried.trail.clear();
                }
                (Oracle::begun(start), is_kept)
            }))
        });
        made.map_err(|_| "the original panics at an accepted change".into())
    }

    /// Whether the original panics at the last of a change's bindings, and at none before it.
    pub fn panics_in(bindings: &[Call]) -> bool {
        let mut original = Oracle::fresh();
        let Some((last, others)) = bindings.split_last() else { return false };
        let made = |b| catch_unwind(AssertUnwindSafe(|| original.perform(b))).is_ok();
        quietly(|| others.iter().all(made)) && original.panics_at(last)
    }

    /// The machine at its start, before any call.
    fn begun(start: Start) -> Self {
        let Start { bindings, carried, .. } = start.clone();
        let mut original = Oracle::empty(start);
        for binding in &bindings {
            original.perform(binding);
        }
        carried.entered().into_iter().for_each(|told| original.tell(told));
        original.empty_queue();
        carried.waiting().into_iter().for_each(|told| original.tell(told));
        original.machine.state().0 = carried.context;
        let kept = carried.trail.iter().all(|&key| original.follows(key));
        assert!(kept, "a key of a trail that is kept does not need more");
        original
    }

    /// A step that does what is told.
    fn tell(&mut self, told: Told) {
        ROUNDS.set(Rounds::within(MOST_ROUNDS));
        let done = by(By::Told(told), || self.machine_with_tables().input_key(TableKey::Own));
        assert!(done.is_ok(), "the original panics at a key that every root has an edge for");
    }

    /// Tries a key in one round. Whether it went by a successor, no step ran, and it was not unmapped.
    fn follows(&mut self, key: u16) -> bool {
        ROUNDS.set(Rounds::within(1));
        AT_FLAGGED.set(false);
        by(By::Following, || self.machine_with_tables().input_key(TableKey::Of(key))).is_ok()
    }

    /// Whether a key needs more. It is consumed where it comes to a root that holds no step, and a step would be a flagged one.
    fn needs_more(mut self, key: u16) -> bool {
        self.follows(key) && (AT_FLAGGED.get() || !self.is_at_root())
    }

    fn is_at_root(mut self) -> bool {
        ROUNDS.set(Rounds::within(1));
        let thrown = by(By::Asking, || self.machine_with_tables().input_key(TableKey::Own)).err();
        thrown.is_some_and(|t| t.downcast_ref::<AtRoot>().is_some_and(|at| at.0))
    }

    pub fn empty_queue(&mut self) -> Vec<Pair> {
        std::iter::from_fn(|| self.machine.pop()).map(|(action, context)| Pair { action, context }).collect()
    }

    /// What a sequence remembers, where no pair waits.
    pub fn remembered(&mut self, sequence: u16) -> Vec<Pair> {
        self.machine.repeat(TableSequence(sequence), None);
        self.empty_queue()
    }
}

impl Start {
    /// Whether each key of the trail needs more.
    fn walks(&self) -> bool {
        let Carried { mode, trail, .. } = &self.carried;
        trail.iter().enumerate().all(|(at, &key)| {
            let carried = Carried { mode: *mode, trail: trail[..at].to_vec(), ..Carried::default() };
            Oracle::begun(Start { carried, ..self.clone() }).needs_more(key)
        })
    }
}
