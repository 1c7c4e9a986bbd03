//! The original's machine written again with what it does not have: a count of rounds with a budget, the limits of document 01,
//! and an event hook that refuses (document 02). The functions carry the original's names and keep its order of work, so that
//! the first refusal met is the one that the documents name. `play.rs` holds every accepted call of it to the original itself.

use std::collections::{HashMap, VecDeque};
use std::rc::Rc;

use crate::calls::{
    binding_valid, decompose, digit_of, tables_valid, Answer, Call, Context, Event, Pair, Step, Tables,
};
use crate::carried::{Carried, Sequence};
use crate::graph::{limits, Follow, Graph, NodeAction, NodeId, Outcome};
use crate::met::{aside, met, met_if, met_which, stacked, Met};
use crate::typed::{self, Typing};
use crate::walk::walk;
use crate::writing::file_of;

const MOST_QUEUED: usize = 256;
const MOST_TRACKED: usize = 64;
const MOST_TRAIL: usize = 64;
const MOST_STACKED: usize = 130;
const MOST_COUNTED: u32 = 65_535;

// ---- sequences

#[derive(Clone, Default)]
struct Tracker {
    sequence: Vec<Pair>,
    sequence_break: bool,
    /// For the counts alone: whether an override has changed its pairs.
    overridden: bool,
}

impl Tracker {
    fn push(&mut self, status: u16, pair: Pair) -> Outcome<()> {
        match status {
            0 => self.starts(pair, true, Met::Atom),
            1 => {
                met(Met::Break);
                self.sequence_break = true;
            },
            3 => self.starts(pair, false, Met::Restart),
            4 if self.sequence_break => self.starts(pair, false, Met::TrackAnew),
            4 if self.sequence.len() == MOST_TRACKED => return Err(6),
            4 => {
                met(Met::TrackOn);
                self.sequence.push(pair);
                met_if(self.sequence.len() == MOST_TRACKED, Met::TrackedFull);
            },
            _ => met(Met::Ignore),
        }
        Ok(())
    }

    fn merge(&mut self, over: Context) {
        for pair in &mut self.sequence {
            typed::note_merge(pair.context, over);
            pair.context = pair.context.merge(over);
        }
        self.overridden = true;
    }

    fn starts(&mut self, pair: Pair, sequence_break: bool, by: Met) {
        met(by);
        *self = Tracker { sequence: vec![pair], sequence_break, overridden: false };
    }
}

// ---- the machine

enum InputResult {
    ClearTrail,
    Consumed,
    Step(Step),
    RetryAfter(Step),
    NeedMore,
    Unmapped,
}

struct Rounds {
    made: u32,
    budget: u32,
    /// For the counts alone: the key that the last round was due for.
    key: u16,
}

impl Rounds {
    fn within(budget: u16) -> Self {
        Rounds { made: 0, budget: budget as u32, key: 0 }
    }

    fn next(&mut self, key: u16) -> Outcome<()> {
        self.key = key;
        if self.made == self.budget {
            return Err(8);
        }
        self.made += 1;
        Ok(())
    }
}

#[derive(Clone)]
pub struct Model {
    tables: Tables,
    graph: Graph,
    /// The accepted binding calls in order, those with an empty path too.
    kept: Vec<Rc<Call>>,
    curr: NodeId,
    mode: u16,
    context: Context,
    queue: VecDeque<Pair>,
    trail: Vec<u16>,
    sequences: HashMap<u16, Tracker>,
    /// For the counts alone.
    ended: Ended,
    typing: Typing,
}

/// How many nodes beside the roots and kept calls there were when the work of the last call but a pop ended, refused or not.
#[derive(Clone, Copy, Default)]
pub struct Ended {
    pub nodes: usize,
    pub kept: usize,
}

impl Model {
    pub fn fresh(tables: Tables) -> Self {
        Model {
            tables,
            graph: Graph::fresh(),
            kept: vec![],
            curr: 0,
            mode: 0,
            context: Context::default(),
            queue: VecDeque::new(),
            trail: vec![],
            sequences: HashMap::new(),
            ended: Ended::default(),
            typing: Typing::default(),
        }
    }

    // ---- what can be seen of it

    pub fn mode(&self) -> u16 {
        self.mode
    }

    pub fn context(&self) -> Context {
        self.context
    }

    pub fn queue(&self) -> Vec<Pair> {
        self.queue.iter().copied().collect()
    }

    pub fn trail(&self) -> &[u16] {
        &self.trail
    }

    pub fn sequence(&self, sequence: u16) -> Vec<Pair> {
        self.sequences.get(&sequence).map(|t| t.sequence.clone()).unwrap_or_default()
    }

    pub fn graph(&self) -> &Graph {
        &self.graph
    }

    pub fn tables(&self) -> &Tables {
        &self.tables
    }

    pub fn place(&self) -> NodeId {
        self.curr
    }

    pub fn ended(&self) -> Ended {
        self.ended
    }

    /// What passes over to a new map.
    pub fn carried(&self) -> Carried {
        let sequence = |(&number, t): (&u16, &Tracker)| Sequence {
            number,
            pairs: t.sequence.clone(),
            is_broken: t.sequence_break,
        };
        Carried {
            mode: self.mode,
            context: self.context,
            queue: self.queue(),
            trail: self.trail.clone(),
            sequences: self.sequences.iter().map(sequence).collect(),
        }
    }

    // ---- the map file

    /// Tables and kept calls, as a map file.
    pub fn file(&self) -> Vec<u8> {
        file_of(&self.tables, self.kept.iter().map(Rc::as_ref))
    }

    pub fn keeps(&self) -> usize {
        self.kept.len()
    }

    pub fn kept(&self) -> Vec<Call> {
        self.kept.iter().map(|call| Call::clone(call)).collect()
    }

    /// Whether a fresh machine with these tables and bindings equals this one in its tables, bindings and kept calls.
    pub fn is_bound_by(&self, tables: &Tables, bindings: &[Call]) -> bool {
        let mut graph = Graph::fresh();
        let bound = bindings.iter().all(|b| graph.bind(b).is_ok());
        let same = graph.nodes() == self.graph.nodes() && graph.edges() == self.graph.edges();
        bound && same && *tables == self.tables && self.kept.iter().map(Rc::as_ref).eq(bindings)
    }

    // ---- pushing

    fn push(&mut self, pair: Pair) -> Outcome<()> {
        for (sequence, status) in self.tables.sequences(self.mode, pair.action) {
            self.sequences.entry(sequence).or_default().push(status, pair)?;
        }
        if self.queue.len() == MOST_QUEUED {
            return Err(5);
        }
        self.queue.push_back(pair);
        met_if(self.queue.len() == MOST_QUEUED, Met::QueueFull);
        Ok(())
    }

    fn push_all(&mut self, actions: Vec<u16>) -> Outcome<()> {
        let context = self.context.take();
        self.typing.take(context, !actions.is_empty());
        for action in actions {
            self.push(Pair { action, context })?;
        }
        Ok(())
    }

    fn goto_mode(&mut self, mode: u16) -> Outcome<()> {
        met_if(self.mode == mode, Met::EnterSame);
        self.curr = mode as NodeId;
        self.mode = mode;
        let actions = self.tables.mode(mode).enter;
        met_if(!actions.is_empty(), Met::EnterActions);
        self.push_all(actions)
    }

    fn unmapped(&mut self) -> Outcome<()> {
        let mode = self.graph.get_node(self.curr).mode;
        let entry = self.tables.mode(mode);
        met_if(mode != self.mode, Met::UnmappedElsewhere);
        met_if(entry.next.is_some(), Met::UnmappedNext);
        met_which(entry.unmapped.is_empty(), Met::UnmappedDefault, Met::UnmappedList);
        let actions = if entry.unmapped.is_empty() { vec![0] } else { entry.unmapped };
        self.push_all(actions)?;
        self.goto_mode(entry.next.unwrap_or(self.mode))
    }

    fn step(&mut self, step: &Step) -> Outcome<()> {
        if let Some(mark) = step.mark {
            met(Met::StepMark);
            self.typing.step_mark();
            self.context.mark = mark;
        }
        match (step.actions.len(), step.next) {
            (0, None) => {
                met(Met::StepNothing);
                Ok(())
            },
            (0, Some(mode)) => {
                met(Met::StepNext);
                self.push_all(vec![0])?;
                self.goto_mode(mode)
            },
            (_, next) => {
                met_which(next.is_some(), Met::StepBoth, Met::StepActions);
                self.push_all(step.actions.clone())?;
                self.goto_mode(next.unwrap_or(self.mode))
            },
        }
    }

    // ---- the key loop

    fn input(&mut self, key: u16, rounds: &mut Rounds) -> Outcome<InputResult> {
        loop {
            rounds.next(key)?;
            match self.graph.follow_edge(&self.tables, self.curr, key) {
                Follow::Successor(event, end) => {
                    self.note_event(event, key);
                    self.event(event, key)?;
                    self.curr = end;
                    return Ok(self.arrived());
                },
                Follow::NoSuccessor => {
                    met(Met::Stuck);
                    met_if(self.would_pass(key), Met::PassingStuck);
                    return Ok(InputResult::Unmapped);
                },
                Follow::Fallthrough(end) => {
                    met_if(self.graph.get_node(end).mode != self.graph.get_node(self.curr).mode, Met::FallsAcross);
                    self.curr = end;
                    match &self.graph.get_node(end).action {
                        NodeAction::Empty => met(Met::FallsToEmpty),
                        NodeAction::Root => {
                            met(Met::FallsToRoot);
                            return Ok(InputResult::ClearTrail);
                        },
                        NodeAction::Step(s) => {
                            met_which(s.flag, Met::FallsToFlagged, Met::FallsToStep);
                            return Ok(InputResult::RetryAfter(s.clone()));
                        },
                    }
                },
            }
        }
    }

    /// The event hook: a digit's key by class 0 counts and types, Any sets the mark.
    fn event(&mut self, event: Event, key: u16) -> Outcome<()> {
        match (event, digit_of(key)) {
            (Event::Class(0), Some(digit)) => self.count(digit)?,
            (Event::Any, _) => self.context.mark = key,
            _ => {},
        }
        Ok(())
    }

    fn count(&mut self, digit: u16) -> Outcome<()> {
        let count = self.counted(digit);
        note_count(self.context.count as u32, count);
        if count > MOST_COUNTED {
            return Err(12);
        }
        self.typing.digit(self.context, digit);
        self.context.count = count as u16;
        self.context.typed = true;
        Ok(())
    }

    /// The count with one more digit.
    fn counted(&self, digit: u16) -> u32 {
        self.context.count as u32 * 10 + digit as u32
    }

    /// Whether a key is a digit that would take the count past its limit.
    fn would_pass(&self, key: u16) -> bool {
        digit_of(key).is_some_and(|digit| self.counted(digit) > MOST_COUNTED)
    }

    /// For the counts alone.
    fn note_event(&mut self, event: Event, key: u16) {
        self.typing.event(self.context, event, key);
        let passing = self.would_pass(key);
        match event {
            Event::Key(_) => {
                met(Met::ByKey);
                met_if(passing, Met::PassingByKey);
            },
            Event::Class(c) => {
                met_which(self.tables.memberships(key).first() == Some(&c), Met::ByFirstClass, Met::ByLaterClass);
                met_if(c == 0 && digit_of(key).is_none(), Met::NoDigit);
                met_if(c != 0 && passing, Met::PassingByClass);
            },
            Event::Any => {
                met(Met::ByAny);
                met(Met::AnyMark);
                met_if(passing, Met::PassingByAny);
            },
            Event::Fallthrough => unreachable!("no key takes a Fallthrough edge as its own"),
        }
    }

    fn arrived(&self) -> InputResult {
        let (place, result) = match &self.graph.get_node(self.curr).action {
            NodeAction::Step(s) if !s.flag => (Met::AtStep, InputResult::Step(s.clone())),
            NodeAction::Step(_) if self.graph.has_edges(self.curr) => (Met::AtFlaggedOpen, InputResult::NeedMore),
            NodeAction::Step(_) => (Met::AtFlaggedEnd, InputResult::Unmapped),
            NodeAction::Empty => (Met::AtEmpty, InputResult::NeedMore),
            NodeAction::Root => (Met::AtRoot, InputResult::Consumed),
        };
        met(place);
        result
    }

    fn input_key(&mut self, key: u16, rounds: &mut Rounds) -> Outcome<()> {
        let mut stack = vec![key];
        while let Some(key) = stack.pop() {
            self.try_key(key, &mut stack, rounds)?;
        }
        Ok(())
    }

    /// The inner loop of the original's `input_key`: one key until it is consumed, needs more or is unmapped.
    fn try_key(&mut self, mut key: u16, stack: &mut Vec<u16>, rounds: &mut Rounds) -> Outcome<()> {
        loop {
            match self.input(key, rounds)? {
                InputResult::Consumed => {
                    self.trail.clear();
                    return Ok(());
                },
                InputResult::NeedMore => {
                    if self.trail.len() == MOST_TRAIL {
                        return Err(7);
                    }
                    self.trail.push(key);
                    met_if(self.trail.len() == MOST_TRAIL, Met::TrailFull);
                    return Ok(());
                },
                InputResult::Unmapped => {
                    if let Some((first, rest)) = decompose(key) {
                        met_which(self.trail.is_empty(), Met::Decomposed, Met::DecomposedHalf);
                        key = first;
                        stack.push(rest);
                        self.stacked(stack.len() + 1);
                        continue;
                    }
                    met_which(self.trail.is_empty(), Met::GivenUp, Met::GivenUpHalf);
                    let mut trail = std::mem::take(&mut self.trail);
                    trail.push(key);
                    self.unmapped()?;
                    stack.extend(trail[1..].iter().rev());
                    self.stacked(stack.len());
                    return Ok(());
                },
                InputResult::ClearTrail => self.trail.clear(),
                InputResult::RetryAfter(step) => {
                    self.trail.clear();
                    self.step(&step)?;
                },
                InputResult::Step(step) => {
                    self.trail.clear();
                    return self.step(&step);
                },
            }
        }
    }

    /// Document 01: the stack never exceeds 130 keys, the one at work included.
    fn stacked(&mut self, keys: usize) {
        assert!(keys <= MOST_STACKED, "a stack of {keys} keys");
        stacked(keys);
    }

    // ---- repeat and reset

    fn repeat(&mut self, sequence: u16, over: Option<Context>) -> Outcome<()> {
        if sequence > 7 {
            return Err(1);
        }
        let tracker = self.sequences.entry(sequence).or_default();
        note_repeat(tracker, over.is_some());
        if tracker.sequence.len() + self.queue.len() > MOST_QUEUED {
            return Err(5);
        }
        if let Some(over) = over {
            tracker.merge(over);
        }
        for pair in tracker.sequence.iter().rev() {
            self.queue.push_front(*pair);
        }
        met_if(!tracker.sequence.is_empty() && self.queue.len() == MOST_QUEUED, Met::QueueFullRepeat);
        Ok(())
    }

    fn reset_mode(&mut self) -> Outcome<()> {
        met_if(!self.trail.is_empty(), Met::ResetTrail);
        met_if(self.sequences.values().any(|t| !t.sequence.is_empty()), Met::ResetTracked);
        for tracker in self.sequences.values_mut() {
            tracker.sequence_break = true;
        }
        self.goto_mode(0)
    }

    // ---- calls

    /// An accepted call changes the machine; a refused one leaves it as it was.
    pub fn call(&mut self, call: &Call) -> Answer {
        match call {
            Call::Key { key, budget } => self.key(*key, *budget),
            Call::Pop => self.queue.pop_front().map_or(Answer::Nothing, Answer::Pair),
            _ => match self.tried(|m| m.perform(call)) {
                Ok(()) => Answer::Accepted,
                Err(n) => Answer::Refused(n),
            },
        }
    }

    fn key(&mut self, key: u16, budget: u16) -> Answer {
        let mut rounds = Rounds::within(budget);
        let waiting = self.queue.len();
        match self.tried(|m| m.input_key(key, &mut rounds).inspect_err(|&n| m.note_refused(n, &rounds, waiting))) {
            Ok(()) => Answer::Rounds(rounds.made),
            Err(n) => Answer::RefusedRounds(n, rounds.made),
        }
    }

    /// For the counts alone: a key that is refused with 12, or with 8 before it. So many pairs waited when it came, and the
    /// machine is as the refusal finds it.
    fn note_refused(&self, refusal: u16, rounds: &Rounds, waiting: usize) {
        match refusal {
            8 => met_if(self.one_round(rounds.key, self.context.count) == Err(12), Met::BudgetFirst),
            12 => {
                met_if(rounds.made > 1, Met::CountLater);
                met_if(self.queue.len() > waiting, Met::CountAfterPairs);
                match self.one_round(rounds.key, 0) {
                    Err(5) => met(Met::CountBeforeQueue),
                    Err(6) => met(Met::CountBeforeTracked),
                    Err(7) => met(Met::CountBeforeTrail),
                    _ => {},
                }
            },
            _ => {},
        }
    }

    /// What the next round would come to for a key and a count.
    fn one_round(&self, key: u16, count: u16) -> Outcome<()> {
        let mut other = self.clone();
        other.context.count = count;
        aside(|| other.try_key(key, &mut vec![], &mut Rounds::within(1)))
    }

    fn perform(&mut self, call: &Call) -> Outcome<()> {
        match call {
            Call::Open(t) if !tables_valid(t) => Err(1),
            Call::Open(t) => {
                *self = Model::fresh(t.clone());
                Ok(())
            },
            Call::Map(..) | Call::Prefix(..) => self.bind(call),
            Call::Repeat(sequence, over) => self.repeat(*sequence, *over),
            Call::Reset => self.reset_mode(),
            Call::Change(tables, bindings) => self.change(tables, bindings),
            Call::Key { .. } | Call::Pop => unreachable!("these have answers of their own"),
        }
    }

    fn bind(&mut self, call: &Call) -> Outcome<()> {
        match call {
            Call::Map(mode, path, step) if !binding_valid(*mode, path, Some(step)) => return Err(1),
            Call::Prefix(mode, path, step) if !binding_valid(*mode, path, step.as_ref()) => return Err(1),
            _ => {},
        }
        self.graph.bind(call)?;
        self.keep(call)
    }

    fn keep(&mut self, call: &Call) -> Outcome<()> {
        if self.kept.len() == limits().kept {
            return Err(11);
        }
        self.kept.push(Rc::new(call.clone()));
        met_if(self.kept.len() == limits().kept, Met::KeptFull);
        Ok(())
    }

    /// A new map: the tables, as at open, and after them each binding in turn. Queue, sequences, mode and context stay.
    fn change(&mut self, tables: &Tables, bindings: &[Call]) -> Outcome<()> {
        (self.graph, self.kept) = (Graph::fresh(), vec![]);
        if !tables_valid(tables) {
            return Err(1);
        }
        self.tables = tables.clone();
        bindings.iter().try_for_each(|b| self.bind(b))?;
        self.resume();
        self.typing.change(self.context);
        Ok(())
    }

    /// The trail in a new map, from the entered mode's root.
    fn resume(&mut self) {
        let root = self.mode as NodeId;
        match walk(&self.graph, &self.tables, root, &self.trail).end {
            Ok(place) => self.curr = place,
            Err(_) => {
                self.curr = root;
                self.trail.clear();
            },
        }
    }

    fn tried(&mut self, work: impl FnOnce(&mut Model) -> Outcome<()>) -> Outcome<()> {
        let before = self.clone();
        let outcome = work(self);
        let ended = Ended { nodes: self.graph.size().0, kept: self.kept.len() };
        if outcome.is_err() {
            *self = before;
        }
        self.ended = ended;
        outcome
    }
}

/// For the counts alone: a digit that makes a count of another.
fn note_count(old: u32, new: u32) {
    met_which(new > MOST_COUNTED, Met::CountPassed, Met::Digit);
    met_if(new == MOST_COUNTED + 1, Met::CountPassedByOne);
    met_if(new > MOST_COUNTED && old == MOST_COUNTED, Met::CountPassedFull);
    met_if(new == MOST_COUNTED, Met::CountFull);
    met_if(new == 0, Met::LeadingZero);
}

/// For the counts alone.
fn note_repeat(tracker: &Tracker, over: bool) {
    met(match (tracker.sequence.is_empty(), tracker.overridden, over) {
        (true, _, _) => Met::RepeatEmpty,
        (_, false, false) => Met::RepeatPlain,
        (_, false, true) => Met::RepeatOver,
        (_, true, false) => Met::RepeatOverStored,
        (_, true, true) => Met::RepeatOverTwice,
    });
}
