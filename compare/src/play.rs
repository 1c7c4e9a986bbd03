//! One list of calls on the model and on the original at once. The model gives the refusals; every call that it accepts
//! goes to the original too, and both must then show the same and have made the same rounds.

use crate::calls::{Answer, Call, Context, Pair, Tables};
use crate::carried::Carried;
use crate::changes::{self, Old};
use crate::graph::limits;
use crate::hints::Last;
use crate::met::{expect_named, met_named};
use crate::model::Model;
use crate::oracle::{Made, Oracle};
use crate::typed;

/// What can be seen after a call.
#[derive(Clone, Debug, PartialEq)]
pub struct Seen {
    pub answer: Answer,
    pub mode: u16,
    pub context: Context,
    pub queued: usize,
    pub trail: Vec<u16>,
}

pub struct Both {
    pub model: Model,
    original: Oracle,
    last: Last,
    is_changed: bool,
}

impl Both {
    pub fn fresh() -> Self {
        let (model, original) = (Model::fresh(Tables::default()), Oracle::fresh());
        Both { model, original, last: Last::Other, is_changed: false }
    }

    /// The last call.
    pub fn last(&self) -> Last {
        self.last
    }

    /// Whether a change brought the map.
    pub fn is_changed(&self) -> bool {
        self.is_changed
    }

    /// The answer and what is seen, or how model and original differ.
    pub fn call(&mut self, call: &Call) -> Result<Seen, String> {
        let (full, nodes) = (self.model.keeps() == limits().kept, self.model.graph().size().0);
        let old =
            matches!(call, Call::Change(..)).then(|| Old { model: self.model.clone(), is_changed: self.is_changed });
        let answer = self.model.call(call);
        self.last = Last::of(call, answer, nodes, self.model.ended().nodes);
        self.last.is_possible()?;
        met_named(format!("{}: {}", name_of(call), answer_kind(answer)));
        if let Answer::Pair(pair) = answer {
            typed::note_sort(typed::POPPED, pair.context);
        }
        if full && matches!(call, Call::Map(..) | Call::Prefix(..)) {
            met_named(format!("{KEPT_FULL}: {}", answer_kind(answer)));
        }
        match (call, old) {
            (Call::Change(tables, bindings), Some(old)) => {
                self.follow_change(&old.model, tables, bindings, answer)?;
                changes::note(&old, tables, bindings, answer, &self.model);
            },
            _ => self.follow(call, answer)?,
        }
        self.note_changed(call, answer);
        let (mode, context) = (self.model.mode(), self.model.context());
        if (mode, context) != (self.original.mode(), self.original.context()) {
            return Err(format!(
                "after {call:?} ({answer}) the model has mode {mode} and {context:?}, the original mode {} and {:?}",
                self.original.mode(),
                self.original.context()
            ));
        }
        Ok(Seen { answer, mode, context, queued: self.model.queue().len(), trail: self.model.trail().to_vec() })
    }

    /// Holds the original to the model's answer. A refusal of the documents' own leaves the original as it is.
    fn follow(&mut self, call: &Call, answer: Answer) -> Result<(), String> {
        match (call, answer) {
            (_, Answer::Refused(4)) if !self.original.panics_at(call) => Err(format!("no panic at {call:?}")),
            (Call::Key { key, .. }, Answer::RefusedRounds(n, rounds)) => self.follow_refused(*key, n, rounds),
            (_, Answer::Refused(_)) => Ok(()),
            _ => self.follow_accepted(call, answer),
        }
    }

    /// 8: the original would begin a further round. Else it makes the last of the rounds, and perhaps more. 12: that is the
    /// first in which its count is cut; else none is.
    fn follow_refused(&mut self, key: u16, refusal: u16, rounds: u32) -> Result<(), String> {
        let due = if refusal == 8 { rounds + 1 } else { rounds };
        let made = self.original.makes(due, key);
        let cut = (refusal == 12).then_some(rounds);
        if made.is_some_and(|m| m.rounds == due && m.cut.filter(|&round| round <= rounds) == cut) {
            return Ok(());
        }
        Err(format!(
            "key {key} is refused with {refusal} after {rounds} rounds, but within {due} the original has {made:?}"
        ))
    }

    fn follow_accepted(&mut self, call: &Call, answer: Answer) -> Result<(), String> {
        let pair = self.original.accept(call)?;
        if matches!(call, Call::Pop) && pair != pair_of(answer) {
            return Err(format!("the original pops {pair:?}, the model {answer}"));
        }
        match (answer, self.original.made()) {
            (Answer::Rounds(rounds), made) if made != (Made { rounds, cut: None }) => {
                Err(format!("at {call:?} the model makes {rounds} rounds, and the original has {made:?}"))
            },
            _ => Ok(()),
        }
    }
}

// ---- a change of map, which the original lacks

impl Both {
    /// Refused, the original stays as it is, and for 4 another must panic at the binding. Accepted, it must have the pairs that
    /// the model had; then it is made anew with the new map and what passes over, and must keep the trail where the model does.
    fn follow_change(&mut self, old: &Model, tables: &Tables, bindings: &[Call], answer: Answer) -> Result<(), String> {
        match answer {
            Answer::Refused(4) if !Oracle::panics_in(&bindings[..=self.model.ended().kept]) => {
                Err("no panic at the binding by which a change is refused".into())
            },
            Answer::Refused(_) => Ok(()),
            _ => self.change_original(old.carried(), tables, bindings),
        }
    }

    fn change_original(&mut self, carried: Carried, tables: &Tables, bindings: &[Call]) -> Result<(), String> {
        let queue = self.original.empty_queue();
        if queue != carried.queue {
            return Err(format!(
                "before a change {queue:?} wait in the original, and in the model {:?}",
                carried.queue
            ));
        }
        for sequence in &carried.sequences {
            let pairs = self.original.remembered(sequence.number);
            if pairs != sequence.pairs {
                return Err(format!(
                    "before a change the original remembers {pairs:?} of sequence {}, and the model {:?}",
                    sequence.number, sequence.pairs
                ));
            }
        }
        let trail = carried.trail.clone();
        let (original, is_kept) = Oracle::changed(tables, bindings, carried)?;
        self.original = original;
        let kept = if is_kept { &trail[..] } else { &[] };
        if kept != self.model.trail() {
            return Err(format!(
                "of the trail {trail:?} the original keeps {kept:?}, the model {:?}",
                self.model.trail()
            ));
        }
        Ok(())
    }

    fn note_changed(&mut self, call: &Call, answer: Answer) {
        match (call, answer) {
            (Call::Open(_), Answer::Accepted) => self.is_changed = false,
            (Call::Change(..), Answer::Accepted) => self.is_changed = true,
            (Call::Map(..) | Call::Prefix(..), _) if self.is_changed => changes::note_binding(answer),
            _ => {},
        }
    }
}

fn pair_of(answer: Answer) -> Option<Pair> {
    match answer {
        Answer::Pair(p) => Some(p),
        _ => None,
    }
}

/// A list with the pops and repeats at its end that show what it left: the queue, and each remembered sequence.
pub struct Played {
    pub calls: Vec<Call>,
    pub seen: Vec<Seen>,
    /// Nodes beside the roots, and edges.
    pub size: (usize, usize),
}

pub fn play(list: &[Call]) -> Result<Played, String> {
    let mut both = Both::fresh();
    let mut played = Played { calls: vec![], seen: vec![], size: (0, 0) };
    for call in list {
        played.add(&mut both, call.clone())?;
    }
    played.empty_queue(&mut both)?;
    for sequence in 0..8 {
        if !both.model.sequence(sequence).is_empty() {
            played.add(&mut both, Call::Repeat(sequence, None))?;
            played.empty_queue(&mut both)?;
        }
    }
    played.size = both.model.graph().size();
    Ok(played)
}

/// The open, binding and change calls of a list, and the model that they leave: the original's nodes and edges cannot be seen, and
/// it has no map file.
pub fn build(list: &[Call]) -> Result<(Vec<Call>, Model), String> {
    let is_binding = |c: &&Call| matches!(c, Call::Open(_) | Call::Map(..) | Call::Prefix(..) | Call::Change(..));
    let calls: Vec<Call> = list.iter().filter(is_binding).cloned().collect();
    let mut both = Both::fresh();
    for call in &calls {
        both.call(call)?;
    }
    Ok((calls, both.model))
}

impl Played {
    fn add(&mut self, both: &mut Both, call: Call) -> Result<Answer, String> {
        let seen = both.call(&call)?;
        let answer = seen.answer;
        self.calls.push(call);
        self.seen.push(seen);
        Ok(answer)
    }

    fn empty_queue(&mut self, both: &mut Both) -> Result<(), String> {
        while self.add(both, Call::Pop)? != Answer::Nothing {}
        Ok(())
    }
}

/// Where 11 is due, whatever is refused by an older number must be so still.
const KEPT_FULL: &str = "a binding where 1,024 calls are kept";

/// The answers that a report shows even when they are never met.
pub fn expect_answers() {
    let refusals: [(&str, &[u16]); 7] = [
        ("open", &[1]),
        ("map", &[1, 2, 3, 4, 11]),
        ("prefix", &[1, 2, 3, 11]),
        ("key", &[5, 6, 7, 8, 12]),
        ("repeat", &[1, 5]),
        ("reset", &[5, 6]),
        ("change", &[1, 2, 3, 4, 11]),
    ];
    for (call, numbers) in refusals {
        expect_named(format!("{call}: accepted"));
        numbers.iter().for_each(|n| expect_named(format!("{call}: refused {n}")));
    }
    [1, 2, 3, 4, 11].iter().for_each(|n| expect_named(format!("{KEPT_FULL}: refused {n}")));
}

fn name_of(call: &Call) -> &'static str {
    match call {
        Call::Open(_) => "open",
        Call::Map(..) => "map",
        Call::Prefix(..) => "prefix",
        Call::Key { .. } => "key",
        Call::Pop => "pop",
        Call::Repeat(..) => "repeat",
        Call::Reset => "reset",
        Call::Change(..) => "change",
    }
}

fn answer_kind(answer: Answer) -> String {
    match answer {
        Answer::Pair(_) => "pair".into(),
        Answer::Rounds(_) => "accepted".into(),
        Answer::Refused(n) | Answer::RefusedRounds(n, _) => format!("refused {n}"),
        other => other.to_string(),
    }
}
