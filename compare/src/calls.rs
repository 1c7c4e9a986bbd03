//! The calls of document 01 with their tables, steps and answers, and the range checks of refusal 1.
//! Numbers are `u16` even where a range is smaller, so that a list can hold values outside their ranges.

#[derive(Clone, Copy, Debug, Eq, Hash, Ord, PartialEq, PartialOrd)]
pub enum Event {
    Key(u16),
    Class(u16),
    Any,
    Fallthrough,
}

#[derive(Clone, Copy, Debug, PartialEq)]
pub enum Repeat {
    Once,
    Min(u16),
    Max(u16),
}

#[derive(Clone, Copy, Debug, PartialEq)]
pub struct Part {
    pub repeat: Repeat,
    pub event: Event,
}

#[derive(Clone, Debug, Default, PartialEq)]
pub struct Step {
    pub flag: bool,
    pub actions: Vec<u16>,
    pub next: Option<u16>,
    pub fallthrough: Option<u16>,
    pub mark: Option<u16>,
}

/// `typed` says whether the count was: a 0 may be typed too.
#[derive(Clone, Copy, Debug, Default, PartialEq)]
pub struct Context {
    pub count: u16,
    pub typed: bool,
    pub mark: u16,
}

#[derive(Clone, Copy, Debug, PartialEq)]
pub struct ClassEntry {
    pub class: u16,
    pub low: u16,
    pub high: u16,
}

#[derive(Clone, Debug, Default, PartialEq)]
pub struct ModeEntry {
    pub enter: Vec<u16>,
    pub unmapped: Vec<u16>,
    pub next: Option<u16>,
}

#[derive(Clone, Copy, Debug, PartialEq)]
pub struct Rule {
    pub mode: u16,
    pub low: u16,
    pub high: u16,
    pub sequence: u16,
    pub status: u16,
}

#[derive(Clone, Debug, Default, PartialEq)]
pub struct Tables {
    pub classes: Vec<ClassEntry>,
    pub modes: Vec<ModeEntry>,
    pub rules: Vec<Rule>,
}

/// A change has map and prefix calls alone.
#[derive(Clone, Debug, PartialEq)]
pub enum Call {
    Open(Tables),
    Map(u16, Vec<Part>, Step),
    Prefix(u16, Vec<Part>, Option<Step>),
    Key { key: u16, budget: u16 },
    Pop,
    Repeat(u16, Option<Context>),
    Reset,
    Change(Tables, Vec<Call>),
}

/// (action, count, mark), the count typed or not
#[derive(Clone, Copy, Debug, PartialEq)]
pub struct Pair {
    pub action: u16,
    pub context: Context,
}

#[derive(Clone, Copy, Debug, PartialEq)]
pub enum Answer {
    Accepted,
    Refused(u16),
    Pair(Pair),
    Nothing,
    Rounds(u32),
    RefusedRounds(u16, u32),
}

impl std::fmt::Display for Answer {
    fn fmt(&self, f: &mut std::fmt::Formatter<'_>) -> std::fmt::Result {
        match self {
            Answer::Accepted => write!(f, "accepted"),
            Answer::Refused(n) => write!(f, "refused {n}"),
            Answer::Pair(p) => write!(f, "pair {} {} {}", p.action, p.context.count_text(), p.context.mark),
            Answer::Nothing => write!(f, "nothing"),
            Answer::Rounds(r) => write!(f, "rounds {r}"),
            Answer::RefusedRounds(n, r) => write!(f, "refused {n} rounds {r}"),
        }
    }
}

// ---- ranges: whether a value may be given at all

pub fn is_mode(m: u16) -> bool {
    m <= 15
}

fn may_be_mode(m: Option<u16>) -> bool {
    m.is_none_or(is_mode)
}

fn actions_valid(actions: &[u16]) -> bool {
    actions.len() <= 4
}

fn part_valid(p: &Part) -> bool {
    let repeat = match p.repeat {
        Repeat::Once => true,
        Repeat::Min(n) | Repeat::Max(n) => n <= 255,
    };
    let event = match p.event {
        Event::Class(c) => c <= 255,
        _ => true,
    };
    repeat && event
}

fn step_valid(s: &Step) -> bool {
    actions_valid(&s.actions) && may_be_mode(s.next) && may_be_mode(s.fallthrough) && s.mark != Some(0)
}

pub fn binding_valid(mode: u16, path: &[Part], step: Option<&Step>) -> bool {
    is_mode(mode) && path.len() <= 32 && path.iter().all(part_valid) && step.is_none_or(step_valid)
}

pub fn tables_valid(t: &Tables) -> bool {
    t.classes.len() <= 16
        && t.classes.iter().all(|c| c.class <= 255 && c.low <= c.high)
        && t.modes.len() <= 16
        && t.modes.iter().all(|m| actions_valid(&m.enter) && actions_valid(&m.unmapped) && may_be_mode(m.next))
        && t.rules.len() <= 64
        && t.rules.iter().all(|r| is_mode(r.mode) && r.low <= r.high && r.sequence <= 7 && r.status <= 4)
}

// ---- the tables' meaning, which the model and the instance over the original share

impl Tables {
    pub fn memberships(&self, key: u16) -> Vec<u16> {
        self.classes.iter().filter(|c| c.low <= key && key <= c.high).map(|c| c.class).collect()
    }

    /// A mode that the table does not reach has empty lists and no next mode.
    pub fn mode(&self, mode: u16) -> ModeEntry {
        self.modes.get(mode as usize).cloned().unwrap_or_default()
    }

    /// (sequence, status) of all rules that match, in order.
    pub fn sequences(&self, mode: u16, action: u16) -> Vec<(u16, u16)> {
        self.rules
            .iter()
            .filter(|r| r.mode == mode && r.low <= action && action <= r.high)
            .map(|r| (r.sequence, r.status))
            .collect()
    }
}

impl Context {
    pub fn take(&mut self) -> Context {
        std::mem::take(self)
    }

    /// The count of `over` if it was typed, and its mark if it is not 0; else the own ones.
    pub fn merge(self, over: Context) -> Context {
        Context {
            count: if over.typed { over.count } else { self.count },
            typed: self.typed || over.typed,
            mark: if over.mark != 0 { over.mark } else { self.mark },
        }
    }

    /// The count as the run writes it and C gives it: 0 if none was typed, and else one more than it is.
    pub fn count_number(self) -> u32 {
        if self.typed {
            self.count as u32 + 1
        } else {
            0
        }
    }

    /// The count as the programs print it: a dash if none was typed.
    pub fn count_text(self) -> String {
        if self.typed {
            self.count.to_string()
        } else {
            "-".into()
        }
    }
}

/// The digit that a key types.
pub fn digit_of(key: u16) -> Option<u16> {
    (48..=57).contains(&key).then(|| key - 48)
}

/// A key of 32,768 or more: its first key and the rest.
pub fn decompose(key: u16) -> Option<(u16, u16)> {
    (key >= 32_768).then(|| (27, key - 32_768))
}
