//! The unchanged original over the benchmark's maps: the tables' meaning as in ../src/oracle.rs, but with nothing in the
//! timed path that the original's traits do not ask for: no rounds are counted, no call is remembered, and no table is copied.

use std::cell::Cell;

use keybindings::{
    BindingMachine, EdgeEvent, EdgeRepeat, InputKey, InputKeyClass, InputKeyState, InputState, ModalMachine, Mode,
    ModeKeys, ModeSequence, SequenceStatus, Step,
};

use crate::inputs::{Event, Map, Rule, DIGITS};
use crate::status::status_of;
use crate::sum::Sum;

/// The traits pass no tables along, so those of the machine at work stand here.
#[derive(Clone, Copy)]
struct Tables {
    classes: &'static [(u16, u16, u16)],
    rules: &'static [Rule],
}

thread_local! {
    static TABLES: Cell<Tables> = const { Cell::new(Tables { classes: &[], rules: &[] }) };
}

#[derive(Clone, Copy, Debug, Eq, Hash, PartialEq)]
struct Key(u16);

impl InputKey for Key {
    type Error = ();

    fn decompose(&mut self) -> Option<Self> {
        if self.0 < 32_768 {
            return None;
        }
        self.0 -= 32_768;
        Some(Key(27))
    }

    fn from_macro_str(_: &str) -> Result<Vec<Self>, ()> {
        Err(())
    }

    fn get_char(&self) -> Option<char> {
        None
    }
}

#[derive(Clone, Debug, Eq, Hash, PartialEq)]
struct Class(u16);

impl InputKeyClass<Key> for Class {
    fn memberships(key: &Key) -> Vec<Self> {
        let entries = TABLES.get().classes.iter();
        entries.filter(|(_, low, high)| (*low..=*high).contains(&key.0)).map(|&(class, ..)| Class(class)).collect()
    }
}

#[derive(Clone, Copy, Debug, Default, PartialEq)]
struct Context {
    count: u16,
    typed: bool,
    mark: u16,
}

impl InputState for Context {
    type Output = Context;
    type CursorHint = ();

    fn reset(&mut self) {
        *self = Context::default();
    }

    fn take(&mut self) -> Context {
        std::mem::take(self)
    }

    fn merge(original: Context, overrides: &Context) -> Context {
        Context {
            count: if overrides.typed { overrides.count } else { original.count },
            typed: original.typed || overrides.typed,
            mark: if overrides.mark != 0 { overrides.mark } else { original.mark },
        }
    }
}

/// The count is cut at 65,535, where our machine refuses the key: no tape of the benchmark comes to that.
impl InputKeyState<Key, Class> for Context {
    fn event(&mut self, event: &EdgeEvent<Key, Class>, key: &Key) {
        match event {
            EdgeEvent::Class(Class(0)) if DIGITS.contains(&key.0) => {
                let count = self.count as u32 * 10 + (key.0 - DIGITS.start()) as u32;
                self.count = count.min(65_535) as u16;
                self.typed = true;
            },
            EdgeEvent::Any => self.mark = key.0,
            _ => {},
        }
    }
}

#[derive(Clone, Copy, Debug, Default, Eq, Hash, PartialEq)]
struct TableMode(u16);

/// The benchmark's maps have no mode table: every list is empty, and no next mode is given.
impl Mode<u16, Context> for TableMode {
    fn enter(&self, _: Self, _: &mut Context) -> Vec<u16> {
        vec![]
    }
}

impl ModeKeys<Key, u16, Context> for TableMode {
    fn unmapped(&self, _: &Key, _: &mut Context) -> (Vec<u16>, Option<Self>) {
        (vec![], None)
    }
}

#[derive(Clone, Copy, Debug, Eq, Hash, PartialEq)]
struct Sequence(u16);

impl ModeSequence<Sequence, u16, Context> for TableMode {
    fn sequences(&self, action: &u16, _: &Context) -> Vec<(Sequence, SequenceStatus)> {
        if self.0 != 0 {
            return vec![];
        }
        let rules = TABLES.get().rules.iter();
        let matching = rules.filter(|r| (r.low..=r.high).contains(action));
        matching.map(|r| (Sequence(r.sequence), status_of(r.status))).collect()
    }
}

/// A step of one action, the only sort that the benchmark's maps have.
#[derive(Clone, Debug)]
struct Act(u16);

impl Step<Key> for Act {
    type A = u16;
    type State = Context;
    type Class = Class;
    type M = TableMode;
    type Sequence = Sequence;

    fn is_unmapped(&self) -> bool {
        false
    }

    fn step(&self, _: &mut Context) -> (Vec<u16>, Option<TableMode>) {
        (vec![self.0], None)
    }
}

pub struct Original(ModalMachine<Key, Act>);

impl Original {
    pub fn of(map: &'static Map) -> Self {
        TABLES.set(Tables { classes: &map.classes, rules: &map.rules });
        let mut machine = ModalMachine::empty();
        for binding in &map.bindings {
            let event = |e: &Event| match *e {
                Event::Key(k) => (EdgeRepeat::Once, EdgeEvent::Key(Key(k))),
                Event::Class(c) => (EdgeRepeat::Once, EdgeEvent::Class(Class(c))),
            };
            let path: Vec<_> = binding.path.iter().map(event).collect();
            match binding.action {
                Some(action) => machine.add_mapping(TableMode(0), &path, &Act(action)),
                None => machine.add_prefix(TableMode(0), &path, &None),
            }
        }
        Original(machine)
    }

    /// Each key, and then pops until there is nothing.
    pub fn press(&mut self, keys: &[u16]) -> Sum {
        let mut sum = Sum::default();
        for &key in keys {
            self.0.input_key(Key(key));
            while let Some((action, context)) = self.0.pop() {
                sum.add(action, context.typed.then_some(context.count), context.mark);
            }
        }
        sum
    }
}
