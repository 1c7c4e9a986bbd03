//! Played lists as rows of antt: each call beside what was seen after it, and a theorem for each row. The words
//! that the rows are written in are those of `rows/words.txt`.

use std::fmt::Write;

use crate::calls::{Answer, Call, ClassEntry, Context, Event, ModeEntry, Pair, Part, Repeat, Rule, Step, Tables};
use crate::cases::Case;
use crate::finds;
use crate::graph::{Graph, Node, NodeAction};
use crate::hints;
use crate::play::{Played, Seen};

/// The items of a list, each as antt.
fn list<T>(items: &[T], item: impl Fn(&T) -> String) -> String {
    let mut text = String::from("(");
    for x in items {
        let _ = write!(text, "{} ∷ ", item(x));
    }
    text + "[])"
}

fn numbers(items: &[u16]) -> String {
    list(items, |n| n.to_string())
}

fn option<T>(value: &Option<T>, item: impl Fn(&T) -> String) -> String {
    value.as_ref().map_or("none".into(), |x| format!("(some {})", item(x)))
}

fn maybe(value: Option<u16>) -> String {
    option(&value, u16::to_string)
}

fn event(e: Event) -> String {
    match e {
        Event::Key(k) => format!("(Key {k})"),
        Event::Class(c) => format!("(Class {c})"),
        Event::Any => "Any".into(),
        Event::Fallthrough => "Fallthrough".into(),
    }
}

fn part(p: &Part) -> String {
    let repeat = match p.repeat {
        Repeat::Once => "Once".into(),
        Repeat::Min(n) => format!("(Min {n})"),
        Repeat::Max(n) => format!("(Max {n})"),
    };
    format!("part {repeat} {}", event(p.event))
}

fn step(s: &Step) -> String {
    let flag = if s.flag { "true" } else { "false" };
    format!("(doing {flag} {} {} {} {})", numbers(&s.actions), maybe(s.next), maybe(s.fallthrough), maybe(s.mark))
}

fn class_entry(c: &ClassEntry) -> String {
    format!("class {} {} {}", c.class, c.low, c.high)
}

fn mode_entry(m: &ModeEntry) -> String {
    format!("mode {} {} {}", numbers(&m.enter), numbers(&m.unmapped), maybe(m.next))
}

fn rule(r: &Rule) -> String {
    format!("rule {} {} {} {} {}", r.mode, r.low, r.high, r.sequence, r.status)
}

fn tables(t: &Tables) -> String {
    let (classes, modes, rules) = (list(&t.classes, class_entry), list(&t.modes, mode_entry), list(&t.rules, rule));
    format!("(tables {classes} {modes} {rules})")
}

fn context(c: &Context) -> String {
    format!("(context {} {} {})", c.count, c.typed, c.mark)
}

fn call(c: &Call) -> String {
    match c {
        Call::Open(t) => format!("Open {}", tables(t)),
        Call::Map(mode, path, s) => format!("Map {mode} {} {}", list(path, part), step(s)),
        Call::Prefix(mode, path, s) => format!("Prefix {mode} {} {}", list(path, part), option(s, step)),
        Call::Key { key, budget } => format!("key {key} {budget}"),
        Call::Pop => "Pop".into(),
        Call::Repeat(sequence, over) => format!("Repeats {sequence} {}", option(over, context)),
        Call::Reset => "Reset".into(),
        Call::Change(t, bindings) => format!("Change {} {}", tables(t), list(bindings, binding)),
    }
}

/// A binding of a change.
fn binding(c: &Call) -> String {
    match c {
        Call::Map(mode, path, s) => format!("Maps {mode} {} {}", list(path, part), step(s)),
        Call::Prefix(mode, path, s) => format!("Prefixes {mode} {} {}", list(path, part), option(s, step)),
        _ => unreachable!("a change has bindings only"),
    }
}

fn pair(p: &Pair) -> String {
    format!("pair {} {} {} {}", p.action, p.context.count, p.context.typed, p.context.mark)
}

fn answer(a: Answer) -> String {
    match a {
        Answer::Accepted => "Accepted".into(),
        Answer::Refused(n) => format!("(Refused {n})"),
        Answer::Pair(p) => format!("(Popped ({}))", pair(&p)),
        Answer::Nothing => "Nothing".into(),
        Answer::Rounds(r) => format!("(Pressed {r})"),
        Answer::RefusedRounds(n, r) => format!("(PressRefused {n} {r})"),
    }
}

fn seen(s: &Seen) -> String {
    let (a, c) = (answer(s.answer), s.context);
    format!("seen {a} {} {} {} {} {} {}", s.mode, c.count, c.typed, c.mark, s.queued, numbers(&s.trail))
}

// ---- files of rows

/// A row: its name and its value.
pub struct Row {
    pub name: String,
    pub value: String,
}

pub fn list_row(name: String, played: &Played) -> Row {
    let mut value = String::new();
    for (c, s) in played.calls.iter().zip(&played.seen) {
        let _ = write!(value, "{} ⇒ {}\n    ∷ ", call(c), seen(s));
    }
    Row { name, value: value + "[]" }
}

pub fn run_row(name: String, case: &Case, code: u32, output: &[u8]) -> Row {
    let (map, keys, lent) = (bytes(&case.map), bytes(&case.keys), bytes(&case.lent));
    Row { name, value: format!("ran {map} {keys} {} {lent} {code} {}", case.budget, bytes(output)) }
}

pub fn play_row(name: String, input: &[u8], text: &str) -> Row {
    Row { name, value: format!("printed {} {}", bytes(input), bytes(text.as_bytes())) }
}

/// The graph that binding calls build: its nodes by their numbers, the hint, how many edges it has, each of them, and finds in
/// it.
pub fn graph_row(name: String, calls: &[Call], graph: &Graph) -> Row {
    let (nodes, edges) = (graph.nodes(), graph.edges());
    let (left, count) = (hints::hint(graph), edges.len());
    let (calls, nodes) = (list(calls, call), list(&nodes, |n| node(n)));
    let edges = list(&edges, |(from, ev, to)| format!("led {from} {} (some {to})", event(*ev)));
    let finds = list(&finds::chances(graph), |&(mode, action)| shown(graph, mode, action));
    Row { name, value: format!("built {calls}\n    {nodes}\n    {left} {count} {edges}\n    {finds}") }
}

fn shown(graph: &Graph, mode: u16, action: u16) -> String {
    let found = match finds::find(graph, mode, action) {
        Err(n) => format!("(refuse {n})"),
        Ok(Some(node)) => format!("(accept (some {node}))"),
        Ok(None) => "(accept none)".into(),
    };
    format!("shown {mode} {action} {found}")
}

/// The map file after binding calls, as C gets it in a lent output.
pub fn file_row(name: String, calls: &[Call], lent: &[u8], code: u64, output: &[u8]) -> Row {
    let calls = list(calls, call);
    Row { name, value: format!("filed {calls}\n    {} {code} {}", bytes(lent), bytes(output)) }
}

fn node(n: &Node) -> String {
    let action = match &n.action {
        NodeAction::Empty => "Empty".into(),
        NodeAction::Root => "Root".into(),
        NodeAction::Step(s) => format!("(Holds {})", step(s)),
    };
    format!("node {} {action}", n.mode)
}

fn bytes(items: &[u8]) -> String {
    list(items, |b| b.to_string())
}

const HEAD: &str = "use Prim.Native.Nat.{ℕ}
use mathlib.Core.Path.{◌≡◌, refl}
use mathlib.Core.Bool.{Bool, true, false}
use mathlib.Core.Option.{Option, none, some}
use mathlib.Core.List.{List, [], ◌∷◌}
use Rattle.rules.specs.Basics.{accept, refuse, open-Basics}
use Rattle.rules.specs.Values.{Key, Class, Any, Fallthrough, Once, Min, Max, Maps, Prefixes, pair, open-Values}
use Rattle.rules.specs.Tables.{open-Tables}
use Rattle.rules.specs.Graph.{Empty, Root, Holds, open-Graph}
use Rattle.rules.specs.KeyLoop.{open-KeyLoop}
use Rattle.rules.specs.Calls.{Open, Map, Prefix, Pop, Repeats, Reset, Change, graph_kind, open-Calls}
use Rattle.rules.specs.Calls.{Accepted, Refused, Popped, Nothing, Pressed, PressRefused}
use Rattle.rules.specs.ListReader.{list_kind, open-ListReader}
use Rattle.rules.specs.Numbers.{open-Numbers}
use Rattle.rules.specs.MapFile.{open-MapFile}
use Rattle.rules.specs.Run.{open-Run}
use Rattle.rules.specs.Writing.{open-Writing}
use Rattle.CRATE.proofs.Words.{Tried, ◌⇒◌, seen, part, doing, class, mode, rule, tables, context, key, look, try_all, outcome}
use Rattle.CRATE.proofs.Words.{Ran, ran, run_outcome, Printed, printed, play_outcome, Built, built, node, led, shown, build_outcome}
use Rattle.CRATE.proofs.Words.{Filed, filed, file_outcome}

";

const OPENED: &str =
    "unfolding open-Basics open-Values open-Tables open-Graph open-KeyLoop open-Calls open-ListReader \
                      open-Numbers open-MapFile open-Run open-Writing look try_all outcome run_outcome play_outcome \
                      build_outcome file_outcome";

/// What the rows of a file are, and the function of `rows/words.txt` that gives the rules' own row for one of them.
pub struct Sort {
    pub of: &'static str,
    pub outcome: &'static str,
}

/// A file of rows with a theorem for each, so that a failure names its row. (One theorem for a whole file meets the
/// checker's limit of steps.) `name` is the crate's.
pub fn file(name: &str, sort: &Sort, rows: &[Row]) -> String {
    let Sort { of, outcome } = sort;
    let mut text = HEAD.replace("CRATE", name);
    for Row { name, value } in rows {
        let _ = write!(text, "abbrev pub {name} : {of}\n{name} =\n    {value}\n\n");
        let _ = write!(text, "pub {name}_holds : {outcome} {name} ≡ {name}\n{OPENED}\n{name}_holds = refl\n\n");
    }
    text
}
