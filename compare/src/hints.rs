//! The hint: how many nodes can still be made, by the model, and which of its cases were met.

use crate::calls::{Answer, Call};
use crate::graph::{limits, Graph};
use crate::met::{expect_all, met_named, met_named_if};

/// 1,024 less the nodes that accepted calls have made since the machine was fresh. These are the nodes of the model's graph
/// beside the roots, of which none is ever taken away: a refused call leaves the copy of the model that was made before it,
/// without the nodes of its work (`Model::tried`), and an open and a change begin with a fresh graph.
pub fn hint(graph: &Graph) -> usize {
    limits().nodes - graph.size().0
}

/// The same in the words of `callplay`.
pub fn answer(graph: &Graph, last: Last) -> String {
    note(graph, last);
    format!("free {}", hint(graph))
}

// ---- counts

/// The call before a hint, for the counts alone.
#[derive(Clone, Copy)]
pub enum Last {
    /// An open of a machine with some nodes beside the roots; whether it was accepted.
    Open(bool),
    /// A binding: the number of its refusal or 0, and how many nodes its work had made when it ended.
    Binding(u16, usize),
    /// A change of the map of a machine with some nodes: the same, of the new map.
    Change(u16, usize),
    /// Any other, or an open or a change of a machine without such nodes.
    Other,
}

impl Last {
    /// The call of a machine with so many nodes beside the roots, whose work had so many when it ended.
    pub fn of(call: &Call, answer: Answer, nodes: usize, ended: usize) -> Self {
        let refusal = if let Answer::Refused(n) = answer { n } else { 0 };
        match call {
            Call::Open(_) if nodes > 0 => Last::Open(refusal == 0),
            Call::Map(..) | Call::Prefix(..) => Last::Binding(refusal, ended - nodes),
            Call::Change(..) if nodes > 0 => Last::Change(refusal, ended),
            _ => Last::Other,
        }
    }

    /// No binding is refused with 1 or 4 after it has made a node. 1 is met before the graph is touched. 4 is met at the path's
    /// last part, where an edge that exists leads a mapping's step to a node of another mode. Once the call has made a node, its
    /// path stands at one of those that it made, whose edges lead to others of them; and all of these have the call's own mode.
    pub fn is_possible(self) -> Result<(), String> {
        match self {
            Last::Binding(refusal @ (1 | 4), made) if made > 0 => {
                Err(format!("a binding that made {made} nodes is refused with {refusal}"))
            },
            _ => Ok(()),
        }
    }
}

const FRESH: &str = "hint: 1,024 left, no node made";
const SOME: &str = "hint: some left";
const ONE: &str = "hint: one left";
const NONE: &str = "hint: none left";
const UNREACHED: &str = "hint: with a made node that no edge leads to any more";
const MADE: &str = "hint: after an accepted binding that made nodes";
const MADE_NONE: &str = "hint: after an accepted binding that made no node";
const NODES_OUT: &str = "hint: after a binding refused with 2 that had made nodes";
const EDGES_OUT: &str = "hint: after a binding refused with 3 that had made nodes";
const KEPT_OUT: &str = "hint: after a binding refused with 11 that had made nodes";
const ELSEWHERE: &str = "hint: after a binding refused with 4, which had made none";
const NONE_REFUSED: &str = "hint: none left, after a refused binding";
const OTHER: &str = "hint: nodes made, after a key, a pop, a repeat or a reset";
const OPENED: &str = "hint: after an accepted open of a machine that had nodes";
const OPEN_REFUSED: &str = "hint: after a refused open of a machine that had nodes";
const CHANGED: &str = "hint: after an accepted change of a map that had nodes";
const CHANGE_REFUSED: &str = "hint: after a change refused when its bindings had made nodes";

/// What a report shows of the hint even when it is never met.
pub fn expect() {
    expect_all(&[
        FRESH,
        SOME,
        ONE,
        NONE,
        UNREACHED,
        MADE,
        MADE_NONE,
        NODES_OUT,
        EDGES_OUT,
        KEPT_OUT,
        ELSEWHERE,
        NONE_REFUSED,
        OTHER,
        OPENED,
        OPEN_REFUSED,
        CHANGED,
        CHANGE_REFUSED,
    ]);
}

fn note(graph: &Graph, last: Last) {
    let left = hint(graph);
    met_named_if(left == limits().nodes, FRESH);
    met_named_if(left > 1 && left < limits().nodes, SOME);
    met_named_if(left == 1, ONE);
    met_named_if(left == 0, NONE);
    met_named_if(!graph.unreached().is_empty(), UNREACHED);
    match last {
        Last::Open(accepted) => met_named(if accepted { OPENED } else { OPEN_REFUSED }.into()),
        Last::Binding(0, made) => met_named(if made == 0 { MADE_NONE } else { MADE }.into()),
        Last::Binding(refusal, made) => note_refused(refusal, made, left),
        Last::Change(0, _) => met_named(CHANGED.into()),
        Last::Change(_, made) => met_named_if(made > 0, CHANGE_REFUSED),
        Last::Other => met_named_if(left < limits().nodes, OTHER),
    }
}

fn note_refused(refusal: u16, made: usize, left: usize) {
    met_named_if(refusal == 2 && made > 0, NODES_OUT);
    met_named_if(refusal == 3 && made > 0, EDGES_OUT);
    met_named_if(refusal == 11 && made > 0, KEPT_OUT);
    met_named_if(refusal == 4, ELSEWHERE);
    met_named_if(left == 0, NONE_REFUSED);
}
