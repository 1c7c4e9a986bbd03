//! Find: what the model answers, by its own nodes, and which of its cases were met.

use crate::calls::is_mode;
use crate::graph::{Graph, Node, NodeAction, NodeId, Outcome};
use crate::met::{expect_all, met_named_if};

fn has(node: &Node, mode: u16, action: u16) -> bool {
    matches!(&node.action, NodeAction::Step(s) if node.mode == mode && s.actions.contains(&action))
}

/// The lowest-numbered node of the mode whose step has the action.
pub fn find(graph: &Graph, mode: u16, action: u16) -> Outcome<Option<NodeId>> {
    if !is_mode(mode) {
        return Err(1);
    }
    Ok(graph.nodes().iter().position(|n| has(n, mode, action)))
}

/// The same in the words of `callplay`.
pub fn answer(graph: &Graph, mode: u16, action: u16) -> String {
    let found = find(graph, mode, action);
    note(graph, found, mode, action);
    match found {
        Err(n) => format!("refused {n}"),
        Ok(Some(node)) => format!("node {node}"),
        Ok(None) => "none".into(),
    }
}

/// A mode and an action for each action that a step has: as they are, in the mode after, and action 0 instead.
pub fn chances(graph: &Graph) -> Vec<(u16, u16)> {
    let of = |n: &&Node| match &n.action {
        NodeAction::Step(s) => s.actions.iter().map(|&a| (n.mode, a)).collect(),
        _ => vec![],
    };
    let had: Vec<(u16, u16)> = graph.nodes().iter().flat_map(of).collect();
    let mut all: Vec<(u16, u16)> = had.iter().flat_map(|&(m, a)| [(m, a), (m + 1, a), (m, 0)]).collect();
    all.sort();
    all.dedup();
    all
}

// ---- counts

const REFUSED: &str = "find: refused 1";
const REFUSED_BY_ONE: &str = "find: refused 1, for mode 16";
const FOUND: &str = "find: a node";
const IN_THE_LAST_MODE: &str = "find: a node of mode 15";
const LOWEST: &str = "find: the lowest of several nodes";
const ROOT: &str = "find: a root";
const ROOT_FIRST: &str = "find: a root, where a higher node has the action too";
const FLAGGED: &str = "find: a flagged step";
const LATER_ACTION: &str = "find: an action that is not the first of its step";
const LAST_NODE: &str = "find: the last of 1,024 nodes";
const UNREACHED: &str = "find: a node that no edge leads to any more";
const NONE: &str = "find: none";
const ELSEWHERE: &str = "find: none, where a node of another mode has the action";
const ONLY_GIVEN: &str = "find: none, where a step of the mode gives action 0 without having it";

/// What a report shows of find even when it is never met.
pub fn expect() {
    expect_all(&[
        REFUSED,
        REFUSED_BY_ONE,
        FOUND,
        IN_THE_LAST_MODE,
        LOWEST,
        ROOT,
        ROOT_FIRST,
        FLAGGED,
        LATER_ACTION,
        LAST_NODE,
        UNREACHED,
        NONE,
        ELSEWHERE,
        ONLY_GIVEN,
    ]);
}

fn note(graph: &Graph, found: Outcome<Option<NodeId>>, mode: u16, action: u16) {
    match found {
        Err(_) => {
            met_named_if(true, REFUSED);
            met_named_if(mode == 16, REFUSED_BY_ONE);
        },
        Ok(Some(node)) => note_node(graph, node, action),
        Ok(None) => note_none(graph, mode, action),
    }
}

fn note_node(graph: &Graph, node: NodeId, action: u16) {
    let found = graph.get_node(node);
    let NodeAction::Step(step) = &found.action else { unreachable!("only a step has an action") };
    let several = graph.nodes().iter().filter(|n| has(n, found.mode, action)).count() > 1;
    met_named_if(true, FOUND);
    met_named_if(found.mode == 15, IN_THE_LAST_MODE);
    met_named_if(several, LOWEST);
    met_named_if(node < 16, ROOT);
    met_named_if(node < 16 && several, ROOT_FIRST);
    met_named_if(step.flag, FLAGGED);
    met_named_if(step.actions[0] != action, LATER_ACTION);
    met_named_if(node == 16 + 1023, LAST_NODE);
    met_named_if(graph.unreached().contains(&node), UNREACHED);
}

fn note_none(graph: &Graph, mode: u16, action: u16) {
    let only_gives = |n: &&Node| match &n.action {
        NodeAction::Step(s) => n.mode == mode && s.actions.is_empty() && s.next.is_some(),
        _ => false,
    };
    met_named_if(true, NONE);
    met_named_if(graph.nodes().iter().any(|n| has(n, n.mode, action)), ELSEWHERE);
    met_named_if(action == 0 && graph.nodes().iter().any(only_gives), ONLY_GIVEN);
}
