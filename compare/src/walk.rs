//! The trail in a new map, from document 02's words: from a root on its keys are followed and nothing else, without hooks. It is
//! kept if each of them needs more and does not fall through.

use crate::calls::{Event, Tables};
use crate::graph::{Follow, Graph, NodeAction, NodeId};
use crate::met::aside;

/// What the first key that does not need more does instead.
#[derive(Clone, Copy, Debug, PartialEq)]
pub enum Lost {
    Stuck,
    Falls,
    Consumed,
    Runs,
    FlaggedEnd,
}

/// For each key that needs more, the event that it goes by and the node come to; and the last of these, or why there is none.
pub struct Walk {
    pub way: Vec<(Event, NodeId)>,
    pub end: Result<NodeId, Lost>,
}

pub fn walk(graph: &Graph, tables: &Tables, root: NodeId, trail: &[u16]) -> Walk {
    let (mut way, mut place) = (vec![], root);
    for &key in trail {
        match needs_more(graph, tables, place, key) {
            Ok((event, end)) => {
                way.push((event, end));
                place = end;
            },
            Err(lost) => return Walk { way, end: Err(lost) },
        }
    }
    Walk { way, end: Ok(place) }
}

/// More is needed at a node without step, and at a flagged step whose node has edges, as in a round.
fn needs_more(graph: &Graph, tables: &Tables, place: NodeId, key: u16) -> Result<(Event, NodeId), Lost> {
    // what a round of the key loop follows is counted there
    let (event, end) = match aside(|| graph.follow_edge(tables, place, key)) {
        Follow::Successor(event, end) => (event, end),
        Follow::Fallthrough(_) => return Err(Lost::Falls),
        Follow::NoSuccessor => return Err(Lost::Stuck),
    };
    match &graph.get_node(end).action {
        NodeAction::Root => Err(Lost::Consumed),
        NodeAction::Step(step) if !step.flag => Err(Lost::Runs),
        NodeAction::Step(_) if !graph.has_edges(end) => Err(Lost::FlaggedEnd),
        NodeAction::Step(_) | NodeAction::Empty => Ok((event, end)),
    }
}
