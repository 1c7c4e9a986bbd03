//! The original's graph, with the limits of document 01: nodes, edges, following, and adding a path. The functions carry
//! the original's names and keep its order of work, so that the first of the refusals 2, 3 and 4 met is the one that
//! document 01 names. The roots of all modes always exist here; the original makes one when it is first asked for.

use std::collections::HashMap;
use std::sync::OnceLock;

use crate::calls::{Call, Event, Part, Repeat, Step, Tables};
use crate::chains;
use crate::met::{met, met_if, met_part, Met, Place};

const ROOTS: usize = 16;

/// The most nodes beside the roots, the most edges, and the most binding calls that a machine keeps.
#[derive(Clone, Copy)]
pub struct Limits {
    pub nodes: usize,
    pub edges: usize,
    pub kept: usize,
}

/// COMPARE_LIMITS (as "24 40" or "24 40 6") makes them small, so that short lists meet them in every place; `check-rows` then
/// gives its copy of the rules the same limits.
pub fn limits() -> Limits {
    static LIMITS: OnceLock<Limits> = OnceLock::new();
    *LIMITS.get_or_init(|| {
        let Ok(words) = std::env::var("COMPARE_LIMITS") else { return Limits { nodes: 1024, edges: 2048, kept: 1024 } };
        let number = |w: &str| w.parse().expect("COMPARE_LIMITS: two numbers or three");
        let numbers: Vec<usize> = words.split(' ').map(number).collect();
        Limits { nodes: numbers[0], edges: numbers[1], kept: numbers.get(2).copied().unwrap_or(1024) }
    })
}

/// A value, or the number of the refusal.
pub type Outcome<T> = Result<T, u16>;

pub type NodeId = usize;

#[derive(Clone, PartialEq)]
pub enum NodeAction {
    Empty,
    Root,
    Step(Step),
}

impl From<Option<&Step>> for NodeAction {
    fn from(step: Option<&Step>) -> Self {
        step.map_or(NodeAction::Empty, |s| NodeAction::Step(s.clone()))
    }
}

#[derive(Clone, PartialEq)]
pub struct Node {
    pub mode: u16,
    pub action: NodeAction,
}

pub enum Follow {
    Successor(Event, NodeId),
    Fallthrough(NodeId),
    NoSuccessor,
}

#[derive(Clone, Copy)]
struct Edge {
    to: NodeId,
    /// For the counts alone: how many edges were made before it, and whether it has had another end.
    made: usize,
    replaced: bool,
}

#[derive(Clone)]
pub struct Graph {
    nodes: HashMap<NodeId, Node>,
    edges: HashMap<NodeId, HashMap<Event, Edge>>,
    edge_count: usize,
    /// For the counts alone: by chain, how many edges were made before its first edge of a key.
    first_made: Vec<Option<usize>>,
}

impl Graph {
    pub fn fresh() -> Self {
        let root = |m| (m, Node { mode: m as u16, action: NodeAction::Root });
        let nodes = (0..ROOTS).map(root).collect();
        Graph { nodes, edges: HashMap::new(), edge_count: 0, first_made: vec![None; chains::KEYS] }
    }

    pub fn get_node(&self, id: NodeId) -> &Node {
        &self.nodes[&id]
    }

    /// All nodes by their numbers, the roots first.
    pub fn nodes(&self) -> Vec<&Node> {
        (0..self.nodes.len()).map(|id| self.get_node(id)).collect()
    }

    /// All edges: start, event and end, in an order that does not depend on the hash maps.
    pub fn edges(&self) -> Vec<(NodeId, Event, NodeId)> {
        let of = |(&from, edges): (&NodeId, &HashMap<Event, Edge>)| -> Vec<_> {
            edges.iter().map(|(&ev, edge)| (from, ev, edge.to)).collect()
        };
        let mut edges: Vec<_> = self.edges.iter().flat_map(of).collect();
        edges.sort();
        edges
    }

    /// Nodes beside the roots, and edges.
    pub fn size(&self) -> (usize, usize) {
        (self.nodes.len() - ROOTS, self.edge_count)
    }

    /// For the counts alone: the nodes beside the roots to which no edge leads any more.
    pub fn unreached(&self) -> Vec<NodeId> {
        let mut reached = vec![false; self.nodes.len()];
        self.edges.values().flat_map(HashMap::values).for_each(|edge| reached[edge.to] = true);
        (ROOTS..self.nodes.len()).filter(|&node| !reached[node]).collect()
    }

    fn add_node(&mut self, mode: u16, action: NodeAction) -> Outcome<NodeId> {
        let id = self.nodes.len();
        if id == ROOTS + limits().nodes {
            return Err(2);
        }
        self.nodes.insert(id, Node { mode, action });
        Ok(id)
    }

    fn upsert_node(&mut self, mode: u16, prev: NodeId, ev: Event, action: NodeAction) -> Outcome<NodeId> {
        let Some(id) = self.get_edge(prev, ev) else { return self.add_node(mode, action) };
        if matches!(action, NodeAction::Step(_)) {
            let node = self.nodes.get_mut(&id).unwrap();
            node.action = action;
            if node.mode != mode {
                return Err(4);
            }
        }
        Ok(id)
    }

    fn add_edge(&mut self, from: NodeId, to: NodeId, ev: Event) -> Outcome<()> {
        let edge = match self.edge(from, ev) {
            Some(old) => {
                met_if(old.to != to, Met::EdgeReplaced);
                Edge { to, replaced: old.replaced || old.to != to, ..old }
            },
            None if self.edge_count == limits().edges => return Err(3),
            None => self.new_edge(from, to, ev),
        };
        self.edges.entry(from).or_default().insert(ev, edge);
        Ok(())
    }

    fn new_edge(&mut self, from: NodeId, to: NodeId, ev: Event) -> Edge {
        let made = self.edge_count;
        self.edge_count += 1;
        if let Event::Key(key) = ev {
            self.first_made[chains::of_key(from as u16, key)].get_or_insert(made);
        }
        Edge { to, made, replaced: false }
    }

    fn edge(&self, from: NodeId, ev: Event) -> Option<Edge> {
        self.edges.get(&from)?.get(&ev).copied()
    }

    fn get_edge(&self, from: NodeId, ev: Event) -> Option<NodeId> {
        self.edge(from, ev).map(|edge| edge.to)
    }

    pub fn has_edges(&self, id: NodeId) -> bool {
        self.edges.get(&id).is_some_and(|es| !es.is_empty())
    }

    pub fn follow_edge(&self, tables: &Tables, id: NodeId, key: u16) -> Follow {
        self.note_followed(tables, id, key);
        let classes = tables.memberships(key).into_iter().map(Event::Class);
        for ev in std::iter::once(Event::Key(key)).chain(classes).chain(std::iter::once(Event::Any)) {
            if let Some(end) = self.get_edge(id, ev) {
                return Follow::Successor(ev, end);
            }
        }
        match self.get_edge(id, Event::Fallthrough) {
            Some(end) => Follow::Fallthrough(end),
            None => Follow::NoSuccessor,
        }
    }
}

// ---- what following met, for the counts alone

/// The events that an edge for the key may have but the key itself, in their order; a class may be there twice.
fn other_events(tables: &Tables, key: u16) -> Vec<Event> {
    let classes = tables.memberships(key).into_iter().map(Event::Class);
    classes.chain([Event::Any, Event::Fallthrough]).collect()
}

impl Graph {
    fn note_followed(&self, tables: &Tables, id: NodeId, key: u16) {
        let others = other_events(tables, key);
        let mut edges: Vec<(Event, Edge)> =
            others.iter().filter_map(|&ev| self.edge(id, ev).map(|edge| (ev, edge))).collect();
        self.note_others(id, &others, edges.first());
        if let Some(edge) = self.note_key(id, key) {
            edges.insert(0, (Event::Key(key), edge));
        }
        if let Some((first, behind)) = edges.split_first() {
            note_order(*first, behind);
        }
    }

    /// The node's edge for the key, and whether its chain has edges before it.
    fn note_key(&self, id: NodeId, key: u16) -> Option<Edge> {
        let edge = self.edge(id, Event::Key(key));
        let first = self.first_made[chains::of_key(id as u16, key)];
        match edge {
            Some(edge) => met_if(first.is_some_and(|made| made < edge.made), Met::KeyBehindOthers),
            None => met_if(first.is_some(), Met::NoKeyButOthers),
        }
        edge
    }

    /// Whether a node whose edges are on the same chain has one for the key, too: made before the one that is taken, or alone.
    /// Fallthrough edges do not count: a Max makes hundreds.
    fn note_others(&self, id: NodeId, others: &[Event], taken: Option<&(Event, Edge)>) {
        let alike = (id % chains::ALIKE..self.nodes.len()).step_by(chains::ALIKE).filter(|&node| node != id);
        let (_, others) = others.split_last().unwrap();
        let theirs = alike.flat_map(|node| others.iter().filter_map(move |&ev| self.edge(node, ev)));
        match (theirs.map(|edge| edge.made).min(), taken) {
            (Some(made), Some((_, edge))) => met_if(made < edge.made, Met::BehindAlike),
            (Some(_), None) => met(Met::NoneButAlike),
            _ => {},
        }
    }
}

/// The edge that is taken, and in order those that it goes before.
fn note_order(taken: (Event, Edge), behind: &[(Event, Edge)]) {
    let (event, edge) = taken;
    met_if(edge.replaced, Met::ReplacedTaken);
    for &(other, Edge { made, .. }) in behind.iter().filter(|(other, _)| *other != event) {
        met_if(made < edge.made, passed_by(event, other));
    }
    met_if(behind.iter().any(|(other, _)| *other == event), Met::ClassTwice);
}

/// An edge for the one event is taken, and one for the other was made before it.
fn passed_by(taken: Event, other: Event) -> Met {
    match (taken, other) {
        (Event::Key(_), Event::Class(_)) => Met::KeyMadeAfterClass,
        (Event::Key(_), Event::Any) => Met::KeyMadeAfterAny,
        (Event::Key(_), _) => Met::KeyMadeAfterFall,
        (Event::Class(_), Event::Class(_)) => Met::ClassMadeAfterClass,
        (Event::Class(_), Event::Any) => Met::ClassMadeAfterAny,
        (Event::Class(_), _) => Met::ClassMadeAfterFall,
        _ => Met::AnyMadeAfterFall,
    }
}

// ---- adding a path

/// A path on its way: the original's `mode`, `prev` and `fallthrough`.
struct Adding<'a> {
    graph: &'a mut Graph,
    mode: u16,
    prev: NodeId,
    fallthrough: bool,
}

impl Adding<'_> {
    fn add_node(&mut self, action: NodeAction) -> Outcome<NodeId> {
        self.graph.add_node(self.mode, action)
    }

    fn add_simple_step(&mut self, ev: Event, step: Option<&Step>) -> Outcome<NodeId> {
        let id = self.graph.upsert_node(self.mode, self.prev, ev, step.into())?;
        if self.fallthrough {
            met(Met::FallBehindMin);
            self.graph.add_edge(self.prev, id, Event::Fallthrough)?;
            self.fallthrough = false;
        }
        self.graph.add_edge(self.prev, id, ev)?;
        Ok(id)
    }

    /// The loop `for _ in 1..n` with a plain step of the path.
    fn add_simples(&mut self, n: u16, ev: Event) -> Outcome<()> {
        for _ in 1..n {
            self.prev = self.add_simple_step(ev, None)?;
        }
        Ok(())
    }

    /// What every Max with an n above 0 does after its end has been made.
    fn add_optionals(&mut self, n: u16, ev: Event, end: NodeId) -> Outcome<()> {
        for _ in 1..n {
            let id = self.add_simple_step(ev, None)?;
            self.graph.add_edge(id, end, Event::Fallthrough)?;
            self.prev = id;
        }
        self.graph.add_edge(self.prev, end, ev)
    }

    fn add_intermediate(&mut self, part: &Part) -> Outcome<()> {
        let ev = part.event;
        if let Some(end) = self.graph.get_edge(self.prev, ev) {
            met(Met::EdgeFollowed);
            self.prev = end;
            return Ok(());
        }
        met_part(Place::OnTheWay, part.repeat);
        match part.repeat {
            Repeat::Once => self.prev = self.add_simple_step(ev, None)?,
            Repeat::Min(n) => {
                let many = self.add_node(NodeAction::Empty)?;
                self.graph.add_edge(many, many, ev)?;
                if n == 0 {
                    self.graph.add_edge(self.prev, many, Event::Fallthrough)?;
                } else {
                    self.add_simples(n, ev)?;
                    self.graph.add_edge(self.prev, many, ev)?;
                }
                self.fallthrough = true;
                self.prev = many;
            },
            Repeat::Max(0) => {},
            Repeat::Max(n) => {
                let end = self.add_node(NodeAction::Empty)?;
                self.graph.add_edge(self.prev, end, Event::Fallthrough)?;
                self.add_optionals(n, ev, end)?;
                self.prev = end;
            },
        }
        Ok(())
    }

    fn prefix_last(&mut self, last: &Part, single: bool, step: Option<&Step>) -> Outcome<()> {
        let (root, ev) = (self.mode as NodeId, last.event);
        met_part(if single { Place::PrefixAlone } else { Place::PrefixLast }, last.repeat);
        match last.repeat {
            Repeat::Once if step.is_none() => self.graph.add_edge(self.prev, root, ev),
            Repeat::Once => {
                let id = self.add_node(step.into())?;
                self.graph.add_edge(self.prev, id, ev)?;
                self.graph.add_edge(id, root, Event::Fallthrough)
            },
            Repeat::Min(n) => {
                let n = if single { n.max(1) } else { n };
                let end = self.add_node(step.into())?;
                let many = self.add_node(NodeAction::Empty)?;
                self.graph.add_edge(many, many, ev)?;
                self.graph.add_edge(many, end, Event::Fallthrough)?;
                self.graph.add_edge(end, root, Event::Fallthrough)?;
                if n == 0 {
                    self.graph.add_edge(self.prev, end, Event::Fallthrough)?;
                } else {
                    self.add_simples(n, ev)?;
                }
                self.graph.add_edge(self.prev, many, ev)
            },
            Repeat::Max(0) if single => Ok(()),
            Repeat::Max(n) => {
                let end = self.add_node(step.into())?;
                self.graph.add_edge(self.prev, end, Event::Fallthrough)?;
                self.graph.add_edge(end, root, Event::Fallthrough)?;
                if n == 0 {
                    return Ok(());
                }
                self.add_optionals(n, ev, end)
            },
        }
    }

    /// The node that the mapping's step stands in.
    fn mapping_last(&mut self, last: &Part, step: &Step) -> Outcome<NodeId> {
        let ev = last.event;
        met_part(Place::MappingLast, last.repeat);
        match last.repeat {
            Repeat::Once => self.add_simple_step(ev, Some(step)),
            Repeat::Min(n) => {
                let end = self.add_node(Some(step).into())?;
                let many = self.add_node(NodeAction::Empty)?;
                self.graph.add_edge(many, end, Event::Fallthrough)?;
                self.graph.add_edge(many, many, ev)?;
                if n == 0 {
                    self.graph.add_edge(self.prev, end, Event::Fallthrough)?;
                } else {
                    self.add_simples(n, ev)?;
                }
                self.graph.add_edge(self.prev, many, ev)?;
                Ok(end)
            },
            Repeat::Max(n) => {
                let end = self.add_node(Some(step).into())?;
                self.graph.add_edge(self.prev, end, Event::Fallthrough)?;
                if n != 0 {
                    self.add_optionals(n, ev, end)?;
                }
                Ok(end)
            },
        }
    }
}

impl Graph {
    fn adding(&mut self, mode: u16) -> Adding<'_> {
        Adding { graph: self, mode, prev: mode as NodeId, fallthrough: false }
    }

    fn add_prefix(&mut self, mode: u16, path: &[Part], step: Option<&Step>) -> Outcome<()> {
        let Some((last, prefix)) = path.split_last() else { return Ok(()) };
        let mut adding = self.adding(mode);
        for part in prefix {
            adding.add_intermediate(part)?;
        }
        adding.prefix_last(last, prefix.is_empty(), step)?;
        self.note_full();
        Ok(())
    }

    fn add_mapping(&mut self, mode: u16, path: &[Part], step: &Step) -> Outcome<()> {
        let Some((last, prefix)) = path.split_last() else { return Ok(()) };
        let mut adding = self.adding(mode);
        for part in prefix {
            adding.add_intermediate(part)?;
        }
        let end = adding.mapping_last(last, step)?;
        if let Some(mode) = step.fallthrough {
            self.add_edge(end, mode as NodeId, Event::Fallthrough)?;
        }
        self.note_full();
        Ok(())
    }

    /// A map or prefix call whose values are in their ranges.
    pub fn bind(&mut self, binding: &Call) -> Outcome<()> {
        match binding {
            Call::Map(mode, path, step) => self.add_mapping(*mode, path, step),
            Call::Prefix(mode, path, step) => self.add_prefix(*mode, path, step.as_ref()),
            _ => unreachable!("no other call binds"),
        }
    }

    /// For the counts alone.
    fn note_full(&self) {
        let (nodes, edges) = self.size();
        met_if(nodes == limits().nodes, Met::NodesFull);
        met_if(edges == limits().edges, Met::EdgesFull);
    }
}
