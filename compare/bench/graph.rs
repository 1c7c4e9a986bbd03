//! Times of the key graph's functions, by the archive of the crate `bench`.

use std::hint::black_box;

use crate::timing::{clock, compare, Times};

extern "C" {
    fn bench_index(graph: *const Graph, links: *mut [u16; LINKS]);
    fn bench_follow(graph: *const Graph, links: *const [u16; LINKS], tables: *const Tables, node: u16, key: u16)
        -> u16;
    fn bench_add_in_place(n: u16) -> u16;
    fn bench_add_by_value(n: u16) -> u16;
}

/// How many edges and nodes a graph has room for.
const EDGES: usize = 2_048;
const NODES: usize = 1_040;

/// How many links an index has.
const LINKS: usize = 3_328;

/// How many classes the tables have room for, and how many words stand behind these.
const CLASSES: usize = 16;
const OTHERS: usize = 114;

/// A key that no edge takes.
const NOBODYS: u16 = 60_000;

/// What a following to no node answers.
const NOWHERE: u16 = 65_535;

/// An edge's word, as the key graph packs it.
fn edge(from: u64, code: u64, to: u64) -> u64 {
    to + 65_536 * (from + 65_536 * code)
}

/// A class's word, as the key graph packs it.
fn class(class: u64, low: u64, high: u64) -> u64 {
    class + 65_536 * (low + 65_536 * high)
}

/// The tables, as the key graph has them. Only the classes are filled.
#[repr(C)]
struct Tables {
    class_count: u16,
    classes: [u64; CLASSES],
    others: [u64; OTHERS],
}

/// Tables of these classes alone.
fn tables(classes: &[u64]) -> Tables {
    let mut tables = Tables { class_count: classes.len() as u16, classes: [0; CLASSES], others: [0; OTHERS] };
    tables.classes[..classes.len()].copy_from_slice(classes);
    tables
}

/// A graph, as the key graph has it.
#[repr(C)]
struct Graph {
    edges: [u64; EDGES],
    nodes: [[u64; 2]; NODES],
    node_count: u16,
    edge_count: u16,
}

/// A graph of which only the edges are filled, with the index of these.
struct Edges {
    graph: Graph,
    links: [u16; LINKS],
}

impl Edges {
    fn new(edges: &[u64]) -> Self {
        let mut graph =
            Graph { edges: [0; EDGES], nodes: [[0; 2]; NODES], node_count: 0, edge_count: edges.len() as u16 };
        graph.edges[..edges.len()].copy_from_slice(edges);
        let mut links = [0; LINKS];
        unsafe { bench_index(&graph, &mut links) };
        Self { graph, links }
    }

    fn follow_once(&self, tables: &Tables, key: u16) -> u16 {
        unsafe { bench_follow(&self.graph, &self.links, tables, black_box(0), black_box(key)) }
    }

    /// Nanoseconds of a following from node 0.
    fn follow(&self, tables: &Tables, key: u16) -> Times {
        const CALLS: usize = 20_000;
        let [times] = compare([&mut || {
            clock(|| {
                for _ in 0..CALLS {
                    black_box(self.follow_once(tables, key));
                }
            })
        }]);
        times.each(CALLS)
    }
}

/// The three followings at so many edges: a Key edge near the end, no edge and no class, and no edge but one class.
pub struct Followings {
    pub edges: usize,
    pub hit: Times,
    pub miss: Times,
    pub class: Times,
}

pub fn followings(n: usize) -> Followings {
    let words: Vec<u64> = (0..n as u64).map(|i| edge(i % 40, i, 16 + i % 1000)).collect();
    let with_class = Edges::new(&[&[edge(0, 65_536, 77)], &words[1..]].concat());
    let edges = Edges::new(&words);
    let last = ((n - 1) / 40 * 40) as u16;
    let none = tables(&[]);
    let digits = tables(&[class(0, NOBODYS as u64 - 1, NOBODYS as u64 + 1)]);
    assert_eq!(edges.follow_once(&none, last), 16 + last % 1000);
    assert_eq!(edges.follow_once(&none, NOBODYS), NOWHERE);
    assert_eq!(edges.follow_once(&digits, NOBODYS), NOWHERE);
    // the class's word means what is meant by it: with an edge for the class, the key goes along it
    assert_eq!(with_class.follow_once(&digits, NOBODYS), 77);
    Followings {
        edges: n,
        hit: edges.follow(&none, last),
        miss: edges.follow(&none, NOBODYS),
        class: edges.follow(&digits, NOBODYS),
    }
}

/// Nanoseconds to add a binding of two keys to a graph of 976 to 1,036 nodes, in place and by value.
pub fn adding() -> [Times; 2] {
    const FEW: u16 = 480;
    const MANY: u16 = 510;
    const TIMES: usize = 5;
    type Add = unsafe extern "C" fn(u16) -> u16;
    let turn = |add: Add, n: u16| {
        move || {
            clock(|| {
                for _ in 0..TIMES {
                    let nodes = unsafe { add(black_box(n)) };
                    assert_eq!(nodes, 16 + 2 * n);
                }
            })
        }
    };
    let [few, many, few_by_value, many_by_value] = compare([
        &mut turn(bench_add_in_place, FEW),
        &mut turn(bench_add_in_place, MANY),
        &mut turn(bench_add_by_value, FEW),
        &mut turn(bench_add_by_value, MANY),
    ]);
    let each = |few: Times, many: Times| many.less(few).each((MANY - FEW) as usize * TIMES);
    [each(few, many), each(few_by_value, many_by_value)]
}

/// So many bindings by value, for the stack that they use.
pub fn add_by_value(n: u16) {
    black_box(unsafe { bench_add_by_value(black_box(n)) });
}
