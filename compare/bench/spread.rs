//! Maps that show how an index spreads the edges over its chains: keys of which it may see too little, and maps that are made
//! against it. But for the mappings of `slow_reading` all bindings are prefixes without a step: they take a key and give
//! nothing, so that following is what a key's time goes to.

use std::ops::Range;

use crate::chains;
use crate::inputs::put_numbers;
use crate::maps::{binding_in, max_class, max_key, once_any, once_class, once_fall, once_key, Part, KEPT, MAPPING, PREFIX};

const MODES: u16 = 16;

/// The nodes that a machine makes beside the modes' roots, and how many of them the longest path of a prefix makes.
const NODES: Range<u16> = MODES..MODES + 1024;
const PATH_NODES: u16 = 31;

/// The key whose edge in mode 0 is looked for on a chain that is made long.
const SOUGHT: u16 = 0;

pub struct Spread {
    pub what: String,
    pub bytes: Vec<u8>,
    pub bindings: u16,
    /// How many modes have bindings.
    pub modes: u16,
    /// Keys to type in mode 0.
    pub keys: Vec<u16>,
    /// Whether times are set for it.
    pub targeted: bool,
}

/// (class, low, high)
type ClassEntry = (u16, u16, u16);

impl Spread {
    fn new(what: &str, classes: &[ClassEntry], modes: u16, keys: Vec<u16>, bindings: &[Vec<u16>]) -> Self {
        let count = bindings.len() as u16;
        let mut bytes = vec![];
        put_numbers(&[classes.len() as u16], &mut bytes);
        classes.iter().for_each(|&(class, low, high)| put_numbers(&[class, low, high], &mut bytes));
        put_numbers(&[0, 0, count], &mut bytes);
        put_numbers(&bindings.concat(), &mut bytes);
        Spread { what: what.into(), bytes, bindings: count, modes, keys, targeted: true }
    }

    fn untargeted(self) -> Self {
        Spread { targeted: false, ..self }
    }

    /// Its keys again and again, in an order that jumps about.
    pub fn tape(&self, count: usize) -> Vec<u8> {
        let typed: Vec<u16> = (0..count).map(|i| self.keys[i * 7919 % self.keys.len()]).collect();
        let mut bytes = vec![];
        put_numbers(&typed, &mut bytes);
        bytes
    }
}

fn prefix(mode: u16, path: &[Part]) -> Vec<u16> {
    binding_in(mode, PREFIX, path, &[])
}

// ---- maps by their keys

/// Prefixes of one key, in each of the modes in turn.
fn in_turn(count: u16, modes: u16, key: fn(u16) -> u16) -> Vec<Vec<u16>> {
    (0..count).map(|i| prefix(i % modes, &[once_key(key(i / modes))])).collect()
}

fn keyed(what: &str, count: u16, modes: u16, key: fn(u16) -> u16) -> Spread {
    let keys = (0..count.div_ceil(modes)).map(key).collect();
    Spread::new(what, &[], modes, keys, &in_turn(count, modes, key))
}

fn usual_key(i: u16) -> u16 {
    1000 + i
}

/// The map that another of so many bindings in so many modes is held to.
pub fn usual(bindings: u16, modes: u16) -> Spread {
    keyed("keys from 1,000 on", bindings, modes, usual_key)
}

// ---- edges of keys on one chain

/// A mode and a key of it.
type Start = (u16, u16);

/// The chain of the edge that a node has for a key.
type Chain = fn(u16, u16) -> usize;

/// How an index of 256 chains did it.
fn low_bytes(node: u16, key: u16) -> usize {
    (usize::from(node) + usize::from(key)) % 256
}

/// The keys whose edges from the node are on the chain of the sought edge, but for that edge.
fn beside(chain: Chain, node: u16) -> impl Iterator<Item = u16> {
    let same = move |key: u16| chain(node, key) == chain(0, SOUGHT);
    (0..=u16::MAX).filter(move |&key| same(key) && (node, key) != (0, SOUGHT))
}

/// Such edges of the modes' roots.
fn starts(chain: Chain) -> impl Iterator<Item = Start> {
    (0..MODES).flat_map(move |mode| beside(chain, mode).map(move |key| (mode, key)))
}

/// Prefixes that begin so and have all their edges on that chain. They make the nodes of the range, in order, and are as long as
/// they may be while nodes are left, and then of one key. So there are as many edges as prefixes and nodes together.
fn crowd(chain: Chain, starts: &[Start], mut nodes: Range<u16>) -> Vec<Vec<u16>> {
    let mut crowded = |&(mode, key): &Start| {
        let further = nodes.by_ref().take(PATH_NODES.into()).map(|node| beside(chain, node).next().unwrap());
        let keys = std::iter::once(key).chain(further);
        prefix(mode, &keys.map(once_key).collect::<Vec<Part>>())
    };
    starts.iter().map(&mut crowded).collect()
}

/// Few bytes that ask for many searches of a long chain. A prefix of one key leads from the root back to it, so each step of
/// Max(255) of that key looks for that edge, twice. The last step leads the key elsewhere, so each time takes another of the last
/// prefixes. A time costs a call and a node, with which the chain could have two edges more; so many times are the slowest.
fn slow_reading(chain: Chain, what: &str) -> Spread {
    const TIMES: u16 = 410;
    let starts: Vec<_> = starts(chain).take((KEPT - TIMES - 1).into()).collect();
    let crowd = crowd(chain, &starts, NODES.start..NODES.end - TIMES);
    let sought = prefix(0, &[once_key(SOUGHT)]);
    let time = |&(mode, key): &Start| binding_in(mode, MAPPING, &[max_key(255, key)], &[0; 5]);
    let times: Vec<_> = starts.iter().rev().take(TIMES.into()).map(time).collect();
    let what = format!("keys on one chain by {what}, then Max(255) of the last {TIMES} of them");
    Spread::new(&what, &[], MODES, vec![SOUGHT], &[crowd, vec![sought], times].concat())
}

// ---- edges of classes

/// As many entries as a table has, each of which gives class 0 to each key.
const IN_VAIN: [ClassEntry; 16] = [(0, 0, u16::MAX); 16];

/// The classes that these entries give to no key.
const NEVER_GIVEN: Range<u16> = 1..256;
const NO_CLASS: Range<u16> = 0..0;

/// As many classes as a key can be in, each of ten keys and with an edge in each mode.
fn many_classes() -> Spread {
    let classes: Vec<ClassEntry> = (0..16).map(|c| (c, 100 * c, 100 * c + 9)).collect();
    let keys = classes.iter().map(|&(_, low, _)| low).collect();
    let bindings: Vec<_> = (0..256).map(|i| prefix(i % MODES, &[once_class(i / MODES)])).collect();
    Spread::new("16 classes of ten keys each, in 16 modes", &classes, MODES, keys, &bindings)
}

fn classes_of_root(classes: Range<u16>) -> Vec<Vec<u16>> {
    classes.map(|class| prefix(0, &[once_class(class)])).collect()
}

/// The like of `slow_reading` with classes. All edges of the root for classes are on one chain, so no map has to be made against
/// the mixing. Each time binds the last class anew to lead back to the root, and then asks for Max(255) of it.
fn slow_classes() -> Spread {
    let last = NEVER_GIVEN.end - 1;
    let crowd = [vec![prefix(0, &[once_key(SOUGHT)])], classes_of_root(NEVER_GIVEN)].concat();
    let times = (usize::from(KEPT) - crowd.len()) / 2;
    let back = prefix(0, &[once_class(last)]);
    let steps = binding_in(0, MAPPING, &[max_class(255, last)], &[0; 5]);
    let what = format!("255 classes of one root, then {times} times Max(255) of the last of them");
    Spread::new(&what, &IN_VAIN, 1, vec![SOUGHT], &[crowd, vec![[back, steps]; times].concat()].concat())
}

/// The nodes but the roots, in ranges. The first node of each but the first range shares the root's chain of classes.
fn ranges() -> impl Iterator<Item = Range<u16>> {
    const ALIKE: u16 = chains::ALIKE as u16;
    (0..NODES.end).step_by(chains::ALIKE).map(|first| first.max(NODES.start)..NODES.end.min(first + ALIKE))
}

/// As many edges as there may be but for one that is still to be bound in mode 0, all on the two chains that the sought key goes
/// along there: edges of keys, the root's edges for these classes, and edges of the four nodes for classes.
fn on_two_chains(own: Range<u16>) -> Vec<Vec<u16>> {
    let mut fresh = starts(chains::of_key);
    let mut bindings = vec![];
    let mut ways = vec![];
    for nodes in ranges() {
        let starts: Vec<_> = fresh.by_ref().take(nodes.len().div_ceil(PATH_NODES.into())).collect();
        bindings.extend(crowd(chains::of_key, &starts, nodes));
        ways.push(starts[0]);
    }
    bindings.extend(classes_of_root(own));
    let others = NEVER_GIVEN.flat_map(|class| ways[1..].iter().map(move |way| (way, class)));
    let further = others.map(|(&(mode, key), class)| prefix(mode, &[once_key(key), once_class(class)]));
    bindings.extend(further.take(usize::from(KEPT) - 1 - bindings.len()));
    bindings
}

fn with_any(what: &str, bindings: Vec<Vec<u16>>) -> Spread {
    let any = prefix(0, &[once_any()]);
    Spread::new(what, &IN_VAIN, 1, vec![SOUGHT], &[bindings, vec![any]].concat())
}

// ---- all of them

pub fn all() -> Vec<Spread> {
    vec![
        keyed("multiples of 256", 100, 1, |i| 256 * i),
        keyed("multiples of 256", 250, 1, |i| 256 * i),
        keyed("low byte 7, in 16 modes", 1000, MODES, |i| 256 * i + 7),
        keyed("keys in a row", 250, 1, |i| i),
        keyed("keys in a row", 1000, 1, |i| i),
        keyed("keys in a row, the same in 16 modes", 1000, MODES, |i| i),
        slow_reading(low_bytes, "low bytes"),
        slow_reading(chains::of_key, "the mixing").untargeted(),
        slow_classes().untargeted(),
        many_classes().untargeted(),
        with_any("255 classes that no key is in, 16 times another, and Any", classes_of_root(NEVER_GIVEN)).untargeted(),
        with_any("all edges on the two chains of one key, and Any", on_two_chains(NO_CLASS)).untargeted(),
    ]
}

/// Maps in which mode 0 falls to itself: a key without an edge there goes round until its budget is used up.
pub fn loops() -> Vec<Spread> {
    let most = KEPT - 1;
    let crowded = |chain| crowd(chain, &starts(chain).take(most.into()).collect::<Vec<_>>(), NODES);
    let falling = |what: &str, bindings: Vec<Vec<u16>>| {
        let fall = prefix(0, &[once_fall()]);
        Spread::new(what, &IN_VAIN, MODES, vec![SOUGHT], &[bindings, vec![fall]].concat())
    };
    vec![
        falling("keys from 1,000 on, in 16 modes", in_turn(most, MODES, usual_key)),
        falling("keys on one chain by low bytes", crowded(low_bytes)),
        falling("keys on one chain by the mixing", crowded(chains::of_key)),
        falling("255 classes that no key is in", classes_of_root(NEVER_GIVEN)),
        falling("all edges on the two chains of the key", on_two_chains(NO_CLASS)),
        falling("the same, 255 of them of the first node's classes", on_two_chains(NEVER_GIVEN)),
    ]
}
