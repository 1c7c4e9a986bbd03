//! The benchmark: the Rust original and our side on the same inputs, in one run. `compare/bench/run` builds and runs it.

#[path = "../src/archive.rs"]
mod archive;
#[path = "../src/bytes.rs"]
mod bytes;
#[path = "../src/chains.rs"]
mod chains;
mod graph;
mod inputs;
mod maps;
mod original;
mod ours;
mod spread;
mod stack;
#[path = "../src/status.rs"]
mod status;
mod sum;
mod timing;

use std::hint::black_box;
use std::time::Duration;

use inputs::{keys_of, kinds_of, map_of, put_numbers, Map, SEED};
use original::Original;
use ours::lent::Lent;
use spread::Spread;
use sum::Sum;
use timing::{clock, compare, rounds, Times};

// A loop of a few instructions takes up to twice as long where it lies badly across the processor's fetches, and the linker
// decides where that is. So `run` builds this program four times, with all code behind here moved by some bytes.
std::arch::global_asm!(
    ".pushsection .text.moved, \"axR\", @progbits",
    concat!(".skip ", env!("BENCH_MOVED")),
    ".popsection"
);

const BINDINGS: [u16; 4] = [10, 50, 200, 1000];
const CORE_KEYS: usize = 100_000;
const RUN_KEYS: usize = 60_000;
const VALUE_KEYS: usize = 2_000;
const KIND_KEYS: usize = 20_000;
/// How often a machine is read for calls that are made a few times on it.
const TURNS: usize = 100;
const ROOM: usize = 65_536;

/// A map and a tape, in the forms that the two sides take.
struct Work {
    map: &'static Map,
    bytes: Vec<u8>,
    keys: Vec<u16>,
    tape: Vec<u8>,
}

impl Work {
    fn of(bindings: u16) -> Self {
        let map = Box::leak(Box::new(map_of(bindings, SEED)));
        let keys = keys_of(map, CORE_KEYS, SEED);
        let mut tape = vec![];
        put_numbers(&keys[..RUN_KEYS], &mut tape);
        Work { map, bytes: map.bytes(), keys, tape }
    }

    fn time_original(&self, keys: &[u16]) -> Duration {
        let mut machine = Original::of(self.map);
        clock(|| {
            black_box(machine.press(keys));
        })
    }

    fn time_in_place(&self, keys: &[u16]) -> Duration {
        clock(|| {
            black_box(ours::in_place(&self.bytes, keys));
        })
    }

    fn time_by_value(&self, keys: &[u16]) -> Duration {
        clock(|| {
            black_box(ours::by_value(&self.bytes, keys));
        })
    }

    fn time_run(&self, output: &mut [u8]) -> Duration {
        clock(|| {
            black_box(ours::run(&self.bytes, &self.tape, output));
        })
    }

    fn must_be(&self, what: &str, keys: &[u16], ours: Sum) {
        let sum = Original::of(self.map).press(keys);
        if ours != sum {
            eprintln!("compare/bench: {what} differs: the Rust {sum:?}, ours {ours:?}");
            std::process::exit(1);
        }
    }

    /// Both sides do the same work, or the benchmark ends.
    fn check(&self) {
        let mut output = vec![0; ROOM];
        let result = ours::run(&self.bytes, &self.tape, &mut output);
        let run = ours::sum_of_run(result, &output).unwrap_or_else(|refusal| {
            eprintln!("compare/bench: keymap_run refuses with {refusal}");
            std::process::exit(1);
        });
        let few = &self.keys[..VALUE_KEYS];
        self.must_be("keymap_run", &self.keys[..RUN_KEYS], run);
        self.must_be("the key loop in place", &self.keys, ours::in_place(&self.bytes, &self.keys));
        self.must_be("the machine by value", few, ours::by_value(&self.bytes, few));
        self.must_be("the lent machine", few, Lent::open(&self.bytes).press(few));
    }
}

fn target(met: bool) -> &'static str {
    if met {
        "met"
    } else {
        "MISSED"
    }
}

fn ratio(ours: Times, rust: Times, targeted: bool) -> String {
    let ratio = ours.best / rust.best;
    let verdict = if targeted { format!(", {}", target(ratio <= 0.5)) } else { String::new() };
    format!("{ratio:.2} ({:.2}){verdict}", ours.median / rust.median)
}

fn ns(times: Times) -> String {
    format!("{:.0} ({:.0})", times.best, times.median)
}

/// Microseconds with two places, for calls that take little.
fn hundredths(times: Times) -> String {
    format!("{:.2} ({:.2})", times.best / 1e3, times.median / 1e3)
}

fn us(times: Times) -> String {
    format!("{:.1} ({:.1})", times.best / 1e3, times.median / 1e3)
}

/// Nanoseconds a key: the Rust, the key loop in place, and the whole run.
fn key_rows(works: &[Work]) {
    println!("| bindings | Rust, 100,000 keys | in place | ratio | Rust, 60,000 keys | keymap_run | ratio |");
    println!("|---|---|---|---|---|---|---|");
    for (bindings, work) in BINDINGS.iter().zip(works) {
        let targeted = *bindings <= 200;
        let mut output = vec![0; ROOM];
        let [rust_core, core, reading, rust_run, run] = compare([
            &mut || work.time_original(&work.keys),
            &mut || work.time_in_place(&work.keys),
            &mut || work.time_in_place(&[]),
            &mut || work.time_original(&work.keys[..RUN_KEYS]),
            &mut || work.time_run(&mut output),
        ]);
        let (rust_core, core) = (rust_core.each(CORE_KEYS), core.less(reading).each(CORE_KEYS));
        let (rust_run, run) = (rust_run.each(RUN_KEYS), run.each(RUN_KEYS));
        println!(
            "| {bindings} | {} | {} | {} | {} | {} | {} |",
            ns(rust_core),
            ns(core),
            ratio(core, rust_core, targeted),
            ns(rust_run),
            ns(run),
            ratio(run, rust_run, targeted)
        );
    }
}

/// The same for keys of one kind each, at 200 bindings.
fn kind_rows(works: &[Work]) {
    let work = &works[2];
    println!("| keys, at 200 bindings | Rust | in place | ratio |");
    println!("|---|---|---|---|");
    for (what, keys) in kinds_of(work.map, KIND_KEYS, SEED) {
        work.must_be(what, &keys, ours::in_place(&work.bytes, &keys));
        let [rust, core, reading] =
            compare([&mut || work.time_original(&keys), &mut || work.time_in_place(&keys), &mut || {
                work.time_in_place(&[])
            }]);
        let (rust, core) = (rust.each(KIND_KEYS), core.less(reading).each(KIND_KEYS));
        println!("| {what} | {} | {} | {} |", ns(rust), ns(core), ratio(core, rust, false));
    }
}

/// Microseconds a call, of keys and of the pops after them.
fn call_rows(works: &[Work]) {
    println!("| bindings | by value, µs a call | at most 10 µs | lent, µs a call | at most 0.8 µs |");
    println!("|---|---|---|---|---|");
    for (bindings, work) in BINDINGS.iter().zip(works) {
        let keys = &work.keys[..VALUE_KEYS];
        // a key, a pop for each pair, and a pop that gives nothing
        let calls = 2 * VALUE_KEYS + Original::of(work.map).press(keys).pairs as usize;
        let [value, reading] = compare([&mut || work.time_by_value(keys), &mut || work.time_by_value(&[])]);
        let value = value.less(reading).each(calls);
        let (lent, verdict) = lent_cells(work, calls);
        println!("| {bindings} | {} | {} | {lent} | {verdict} |", us(value), target(value.best <= 10e3));
    }
    each_call_rows(works);
    each_lent_rows(works);
}

/// Nanoseconds in which no machine can be copied: its graph alone has 33,000 bytes. What takes less was put into the loop by the
/// compiler, and its copies left out, so it says nothing of a call.
const NO_COPY: f64 = 200.0;

fn call_verdict(times: [Times; 2]) -> &'static str {
    if times.iter().any(|t| t.best < NO_COPY) {
        return "not shown: no copy of the machine is left";
    }
    target(times.iter().all(|t| t.best <= 10e3))
}

/// Microseconds of each call by value, at the fewest and the most bindings.
fn each_call_rows(works: &[Work]) {
    let ends = [&works[0], &works[works.len() - 1]];
    ends.iter().for_each(|work| ours::check_calls(&work.bytes));
    println!(
        "\n| call by value | µs at {} bindings | at {} | at most 10 µs |",
        BINDINGS[0],
        BINDINGS[BINDINGS.len() - 1]
    );
    println!("|---|---|---|---|");
    for (what, call, often) in ours::CALLS {
        let turns = if often == ours::FEW { TURNS } else { 1 };
        let times = ends.map(|work| {
            let turn = |times: u16| {
                clock(|| {
                    for _ in 0..turns {
                        black_box(ours::call(call, &work.bytes, black_box(times)));
                    }
                })
            };
            let [calls, reading] = compare([&mut || turn(often), &mut || turn(0)]);
            calls.less(reading).each(turns * often as usize)
        });
        println!("| {what} | {} | {} | {} |", hundredths(times[0]), hundredths(times[1]), call_verdict(times));
    }
}

/// Microseconds of the lent calls beside keys and pops, at the fewest and the most bindings.
fn each_lent_rows(works: &[Work]) {
    let ends = [&works[0], &works[works.len() - 1]];
    println!("\n| lent call | µs at {} bindings | at {} |", BINDINGS[0], BINDINGS[BINDINGS.len() - 1]);
    println!("|---|---|---|");
    let binds = ends.map(bind_times);
    println!("| `keymap_bind`, a mapping of two keys | {} | {} |", hundredths(binds[0]), hundredths(binds[1]));
    for (what, call) in ours::lent::CALLS {
        let times = ends.map(|work| {
            let mut machine = Lent::open(&work.bytes);
            let [calls] = compare([&mut || {
                clock(|| {
                    for _ in 0..ours::MANY {
                        black_box(call(&mut machine));
                    }
                })
            }]);
            calls.each(ours::MANY as usize)
        });
        println!("| {what} | {} | {} |", hundredths(times[0]), hundredths(times[1]));
    }
}

/// A bound call is kept, so after a few the machine is put back as it was.
fn bind_times(work: &Work) -> Times {
    let mut bound = Lent::open(&work.bytes);
    // the first makes the nodes
    assert_eq!(bound.bind(), 0);
    let mut machine = bound.clone();
    let mut few = || {
        machine.put_back(&bound);
        clock(|| (0..ours::FEW).for_each(|_| assert_eq!(black_box(machine.bind()), 0)))
    };
    let [calls] = compare([&mut || (0..TURNS).map(|_| few()).sum()]);
    calls.each(TURNS * ours::FEW as usize)
}

fn lent_cells(work: &Work, calls: usize) -> (String, &'static str) {
    let [lent] = compare([&mut || {
        let mut machine = Lent::open(&work.bytes);
        clock(|| {
            black_box(machine.press(&work.keys[..VALUE_KEYS]));
        })
    }]);
    let lent = lent.each(calls);
    (hundredths(lent), target(lent.best <= 800.0))
}

/// The maps that are read and written, with their bytes.
fn maps_of(works: &[Work]) -> Vec<(String, Vec<u8>)> {
    let small = BINDINGS.iter().zip(works).map(|(n, w)| (format!("{n} bindings"), w.bytes.clone()));
    small.chain(maps::large().into_iter().map(|l| (l.what, l.bytes))).collect()
}

/// So often that a turn of small maps is longer than the clock's own call.
fn often(bytes: &[u8]) -> usize {
    20_000usize.div_ceil(bytes.len())
}

fn ms(times: Times) -> String {
    format!("{:.3} ({:.3})", times.best / 1e6, times.median / 1e6)
}

/// Nanoseconds that a map may take to be read.
fn most_reading(bytes: &[u8]) -> f64 {
    20e6 * (bytes.len() as f64 / 60e3).max(1.0)
}

/// Milliseconds to read a map: a run without keys, the opening of a lent machine, and a change to the map that it has.
fn reading_rows(works: &[Work]) {
    println!("| map | bytes | keymap_run, ms | keymap_open, ms | keymap_change, ms | at most 20 ms for 60,000 bytes |");
    println!("|---|---|---|---|---|---|");
    for (what, bytes) in maps_of(works) {
        let mut output = vec![0; ROOM];
        let result = ours::run(&bytes, &[], &mut output);
        assert_eq!(result, 0, "{what}: refused with {}", result % 32);
        let mut machine = Lent::open(&bytes);
        let mut changed = Lent::open(&bytes);
        let often = often(&bytes);
        let [run, open, change] = compare([
            &mut || {
                clock(|| {
                    for _ in 0..often {
                        black_box(ours::run(&bytes, &[], &mut output));
                    }
                })
            },
            &mut || {
                clock(|| {
                    for _ in 0..often {
                        black_box(machine.reopen(&bytes));
                    }
                })
            },
            &mut || {
                clock(|| {
                    for _ in 0..often {
                        black_box(changed.change(&bytes));
                    }
                })
            },
        ]);
        let (run, open, change) = (run.each(often), open.each(often), change.each(often));
        let most = most_reading(&bytes);
        let met = target([run, open, change].iter().all(|times| times.best <= most));
        println!("| {what} | {} | {} | {} | {} | {met} |", bytes.len(), ms(run), ms(open), ms(change));
    }
    trail_rows();
}

/// A map of one path, of up to 70 times `a` and then `b`.
const LONG_PATH: [u8; 20] = [0, 0, 0, 1, 0, 0, 2, 2, 70, 0, b'a', 0, 0, b'b', 0, 1, 7, 0, 0, 0];

/// Microseconds to change to a map with keys on the trail, each of which needs more there.
fn trail_rows() {
    println!("\n| keys on the trail | keymap_change, µs |");
    println!("|---|---|");
    for typed in [0, 64] {
        let mut machine = Lent::open(&LONG_PATH);
        machine.press(&vec![u16::from(b'a'); typed]);
        let [change] = compare([&mut || {
            clock(|| {
                for _ in 0..ours::MANY {
                    assert_eq!(black_box(machine.change(&LONG_PATH)), 0);
                }
            })
        }]);
        println!("| {typed} | {} |", hundredths(change.each(ours::MANY as usize)));
    }
}

/// What a machine that was opened with a map writes must be that map.
fn write_back(machine: &Lent, map: &[u8], output: &mut [u8]) {
    let result = machine.write(output);
    if result != map.len() as u64 * 32 || output[..map.len()] != *map {
        eprintln!("compare/bench: keymap_write gives {result}, and not the map that was opened");
        std::process::exit(1);
    }
}

/// Milliseconds to write the map of a machine: to an output that it fills, and to one that is a byte too short.
fn writing_rows(works: &[Work]) {
    println!("| map | bytes | keymap_write, ms | refused, ms | at most 1 ms |");
    println!("|---|---|---|---|---|");
    for (what, bytes) in maps_of(works) {
        let machine = Lent::open(&bytes);
        let mut output = vec![0; bytes.len()];
        write_back(&machine, &bytes, &mut output);
        assert_eq!(machine.write(&mut output[1..]), 10, "{what}: too short");
        let often = often(&bytes);
        let mut turn = |from: usize| {
            clock(|| {
                for _ in 0..often {
                    black_box(machine.write(&mut output[from..]));
                }
            })
        };
        let [write] = compare([&mut || turn(0)]);
        let [refused] = compare([&mut || turn(1)]);
        let (write, refused) = (write.each(often), refused.each(often));
        let met = target(write.best <= 1e6 && refused.best <= 1e6);
        println!("| {what} | {} | {} | {} | {met} |", bytes.len(), ms(write), ms(refused));
    }
}

/// The time of a run that must be accepted and give no pair.
fn time_silent(map: &Spread, tape: &[u8]) -> Duration {
    let mut output = vec![0; ROOM];
    clock(|| {
        let result = black_box(ours::run(&map.bytes, tape, &mut output));
        assert_eq!(result, 0, "{}: refused, or a key is not the map's own", map.what);
    })
}

/// Nanoseconds to read a map, and of each of its keys; then the same of the usual map beside it.
fn spread_times(map: &Spread, usual: &Spread) -> [(Times, Times); 2] {
    let tapes = [map, usual].map(|m| m.tape(RUN_KEYS));
    let [reading, run, usual_reading, usual_run] = compare([
        &mut || time_silent(map, &[]),
        &mut || time_silent(map, &tapes[0]),
        &mut || time_silent(usual, &[]),
        &mut || time_silent(usual, &tapes[1]),
    ]);
    [(reading, run), (usual_reading, usual_run)].map(|(reading, run)| (reading, run.less(reading).each(RUN_KEYS)))
}

/// Maps that show how the index spreads their edges, beside usual maps of as many bindings.
fn spread_rows(_: &[Work]) {
    println!(
        "| map | bindings | bytes | read, ms | at most 20 ms for 60,000 bytes | ns a key | usual | at most twice it |"
    );
    println!("|---|---|---|---|---|---|---|---|");
    spread::all().iter().for_each(spread_row);
    loop_rows();
}

fn spread_row(map: &Spread) {
    let [(reading, key), (_, usual)] = spread_times(map, &spread::usual(map.bindings, map.modes));
    let verdict = |met: bool| if map.targeted { target(met) } else { "no target" };
    println!(
        "| {} | {} | {} | {} | {} | {} | {} | {:.2}, {} |",
        map.what,
        map.bindings,
        map.bytes.len(),
        ms(reading),
        verdict(reading.best <= most_reading(&map.bytes)),
        tenths(key),
        tenths(usual),
        key.best / usual.best,
        verdict(key.best <= 2.0 * usual.best)
    );
}

/// One key that goes round until the largest budget is used up. Refused, it leaves the machine as it was.
fn loop_rows() {
    const MOST: u16 = 65_535;
    const USED_UP: u64 = MOST as u64 * 32 + 8;
    println!(
        "\n| map with 16 entries of one class, and one key of 65,535 rounds | bindings | bytes | ms | ns a round |"
    );
    println!("|---|---|---|---|---|");
    for map in spread::loops() {
        let mut machine = Lent::open(&map.bytes);
        let [key] = compare([&mut || clock(|| assert_eq!(machine.key(map.keys[0], MOST), USED_UP))]);
        let each = tenths(key.each(MOST.into()));
        println!("| {} | {} | {} | {} | {each} |", map.what, map.bindings, map.bytes.len(), ms(key));
    }
}

/// One of the followings.
type Follows = fn(&graph::Followings) -> Times;

fn graph_rows(_: &[Work]) {
    println!("| edges | Key edge near the end, ns | no edge, no class, ns | no edge, one class, ns |");
    println!("|---|---|---|---|");
    let all: Vec<_> = [10, 50, 200, 1000, 2048].map(graph::followings).into();
    for f in &all {
        println!("| {} | {} | {} | {} |", f.edges, tenths(f.hit), tenths(f.miss), tenths(f.class));
    }
    let (few, many) = (&all[1], &all[3]);
    let slope = |of: Follows| (of(many).best - of(few).best) / (many.edges - few.edges) as f64;
    println!();
    println!("| what | measured | target | |");
    println!("|---|---|---|---|");
    for (what, of) in [
        ("a Key edge near the end", (|f| f.hit) as Follows),
        ("no edge and no class for the key", |f| f.miss),
        ("no edge, but one class for the key", |f| f.class),
    ] {
        println!(
            "| following at 50 edges, {what} | {} ns | 60 ns | {} |",
            tenths(of(few)),
            target(of(few).best <= 60.0)
        );
        println!("| each further edge | {:.2} ns | 1 ns | {} |", slope(of), target(slope(of) <= 1.0));
    }
    let [in_place, by_value] = graph::adding();
    println!(
        "| a binding of two keys in place, at 1,000 nodes | {} µs | 5 µs | {} |",
        us(in_place),
        target(in_place.best <= 5e3)
    );
    println!("| the same by value | {} µs | 50 µs | {} |", us(by_value), target(by_value.best <= 50e3));
}

fn tenths(times: Times) -> String {
    format!("{:.1} ({:.1})", times.best, times.median)
}

fn stack_rows(works: &[Work]) {
    println!("| calls | bytes of stack | at most 1 MiB |");
    println!("|---|---|---|");
    let row = |what: &str, bytes: usize| println!("| {what} | {bytes} | {} |", target(bytes <= 1 << 20));
    let most = works.last().unwrap();
    let keys = &most.keys[..VALUE_KEYS];
    let mut output = vec![0; ROOM];
    row(
        "keymap_run, 1,000 bindings and 60,000 keys",
        stack::peak(|| {
            black_box(ours::run(&most.bytes, &most.tape, &mut output));
        }),
    );
    for large in maps::large() {
        row(
            &format!("keymap_run without keys: {}", large.what),
            stack::peak(|| {
                black_box(ours::run(&large.bytes, &[], &mut output));
            }),
        );
    }
    row(
        "keymap_run, refused",
        stack::peak(|| {
            black_box(ours::run(&most.bytes[1..], &most.tape, &mut output));
        }),
    );
    row(
        "keys and pops by value, with the machine and the map's reading",
        stack::peak(|| {
            black_box(ours::by_value(&most.bytes, keys));
        }),
    );
    row(
        "map, prefix, repeat, reset, find and hint by value, and the tracker, with the same",
        stack::peak(|| {
            let (node, _, pairs) = ours::other_calls(&works[0].bytes);
            assert!((16..1040).contains(&node), "find gives no node: {node}");
            assert_eq!(pairs, 1, "a sequence remembers {pairs} pairs of one");
        }),
    );
    row(
        "a change by value, with the map's reading",
        stack::peak(|| {
            black_box(ours::change(&most.bytes));
        }),
    );
    row("adding to a graph by value", stack::peak(|| graph::add_by_value(510)));
    row(
        "keys and pops on a lent machine, with its opening",
        stack::peak(|| {
            black_box(Lent::open(&most.bytes).press(keys));
        }),
    );
    write_stack_rows(row);
}

fn write_stack_rows(row: impl Fn(&str, usize)) {
    let full = maps::full();
    let mut machine = Lent::open(&full.bytes);
    let mut output = vec![0; full.bytes.len()];
    let opened = stack::peak(|| assert_eq!(machine.reopen(&full.bytes), 0));
    row(&format!("keymap_open: {}", full.what), opened);
    let written = stack::peak(|| write_back(&machine, &full.bytes, &mut output));
    row("keymap_write of the same", written);
    let refused = stack::peak(|| assert_eq!(machine.write(&mut output[1..]), 10));
    row("keymap_write of the same, refused", refused);
}

/// The sections' names, heads and tables. A name as argument gives that section alone.
type Section = (&'static str, &'static str, fn(&[Work]));

const SECTIONS: [Section; 8] = [
    ("keys", "Keys, ns each; target: ratio at most 0.5 at 10 to 200 bindings", key_rows),
    ("kinds", "Kinds of keys, ns each", kind_rows),
    ("calls", "Calls by value and lent", call_rows),
    ("reading", "Reading a map", reading_rows),
    ("writing", "Writing a map", writing_rows),
    ("spread", "Keys over the chains of the index", spread_rows),
    ("graph", "The key graph", graph_rows),
    ("stack", "Stack", stack_rows),
];

fn main() {
    let only = std::env::args().nth(1);
    let wanted = |name: &str| only.as_ref().is_none_or(|o| o == name);
    if !SECTIONS.iter().any(|(name, ..)| wanted(name)) {
        eprintln!("compare/bench: no such section; there are {}", SECTIONS.map(|(name, ..)| name).join(", "));
        std::process::exit(2);
    }
    let works = BINDINGS.map(Work::of);
    works.iter().for_each(Work::check);
    println!("Best of {} turns, and the median of them in brackets. Seed {SEED}.", rounds());
    println!("The code is moved by {} bytes.", env!("BENCH_MOVED"));
    for (_, head, rows) in SECTIONS.iter().filter(|(name, ..)| wanted(name)) {
        println!("\n## {head}\n");
        rows(&works);
    }
}
