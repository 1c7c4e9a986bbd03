//! Compares the rules of document 01 with the unchanged Rust original on random lists of calls and random runs. README.md
//! says how it is built and used.

mod antt;
#[cfg(linked)]
mod archive;
mod bytes;
mod calllist;
mod calls;
mod carried;
mod cases;
mod chains;
mod changes;
mod changing;
mod contest;
mod differences;
mod edges;
mod finds;
mod gen;
mod graph;
mod hints;
mod lent;
mod machine;
mod mapfile;
mod met;
mod model;
mod oracle;
mod ours;
mod play;
mod record;
mod scenes;
mod shrink;
mod status;
mod typed;
mod typing;
mod walk;
mod writing;

use std::io::Read;
use std::path::Path;

use antt::{Row, Sort};
use calls::Call;
use contest::Contest;
use gen::Kind;

/// How many lists, and how many runs, are recorded.
const RECORDED: usize = 300;

const USAGE: &str = "compare edges                        E1 to E10 of document 01 on model and original
compare play KIND SEED               a list of calls with its answers
compare many SORT FIRST COUNT        COUNT seeds from FIRST on: model against original, and how often what occurred
compare rows SORT FIRST COUNT CRATE  the same as an antt file of CRATE, with a theorem for each seed
compare differences                  the inputs of docs/DIFFERENCES.md on model and original
compare keyplay                      what `keyplay` prints for standard input
compare run FOLDER SECONDS FIRST     random lists and runs from seed FIRST on, against the programs in FOLDER and the archive
compare seed FOLDER SEED             one of these again
compare record calls|runs FOLDER     the recorded lists or runs: writes stdin and stdout there
KIND is usual, plain, long or big; or counts, which is the scenes of counts that pass their limit; or changes, which is scenes of
changes of map; or typed, which is scenes of counts that are typed or not. SORT is a kind; or runs, or keyplay; for many also
lists, which is what `compare run` plays; for rows also reader, which is plain lists on the list reader, and graphs and files,
which are nodes and edges, and the map file, after the bindings and changes of usual lists";

fn main() {
    let words: Vec<String> = std::env::args().skip(1).collect();
    let words: Vec<&str> = words.iter().map(String::as_str).collect();
    match words.as_slice() {
        ["edges"] => edges(),
        ["play", kind, seed] => show(kind, number(seed)),
        ["many", sort, first, count] => many(sort, number(first), number(count)),
        ["rows", sort, first, count, name] => rows(sort, number(first), number(count), name),
        ["differences"] => ended(differences::differences()),
        ["keyplay"] => keyplay(),
        ["run", folder, seconds, first] => ended(Contest::new(Path::new(folder)).run(number(seconds), number(first))),
        ["record", "calls", folder] => write(record::lists(RECORDED), Path::new(folder)),
        ["record", "runs", folder] => write(record::runs(RECORDED), Path::new(folder)),
        ["seed", folder, seed] => ended(Contest::new(Path::new(folder)).turn(number(seed))),
        _ => stop(USAGE),
    }
}

fn write(recorded: Result<record::Recorded, String>, folder: &Path) {
    let recorded = recorded.unwrap_or_else(|e| stop(&e));
    let to = |name: &str, bytes: &[u8]| {
        std::fs::write(folder.join(name), bytes).unwrap_or_else(|e| stop(&e.to_string()));
    };
    to("stdin", &recorded.stdin);
    to("stdout", recorded.stdout.as_bytes());
    recorded.print();
    println!("{RECORDED} inputs, {} bytes, into {}", recorded.stdin.len(), folder.display());
}

fn ended(without_difference: bool) {
    std::process::exit(if without_difference { 0 } else { 1 })
}

fn stop(message: &str) -> ! {
    eprintln!("{message}");
    std::process::exit(2)
}

fn number(word: &str) -> u64 {
    word.parse().unwrap_or_else(|_| stop(USAGE))
}

fn list_of(seed: u64, kind: &str) -> Vec<Call> {
    let kind = match kind {
        "counts" => return scenes::counting_of(seed),
        "changes" => return changing::changing_of(seed),
        "typed" => return typing::typing_of(seed),
        "usual" => Kind::Usual,
        "plain" | "reader" if seed % 4 == 0 => return changing::plain_of(seed),
        "plain" | "reader" if seed % 4 == 2 => return typing::plain_of(seed),
        "plain" | "reader" => Kind::Plain,
        "long" => Kind::Long,
        "big" => Kind::Big,
        _ => stop(USAGE),
    };
    gen::list_of(seed, kind)
}

/// What model and original agree on; where they do not, the comparison ends.
fn agreed<T>(seed: u64, outcome: Result<T, String>) -> T {
    outcome.unwrap_or_else(|e| {
        println!("seed {seed}: {e}");
        std::process::exit(1)
    })
}

fn played(seed: u64, kind: &str) -> play::Played {
    agreed(seed, play::play(&list_of(seed, kind)))
}

fn show(kind: &str, seed: u64) {
    let played = played(seed, kind);
    println!("seed {seed}, {kind}");
    for (call, seen) in played.calls.iter().zip(&played.seen) {
        println!("{call:?}\n    {}, mode {}", seen.answer, seen.mode);
    }
    println!("{} nodes beside the roots, {} edges", played.size.0, played.size.1);
}

fn edges() {
    for edge in edges::edges() {
        edge.check().unwrap_or_else(|e| stop(&e));
        println!("{}: as the paper has it", edge.name);
    }
}

fn keyplay() {
    let mut input = vec![];
    std::io::stdin().read_to_end(&mut input).unwrap_or_else(|e| stop(&e.to_string()));
    print!("{}", mapfile::keyplay(&input).unwrap_or_else(|e| stop(&e)));
}

// ---- many

fn many(sort: &str, first: u64, count: u64) {
    let seeds = first..first + count;
    match sort {
        "runs" => many_runs(seeds),
        "keyplay" => many_plays(seeds),
        "lists" => many_contests(seeds),
        kind => many_lists(kind, seeds),
    }
    println!("{count} of {sort}, seeds {first} to {}: model and original agree", first + count - 1);
}

fn many_lists(kind: &str, seeds: std::ops::Range<u64>) {
    let (mut nodes, mut edges) = (0, 0);
    for seed in seeds {
        let p = played(seed, kind);
        nodes = nodes.max(p.size.0);
        edges = edges.max(p.size.1);
    }
    met::print();
    println!("at most {nodes} nodes beside the roots, {edges} edges");
}

fn many_runs(seeds: std::ops::Range<u64>) {
    for seed in seeds {
        let (_, code, _) = ran(seed);
        let what = if code % 32 == 0 { format!("accepted, {} bytes", code / 32) } else { format!("refused {code}") };
        met::met_named(format!("run: {what}"));
    }
    met::print();
}

fn many_plays(seeds: std::ops::Range<u64>) {
    for seed in seeds {
        let text = agreed(seed, mapfile::keyplay(&cases::input_of(seed)));
        let first = text.lines().next().unwrap_or_default();
        met::met_named(format!("{first} ({} lines)", text.lines().count()));
    }
    met::print();
}

/// What `compare run` plays, on model and original alone.
fn many_contests(seeds: std::ops::Range<u64>) {
    contest::expect_met();
    for seed in seeds {
        agreed(seed, calllist::plays(&scenes::list_of(seed)));
        let case = cases::any_case_of(seed);
        let (code, _) = agreed(seed, mapfile::exported(&case.map, &case.keys, case.budget, &case.lent));
        contest::note_run(&case, code as u64);
        agreed(seed, mapfile::keyplay(&cases::input_of_case(case, seed)));
    }
    met::print();
}

fn ran(seed: u64) -> (cases::Case, u32, Vec<u8>) {
    let case = cases::case_of(seed);
    let (code, output) = agreed(seed, mapfile::exported(&case.map, &case.keys, case.budget, &case.lent));
    (case, code, output)
}

// ---- rows

fn rows(sort: &str, first: u64, count: u64, name: &str) {
    let (words, row): (Sort, fn(u64, &str) -> Row) = match sort {
        "runs" => (Sort { of: "Ran", outcome: "run_outcome" }, |seed, _| {
            let (case, code, output) = ran(seed);
            antt::run_row(row_name(seed), &case, code, &output)
        }),
        "keyplay" => (Sort { of: "Printed", outcome: "play_outcome" }, |seed, _| {
            let input = cases::input_of(seed);
            antt::play_row(row_name(seed), &input, &agreed(seed, mapfile::keyplay(&input)))
        }),
        "graphs" => (Sort { of: "Built", outcome: "build_outcome" }, |seed, _| {
            let (calls, model) = agreed(seed, play::build(&list_of(seed, "usual")));
            antt::graph_row(row_name(seed), &calls, model.graph())
        }),
        "files" => (Sort { of: "Filed", outcome: "file_outcome" }, |seed, _| {
            let (calls, model) = agreed(seed, play::build(&list_of(seed, "usual")));
            let file = model.file();
            // a byte too few, just enough, and some more
            let lent = vec![0xAA; file.len() - 1 + seed as usize % 4];
            let (code, output) = writing::written(&file, &lent);
            antt::file_row(row_name(seed), &calls, &lent, code, &output)
        }),
        "reader" => (Sort { of: "List Tried", outcome: "outcome list_kind" }, list_row),
        _ => (Sort { of: "List Tried", outcome: "outcome graph_kind" }, list_row),
    };
    let rows: Vec<Row> = (first..first + count).map(|seed| row(seed, sort)).collect();
    print!("{}", antt::file(name, &words, &rows));
}

fn row_name(seed: u64) -> String {
    format!("r{seed}")
}

fn list_row(seed: u64, kind: &str) -> Row {
    antt::list_row(row_name(seed), &played(seed, kind))
}
