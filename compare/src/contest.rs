//! The comparison at scale: random lists and cases from one seed on, each on the original and on ours, until the time is
//! over or two answers differ. Then the smallest input found is printed.

use std::panic::{catch_unwind, AssertUnwindSafe};
use std::path::Path;
use std::time::{Duration, Instant};

use crate::calllist::{self, differing, plays, List, Play};
use crate::cases::{any_case_of, input_of_case, Case};
use crate::changes;
use crate::finds;
use crate::hints;
use crate::lent;
use crate::mapfile;
use crate::met;
use crate::ours::{self, Programs};
use crate::play::expect_answers;
use crate::scenes::list_of;
use crate::shrink::{smaller_case, smaller_input, smaller_list, smallest};
use crate::typed;

/// The most bytes of an input of our programs.
const MOST_INPUT: usize = 65_536;

/// How long a difference is made smaller.
const SHRINKING: Duration = Duration::from_secs(120);

/// How many cases go to the archive, which needs no process, for each list.
const RUNS_A_LIST: u64 = 4;

pub struct Contest {
    programs: Programs,
}

impl Contest {
    pub fn new(folder: &Path) -> Self {
        Contest { programs: Programs::in_folder(folder) }
    }

    /// Lists and cases from a seed on, for some seconds. Whether no difference was met, and all that is counted was.
    pub fn run(&self, seconds: u64, first: u64) -> bool {
        expect_met();
        lent::expect_calls();
        let end = Instant::now() + Duration::from_secs(seconds);
        let mut seed = first;
        while Instant::now() < end {
            if !self.turn(seed) {
                return false;
            }
            seed += 1;
        }
        let all_met = met::print();
        let turns = seed - first;
        let runs = turns * RUNS_A_LIST;
        println!("{turns} lists on callplay, the same {turns} on a lent machine of the archive by its C functions");
        println!("{runs} runs on the archive, as many changes to their maps, and {turns} inputs of keyplay");
        println!("seeds {first} to {}: no difference in {seconds} seconds", seed - 1);
        all_met
    }

    /// What a seed stands for, on both sides.
    pub fn turn(&self, seed: u64) -> bool {
        let runs = (0..RUNS_A_LIST).map(|i| seed.wrapping_mul(RUNS_A_LIST).wrapping_add(i));
        self.list_agrees(seed) && runs.clone().all(|s| self.case_agrees(seed, s)) && self.input_agrees(seed)
    }

    fn list_agrees(&self, seed: u64) -> bool {
        let list = list_of(seed);
        if self.list_difference(&list).is_none() {
            return true;
        }
        let until = found(seed, "a list of calls");
        let least = smallest(list, smaller_list, |l| self.list_difference(l).is_some(), until);
        println!("The smallest found:");
        least.iter().for_each(|item| println!("    {item:?}"));
        println!("{}", self.list_difference(&least).unwrap_or_default());
        false
    }

    fn case_agrees(&self, seed: u64, case_seed: u64) -> bool {
        let case = any_case_of(case_seed);
        note_run(&case, ours::run(&case).0);
        if case_difference(&case).is_none() {
            return true;
        }
        let until = found(seed, "a run");
        let least = smallest(case, smaller_case, |c| case_difference(c).is_some(), until);
        println!("The smallest found:");
        println!("    map {:02X?}\n    keys {:02X?}", least.map, least.keys);
        println!("    budget {}, output of {} bytes", least.budget, least.lent.len());
        if let Some((tables, bindings)) = mapfile::bindings_of(&least.map) {
            println!("    {tables:?}");
            bindings.iter().for_each(|b| println!("    {b:?}"));
        }
        println!("{}", case_difference(&least).unwrap_or_default());
        false
    }

    fn input_agrees(&self, seed: u64) -> bool {
        let input = input_of_case(any_case_of(seed), seed);
        if self.input_difference(&input).is_none() {
            return true;
        }
        let until = found(seed, "an input of keyplay");
        let least = smallest(input, smaller_input, |i| self.input_difference(i).is_some(), until);
        println!("The smallest found:");
        println!("    {least:02X?}\n{}", self.input_difference(&least).unwrap_or_default());
        false
    }

    // ---- how they differ, if they do

    fn list_difference(&self, list: &List) -> Option<String> {
        match guarded(|| plays(list)) {
            // the machine first: it needs no process
            Ok(plays) => {
                lent::difference(&plays.calls).or_else(|| plays.inputs.iter().find_map(|p| self.play_difference(p)))
            },
            Err(e) => Some(e),
        }
    }

    fn play_difference(&self, play: &Play) -> Option<String> {
        let too_long = ["refused 9".to_string()];
        let lines = if play.input.len() > MOST_INPUT { &too_long[..] } else { &play.lines };
        let text = match self.programs.callplay(&play.input) {
            Ok(text) => text,
            Err(e) => return Some(e),
        };
        let printed: Vec<&str> = text.split_terminator('\n').collect();
        let at = lines.iter().zip(&printed).take_while(|(line, is)| line == is).count();
        if at == lines.len() && at == printed.len() {
            return None;
        }
        let words = match (lines.get(at), printed.get(at)) {
            (Some(line), Some(is)) => differing(line, is),
            (line, is) => format!("must be {line:?}, is {is:?}"),
        };
        Some(format!("stdin of callplay: {:02X?}\nline {}: {words}", play.input, at + 1))
    }

    fn input_difference(&self, input: &[u8]) -> Option<String> {
        match (guarded(|| mapfile::keyplay(input)), self.programs.keyplay(input)) {
            (Ok(must), Ok(is)) if must == is => None,
            (Ok(must), Ok(is)) => Some(format!("must print {must:?}, prints {is:?}")),
            (Err(e), _) | (_, Err(e)) => Some(e),
        }
    }
}

fn case_difference(case: &Case) -> Option<String> {
    let (code, output) = match guarded(|| mapfile::exported(&case.map, &case.keys, case.budget, &case.lent)) {
        Ok(must) => must,
        Err(e) => return Some(e),
    };
    let (given, written) = ours::run(case);
    if (code as u64, &output) == (given, &written) {
        return lent::change_difference(&case.map);
    }
    Some(format!("must return {code} and write {output:02X?}\nreturns {given} and writes {written:02X?}"))
}

/// Says so at once, and how long it may be made smaller.
fn found(seed: u64, what: &str) -> Instant {
    println!("DIFFERENCE at seed {seed}, in {what}. It is made smaller.");
    Instant::now() + SHRINKING
}

/// A panic of the model is a difference too.
fn guarded<T>(work: impl FnOnce() -> Result<T, String>) -> Result<T, String> {
    catch_unwind(AssertUnwindSafe(work)).unwrap_or_else(|_| Err("the model panics".into()))
}

// ---- counts

/// What a report shows even when it is never met.
pub fn expect_met() {
    expect_answers();
    calllist::expect_writes();
    calllist::expect_odd();
    finds::expect();
    hints::expect();
    changes::expect();
    typed::expect();
    met::expect_named("run: accepted".into());
    (1..=12).for_each(|n| met::expect_named(format!("run: refused {n:2}")));
    met::expect_named("run: the output is full to its last byte".into());
}

/// What a run came to. Of our side, which a difference would show to be wrong, or of the model.
pub fn note_run(case: &Case, code: u64) {
    let (length, refusal) = ((code / 32) as usize, code % 32);
    if refusal != 0 {
        met::met_named(format!("run: refused {refusal:2}"));
        return;
    }
    met::met_named("run: accepted".into());
    if length > 0 && length == case.lent.len().min(MOST_INPUT) {
        met::met_named("run: the output is full to its last byte".into());
    }
}
