//! Recorded answers: lists of calls and inputs of `keyplay`, many framed in one file, beside what must be printed for them.
//! Program crates replay them. A frame is two numbers, whose sum is a length, and then so many bytes; a line `--` stands
//! before each answer.

use std::collections::BTreeMap;

use crate::bytes::put_number;
use crate::calllist::{plays, Play};
use crate::cases::{any_case_of, input_of_case};
use crate::mapfile::keyplay;
use crate::met;
use crate::scenes::list_of;

/// No input has more bytes.
const LARGEST: usize = 6000;

/// Among the first seeds an input is chosen that shows what fewer than so many of the chosen show: an answer, a branch of
/// the key loop, a limit. The later seeds are taken as they come.
const FEW: usize = 3;
const SEARCHED: u64 = 2000;

/// An input, and what must be printed for it.
struct Sample {
    input: Vec<u8>,
    text: String,
}

/// What a program is given, and what it must print.
pub struct Recorded {
    pub stdin: Vec<u8>,
    pub stdout: String,
    shown: BTreeMap<String, usize>,
    count: usize,
}

impl Recorded {
    fn add(&mut self, sample: &Sample, shows: Vec<String>) {
        let first = sample.input.len().min(65_535);
        put_number(first as u32, &mut self.stdin);
        put_number((sample.input.len() - first) as u32, &mut self.stdin);
        self.stdin.extend(&sample.input);
        self.stdout += "--\n";
        self.stdout += &sample.text;
        self.count += 1;
        shows.into_iter().for_each(|what| *self.shown.entry(what).or_default() += 1);
    }

    fn lacks(&self, shows: &[String]) -> bool {
        shows.iter().any(|what| self.shown.get(what).copied().unwrap_or_default() < FEW)
    }

    /// How many of the inputs show what.
    pub fn print(&self) {
        self.shown.iter().for_each(|(what, times)| println!("{times:>12}  {what}"));
    }
}

/// So many samples, of those that the seeds from 1 on give.
fn record(count: usize, samples: fn(u64) -> Result<Vec<Sample>, String>) -> Result<Recorded, String> {
    let mut recorded = Recorded { stdin: vec![], stdout: String::new(), shown: BTreeMap::new(), count: 0 };
    for seed in 1.. {
        let before = met::counted();
        let samples = samples(seed)?;
        let shows: Vec<String> =
            met::counted().into_iter().filter(|(w, n)| before.get(w) != Some(n)).map(|x| x.0).collect();
        for sample in samples.iter().filter(|s| s.input.len() <= LARGEST) {
            if seed > SEARCHED || recorded.lacks(&shows) {
                recorded.add(sample, shows.clone());
            }
            if recorded.count == count {
                return Ok(recorded);
            }
        }
    }
    unreachable!("the seeds do not end")
}

/// Lists of calls.
pub fn lists(count: usize) -> Result<Recorded, String> {
    record(count, |seed| {
        let text = |play: &Play| play.lines.iter().map(|line| format!("{line}\n")).collect();
        let sample = |play: Play| Sample { text: text(&play), input: play.input };
        Ok(plays(&list_of(seed))?.inputs.into_iter().map(sample).collect())
    })
}

/// Inputs of `keyplay`.
pub fn runs(count: usize) -> Result<Recorded, String> {
    record(count, |seed| {
        let input = input_of_case(any_case_of(seed), seed);
        let text = keyplay(&input)?;
        met::met_named(format!("keyplay: {}", text.lines().next().unwrap_or_default()));
        Ok(vec![Sample { input, text }])
    })
}
