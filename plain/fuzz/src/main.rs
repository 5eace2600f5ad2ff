//! Looks for scripts and documents that break what always holds (`checks.rs`), and keeps those that enter new places.
//!
//!     fuzz [--seed N] [--seconds N] [--last FILE] [--keep FOLDER] SEEDS..
//!     fuzz --run FILE..
//!
//! SEEDS are folders of inputs to begin with. Each input is written to the file `--last` before it is run, so that it is known
//! where the process ends; in the folder `--keep` stands then each input that entered a new place. An input that breaks
//! something is made small and printed, and the status is 1. `--run` asks of some inputs alone. One seed tries the same
//! inputs in the same order each time, some more or less by the time there is.
//!
//! `check/fuzz.py` builds it, with counters of what is entered where the compiler has them, and runs it.
#![deny(unsafe_code)]

mod checks;
mod counters;
mod mutation;
mod random;

use counters::Coverage;
use random::Random;
use std::path::{Path, PathBuf};
use std::process::ExitCode;
use std::time::{Duration, Instant};
use std::{env, fs};

/// How long smaller forms of a faulty input are tried.
const TO_MAKE_SMALL: Duration = Duration::from_secs(20);

struct Asked {
    seed: u64,
    seconds: u64,
    last: Option<PathBuf>,
    keep: Option<PathBuf>,
    run: bool,
    paths: Vec<PathBuf>,
}

impl Asked {
    fn of(mut words: impl Iterator<Item = String>) -> Option<Asked> {
        let mut asked = Asked {
            seed: 1,
            seconds: 60,
            last: None,
            keep: None,
            run: false,
            paths: Vec::new(),
        };
        while let Some(word) = words.next() {
            match word.as_str() {
                "--seed" => asked.seed = words.next()?.parse().ok()?,
                "--seconds" => asked.seconds = words.next()?.parse().ok()?,
                "--last" => asked.last = Some(words.next()?.into()),
                "--keep" => asked.keep = Some(words.next()?.into()),
                "--run" => asked.run = true,
                _ => asked.paths.push(word.into()),
            }
        }
        Some(asked)
    }
}

/// The inputs tried so far that each entered a new place.
struct Search {
    random: Random,
    coverage: Coverage,
    kept: Vec<Vec<u8>>,
    tried: usize,
    last: Option<PathBuf>,
    keep: Option<PathBuf>,
}

/// An input that breaks something, and what.
type Fault = (Vec<u8>, String);

impl Search {
    fn new(asked: &Asked) -> Search {
        Search {
            random: Random::new(asked.seed),
            coverage: Coverage::new(),
            kept: Vec::new(),
            tried: 0,
            last: asked.last.clone(),
            keep: asked.keep.clone(),
        }
    }

    /// Tries an input, and keeps it where it enters a new place.
    fn try_input(&mut self, input: Vec<u8>) -> Result<(), Fault> {
        if let Some(last) = &self.last {
            fs::write(last, &input).expect("the file --last");
        }
        self.coverage.begin();
        self.tried += 1;
        if let Some(told) = checks::fault_of(&input) {
            return Err((input, told));
        }
        if self.coverage.is_new() {
            if let Some(keep) = &self.keep {
                fs::write(keep.join(format!("{:06}", self.kept.len())), &input).expect("the folder --keep");
            }
            self.kept.push(input);
        }
        Ok(())
    }

    /// Tries all seeds, and then changes of what is kept until the time is over.
    fn search(&mut self, seeds: Vec<Vec<u8>>, seconds: u64) -> Result<(), Fault> {
        let end = Instant::now() + Duration::from_secs(seconds);
        for seed in &seeds {
            self.try_input(seed.clone())?;
        }
        // Without counters nothing is new, and seeds alone are changed.
        if self.kept.is_empty() {
            self.kept = seeds;
        }
        while Instant::now() < end {
            let input = self.next_input();
            self.try_input(input)?;
        }
        Ok(())
    }

    /// A change of a kept input: half the time of one of the newest.
    fn next_input(&mut self) -> Vec<u8> {
        let len = self.kept.len();
        let newest = if self.random.below(2) == 0 { len.min(100) } else { len };
        let input = &self.kept[len - 1 - self.random.below(newest)];
        let other = &self.kept[self.random.below(len)];
        mutation::changed(&mut self.random, input, other)
    }

    fn tell(&self) {
        let (entered, places) = self.coverage.entered();
        println!(
            "{} inputs, {} kept, {entered} of {places} places entered",
            self.tried,
            self.kept.len()
        );
    }
}

/// The inputs of some folders, in the order of their names, that aren't too long.
fn seeds_of(folders: &[PathBuf]) -> Vec<Vec<u8>> {
    let mut paths = Vec::new();
    for folder in folders {
        let entries = fs::read_dir(folder).expect("a folder of seeds");
        paths.extend(entries.map(|it| it.expect("a seed").path()));
    }
    paths.sort();
    let seeds = paths.iter().map(|it| fs::read(it).expect("a seed"));
    seeds.filter(|it| it.len() <= mutation::LONGEST).collect()
}

/// A smaller input that is at fault: without some of its lines, values, words or bytes.
fn made_small(mut input: Vec<u8>) -> Vec<u8> {
    let bytes = |text: &[u8]| (0..text.len()).map(|it| it..it + 1).collect();
    let end = Instant::now() + TO_MAKE_SMALL;
    for parts_of in [mutation::lines, mutation::values, mutation::words, bytes] {
        let mut index = parts_of(&input).len();
        while index > 0 && Instant::now() < end {
            index = parts_of(&input).len().min(index) - 1;
            let Some(part) = parts_of(&input).get(index).cloned() else {
                break;
            };
            let smaller = [&input[..part.start], &input[part.end..]].concat();
            if checks::fault_of(&smaller).is_some() {
                input = smaller;
            }
        }
    }
    input
}

fn tell_fault((input, told): Fault) -> ExitCode {
    let input = made_small(input);
    let told = checks::fault_of(&input).unwrap_or(told);
    println!("FAULT: {told}\nof {} bytes: {}", input.len(), input.escape_ascii());
    ExitCode::FAILURE
}

/// Asks of some files alone.
fn run_files(paths: &[PathBuf]) -> ExitCode {
    let told = |path: &Path| checks::fault_of(&fs::read(path).expect("a file"));
    let faults = paths.iter().filter_map(|it| Some((it, told(it)?)));
    let count = faults
        .inspect(|(path, told)| println!("FAULT: {}: {told}", path.display()))
        .count();
    ExitCode::from(u8::from(count > 0))
}

fn main() -> ExitCode {
    let Some(asked) = Asked::of(env::args().skip(1)).filter(|it| !it.paths.is_empty()) else {
        eprintln!("usage: fuzz [--seed N] [--seconds N] [--last FILE] [--keep FOLDER] SEEDS.. | fuzz --run FILE..");
        return ExitCode::from(2);
    };
    checks::listen();
    if asked.run {
        return run_files(&asked.paths);
    }
    let mut search = Search::new(&asked);
    let found = search.search(seeds_of(&asked.paths), asked.seconds);
    search.tell();
    found.map_or_else(tell_fault, |()| ExitCode::SUCCESS)
}
