//! Runs the built programs and counts what they are compared in.

use crate::edition::Edition;
use crate::expected::{self, accepted, refusal, ROOM};
use crate::sheet::{read_sheet, write_sheet, No, Sheet};
use crate::walks;
use std::collections::{BTreeMap, BTreeSet};
use std::io::Write;
use std::path::PathBuf;
use std::process::{Command, Stdio};
use std::time::Duration;

pub struct Bench {
    pub programs: PathBuf,
    pub passed: usize,
    pub failed: usize,
    /// How many comparisons of each kind there were, by the refusal that was due (0 for none).
    kinds: BTreeMap<String, BTreeMap<u32, usize>>,
    /// The refusals that each program gave where they were due, with the edition that the file opened as.
    refused: BTreeSet<(&'static str, Edition, u32)>,
}

/// The beginning of a text, for the report of a failure.
fn beginning(text: &[u8]) -> String {
    let cut = &text[..text.len().min(2000)];
    format!("{} bytes:\n{}", text.len(), String::from_utf8_lossy(cut))
}

impl Bench {
    pub fn new(programs: PathBuf) -> Self {
        Bench { programs, passed: 0, failed: 0, kinds: BTreeMap::new(), refused: BTreeSet::new() }
    }

    /// Several parts at the same time, and their counts taken together. No part looks at what another has counted.
    pub fn side_by_side(programs: PathBuf, parts: &[&(dyn Fn(&mut Bench) + Sync)]) -> Self {
        let mut all = Bench::new(programs.clone());
        std::thread::scope(|scope| {
            let running: Vec<_> = parts
                .iter()
                .map(|part| {
                    let mut b = Bench::new(programs.clone());
                    scope.spawn(move || {
                        part(&mut b);
                        b
                    })
                })
                .collect();
            for part in running {
                all.add(part.join().expect("a part that ends"));
            }
        });
        all
    }

    fn add(&mut self, other: Bench) {
        self.passed += other.passed;
        self.failed += other.failed;
        self.refused.extend(other.refused);
        for (what, by_number) in other.kinds {
            let here = self.kinds.entry(what).or_default();
            for (number, count) in by_number {
                *here.entry(number).or_default() += count;
            }
        }
    }

    pub fn run(&self, program: &str, input: &[u8]) -> Vec<u8> {
        self.run_in_pieces(program, input, input.len())
    }

    /// The program's output, where its input comes in pieces with pauses between them. A program that says something on standard error, or
    /// ends with another status than 0, has no output that counts.
    pub fn run_in_pieces(&self, program: &str, input: &[u8], piece: usize) -> Vec<u8> {
        let mut child = Command::new(self.programs.join(program))
            .stdin(Stdio::piped())
            .stdout(Stdio::piped())
            .stderr(Stdio::piped())
            .spawn()
            .unwrap_or_else(|e| panic!("{program}: {e}"));
        let mut stdin = child.stdin.take().unwrap();
        let bytes = input.to_vec();
        let feeder = std::thread::spawn(move || {
            for (i, part) in bytes.chunks(piece.max(1)).enumerate() {
                if i > 0 {
                    std::thread::sleep(Duration::from_millis(1));
                }
                // A program stops reading where it knows enough.
                if stdin.write_all(part).is_err() {
                    break;
                }
            }
        });
        let out = child.wait_with_output().unwrap();
        let _ = feeder.join();
        if !out.status.success() || !out.stderr.is_empty() {
            return format!("{program}: {}, {}", out.status, String::from_utf8_lossy(&out.stderr)).into_bytes();
        }
        out.stdout
    }

    /// A file that opens with neither word counts as one of the first edition.
    pub fn refuses(&mut self, program: &'static str, file: &[u8], number: u32) {
        self.refuses_edition(program, Edition::opening(file).unwrap_or(Edition::States), number);
    }

    pub fn refuses_edition(&mut self, program: &'static str, edition: Edition, number: u32) {
        self.refused.insert((program, edition, number));
    }

    /// Holds that a program, or a call, has given this refusal on a sheet of this edition.
    pub fn has_refused(&mut self, what: &str, program: &'static str, edition: Edition, number: u32) {
        let given = self.refused.contains(&(program, edition, number));
        self.expect(what, given, format!("{program}, {}, {number}", edition.word()).as_bytes());
    }

    pub fn expect(&mut self, what: &str, good: bool, input: &[u8]) {
        self.count(what, 0, good, input);
    }

    pub fn count(&mut self, what: &str, number: u32, good: bool, input: &[u8]) {
        *self.kinds.entry(what.to_string()).or_default().entry(number).or_default() += 1;
        if good {
            self.passed += 1;
        } else {
            self.failed += 1;
            println!("FAILED {what}, on {}", beginning(input));
        }
    }

    pub fn same(&mut self, what: &str, program: &'static str, input: &[u8], expected: Result<String, No>) {
        let got = self.run(program, input);
        self.compare(what, program, input, expected, &got);
    }

    pub fn compare(&mut self, what: &str, program: &'static str, input: &[u8], expected: Result<String, No>, got: &[u8]) {
        let number = expected.as_ref().err().map_or(0, |no| no.0);
        let want = expected.unwrap_or_else(refusal);
        let good = got == want.as_bytes();
        if good {
            self.refuses(program, input, number);
        } else {
            println!("want {}got {}", beginning(want.as_bytes()), beginning(got));
        }
        self.count(what, number, good, input);
    }

    /// A line for each kind of comparison.
    pub fn report(&self) {
        for (what, by_number) in &self.kinds {
            let total: usize = by_number.values().sum();
            let refused: Vec<String> = by_number.iter().filter(|(x, _)| **x > 0).map(|(x, n)| format!("{x}: {n}")).collect();
            let refused = if refused.is_empty() { String::new() } else { format!(" (refused with {})", refused.join(", ")) };
            println!("{total:7} {what}{refused}");
        }
        println!("{:7} calls of the library in all", self.made("call "));
    }

    /// How many comparisons there were of the kinds that begin so.
    pub fn made(&self, beginning: &str) -> usize {
        self.kinds.iter().filter(|(what, _)| what.starts_with(beginning)).map(|(_, x)| x.values().sum::<usize>()).sum()
    }

    /// Holds the number of comparisons to the least that there have to be.
    pub fn at_least(&mut self, least: usize, beginning: &str) {
        let made = self.made(beginning);
        self.expect("enough comparisons", made >= least, format!("{beginning}: {made}").as_bytes());
    }

    pub fn listed(&mut self, what: &str, file: &[u8]) {
        self.same(what, "track", file, expected::listing(file, ROOM));
    }

    pub fn judged(&mut self, what: &str, input: &[u8]) {
        self.same(what, "verdict", input, expected::verdict(input, ROOM));
    }

    /// Writing a sheet out: composed, read again the same, and stable; a refused sheet with its witness.
    pub fn rewritten(&mut self, what: &str, bytes: &[u8]) {
        let got = self.run("rewrite", bytes);
        match accepted(bytes) {
            Ok(s) => {
                self.expect(what, got == write_sheet(&s, true), bytes);
                let again = self.run("rewrite", &got);
                self.expect(&format!("{what} again"), again == got, bytes);
            }
            Err((10, _)) => {
                let good = prints_witness(&read_sheet(bytes).unwrap(), &got);
                if good {
                    self.refuses("rewrite", bytes, 10);
                }
                self.count(what, 10, good, bytes);
            }
            Err(no) => self.compare(what, "rewrite", bytes, Err(no), &got),
        }
    }
}

/// Is this the refusal 10 of the sheet, byte for byte, with a shortest word and two walks that meet on it?
pub fn prints_witness(s: &Sheet, got: &[u8]) -> bool {
    let text = String::from_utf8_lossy(got).into_owned();
    let mut lines = text.lines().skip(1);
    let mut numbers = || -> Vec<usize> { lines.next().unwrap_or("").split(' ').skip(1).filter_map(|x| x.parse().ok()).collect() };
    let (word, one, other) = (numbers(), numbers(), numbers());
    let line = |name: &str, cells: &[usize]| -> String { cells.iter().fold(name.to_string(), |line, x| format!("{line} {x}")) };
    let written = format!("{}{}\n{}\n{}\n", refusal((10, 0)), line("WORD", &word), line("WALK", &one), line("WALK", &other));
    got == written.as_bytes()
        && walks::meets(s, &word, &one, &other)
        && Some(word.len()) == walks::shortest_meeting(s)
        && word.len() <= s.n * (s.n + 1) / 2
}
