//! A list: the records that the program replay reads and the lines that it must write.

use crate::place::PANICS;
use std::collections::{BTreeMap, HashSet};
use std::fmt::Write;
use std::path::Path;

/// What a record asks for. Its number is the record's first byte.
#[derive(Clone, Copy)]
pub enum Kind {
    Microseconds,
    Clocks,
    Map,
    Rate,
    Window,
    Budget,
}

/// A kind, then the case's bytes, then zeros.
type Record = [u8; 13];

pub struct List {
    name: &'static str,
    rows: String,
    records: Vec<Record>,
    lines: String,
    seen: HashSet<Record>,
    outcomes: BTreeMap<String, usize>,
}

impl List {
    pub fn new(name: &'static str) -> Self {
        List {
            name,
            rows: String::new(),
            records: Vec::new(),
            lines: String::new(),
            seen: HashSet::new(),
            outcomes: BTreeMap::new(),
        }
    }

    /// The answers for 0..count, sixteen to a line after the function's name and the first argument.
    pub fn rows(&mut self, function: &str, count: u32, answer: impl Fn(u32) -> String) {
        for first in (0..count).step_by(16) {
            write!(self.rows, "{function} {first}:").unwrap();
            for argument in first..first + 16 {
                write!(self.rows, " {}", answer(argument)).unwrap();
            }
            self.rows.push('\n');
        }
    }

    /// A case, its line and its outcomes, unless the list has the case already.
    pub fn record(&mut self, kind: Kind, case: &[u8], line: &str, outcomes: &[String]) {
        let mut record = [0; 13];
        record[0] = kind as u8;
        record[1..][..case.len()].copy_from_slice(case);
        if !self.seen.insert(record) {
            return;
        }
        self.records.push(record);
        writeln!(self.lines, "{line}").unwrap();
        for outcome in outcomes {
            *self.outcomes.entry(outcome.clone()).or_default() += 1;
        }
    }

    /// Some case has this outcome.
    pub fn must_reach(&self, outcome: &str) {
        assert!(self.outcomes.contains_key(outcome), "{}: no case reaches {outcome}", self.name);
    }

    /// Every panic of these lines is reached by some case.
    pub fn must_panic_at(&self, lines: &[u32]) {
        for panic in PANICS {
            if lines.contains(&panic.line) {
                self.must_reach(&panic.outcome());
            }
        }
    }

    /// The Rust gives this line: a value of SCOPE 3.1, SCOPE 5.11 or SCOPE 11.
    pub fn must_have(&self, line: &str) {
        assert!(self.lines.lines().any(|written| written == line), "{}: no line {line}", self.name);
    }

    fn report(&self) {
        let (name, rows, records) = (self.name, self.rows.lines().count(), self.records.len());
        eprintln!("{name}: {rows} rows, {records} records");
        for (outcome, cases) in &self.outcomes {
            eprintln!("  {cases:6} {outcome}");
        }
    }
}

/// The lists as one stdin and one stdout: every row before the first record's line.
pub fn write(lists: &[List], folder: &Path) -> std::io::Result<()> {
    let stdin: Vec<u8> = lists.iter().flat_map(|list| list.records.concat()).collect();
    let rows = lists.iter().map(|list| &list.rows[..]);
    let stdout: String = rows.chain(lists.iter().map(|list| &list.lines[..])).collect();
    lists.iter().for_each(List::report);
    eprintln!("stdin {} bytes, stdout {} bytes", stdin.len(), stdout.len());
    std::fs::create_dir_all(folder)?;
    std::fs::write(folder.join("stdin"), stdin)?;
    std::fs::write(folder.join("stdout"), stdout)
}
