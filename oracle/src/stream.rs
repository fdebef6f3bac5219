//! A list of records in the making, and the files that it becomes.

use crate::call::{Answer, Call, Record};
use crate::history::History;
use crate::records;
use crate::refused::{Refusing, State};
use crate::traces::{Line, Trace};
use std::path::Path;
use std::{fs, io};
use vl53l0x::inner::Fields;

pub struct Stream {
    /// Each record, and what it has to lead to.
    steps: Vec<(Record, Line)>,
    /// The last call's code.
    code: u8,
    state: State,
    pub up: Option<Fields>,
    /// The refused records between the others.
    pub refusing: Refusing,
}

impl Stream {
    pub fn new() -> Self {
        Stream { steps: Vec::new(), code: 0, state: State::NotUp, up: None, refusing: Refusing::Nothing }
    }

    /// How many records it has.
    pub fn len(&self) -> usize {
        self.steps.len()
    }

    /// The list ends after so many records.
    pub fn cut(&mut self, records: usize) {
        self.steps.truncate(records);
    }

    /// A trace that goes on from here.
    pub fn trace(&self) -> Trace {
        Trace::new("stream", self.up)
    }

    /// One more call. `reply` gets the number of the transfer in its call, the written bytes and those to be read.
    pub fn call(&mut self, call: Call, reply: impl FnMut(usize, &[u8], &mut [u8]) -> Result<(), u8>) -> Answer {
        let trace = self.trace().on(call, reply);
        let answer = trace.answer();
        self.play(trace);
        answer
    }

    /// The records of a trace, with refused ones in between.
    pub fn play(&mut self, trace: Trace) {
        let brings_up = matches!(trace.steps.first(), Some(([1, 1, ..], _)));
        assert!(brings_up || trace.before == self.up, "{} starts from other fields", trace.name);
        for (record, line) in trace.steps {
            for (other, number) in self.refusing.next(self.state) {
                self.steps.push((other, Line::Answer(Answer(number, 0), 0)));
            }
            if let [1, code, ..] = record {
                self.code = code;
            }
            self.state = match &line {
                Line::Transfer(transfer) => State::Waiting(transfer.read),
                Line::Answer(answer, _) if self.code == 1 && answer.0 != 0 => State::NotUp,
                Line::Answer(..) => State::Up,
            };
            self.steps.push((record, line));
        }
        self.up = trace.after;
    }

    /// The files of these records and `tail`. Fails if a record leads to something else than it was chosen for, or if the
    /// fields are not those of the history.
    pub fn files(self, tail: &[u8]) -> Files {
        let mut list = Vec::new();
        let mut expected = String::new();
        for (record, line) in self.steps {
            list.extend(record);
            expected += &format!("{line}\n");
        }
        list.extend(tail);
        let (mut lines, mut fields) = (Vec::new(), Vec::new());
        records::lines(&list[..], &mut lines).expect("memory takes lines");
        records::fields(&list[..], &mut fields).expect("memory takes lines");
        let [lines, fields] = [lines, fields].map(|text| String::from_utf8(text).expect("text"));
        for (index, (line, expected)) in lines.lines().zip(expected.lines()).enumerate() {
            assert_eq!(line, expected, "record {}", index + 1);
        }
        let history = History::new(&list, &lines);
        assert!(history.fields == fields, "the fields are not those of the history");
        Files { list, lines, fields, history }
    }
}

pub struct Files {
    list: Vec<u8>,
    lines: String,
    fields: String,
    pub history: History,
}

impl Files {
    pub fn write(&self, folder: &Path) -> io::Result<()> {
        let Files { list, lines, fields, history } = self;
        eprint!("{history}");
        eprintln!("stdin {} bytes, lines {} bytes, fields {} bytes", list.len(), lines.len(), fields.len());
        fs::create_dir_all(folder)?;
        fs::write(folder.join("stdin"), list)?;
        fs::write(folder.join("lines"), lines)?;
        fs::write(folder.join("fields"), fields)
    }
}
