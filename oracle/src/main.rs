//! Writes the Rust's answers. `lists`: stdin and stdout of the program replay. `traces`: whole calls, as modules of the
//! crate traces. `streams`: a list of records with its lines and fields. A seed makes other pseudo-random cases. `lines`
//! and `fields` read a list of records from standard input and write its lines or fields.

mod antt;
mod budget;
mod budget_cases;
mod bus;
mod bytes;
mod call;
mod calm_sensor;
mod clock;
mod history;
mod later_cases;
mod list;
mod numbers;
mod place;
mod random_streams;
mod random_traces;
mod rate;
mod records;
mod refused;
mod spad;
mod stream;
mod stream_cases;
mod threshold;
mod trace_cases;
mod traces;

use std::io::{stdin, stdout, BufReader, BufWriter, Result};
use std::path::Path;

const USAGE: &str = "usage: generate lists|traces|streams|sample FOLDER [SEED], or generate lines|fields";

fn main() -> Result<()> {
    let arguments: Vec<String> = std::env::args().skip(1).collect();
    let arguments: Vec<&str> = arguments.iter().map(|argument| &argument[..]).collect();
    place::install();
    let list = || BufReader::with_capacity(1 << 16, stdin().lock());
    let out = || BufWriter::with_capacity(1 << 16, stdout().lock());
    match arguments[..] {
        ["lines"] => records::lines(list(), out()),
        ["fields"] => records::fields(list(), out()),
        [what, folder] => write(what, Path::new(folder)),
        [what, folder, seed] => {
            numbers::SEED.set(seed.parse().expect("a seed is a number")).expect("set once");
            write(what, Path::new(folder))
        }
        _ => panic!("{USAGE}"),
    }
}

fn write(what: &str, folder: &Path) -> Result<()> {
    match what {
        "lists" => {
            let lists = [clock::list(), spad::list(), rate::list(), threshold::list(), budget::list()];
            list::write(&lists, folder)
        }
        "streams" => match numbers::SEED.get() {
            None => stream_cases::files().write(folder),
            Some(_) => random_streams::files().write(folder),
        },
        "sample" => stream_cases::sample().write(folder),
        "traces" => antt::write(&trace_cases::files(), folder),
        _ => panic!("{USAGE}"),
    }
}
