//! Traces as lists of numbers in antt.

use crate::call::Record;
use crate::traces::{Line, Trace};
use std::fmt::Write;
use std::path::Path;
use vl53l0x::inner::Fields;

/// A file of traces: its module's name, what it holds, and the name of the whole list.
pub struct File {
    pub module: &'static str,
    pub about: String,
    pub list: &'static str,
    pub traces: Vec<Trace>,
}

/// Bytes from 10 on in hexadecimal.
fn byte(byte: u8) -> String {
    if byte < 10 {
        byte.to_string()
    } else {
        format!("0x{byte:02X}")
    }
}

fn list(items: impl IntoIterator<Item = String>) -> String {
    items.into_iter().chain(["[]".to_string()]).collect::<Vec<_>>().join(" ∷ ")
}

fn record(record: &Record) -> String {
    list(record.iter().map(|&value| byte(value)))
}

fn line(line: &Line) -> String {
    match line {
        Line::Transfer(transfer) => {
            let written = transfer.written.iter().map(|&value| byte(value));
            let first = ["0".to_string(), byte(transfer.address)];
            list(first.into_iter().chain(written).chain([transfer.read.to_string()]))
        }
        Line::Answer(answer, transfers) => {
            list(["1".to_string(), answer.0.to_string(), answer.1.to_string(), transfers.to_string()])
        }
    }
}

fn fields(fields: Option<Fields>) -> String {
    let all = match fields {
        None => ["0", "0", "0", "0"].map(String::from),
        Some(fields) => {
            let budget = fields.measurement_timing_budget_microseconds;
            ["1".to_string(), byte(fields.address), byte(fields.stop_variable), budget.to_string()]
        }
    };
    list(all)
}

fn text(file: &File) -> String {
    let mut text = format!("-- Written by oracle/traces from the Rust. {}\n", file.about);
    text += "use Rattle.std.specs.Prelude.{List, [], ◌∷◌}\nuse Rattle.traces.specs.Trace.{Trace}\n";
    for trace in &file.traces {
        let name = &trace.name;
        write!(text, "\nabbrev pub {name} : Trace\n{name} =\n    record {{\n").unwrap();
        writeln!(text, "      before = {};", fields(trace.before)).unwrap();
        writeln!(text, "      steps =").unwrap();
        for (index, (bytes, led_to)) in trace.steps.iter().enumerate() {
            let cons = if index == 0 { "" } else { "∷ " };
            writeln!(text, "          {cons}({}, {})", record(bytes), line(led_to)).unwrap();
        }
        writeln!(text, "          ∷ [];").unwrap();
        writeln!(text, "      after = {};\n    }}", fields(trace.after)).unwrap();
    }
    let names = list(file.traces.iter().map(|trace| trace.name.clone()));
    write!(text, "\nabbrev pub {0} : List Trace\n{0} = {names}\n", file.list).unwrap();
    text
}

/// One module a file, none of 400 lines or more.
pub fn write(files: &[File], folder: &Path) -> std::io::Result<()> {
    let texts: Vec<String> = files.iter().map(text).collect();
    for (file, text) in files.iter().zip(&texts) {
        let records: usize = file.traces.iter().map(|trace| trace.steps.len()).sum();
        let lines = text.lines().count();
        eprintln!("{}: {} runs, {records} records, {lines} lines", file.module, file.traces.len());
        assert!(lines < 400, "{} is too long", file.module);
    }
    std::fs::create_dir_all(folder)?;
    for (file, text) in files.iter().zip(&texts) {
        std::fs::write(folder.join(format!("{}.antt", file.module)), text)?;
    }
    Ok(())
}
