//! An ordinary interpreter of the machine, with which the figures compare the product. It shares nothing with it but
//! docs/MACHINE.md: plain memory as that page lays it out, one byte of code at a time, first in first out, and each
//! access tested.
//!
//!     rustc --edition 2024 -C opt-level=3 src/main.rs
//!
//! Registers are locals of one function, with a `match` on the function's code. These were tried, too, and measured on
//! the six modules that the figures take:
//!
//! - registers in a struct of its own that goes to a function for each byte, which is inlined: 0.97 to 1.07 times as long;
//! - all in one struct with its memory in a `Vec`, and methods, which are inlined: 1.00 to 1.24 times;
//! - no way of their own for messages of a word, but a call of `memmove`: 1.00 to 1.06 times;
//! - links and scheduling in functions that are not inlined: 0.98 to 1.11 times;
//! - one unit of code generation: 0.97 to 1.08 times; and with `panic=abort`: 1.25 to 1.35 times.
//!
//! Addresses are not tested for being those of words, and no definedness or holding is kept: an ordinary interpreter
//! would not do so.

mod fault;
mod machine;
mod memory;
mod module;
mod ports;
mod scheduling;

use fault::Fault;
use machine::{Report, run};
use module::Module;
use ports::Ports;
use std::fs::File;
use std::io::{self, BufReader, BufWriter, Repeat};
use std::process::ExitCode;

const BYTE: u8 = 1; // what comes on link 0
const FACTOR: u64 = 31;

fn mixed(checksum: u64, number: u64) -> u64 {
    checksum.wrapping_mul(FACTOR).wrapping_add(number)
}

/// Repeats a run with a reader that has bytes without end and a writer in memory on link 0. The bytes executed, and
/// those that went out.
fn repeated(module: &Module, times: u64) -> Result<u64, Fault> {
    let mut checksum = 0;
    for _ in 0..times {
        let inputs: [Option<Repeat>; 4] = [Some(io::repeat(BYTE)), None, None, None];
        let outputs = [Some(Vec::new()), None, None, None];
        let mut ports = Ports::new(inputs, outputs);
        let report = run(module, &mut ports)?;
        checksum = mixed(mixed(checksum, report.executed), ports.written[0]);
    }
    Ok(checksum)
}

/// The link that a word of the command line names, as `--in0`.
fn link(word: &str, way: &str) -> Option<usize> {
    let link = word.strip_prefix("--")?.strip_prefix(way)?.parse().ok()?;
    (link < 4).then_some(link)
}

/// Runs a module with files on its links, which the words name, and prints what became of it.
fn run_with_files(module: &Module, words: &[String]) -> Result<(), Fault> {
    let mut inputs = [None, None, None, None];
    let mut outputs = [None, None, None, None];
    for pair in words.chunks(2) {
        let [word, path] = pair else {
            return Err(Fault::Failed);
        };
        if let Some(link) = link(word, "in") {
            inputs[link] = Some(BufReader::new(File::open(path).map_err(|_| Fault::Failed)?));
        } else if let Some(link) = link(word, "out") {
            outputs[link] = Some(BufWriter::new(
                File::create(path).map_err(|_| Fault::Failed)?,
            ));
        } else {
            return Err(Fault::Failed);
        }
    }
    let is_there: [[bool; 4]; 2] = [
        inputs.each_ref().map(Option::is_some),
        outputs.each_ref().map(Option::is_some),
    ];
    let mut ports = Ports::new(inputs, outputs);
    let report = run(module, &mut ports)?;
    ports.flush()?;
    show(&report, is_there, [ports.read, ports.written]);
    Ok(())
}

fn show(report: &Report, is_there: [[bool; 4]; 2], counts: [[u64; 4]; 2]) {
    let outcome = if report.is_finished { "ended" } else { "idle" };
    println!("{outcome}, {} bytes executed", report.executed);
    for (way, (there, counts)) in ["in", "out"]
        .into_iter()
        .zip(is_there.into_iter().zip(counts))
    {
        for link in 0..4 {
            if there[link] {
                println!("{way}{link} {} bytes", counts[link]);
            }
        }
    }
}

fn answer(words: &[String]) -> Result<(), Fault> {
    let [_, path, rest @ ..] = words else {
        return Err(Fault::Failed);
    };
    let file = std::fs::read(path).map_err(|_| Fault::Failed)?;
    let module = module::read(&file).ok_or(Fault::Failed)?;
    match rest {
        [times] => {
            let times = times.parse().map_err(|_| Fault::Failed)?;
            println!("{}", repeated(&module, times)?);
            Ok(())
        }
        files => run_with_files(&module, files),
    }
}

fn main() -> ExitCode {
    let words: Vec<String> = std::env::args().collect();
    match answer(&words) {
        Ok(()) => ExitCode::SUCCESS,
        Err(fault) => {
            eprintln!("baseline: {fault:?}");
            eprintln!(
                "usage: baseline MODULE TIMES, or baseline MODULE [--in0 FILE] [--out0 FILE].."
            );
            ExitCode::FAILURE
        }
    }
}
