//! Makes random calls by the keeper written from the documents alone and by the library, and compares call by call,
//! byte by byte: answer, base, output, and the guards around what is lent.
//!
//! `compare [--calls N] [--spoiled N] [--seed S] [-- PROGRAM..]`
//! `compare joins [--schemas N] [--seed S] [-- PROGRAM..]`
//! `compare files [--files N] [--seed S] [-- PROGRAM..]`
//! `compare bench SQLITE -- PROGRAM..`
//! `compare cases STDIN STDOUT`
//!
//! Joins are two working schemas put end to end, and what is answered under them is held to laws. Files are exchange
//! files, good ones and others: so many at least are read, and what is accepted is written back.
//!
//! PROGRAM and its words start the process that serves the library (`tests/c/serve.c`); without one the library is the
//! one linked (`build.rs`). A call that crashes ends the comparison where the library is linked; served, it is named.
//! SQLITE is the program that asks SQLite (`tests/c/sqlite.c`). STDIN holds the lines of `crates/cases`, STDOUT what
//! they print.
#![deny(unsafe_code)]

mod base;
mod bases;
mod bench;
mod breaks;
mod calls;
mod cases;
mod coverage;
mod file;
mod files;
mod joins;
mod keeper;
mod library;
#[cfg(linked)]
#[allow(unsafe_code)]
mod linked;
mod modes;
mod nameless;
mod random;
mod removals;
mod run;
mod schema;
mod served;
mod shapes;
mod spellings;
mod spoil;
mod sqlite;
#[cfg(test)]
mod tests;

use coverage::Counts;
use library::library;
use run::Run;
use std::io::{stderr, IsTerminal};
use std::process::ExitCode;
use std::sync::atomic::{AtomicUsize, Ordering};
use std::thread;

/// Each history starts with a fresh base; long enough to fill any table and to work near its limit.
const HISTORY: usize = 2500;

/// A run of so many calls should have seen every number of every call.
const LONG: usize = 200_000;

/// So many differences are printed; all are counted.
const SHOWN: usize = 10;

/// What is compared.
#[derive(Clone, Copy)]
enum Compared {
    Calls { calls: usize, spoiled: usize },
    Joins { schemas: usize },
    Files { files: usize },
}

struct Options {
    compared: Compared,
    seed: u64,
}

fn options(arguments: &[String]) -> Option<Options> {
    let (mut compared, arguments) = match arguments {
        [mode, arguments @ ..] if mode == "joins" => (Compared::Joins { schemas: joins::LONG }, arguments),
        [mode, arguments @ ..] if mode == "files" => (Compared::Files { files: files::LONG }, arguments),
        arguments => (Compared::Calls { calls: LONG, spoiled: 60_000 }, arguments),
    };
    let mut seed = 1;
    for pair in arguments.chunks(2) {
        let [option, value] = pair else { return None };
        match (option.as_str(), &mut compared) {
            ("--calls", Compared::Calls { calls: number, .. })
            | ("--spoiled", Compared::Calls { spoiled: number, .. })
            | ("--schemas", Compared::Joins { schemas: number })
            | ("--files", Compared::Files { files: number }) => *number = value.parse().ok()?,
            ("--seed", _) => seed = value.parse().ok()?,
            _ => return None,
        }
    }
    Some(Options { compared, seed })
}

/// Makes so many histories, one on each processor at a time.
fn run(
    histories: usize,
    program: &[String],
    history: impl Fn(&mut Run, usize) -> Result<(), String> + Sync,
) -> Result<(Counts, Vec<String>), String> {
    let begun = AtomicUsize::new(0);
    let shows_progress = stderr().is_terminal();
    let work = || {
        let mut run = Run::new(Some(library(program)?));
        loop {
            let number = begun.fetch_add(1, Ordering::Relaxed);
            if number >= histories {
                return run.finish();
            }
            if shows_progress {
                eprint!("\rhistory {number} of {histories} ");
            }
            if let Err(fault) = history(&mut run, number) {
                // Where the process that serves the library ended, it is the one to say why.
                return Err(run.finish().err().unwrap_or(fault));
            }
        }
    };
    let workers = thread::available_parallelism().map_or(1, usize::from).min(histories);
    let ended: Vec<_> = thread::scope(|scope| {
        let working: Vec<_> = (0..workers).map(|_| scope.spawn(work)).collect();
        working.into_iter().map(|worker| worker.join().expect("a worker doesn't panic")).collect()
    });
    if shows_progress {
        eprint!("\r\x1b[K");
    }
    let (mut counts, mut differences) = (Counts::new(), Vec::new());
    for worker in ended {
        let (counted, found) = worker?;
        counts.add(&counted);
        differences.extend(found);
    }
    Ok((counts, differences))
}

/// Of calls each history has a share of the spoiled bases.
fn compared(options: &Options, program: &[String]) -> Result<(Counts, Vec<String>), String> {
    let &Options { compared, seed } = options;
    match compared {
        Compared::Joins { schemas } => run(schemas, program, |run, number| run.joins(seed, number)),
        Compared::Files { files } => {
            run(files.div_ceil(files::SHARE), program, |run, number| run.files(seed, number))
        }
        Compared::Calls { calls, spoiled } => {
            let histories = calls.div_ceil(HISTORY);
            run(histories, program, |run, number| {
                let calls = HISTORY.min(calls - number * HISTORY);
                run.history(seed, number, calls, spoiled * (number + 1) / histories - spoiled * number / histories)
            })
        }
    }
}

fn main() -> ExitCode {
    let arguments: Vec<String> = std::env::args().skip(1).collect();
    if let [mode, stdin, stdout] = &arguments[..] {
        if mode == "cases" {
            return cases::cases(stdin, stdout);
        }
    }
    let at = arguments.iter().position(|word| word == "--").unwrap_or(arguments.len());
    let program = arguments.get(at + 1..).unwrap_or_default();
    if let [mode, sqlite] = &arguments[..at] {
        if mode == "bench" && !program.is_empty() {
            return bench::bench(sqlite, program);
        }
    }
    let Some(options) = options(&arguments[..at]) else {
        eprintln!("compare [--calls N] [--spoiled N] [--seed S] [-- PROGRAM..]");
        eprintln!("compare joins [--schemas N] [--seed S] [-- PROGRAM..]");
        eprintln!("compare files [--files N] [--seed S] [-- PROGRAM..]");
        eprintln!("compare bench SQLITE -- PROGRAM..\ncompare cases STDIN STDOUT");
        return ExitCode::from(2);
    };
    let (counts, differences) = match compared(&options, program) {
        Ok(ended) => ended,
        Err(fault) => {
            println!("compare: {fault}");
            return ExitCode::FAILURE;
        }
    };
    let spoiled: usize = counts.spoiled.as_flattened().iter().sum();
    let (on, has_seen_all) = match options.compared {
        Compared::Joins { schemas } => {
            counts.print_joined();
            (format!("{schemas} schemas"), schemas < joins::LONG || counts.seldom_joined().is_empty())
        }
        Compared::Files { files } => {
            counts.print_filed();
            (format!("{} files", counts.files()), files < files::LONG || counts.seldom_filed().is_empty())
        }
        Compared::Calls { calls, .. } => {
            counts.print();
            (format!("{spoiled} spoiled bases"), calls < LONG || counts.seldom().is_empty())
        }
    };
    differences.iter().take(SHOWN).for_each(|difference| println!("{difference}"));
    let calls = counts.answered.as_flattened().iter().sum::<usize>() - spoiled;
    println!("compare: {calls} calls, {on}, {} differences", differences.len());
    if differences.is_empty() && has_seen_all {
        ExitCode::SUCCESS
    } else {
        ExitCode::FAILURE
    }
}
