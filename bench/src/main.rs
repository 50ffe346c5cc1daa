//! A stopwatch for whole processes: runs commands on files, one after the other.
//!
//!     bench time ROUNDS COMMAND.. -- FILE..
//!     bench memory COMMAND.. -- FILE..
//!
//! The words of a COMMAND are parted by spaces. It reads FILE on standard input,
//! and what it prints is thrown away. For each FILE one line goes to standard
//! output, with a number for each COMMAND, parted by tabs: the nanoseconds from
//! the start of the process to its end in the best of ROUNDS, in each of which
//! all run on all files, so that a slow moment of the machine meets all; or the
//! most memory that it had at a time, in KiB. Each round begins with another
//! COMMAND: the first one finds the file in no cache of the processor, and the
//! others do.

use std::env;
use std::error::Error;
use std::fs::File;
use std::os::unix::process::CommandExt;
use std::process::{Command, ExitCode, Stdio};
use std::time::Instant;

fn main() -> ExitCode {
    let arguments: Vec<String> = env::args().skip(1).collect();
    let mut parts = arguments.splitn(2, |word| word == "--");
    let (before, files) = (parts.next().unwrap_or_default(), parts.next());
    let measured = match (before, files) {
        ([mode, rounds, commands @ ..], Some(files)) if mode == "time" => {
            let Some(rounds) = rounds.parse().ok().filter(|rounds| *rounds > 0) else {
                eprintln!("bench: ROUNDS has to be a number from 1 on");
                return ExitCode::from(2);
            };
            times(rounds, commands, files)
        }
        ([mode, commands @ ..], Some(files)) if mode == "memory" => memory(commands, files),
        _ => {
            eprintln!(
                "usage: bench time ROUNDS COMMAND.. -- FILE.., bench memory COMMAND.. -- FILE.."
            );
            return ExitCode::from(2);
        }
    };
    match measured {
        Ok(()) => ExitCode::SUCCESS,
        Err(error) => {
            eprintln!("bench: {error}");
            ExitCode::FAILURE
        }
    }
}

fn times(rounds: u32, commands: &[String], files: &[String]) -> Result<(), Box<dyn Error>> {
    let mut best = vec![vec![u128::MAX; commands.len()]; files.len()];
    for round in 0..rounds as usize {
        for (file, best) in files.iter().zip(&mut best) {
            for place in 0..commands.len() {
                let turn = (round + place) % commands.len();
                let mut process = process(&commands[turn], file)?;
                let start = Instant::now();
                wait(&mut process)?;
                best[turn] = best[turn].min(start.elapsed().as_nanos());
            }
        }
    }
    best.iter().for_each(|best| print(best));
    Ok(())
}

/// Linux counts the memory of the process that starts another one, too, up to
/// the moment at which the new program takes its place. So a copy of this one
/// starts it, which has hardly any; a time would have the copying in it.
fn memory(commands: &[String], files: &[String]) -> Result<(), Box<dyn Error>> {
    for file in files {
        let mut used = Vec::new();
        for command in commands {
            let mut process = process(command, file)?;
            // SAFETY: nothing is done there; that there is something to do has a
            // copy made.
            unsafe { process.pre_exec(|| Ok(())) };
            used.push(wait(&mut process)?);
        }
        print(&used);
    }
    Ok(())
}

fn print(numbers: &[impl ToString]) {
    let numbers: Vec<String> = numbers.iter().map(ToString::to_string).collect();
    println!("{}", numbers.join("\t"));
}

fn process(command: &str, file: &str) -> Result<Command, Box<dyn Error>> {
    let mut words = command.split_whitespace();
    let mut process = Command::new(words.next().unwrap_or_default());
    let input = File::open(file)?;
    process.args(words).stdin(input).stdout(Stdio::null());
    Ok(process)
}

/// Runs a process to its end; answers the most memory that it, or one that it
/// waited for, had at a time, in KiB.
fn wait(process: &mut Command) -> Result<i64, Box<dyn Error>> {
    let id = process.spawn()?.id() as i32;
    let mut status = 0;
    let mut usage = [0; USAGE_WORDS];
    // SAFETY: both places are there for the length of the call, and the second
    // has the size that is written.
    if unsafe { wait4(id, &mut status, 0, usage.as_mut_ptr()) } != id {
        return Err(std::io::Error::last_os_error().into());
    }
    if status != 0 {
        return Err(format!("{process:?} failed").into());
    }
    Ok(usage[MEMORY_WORD])
}

/// `struct rusage` of Linux on processors of 64 bits: two times of two words, and
/// fourteen words, of which the first is the memory.
const USAGE_WORDS: usize = 18;
const MEMORY_WORD: usize = 4;

extern "C" {
    fn wait4(id: i32, status: *mut i32, options: i32, usage: *mut i64) -> i32;
}
