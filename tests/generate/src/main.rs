//! Writes test inputs for the settling program: `generate SEED` one input that
//! is the same for the same seed, sound or damaged about as often; `generate
//! day INTERVAL CONTRACTS [SHAPE [NUMBER]]` one whole day, where SHAPE is `walk`
//! (as without one), `calm` or `steps`, and NUMBER, from 1 to 365, makes it that
//! day of a year of which no two days are the same; `generate join SEED PART` a
//! run that is cut in two, where PART is `first`, `second` (to which the carry
//! block that the first printed is still to be put) or `both`. `generate mend
//! SEED` writes a recording for the program that mends, `generate archive` a
//! whole day of one. `generate checker SEED` writes an input that the operator's
//! shares are to follow, and `generate checker SEED shares`, which reads the
//! sheet of that input, the input with the shares. `generate calls SEED` writes
//! a script of library calls.

mod block;
mod calls;
mod curves;
mod damage;
mod day;
mod join;
mod plan;
mod random;
mod recording;
mod shares;

use std::env;
use std::io::{self, Read, Write};
use std::process::ExitCode;

use day::{Shape, SHAPES};
use plan::Plan;
use random::Random;

fn main() -> ExitCode {
    let arguments: Vec<String> = env::args().skip(1).collect();
    let text = match arguments.as_slice() {
        [mode, interval, contracts, which @ ..] if mode == "day" => {
            day_of(interval, contracts, which)
        }
        [mode, seed, part] if mode == "join" => part_of_join(seed, part),
        [mode, seed] if mode == "mend" => seed.parse().ok().map(recording::recording),
        [mode] if mode == "archive" => Some(recording::archive()),
        [mode, seed] if mode == "checker" => seed.parse().ok().map(shares::input),
        [mode, seed, part] if mode == "checker" && part == "shares" => with_shares(seed),
        [mode, seed] if mode == "calls" => seed.parse().ok().map(calls::script),
        [seed] => seed.parse().ok().map(input),
        _ => None,
    };
    let Some(text) = text else {
        return usage();
    };
    match io::stdout().lock().write_all(&text) {
        Ok(()) => ExitCode::SUCCESS,
        Err(_) => ExitCode::FAILURE,
    }
}

fn usage() -> ExitCode {
    let _ = writeln!(
        io::stderr(),
        "usage: generate SEED, generate mend SEED, generate archive, generate checker SEED, \
         generate checker SEED shares < sheet, generate calls SEED, \
         generate join SEED first|second|both, or generate day INTERVAL CONTRACTS [walk|calm|steps [NUMBER]]"
    );
    ExitCode::from(2)
}

/// A day with an interval of 1, 3 or 4 seconds and 1 to 32 contracts a
/// direction, and perhaps a shape and the number of a day.
fn day_of(interval: &str, contracts: &str, which: &[String]) -> Option<Vec<u8>> {
    let interval = interval.parse().ok().filter(|i| [1, 3, 4].contains(i))?;
    let contracts = contracts.parse().ok().filter(|c| (1..=32).contains(c))?;
    let (shape, number) = match which {
        [] => (&SHAPES[0], None),
        [shape] => (shape_called(shape)?, None),
        [shape, number] => {
            let number = number.parse().ok().filter(|n| (1..=365).contains(n))?;
            (shape_called(shape)?, Some(number))
        }
        _ => return None,
    };
    Some(day::write(interval, contracts, shape, number))
}

fn shape_called(name: &str) -> Option<&'static Shape> {
    SHAPES.iter().find(|shape| shape.name == name)
}

fn part_of_join(seed: &str, part: &str) -> Option<Vec<u8>> {
    let lines = join::part(seed.parse().ok()?, part)?;
    Some(written(&lines))
}

/// The input of a seed with the operator's shares, which go by its sheet on
/// standard input.
fn with_shares(seed: &str) -> Option<Vec<u8>> {
    let mut sheet = Vec::new();
    io::stdin().lock().read_to_end(&mut sheet).ok()?;
    Some(shares::with_shares(seed.parse().ok()?, &sheet))
}

/// The input of a seed.
fn input(seed: u64) -> Vec<u8> {
    let mut random = Random::new(seed);
    let plan = Plan::random(&mut random);
    if random.once_in(2) {
        return written(&plan.lines());
    }
    spoilt(&mut random, plan)
}

/// An input with faults.
fn spoilt(random: &mut Random, mut plan: Plan) -> Vec<u8> {
    // Mostly one fault, so that it is the one that is found.
    let faults = random.pick(&[1, 1, 1, 2, 3]);
    let kinds: Vec<usize> = (0..faults).map(|_| random.below(11)).collect();
    for _ in kinds.iter().filter(|kind| (0..3).contains(*kind)) {
        damage::spoil_plan(random, &mut plan);
    }
    for _ in kinds.iter().filter(|kind| (7..9).contains(*kind)) {
        damage::spoil_block(random, &mut plan);
    }
    // Now and then none, so that its lines come where there is no block.
    if kinds.contains(&9) {
        damage::some_block(random, &mut plan);
    }
    let mut lines = plan.lines();
    for _ in kinds.iter().filter(|kind| (9..11).contains(*kind)) {
        damage::spoil_block_lines(random, &mut lines);
    }
    for _ in kinds.iter().filter(|kind| (3..6).contains(*kind)) {
        if !lines.is_empty() {
            damage::spoil_lines(random, &mut lines);
        }
    }
    let mut text = written(&lines);
    for _ in kinds.iter().filter(|kind| **kind == 6) {
        damage::spoil_bytes(random, &mut text);
    }
    text
}

fn written(lines: &[Vec<u8>]) -> Vec<u8> {
    let mut text = Vec::new();
    for line in lines {
        text.extend(line);
        text.push(b'\n');
    }
    text
}

#[cfg(test)]
mod tests {
    use super::*;

    #[test]
    fn the_same_seed_writes_the_same_input() {
        assert!((0..50).all(|seed| input(seed) == input(seed)));
        assert_ne!(input(1), input(2));
    }

    /// What lines of a block stand where, in so many inputs: as they should, and
    /// in each of the ways in which they should not.
    #[test]
    fn blocks_are_damaged_in_every_way() {
        let mut found = std::collections::BTreeMap::new();
        for seed in 0..4_000 {
            let text = input(seed);
            let kinds: Vec<u8> = text
                .split(|&byte| byte == b'\n')
                .map(|line| line.first().copied().unwrap_or(b'-'))
                .take(400)
                .collect();
            let past = kinds
                .iter()
                .skip(2)
                .take_while(|kind| **kind == b'B')
                .count();
            let name = match kinds.as_slice() {
                [b'D', b'O', ..] => {
                    let next = kinds.get(2 + past).copied().unwrap_or(b'-');
                    let whole = [75, 100, 301].contains(&past);
                    format!("{} {}", if whole { "whole" } else { "other" }, next as char)
                }
                [b'D', b'B', ..] => "B after D".to_string(),
                [b'O' | b'B', ..] => "first".to_string(),
                _ if kinds.contains(&b'O') || kinds.contains(&b'B') => "late".to_string(),
                _ => "none".to_string(),
            };
            *found.entry(name).or_insert(0) += 1;
        }
        for name in [
            "whole C",
            "whole S",
            "whole D",
            "whole O",
            "whole E",
            "other C",
            "other S",
            "other D",
            "other O",
            "other E",
            "other -",
            "B after D",
            "first",
            "late",
            "none",
        ] {
            assert!(found.contains_key(name), "{name}: {found:?}");
        }
    }

    /// Of all inputs, damaged or not, more than a third go on after the header
    /// with a block.
    #[test]
    fn a_third_have_a_block() {
        let has_block = |seed: &u64| {
            let input = input(*seed);
            let mut lines = input.split(|&byte| byte == b'\n');
            lines.nth(1).is_some_and(|line| line.starts_with(b"O\t"))
        };
        let count = (0..2_000).filter(has_block).count();
        assert!(count > 800, "{count}");
    }

    #[test]
    fn the_day_is_whole() {
        let kinds = [(1, 8), (3, 1), (4, 32)];
        for ((interval, contracts), shape) in kinds.into_iter().zip(&SHAPES) {
            let day = day::write(interval, contracts, shape, None);
            let lines = day.split_inclusive(|&byte| byte == b'\n');
            let samples = 86_400 / interval;
            assert_eq!(lines.count(), 1 + 2 * contracts as usize + samples + 1);
        }
    }
}
