//! Inputs with the operator's shares behind them, for the program that checks
//! them: an input, and once its sheet is known one share for each contract and
//! quarter hour. About half of them hold, in our order or in another; the
//! others are off by a little, are lines too few, too many or in another order,
//! or follow an input that is refused.

use crate::damage;
use crate::plan::{self, Plan};
use crate::random::Random;
use crate::{spoilt, written};

type Lines = Vec<Vec<u8>>;

/// A share that is to be written.
#[derive(Clone)]
struct Share {
    quarter_hour: i64,
    direction: u8,
    identifier: Vec<u8>,
    /// What it may fill.
    gap: i64,
    share: i64,
}

/// The shares of a quarter hour and direction.
#[derive(Clone, Default)]
struct Side {
    handed_out: i64,
    shares: Vec<Share>,
}

/// The input of a seed, up to its end line.
pub fn input(seed: u64) -> Vec<u8> {
    begun(seed).1
}

/// The input of a seed with shares behind it, which go by its sheet. Where the
/// input is refused there are those of the quarter hours before.
pub fn with_shares(seed: u64, sheet: &[u8]) -> Vec<u8> {
    let (mut random, mut text) = begun(seed);
    let mut sides = sides_of(sheet);
    for side in &mut sides {
        if random.once_in(2) {
            side.share_in_another_order(&mut random);
        }
    }
    if random.once_in(2) {
        text.extend(written(&lines_of(&sides)));
        return text;
    }

    // Mostly one fault, so that it is the one that is found.
    let faults = random.pick(&[1, 1, 1, 2, 3]);
    let kinds: Vec<usize> = (0..faults).map(|_| random.below(9)).collect();
    for _ in kinds.iter().filter(|kind| **kind < 5) {
        spoil_values(&mut random, &mut sides);
    }
    let mut lines = lines_of(&sides);
    for _ in kinds.iter().filter(|kind| (5..8).contains(*kind)) {
        spoil_order(&mut random, &mut text, &mut lines);
    }
    text.extend(written(&lines));
    for _ in kinds.iter().filter(|kind| **kind == 8) {
        match random.below(3) {
            0 => damage::spoil_bytes(&mut random, &mut text),
            // The end is cut off, mostly within the shares.
            1 => {
                let kept = text.len() - random.below(text.len().min(60) + 1);
                text.truncate(kept);
            }
            _ => text.extend(random.pick(&[&b"U"[..], b"E\n", b"\n", b"U\t0\tP\tA\t0"])),
        }
    }
    text
}

/// The input of a seed, and the random numbers that come next.
fn begun(seed: u64) -> (Random, Vec<u8>) {
    let mut random = Random::new(seed);
    let text = match random.below(12) {
        0..=2 => {
            let plan = Plan::random(&mut random);
            spoilt(&mut random, plan)
        }
        3 => written(&Plan::random(&mut random).lines()),
        _ => written(&Plan::with_gaps(&mut random).lines()),
    };
    (random, text)
}

/// What a sheet says of gaps and shares.
fn sides_of(sheet: &[u8]) -> Vec<Side> {
    let mut sides: Vec<Side> = Vec::new();
    for line in sheet.split(|&byte| byte == b'\n') {
        let fields: Vec<&[u8]> = line.split(|&byte| byte == b'\t').collect();
        match fields.as_slice() {
            [b"Q", _, _, _, _, _, _, _, handed_out, ..] => sides.push(Side {
                handed_out: number(handed_out),
                shares: Vec::new(),
            }),
            [b"K", quarter_hour, direction, identifier, asked, _, accepted, shortfall, share, under, ..] =>
            {
                let cap = number(asked) - number(under);
                let gap = (cap - cap.min(number(accepted))).min(number(shortfall));
                if let Some(side) = sides.last_mut() {
                    side.shares.push(Share {
                        quarter_hour: number(quarter_hour),
                        direction: direction[0],
                        identifier: identifier.to_vec(),
                        gap,
                        share: number(share),
                    });
                }
            }
            _ => {}
        }
    }
    sides
}

/// A number of a sheet, which the second program wrote.
fn number(field: &[u8]) -> i64 {
    let digits = std::str::from_utf8(field).ok();
    digits.and_then(|digits| digits.parse().ok()).unwrap_or(0)
}

fn lines_of(sides: &[Side]) -> Lines {
    let shares = sides.iter().flat_map(|side| &side.shares);
    shares.map(line_of).collect()
}

fn line_of(share: &Share) -> Vec<u8> {
    let mut line = format!("U\t{}\t", share.quarter_hour).into_bytes();
    line.extend([share.direction, b'\t']);
    line.extend(&share.identifier);
    line.extend(format!("\t{}", share.share).bytes());
    line
}

impl Side {
    fn all_gaps(&self) -> i64 {
        self.shares.iter().map(|share| share.gap).sum()
    }

    /// Gives the kWh that rounding down leaves over to any of the contracts that
    /// have a remainder.
    fn share_in_another_order(&mut self, random: &mut Random) {
        let (all_gaps, handed_out) = (self.all_gaps(), self.handed_out);
        if all_gaps == 0 {
            return;
        }
        let mut with_remainder: Vec<usize> = Vec::new();
        for (place, share) in self.shares.iter_mut().enumerate() {
            share.share = share.gap * handed_out / all_gaps;
            if share.gap * handed_out % all_gaps != 0 {
                with_remainder.push(place);
            }
        }
        let given: i64 = self.shares.iter().map(|share| share.share).sum();
        for _ in given..handed_out {
            let next = random.below(with_remainder.len());
            self.shares[with_remainder.swap_remove(next)].share += 1;
        }
    }

    /// Fills the gaps one after the other as far as the surplus goes.
    fn share_in_turn(&mut self) {
        let mut left = self.handed_out;
        for share in &mut self.shares {
            share.share = share.gap.min(left);
            left -= share.share;
        }
    }

    /// Two contracts, mostly with gaps and not the same.
    fn two(&self, random: &mut Random) -> (usize, usize) {
        let all = 0..self.shares.len();
        let with_gap: Vec<usize> = all.filter(|&place| self.shares[place].gap > 0).collect();
        if with_gap.len() < 2 || random.once_in(4) {
            let count = self.shares.len();
            return (random.below(count), random.below(count));
        }
        let one = random.below(with_gap.len());
        let other = (one + 1 + random.below(with_gap.len() - 1)) % with_gap.len();
        (with_gap[one], with_gap[other])
    }

    /// Spoils the shares, or moves them so that they may still hold.
    fn spoil(&mut self, random: &mut Random) {
        let (one, other) = self.two(random);
        match random.below(12) {
            // A little from one to another.
            0..=3 => {
                let little = random.pick(&[1, 1, 1, 2]);
                self.shares[one].share -= little;
                self.shares[other].share += little;
            }
            // The sum is off by one.
            4 | 5 => self.shares[one].share += random.pick(&[-1, 1]),
            // One kWh above the gap, or below 0, and the sum kept.
            6 | 7 => {
                let wanted = random.pick(&[-1, self.shares[one].gap + 1]);
                let more = wanted - self.shares[one].share;
                self.shares[one].share = wanted;
                self.shares[other].share -= more;
            }
            8 => {
                let share = self.shares[one].share;
                self.shares[one].share = self.shares[other].share;
                self.shares[other].share = share;
            }
            9 => self.share_in_turn(),
            10 => {
                let filled = random.once_in(2);
                for share in &mut self.shares {
                    share.share = if filled { share.gap } else { 0 };
                }
            }
            _ => self.shares[one].share = random.pick(&[-999_999_999, -1, 1, 999_999_999]),
        }
    }
}

/// Puts one fault into the shares of a quarter hour and direction, mostly one
/// in which there is something to share.
fn spoil_values(random: &mut Random, sides: &mut [Side]) {
    let something_to_share = sides.iter().any(|side| side.handed_out > 0);
    let least = i64::from(something_to_share && !random.once_in(4));
    let chosen = sides
        .iter_mut()
        .filter(|side| side.handed_out >= least && !side.shares.is_empty());
    let mut chosen: Vec<&mut Side> = chosen.collect();
    if !chosen.is_empty() {
        let place = random.below(chosen.len());
        chosen[place].spoil(random);
    }
}

/// Puts one fault into the lines of the shares, or one of them among the lines
/// of the input.
fn spoil_order(random: &mut Random, text: &mut Vec<u8>, lines: &mut Lines) {
    if lines.is_empty() {
        lines.push(any_share(random));
        return;
    }
    let last = lines.len() - 1;
    let any = random.below(lines.len());
    let place = random.pick(&[0, last, any, any]);
    match random.below(14) {
        // Missing.
        0..=2 => {
            lines.remove(place);
        }
        // Surplus.
        3 => lines.insert(place, lines[place].clone()),
        4 => lines.push(any_share(random)),
        // Out of order.
        5 | 6 => lines.swap(place, (place + 1).min(last)),
        7 => lines.swap(place, random.below(last + 1)),
        8 | 9 => misplace(random, &mut lines[place]),
        10 => damage::spoil_lines(random, lines),
        // Another line among them.
        11 => {
            let sound: Lines = text.split(|&b| b == b'\n').map(<[u8]>::to_vec).collect();
            let line = damage::any_line(random, &sound);
            lines.insert(place + random.below(2), line);
        }
        12 => damage::spoil_field(random, &mut lines[place]),
        // One of them among the lines of the input.
        _ => put_before_the_end(random, text, lines[place].clone()),
    }
}

/// A share of another quarter hour, direction or contract.
fn misplace(random: &mut Random, line: &mut Vec<u8>) {
    let fields = line.split(|&byte| byte == b'\t');
    let mut fields: Lines = fields.map(<[u8]>::to_vec).collect();
    if fields.len() != 5 {
        return;
    }
    match random.below(4) {
        0 => {
            let other = number(&fields[1]) + random.pick(&[-1, 1, 1, 100]);
            fields[1] = other.to_string().into_bytes();
        }
        1 => fields[2] = if fields[2] == b"P" { b"N" } else { b"P" }.to_vec(),
        2 => fields[3] = plan::identifier(random),
        _ => fields[3] = random.pick(damage::ILL_FORMED_IDENTIFIERS).to_vec(),
    }
    *line = fields.join(&b'\t');
}

fn any_share(random: &mut Random) -> Vec<u8> {
    let identifier = if random.once_in(3) {
        random.pick(damage::ILL_FORMED_IDENTIFIERS).to_vec()
    } else {
        plan::identifier(random)
    };
    line_of(&Share {
        quarter_hour: random.between(0, 3),
        direction: random.pick(b"PN"),
        identifier,
        gap: 0,
        share: random.between(-1, 2),
    })
}

/// Puts a share before the header, into a carry block or among what follows it.
fn put_before_the_end(random: &mut Random, text: &mut Vec<u8>, share: Vec<u8>) {
    let share = if random.once_in(3) {
        any_share(random)
    } else {
        share
    };
    let mut lines: Lines = text.split(|&b| b == b'\n').map(<[u8]>::to_vec).collect();
    let few = random.below(lines.len().min(80));
    let any = random.below(lines.len());
    // Before the end line, the text ends in an LF, so that it is the last but one.
    let place = random.pick(&[0, 1, 2, few, any, lines.len().saturating_sub(2)]);
    lines.insert(place, share);
    *text = lines.join(&b'\n');
}

#[cfg(test)]
mod tests {
    use super::*;

    const SHEET: &[u8] = b"V\t3\t2017-02-20\t4\t5000\n\
        Q\t0\tP\t2500\t2489\t2444\t44\t56\t44\t0\t2488\t0\t0\t0\n\
        K\t0\tP\tA1\t1500\t1500\t1500\t0\t0\t0\t1500\t7500\t0\n\
        K\t0\tP\tA2\t1000\t989\t944\t56\t44\t0\t988\t7904\t0\n\
        Q\t0\tN\t0\t0\t0\t0\t0\t0\t0\t0\t0\t0\t0\n\
        T\t1\t15404\t0\n";

    #[test]
    fn the_same_seed_writes_the_same_shares() {
        for seed in 0..50 {
            assert_eq!(input(seed), input(seed));
            assert_eq!(with_shares(seed, SHEET), with_shares(seed, SHEET));
        }
    }

    #[test]
    fn a_sheet_says_what_is_shared() {
        let sides = sides_of(SHEET);
        let handed_out: Vec<i64> = sides.iter().map(|side| side.handed_out).collect();
        assert_eq!(handed_out, [44, 0]);
        let gaps: Vec<i64> = sides[0].shares.iter().map(|share| share.gap).collect();
        assert_eq!(gaps, [0, 56]);
        assert_eq!(
            lines_of(&sides),
            [b"U\t0\tP\tA1\t0".to_vec(), b"U\t0\tP\tA2\t44".to_vec()]
        );
    }

    /// In another order the shares still sum to what is handed out.
    #[test]
    fn another_order_holds() {
        let share = |gap| Share {
            quarter_hour: 0,
            direction: b'P',
            identifier: b"A".to_vec(),
            gap,
            share: 0,
        };
        for seed in 0..100 {
            let mut side = Side {
                handed_out: 5,
                shares: [1, 4, 0, 3, 3].map(share).to_vec(),
            };
            side.share_in_another_order(&mut Random::new(seed));
            let shares: Vec<i64> = side.shares.iter().map(|share| share.share).collect();
            assert_eq!(shares.iter().sum::<i64>(), 5, "{shares:?}");
            assert_eq!(shares[2], 0);
            let near = |share: &Share| (share.share * 11 - share.gap * 5).abs() < 11;
            assert!(side.shares.iter().all(near), "{shares:?}");
        }
    }
}
