//! A sound input: its header, carry block, contracts and samples, and how they
//! are written.

use crate::block::{self, Block};
use crate::curves;
use crate::random::Random;

pub const LARGEST_POWER: i64 = 2_000_000;
pub const LARGEST_PRICE: i64 = 9_999_999;
const IDENTIFIER_BYTES: &[u8] = b"ABCDEFGHIJKLMNOPQRSTUVWXYZabcdefghijklmnopqrstuvwxyz0123456789-";

#[derive(Clone, PartialEq, Eq)]
pub struct Header {
    pub date: Vec<u8>,
    pub interval: i64,
    pub lot: Vec<u8>,
    pub quarter_hours: i64,
}

#[derive(Clone)]
pub struct Contract {
    pub direction: u8,
    pub identifier: Vec<u8>,
    pub award: i64,
    pub price: i64,
}

#[derive(Clone)]
pub struct Plan {
    pub header: Header,
    pub block: Option<Block>,
    pub contracts: Vec<Contract>,
    /// Setpoint and actual.
    pub samples: Vec<(i64, i64)>,
}

impl Plan {
    pub fn random(random: &mut Random) -> Plan {
        let header = header(random);
        Plan::with_header(random, header)
    }

    /// A plan whose quarter hours have gaps of several contracts and a surplus to
    /// share among them, in one direction or now in one and then in the other.
    pub fn with_gaps(random: &mut Random) -> Plan {
        let mut header = header(random);
        header.quarter_hours = random.pick(&[1, 1, 1, 2, 2, 4]);
        let per_quarter_hour = (900 / header.interval) as usize;
        let count = per_quarter_hour * header.quarter_hours as usize;
        let fan = random.pick(&[tolerance_fan, gap_fan, gap_fan, gap_fan]);
        let (mut contracts, mut samples) = fan(random, count);
        if random.once_in(2) {
            let (others, other_samples) = other_way(&contracts, fan(random, count));
            contracts.extend(others);
            mix_directions(random, &mut contracts);
            let quarters = samples.chunks_mut(per_quarter_hour);
            for (quarter, other) in quarters.zip(other_samples.chunks(per_quarter_hour)) {
                if random.once_in(2) {
                    quarter.copy_from_slice(other);
                }
            }
        }
        Plan {
            header,
            block: None,
            contracts,
            samples,
        }
    }

    /// A plan with contracts and samples for a header, and about as often as
    /// not with a block: its setpoints then lead up to the samples.
    pub fn with_header(random: &mut Random, header: Header) -> Plan {
        let interval = header.interval;
        let past = if random.once_in(2) {
            block::length(interval)
        } else {
            0
        };
        let count = (header.quarter_hours * 900 / interval) as usize;
        // Of the size of the contracts' awards, so that slicing matters.
        let size = random.pick(&[2, 3, 10, 100, 1_000, 5_000, 20_000, 100_000, LARGEST_POWER]);
        let (contracts, mut samples) = contracts_and_samples(random, size, past + count);
        let led_up: Vec<i64> = samples
            .drain(..past)
            .map(|(setpoint, _)| setpoint)
            .collect();
        let mut plan = Plan {
            header,
            block: (past > 0).then(|| Block::random(random, interval, size, led_up)),
            contracts,
            samples,
        };
        let newest = plan.block.as_ref().and_then(|block| block.setpoints.last());
        if let Some(newest) = newest.copied().filter(|_| random.once_in(4)) {
            plan.show_past(random, 0, newest);
        }
        plan
    }

    /// Holds the setpoint before a sample from there on for a while and delivers
    /// as much as there may be, with the least lot: what is accepted is then the
    /// bound itself, and where it goes is said by the past alone.
    pub fn show_past(&mut self, random: &mut Random, sample: usize, before: i64) {
        self.header.lot = random.pick(&[&b"1"[..], b"1", b"100"]).to_vec();
        let delivered = random.pick(&[-LARGEST_POWER, LARGEST_POWER]);
        let held = random.between(1, 900) as usize;
        for sample in self.samples.iter_mut().skip(sample).take(held) {
            *sample = (before, delivered);
        }
    }

    /// The lines without their LF.
    pub fn lines(&self) -> Vec<Vec<u8>> {
        let mut lines = vec![header_line(&self.header)];
        lines.extend(self.block.iter().flat_map(Block::lines));
        lines.extend(self.contracts.iter().map(contract_line));
        lines.extend(
            self.samples
                .iter()
                .map(|(setpoint, actual)| format!("S\t{setpoint}\t{actual}").into_bytes()),
        );
        lines.push(b"E".to_vec());
        lines
    }
}

/// Contracts, and as many samples as asked for, of about the given size.
fn contracts_and_samples(
    random: &mut Random,
    size: i64,
    count: usize,
) -> (Vec<Contract>, Vec<(i64, i64)>) {
    if random.once_in(5) {
        return tolerance_fan(random, count);
    }
    let mut contracts = list(random, b'P', size);
    contracts.extend(list(random, b'N', size));
    mix_directions(random, &mut contracts);
    make_identifiers_differ(random, &mut contracts);
    let limits = last_limits(&contracts);
    let samples = match random.below(6) {
        0 | 1 => curves::about_limits(random, limits, count),
        // Any course, of which about half lies above a last limit.
        2 | 3 => {
            let size = 2 * random.pick(&limits).clamp(1, LARGEST_POWER / 2);
            curves::random(random, size, count)
        }
        _ => curves::random(random, size, count),
    };
    (contracts, samples)
}

pub fn header_line(header: &Header) -> Vec<u8> {
    let mut line = b"D\t".to_vec();
    line.extend(&header.date);
    line.extend(format!("\t{}\t", header.interval).bytes());
    line.extend(&header.lot);
    line.extend(format!("\t{}", header.quarter_hours).bytes());
    line
}

pub fn contract_line(contract: &Contract) -> Vec<u8> {
    let mut line = vec![b'C', b'\t', contract.direction, b'\t'];
    line.extend(&contract.identifier);
    line.extend(format!("\t{}\t{}", contract.award, contract.price).bytes());
    line
}

/// The sums of the awards of both directions, positive first.
fn last_limits(contracts: &[Contract]) -> [i64; 2] {
    [b'P', b'N'].map(|direction| {
        let list = contracts
            .iter()
            .filter(|contract| contract.direction == direction);
        list.map(|contract| contract.award).sum()
    })
}

pub fn header(random: &mut Random) -> Header {
    Header {
        date: date(random),
        interval: random.pick(&[1, 3, 4, 4]),
        lot: match random.below(8) {
            0 => b"1".to_vec(),
            1 => b"1000000".to_vec(),
            2 => random
                .between(1, LARGEST_POWER / 2)
                .to_string()
                .into_bytes(),
            3 | 4 => random.between(1, 20_000).to_string().into_bytes(),
            _ => b"-".to_vec(),
        },
        quarter_hours: match random.below(300) {
            0 => 100,
            1 => random.between(11, 99),
            2..=9 => random.between(4, 10),
            10..=34 => 3,
            35..=79 => 2,
            _ => 1,
        },
    }
}

pub fn date(random: &mut Random) -> Vec<u8> {
    match random.below(8) {
        0 => b"2000-01-01".to_vec(),
        1 => b"2099-12-31".to_vec(),
        2 => b"2000-02-29".to_vec(),
        3 => format!("20{:02}-02-29", 4 * random.between(0, 24)).into_bytes(),
        _ => {
            let (year, month, day) = (
                random.between(2000, 2099),
                random.between(1, 12),
                random.between(1, 28),
            );
            format!("{year}-{month:02}-{day:02}").into_bytes()
        }
    }
}

pub fn identifier(random: &mut Random) -> Vec<u8> {
    let length = match random.below(4) {
        0 => 16,
        1 => random.between(1, 2),
        _ => random.between(1, 16),
    };
    (0..length).map(|_| random.pick(IDENTIFIER_BYTES)).collect()
}

/// The contracts of one direction. Their awards together are within the limit
/// and their prices in order.
fn list(random: &mut Random, direction: u8, size: i64) -> Vec<Contract> {
    let count = match random.below(8) {
        0 => 0,
        1 => 32,
        2 | 3 => random.between(5, 32),
        _ => random.between(1, 4),
    };
    let mut left = LARGEST_POWER;
    let style = random.below(5);
    let mut awards: Vec<i64> = (0..count)
        .map(|number| {
            let wanted = match style {
                0 => size / count.max(1) + 1,
                1 => random.between(1, 5),
                2 => random.between(1, LARGEST_POWER / count.max(1)),
                3 => random.between(1, size),
                _ => random.between(1, 2 * size / count.max(1) + 1),
            };
            let award = wanted.min(left - (count - number - 1)).max(1);
            left -= award;
            award
        })
        .collect();
    // Now and then the sum is the largest that is allowed.
    if random.once_in(6) {
        if let Some(award) = awards.last_mut() {
            *award += left;
        }
    }
    let mut prices: Vec<i64> = prices(random, awards.len());
    prices.sort_unstable();
    awards
        .into_iter()
        .zip(prices)
        .map(|(award, price)| Contract {
            direction,
            identifier: identifier(random),
            award,
            price,
        })
        .collect()
}

fn prices(random: &mut Random, count: usize) -> Vec<i64> {
    let style = random.below(6);
    let equal = random.between(-LARGEST_PRICE, LARGEST_PRICE);
    (0..count)
        .map(|_| match style {
            0 => equal,
            1 => 500 * random.between(-20, 20),
            2 => 125 * random.between(-80, 80),
            3 => random.pick(&[-LARGEST_PRICE, LARGEST_PRICE]),
            4 => random.between(-3, 3),
            _ => random.between(-LARGEST_PRICE, LARGEST_PRICE),
        })
        .collect()
}

/// Positive and negative contracts may come in any order.
fn mix_directions(random: &mut Random, contracts: &mut [Contract]) {
    match random.below(3) {
        0 => {}
        1 => contracts.sort_by_key(|contract| contract.direction),
        _ => {
            for place in 1..contracts.len() {
                let mut earlier = place;
                // Within a direction the order has to stay.
                while earlier > 0
                    && contracts[earlier - 1].direction != contracts[earlier].direction
                    && !random.once_in(4)
                {
                    contracts.swap(earlier - 1, earlier);
                    earlier -= 1;
                }
            }
        }
    }
}

fn make_identifiers_differ(random: &mut Random, contracts: &mut [Contract]) {
    for place in 0..contracts.len() {
        while contracts[..place]
            .iter()
            .any(|earlier| earlier.identifier == contracts[place].identifier)
        {
            contracts[place].identifier = identifier(random);
        }
    }
}

/// A setpoint whose tolerance reaches over many small contracts, delivered
/// partly below and partly above: gaps of several contracts, often equal, and a
/// surplus that is shared among them.
fn tolerance_fan(random: &mut Random, count: usize) -> (Vec<Contract>, Vec<(i64, i64)>) {
    let direction = random.pick(b"PN");
    let sign = if direction == b'P' { 1 } else { -1 };
    let mut level = random.pick(&[2_000, 10_000, 40_000, 100_000]) + random.between(0, 200);
    // The small contracts begin at the tolerance, or lie across its bound. At
    // the edge the first contract ends half a kWh above that bound, both round
    // to the same kWh, and it under-delivers: there its gap is smaller than its
    // shortfall, which shows if there are no large gaps beside it.
    let edge = random.once_in(2);
    let small = random.between(0, if edge { 1 } else { 31 });
    let base = if edge {
        while level * 19 / 20 % 4 != 2 {
            level += 1;
        }
        level * 19 / 20 + 3
    } else {
        level * random.pick(&[16, 18, 19]) / 20 + random.between(-3, 3)
    };
    let equal = random.once_in(2);
    let price = random.between(-2_000, 2_000);
    let rising = random.pick(&[0, 1, 250]);
    let mut contracts = vec![Contract {
        direction,
        identifier: b"base".to_vec(),
        award: base,
        price,
    }];
    for number in 0..small {
        let even = (level - base) / small + 1;
        contracts.push(Contract {
            direction,
            identifier: format!("fan-{number}").into_bytes(),
            award: if equal {
                even
            } else {
                random.between(1, 2 * even)
            },
            price: price + rising * (number + 1),
        });
    }
    let below = match random.below(4) {
        _ if edge => random.between(level * 17 / 20, level * 19 / 20),
        0 => random.between(0, level),
        _ => random.between(level * 18 / 20, level),
    };
    let above = random.between(level, level * 22 / 20);
    let part_below = random.between(if edge { 80 } else { 1 }, 99) as usize;
    let samples = (0..count)
        .map(|place| {
            let actual = if place % 100 < part_below {
                below
            } else {
                above
            };
            (sign * level, sign * actual)
        })
        .collect();
    (contracts, samples)
}

/// A base contract up to the tolerance and many small ones above it, with gaps
/// of some kWh each and mostly less surplus than they would take: the kWh that
/// rounding leaves over can go to several of them.
fn gap_fan(random: &mut Random, count: usize) -> (Vec<Contract>, Vec<(i64, i64)>) {
    let direction = random.pick(b"PN");
    let sign = if direction == b'P' { 1 } else { -1 };
    let few = random.between(2, 8);
    let small = random.pick(&[few, few, few, 31]);
    let slice = random.pick(&[4, 8, 20, 60, 300]);
    let level = 20 * small * slice + random.between(0, 60);
    let equal = random.once_in(3);
    let award_of = |random: &mut Random, number: i64| match number {
        0 => level * 19 / 20 + random.between(-2, 2),
        _ if equal => slice,
        _ => random.between(1, 2 * slice),
    };
    let contracts = (0..=small).map(|number| Contract {
        direction,
        identifier: format!("gap-{number}").into_bytes(),
        award: award_of(random, number),
        price: 100 * number,
    });
    let contracts = contracts.collect();
    let (below, above) = (
        level - random.between(level / 40, level / 20),
        level + random.between(1, level / 20),
    );
    let part_below = random.between(40, 95) as usize;
    let samples = (0..count)
        .map(|place| {
            let short = place % 100 < part_below;
            (sign * level, sign * if short { below } else { above })
        })
        .collect();
    (contracts, samples)
}

/// Contracts and samples in the direction that the others do not have, with
/// identifiers of their own.
fn other_way(
    others: &[Contract],
    (mut contracts, mut samples): (Vec<Contract>, Vec<(i64, i64)>),
) -> (Vec<Contract>, Vec<(i64, i64)>) {
    let same = others[0].direction == contracts[0].direction;
    for contract in &mut contracts {
        contract.identifier.insert(0, b'-');
        if same {
            contract.direction = if contract.direction == b'P' {
                b'N'
            } else {
                b'P'
            };
        }
    }
    if same {
        for sample in &mut samples {
            *sample = (-sample.0, -sample.1);
        }
    }
    (contracts, samples)
}

#[cfg(test)]
mod tests {
    use super::*;

    /// In how many of 2,000 plans there are samples of a kind, in a direction
    /// with contracts: the kind tells from setpoint, actual and last limit, all
    /// three as the direction sees them.
    fn plans_with(positive: bool, kind: impl Fn(i64, i64, i64) -> bool) -> usize {
        let sign = if positive { 1 } else { -1 };
        let has_kind = |seed: &u64| {
            let plan = Plan::random(&mut Random::new(*seed));
            let limit = last_limits(&plan.contracts)[usize::from(!positive)];
            let mut samples = plan.samples.iter();
            limit > 0
                && samples.any(|(setpoint, actual)| kind(sign * setpoint, sign * actual, limit))
        };
        (0..2_000).filter(has_kind).count()
    }

    /// With a block in sound and in damaged inputs more than a third have one.
    #[test]
    fn about_half_have_a_block() {
        let has_block = |seed: &u64| Plan::random(&mut Random::new(*seed)).block.is_some();
        let count = (0..2_000).filter(has_block).count();
        assert!((900..1_100).contains(&count), "{count}");
    }

    #[test]
    fn powers_often_lie_above_the_last_limit() {
        for positive in [true, false] {
            let plans = |kind: fn(i64, i64, i64) -> bool| plans_with(positive, kind);
            assert!(plans(|setpoint, _, limit| setpoint > limit) > 500);
            assert!(plans(|_, actual, limit| actual > limit) > 500);
            assert!(plans(|setpoint, actual, limit| setpoint.min(actual) > limit) > 500);
            // Exactly at it, and one above.
            assert!(plans(|setpoint, _, limit| setpoint == limit) > 100);
            assert!(plans(|_, actual, limit| actual == limit) > 100);
            assert!(plans(|setpoint, _, limit| setpoint == limit + 1) > 100);
            assert!(plans(|_, actual, limit| actual == limit + 1) > 100);
        }
    }
}
