//! Scripts of library calls, one call a line: mostly runs that go as they
//! should, with calls at other moments and with any numbers in between. What
//! the lines mean is said by the program that makes the calls, crates/calls.

use crate::block::{Block, LARGEST_BOUND};
use crate::damage;
use crate::plan::{self, Contract, Header, Plan, LARGEST_POWER, LARGEST_PRICE};
use crate::random::Random;

/// The lot in kW that `-` stands for.
const USUAL_LOT: &str = "5000";
/// Of a run with more quarter hours mostly only so many are filled.
const FEW_QUARTER_HOURS: i64 = 3;
const LARGEST_BUFFER: i64 = 16_384;
/// The largest number that a script may have in any field.
const LARGEST_NUMBER: i64 = 999_999_999_999_999_999;
/// About the ends of the ranges, and of the types that hold them.
const ODD_NUMBERS: &[i64] = &[
    i32::MIN as i64,
    i32::MIN as i64 + 1,
    -LARGEST_PRICE - 1,
    -LARGEST_PRICE,
    -LARGEST_POWER - 1,
    -LARGEST_POWER,
    -65_532,
    -1,
    0,
    1,
    2,
    3,
    4,
    5,
    100,
    101,
    257,
    65_540,
    1_000_000,
    1_000_001,
    LARGEST_POWER,
    LARGEST_POWER + 1,
    LARGEST_PRICE,
    LARGEST_PRICE + 1,
    i32::MAX as i64 - 1,
    i32::MAX as i64,
];

/// The script of a seed.
pub fn script(seed: u64) -> Vec<u8> {
    let mut random = Random::new(seed);
    let runs = random.pick(&[1, 1, 1, 2, 3]);
    let mut script = Script {
        unrest: random.pick(&[1_000, 60, 20, 8, 3]),
        random,
        known: Vec::new(),
        text: Vec::new(),
    };
    for _ in 0..runs {
        script.run();
    }
    script.text
}

struct Script {
    random: Random,
    /// Once in so many calls another one comes after it, whatever it is.
    unrest: usize,
    /// The contracts of the runs so far.
    known: Vec<Contract>,
    text: Vec<u8>,
}

impl Script {
    fn call(&mut self, line: impl AsRef<[u8]>) {
        self.text.extend(line.as_ref());
        self.text.push(b'\n');
        if self.random.once_in(self.unrest) {
            self.any_calls(1);
        }
    }

    fn any_calls(&mut self, count: usize) {
        for _ in 0..count {
            let line = any_call(&mut self.random, &self.known);
            self.call(line);
        }
    }

    /// From the opening to the end, and what comes before and after.
    fn run(&mut self) {
        let early = self.random.pick(&[0, 0, 0, 2, 8]);
        self.any_calls(early);
        let mut plan = Plan::random(&mut self.random);
        let sound = plan.header.clone();
        for _ in 0..self.random.pick(&[0, 0, 1, 2, 5]) {
            damage::spoil_plan(&mut self.random, &mut plan);
        }
        // A refused opening leaves no run, so a sound one follows.
        if plan.header != sound {
            self.call(open_call(&plan.header));
        }
        self.call(open_call(&sound));
        if self.random.once_in(5) {
            self.spoilt_block(&sound, &plan);
        }
        if let Some(block) = &plan.block {
            self.block(block);
        }
        for contract in &plan.contracts {
            self.known.push(contract.clone());
            self.call(contract_call(contract));
        }
        self.quarter_hours(&sound, &plan.samples);
        for _ in 0..self.random.pick(&[1, 1, 2, 3]) {
            self.call("E");
        }
        if self.random.once_in(2) {
            let line = print_call(&mut self.random, 'P');
            self.call(line);
        }
        let late = self.random.pick(&[0, 1, 4]);
        self.any_calls(late);
    }

    /// A block that is no good, and what comes after it. It would stay open, so
    /// mostly the run is opened anew.
    fn spoilt_block(&mut self, header: &Header, plan: &Plan) {
        let mut spoilt = plan.clone();
        damage::spoil_block(&mut self.random, &mut spoilt);
        if let Some(block) = &spoilt.block {
            self.block(block);
        }
        let next = self.random.pick(&[1, 2, 5]);
        self.any_calls(next);
        if !self.random.once_in(6) {
            self.call(open_call(header));
        }
    }

    /// The calls of a block, its setpoints in some pieces, each with one value
    /// held: the newest stays what it is. Now and then it does not begin, or another
    /// call comes in between.
    fn block(&mut self, block: &Block) {
        let Block { oga, uga, .. } = block;
        if !self.random.once_in(30) {
            self.call(format!("A\t{oga}\t{uga}"));
        }
        let pieces = self.random.pick(&[1, 2, 5, 20, 60]);
        let mut left = block.setpoints.as_slice();
        while !left.is_empty() {
            let longest = (2 * block.setpoints.len() / pieces).max(1);
            let times = (1 + self.random.below(longest)).min(left.len());
            let (piece, rest) = left.split_at(times);
            left = rest;
            self.call(format!("B\t{times}\t{}", piece[times - 1]));
            if self.random.once_in(12) {
                let line = any_call_about_a_block(&mut self.random);
                self.call(line);
            }
        }
    }

    /// Fills and takes quarter hours, mostly each of them in its time.
    fn quarter_hours(&mut self, header: &Header, samples: &[(i64, i64)]) {
        let per_quarter_hour = (900 / header.interval) as usize;
        let few = header.quarter_hours.min(FEW_QUARTER_HOURS);
        let (count, pieces) = if self.random.once_in(3) {
            (header.quarter_hours, 1)
        } else {
            (few, self.random.pick(&[1, 2, 5, 20, 60, 200]))
        };
        for quarter_hour in samples.chunks(per_quarter_hour).take(count as usize) {
            self.quarter_hour(quarter_hour, pieces);
            if self.random.once_in(10) {
                // While it waits.
                let early = self.random.pick(&["E", "S\t1\t0\t0", "S\t900\t1\t-1", "H"]);
                self.call(early);
            }
            self.call("K");
            if self.random.once_in(3) {
                let line = print_call(&mut self.random, 'Q');
                self.call(line);
            }
        }
    }

    /// The samples of a quarter hour in some pieces, each with one value held.
    /// Now and then one is lacking or too many.
    fn quarter_hour(&mut self, samples: &[(i64, i64)], pieces: usize) {
        let mut left = match self.random.below(30) {
            0 => samples.len() - 1,
            1 => samples.len() + 1,
            _ => samples.len(),
        };
        while left > 0 {
            let longest = (2 * samples.len() / pieces).max(1);
            let times = (1 + self.random.below(longest)).min(left);
            let (setpoint, actual) = samples[samples.len().saturating_sub(left)];
            self.call(format!("S\t{times}\t{setpoint}\t{actual}"));
            left -= times;
        }
    }
}

fn open_call(header: &Header) -> String {
    let date = String::from_utf8_lossy(&header.date);
    // Numbers have no leading zeros.
    let parts: Vec<String> = date
        .split('-')
        .map(|part| part.parse().map_or(0, |number: u16| number).to_string())
        .collect();
    let lot = match header.lot.as_slice() {
        b"-" => USUAL_LOT.into(),
        lot => String::from_utf8_lossy(lot),
    };
    format!(
        "O\t{}\t{}\t{lot}\t{}",
        parts.join("\t"),
        header.interval,
        header.quarter_hours
    )
}

fn contract_call(contract: &Contract) -> Vec<u8> {
    let mut line = vec![b'C', b'\t', contract.direction];
    line.extend(format!("\t{}\t{}\t", contract.award, contract.price).bytes());
    line.extend(&contract.identifier);
    line
}

/// A call with any numbers, which may come at any moment.
fn any_call(random: &mut Random, known: &[Contract]) -> Vec<u8> {
    match random.below(23) {
        0..=4 => return contract_call(&any_contract(random, known)),
        20..=22 => any_call_about_a_block(random),
        5..=8 => any_samples(random),
        9 | 10 => "K".to_string(),
        11 | 12 => "E".to_string(),
        13 => "H".to_string(),
        // Rare, as it puts an end to the run at hand.
        14 if random.once_in(3) => any_opening(random),
        _ => {
            let kind = random.pick(&['V', 'Q', 'T', 'P', 'R', 'R']);
            print_call(random, kind)
        }
    }
    .into_bytes()
}

/// Any number of an `i32`.
fn any_number(random: &mut Random) -> i64 {
    if random.once_in(3) {
        random.between(i32::MIN.into(), i32::MAX.into())
    } else {
        random.pick(ODD_NUMBERS)
    }
}

/// Mostly as it was, else anything.
fn perhaps_any(random: &mut Random, number: i64) -> i64 {
    if random.once_in(4) {
        any_number(random)
    } else {
        number
    }
}

fn any_contract(random: &mut Random, known: &[Contract]) -> Contract {
    let mut contract = Contract {
        direction: random.pick(b"PN"),
        identifier: plan::identifier(random),
        award: random.between(1, 1_000),
        price: LARGEST_PRICE,
    };
    if random.once_in(3) {
        damage::spoil_contract(random, known, &mut contract);
    }
    contract.award = perhaps_any(random, contract.award);
    contract.price = perhaps_any(random, contract.price);
    if random.once_in(6) {
        contract.identifier = (0..random.below(21))
            .map(|_| any_byte_of_field(random))
            .collect();
    }
    contract
}

/// A byte that parts neither fields nor lines.
fn any_byte_of_field(random: &mut Random) -> u8 {
    loop {
        let byte = random.below(256) as u8;
        if byte != b'\t' && byte != b'\n' {
            return byte;
        }
    }
}

/// A call that begins a block or goes on with one, or asks for the one that the
/// run leaves behind.
fn any_call_about_a_block(random: &mut Random) -> String {
    match random.below(5) {
        0 | 1 => {
            let (oga, uga) = (any_bound(random), any_bound(random));
            format!("A\t{oga}\t{uga}")
        }
        2 | 3 => {
            let times = random.pick(&[0, 1, 1, 1, 2, 75, 301]);
            let setpoint = random.between(-20_000, 20_000);
            let setpoint = perhaps_any(random, setpoint);
            format!("B\t{times}\t{setpoint}")
        }
        _ => print_call(random, 'P'),
    }
}

/// Of the bounds of a block, in units.
fn any_bound(random: &mut Random) -> i64 {
    match random.below(4) {
        0 => any_amount(random),
        1 => random.pick(&[-1, 1]) * (LARGEST_BOUND + random.between(-1, 1)),
        _ => random.between(-LARGEST_BOUND, LARGEST_BOUND),
    }
}

fn any_samples(random: &mut Random) -> String {
    let times = random.pick(&[0, 1, 1, 1, 2, 31, 250]);
    let setpoint = random.between(-20_000, 20_000);
    let setpoint = perhaps_any(random, setpoint);
    let actual = perhaps_any(random, setpoint);
    format!("S\t{times}\t{setpoint}\t{actual}")
}

/// Year, month and day with the numbers that their types hold.
fn any_date(random: &mut Random) -> String {
    let years = [0, 1999, 2000, 2016, 2017, 2099, 2100, 2400, 9_999, 65_535];
    let year = random.pick(&years);
    let month = random.pick(&[0, 1, 2, 2, 4, 11, 12, 13, 99, 100, 255]);
    let day = random.pick(&[0, 1, 28, 29, 30, 31, 32, 99, 100, 255]);
    format!("{year}\t{month}\t{day}")
}

fn any_opening(random: &mut Random) -> String {
    let date = if random.once_in(2) {
        any_date(random)
    } else {
        "2017\t2\t20".to_string()
    };
    let interval = random.pick(&[1, 3, 4]);
    let interval = perhaps_any(random, interval);
    let lot = perhaps_any(random, 5_000);
    let quarter_hours = perhaps_any(random, 1);
    format!("O\t{date}\t{interval}\t{lot}\t{quarter_hours}")
}

/// The call that prints a line V, T or R, the lines of a quarter hour or those
/// of the run's block (P), with any numbers and a buffer of any length.
fn print_call(random: &mut Random, kind: char) -> String {
    let room = room(random);
    if kind == 'P' {
        return format!("P\t{room}");
    }
    let fields = match kind {
        'V' => {
            let date = any_date(random);
            let interval = random.pick(&[1, 3, 4]);
            let lot = random.pick(&[0, 1, 5_000, 1_000_000, u32::MAX]);
            format!("{date}\t{interval}\t{lot}")
        }
        'Q' => random.below(256).to_string(),
        'T' => {
            let (fees, penalties) = (any_amount(random), any_amount(random));
            format!("{}\t{fees}\t{penalties}", random.below(256))
        }
        _ => {
            let line = any_amount(random).abs();
            format!("{line}\t{}", random.below(19))
        }
    };
    format!("{kind}\t{room}\t{fields}")
}

/// Mostly a buffer about as long as the text.
fn room(random: &mut Random) -> String {
    let beside = [-LARGEST_BUFFER, -20, -2, -1, -1, 0, 0, 0, 1, 2, 50];
    match random.below(8) {
        0 => format!("B\t{}", random.pick(&[0, 1, 16_383, 16_384])),
        1 => format!("B\t{}", random.between(0, LARGEST_BUFFER)),
        2 => format!("B\t{}", random.between(0, 200)),
        _ => format!("T\t{}", random.pick(&beside)),
    }
}

fn any_amount(random: &mut Random) -> i64 {
    match random.below(4) {
        0 => random.pick(&[0, 1, -1, 9, 10, -10, LARGEST_NUMBER, -LARGEST_NUMBER]),
        1 => random.between(-LARGEST_NUMBER, LARGEST_NUMBER),
        _ => random.between(-100_000, 100_000),
    }
}

#[cfg(test)]
mod tests {
    use super::*;

    #[test]
    fn the_same_seed_writes_the_same_script() {
        assert!((0..50).all(|seed| script(seed) == script(seed)));
        assert_ne!(script(1), script(2));
    }

    /// The program that makes the calls reads no longer script.
    #[test]
    fn scripts_are_short() {
        assert!((0..2_000).all(|seed| script(seed).len() <= 65_536));
    }

    #[test]
    fn a_header_is_opened_by_its_numbers() {
        let header = Header {
            date: b"2005-03-09".to_vec(),
            interval: 4,
            lot: b"-".to_vec(),
            quarter_hours: 2,
        };
        assert_eq!(open_call(&header), "O\t2005\t3\t9\t4\t5000\t2");
    }
}
