//! What can be wrong with an input: values, lines and bytes.

use crate::block::{self, Block, LARGEST_BOUND, UNITS_PER_KW};
use crate::plan::{self, Contract, Header, Plan, LARGEST_POWER, LARGEST_PRICE};
use crate::random::Random;

const ILL_FORMED_NUMBERS: &[&[u8]] = &[
    b"",
    b"-",
    b"--",
    b"-0",
    b"00",
    b"01",
    b"-01",
    b"007",
    b"000000001",
    b"+1",
    b"+0",
    b" 1",
    b"1 ",
    b"1-",
    b"--1",
    b"1.0",
    b"1,0",
    b"1e3",
    b"0x1",
    b"x",
    b"1000000000",
    b"-1000000000",
    b"9999999999",
    b"2147483648",
    b"-2147483649",
    b"4294967297",
    b"18446744073709551617",
    b"0000000000",
    b"\r",
    b"1\r",
    b"\0",
    b"1\0",
    b"\x001",
    b"\xff",
    b"1\x80",
    b"\xd9\xa3",
    b"1_000",
];
const WELL_FORMED_NUMBERS: &[&[u8]] = &[
    b"0",
    b"1",
    b"-1",
    b"2",
    b"3",
    b"4",
    b"5",
    b"100",
    b"101",
    b"5000",
    b"1000000",
    b"1000001",
    b"2000000",
    b"2000001",
    b"-2000000",
    b"-2000001",
    b"9999999",
    b"10000000",
    b"-9999999",
    b"-10000000",
    b"999999999",
    b"-999999999",
    b"100000000",
];
/// Of the bounds of a block, which may have two digits more.
const LONG_NUMBERS: &[&[u8]] = &[
    b"0",
    b"1000000000",
    b"-9999999999",
    b"10800000000",
    b"-10800000000",
    b"10800000001",
    b"-10800000001",
    b"99999999999",
    b"-99999999999",
    b"100000000000",
    b"-100000000000",
    b"010800000000",
    b"4294967296",
    b"-2147483649",
];
const ILL_FORMED_DATES: &[&[u8]] = &[
    b"",
    b"-",
    b"0",
    b"2017-2-20",
    b"2017-02-2",
    b"17-02-20",
    b"2017/02/20",
    b"2017-02-20 ",
    b" 2017-02-20",
    b"20170220",
    b"2017-02_20",
    b"02017-02-20",
    b"2017-02-200",
    b"2017-0a-20",
    b"20l7-02-20",
    b"2017-02-2\r",
    b"2017-02-20\r",
    b"2017-02-2\0",
    b"-017-02-20",
    b"2017--2-20",
    b"2017-02-\xb2\xb0",
    b"2017-+2-20",
    b"20-02-2017",
    b"2017-02\t20",
];
/// Dates of the right form; most of them are no real day or out of range.
const WELL_FORMED_DATES: &[&[u8]] = &[
    b"2017-02-29",
    b"2019-02-29",
    b"2100-02-29",
    b"2100-01-01",
    b"2100-02-28",
    b"1999-12-31",
    b"2017-13-01",
    b"2017-00-10",
    b"2017-01-00",
    b"2017-01-32",
    b"2017-04-31",
    b"2017-06-31",
    b"2017-09-31",
    b"2017-11-31",
    b"2016-02-30",
    b"0000-00-00",
    b"9999-99-99",
    b"1900-01-01",
    b"2400-02-29",
    b"2000-02-30",
    b"2017-12-32",
    b"2017-19-19",
    b"2000-00-00",
    b"2017-99-01",
    b"2016-02-29",
    b"2017-12-31",
    b"2017-04-30",
    b"2000-02-29",
];
const OTHER_DIRECTIONS: &[&[u8]] = &[
    b"", b"X", b"p", b"n", b"PN", b"PP", b"P ", b" N", b"\0", b"P\0", b"N\r", b"0", b"-", b"S",
    b"\xd0",
];
pub const ILL_FORMED_IDENTIFIERS: &[&[u8]] = &[
    b"",
    b" ",
    b"A B",
    b"A_1",
    b"A.1",
    b"A/1",
    b"A:",
    b"A@",
    b"A[",
    b"A`",
    b"A{",
    b"A\r",
    b"A\0",
    b"\0",
    b"\xc3\x84",
    b"A\x80",
    b"A\xff",
    b"ABCDEFGHIJKLMNOPQ",
    b"12345678901234567",
    b"A+",
    b"A,",
    b"--\x2e",
    b"ABCDEFGHIJKLMNOPQRSTUVWXYZABCDEFGHIJKLMNOPQRSTUVWXYZ",
];
/// Odd to look at, but good.
const ODD_IDENTIFIERS: &[&[u8]] = &[
    b"-",
    b"--",
    b"0",
    b"z",
    b"Z",
    b"----------------",
    b"9-",
    b"D",
    b"E",
];
const FIRST_FIELDS: &[&[u8]] = &[
    b"", b" ", b"X", b"d", b"c", b"s", b"e", b"DD", b"EE", b"V", b"Q", b"K", b"T", b"R", b"O",
    b"B", b"G", b"U", b"N", b"Z", b"o", b"b", b"OB", b"\0", b"E ", b"S ", b"\xc5", b"#",
];
const ODD_BYTES: &[u8] = b"\0\t\t\n\r -+.019AEDCSOBPNazZ_\x7f\x80\xbf\xff";

type Lines = Vec<Vec<u8>>;

/// Puts one fault into the values of a plan, before it is written.
pub fn spoil_plan(random: &mut Random, plan: &mut Plan) {
    match random.below(10) {
        0 | 8 => spoil_header(random, &mut plan.header),
        1 => {
            // More or fewer quarter hours than there are samples for.
            let count = plan.header.quarter_hours;
            plan.header.quarter_hours = random.pick(&[count + 1, count - 1, 0, 101, 100]);
        }
        2 => fill_list(random, plan),
        3 => limit_of_awards(random, plan),
        4 => order_of_prices(random, plan),
        5 => known_identifier(random, plan),
        6 | 9 => {
            if !plan.contracts.is_empty() {
                let place = random.below(plan.contracts.len());
                let known = plan.contracts.clone();
                spoil_contract(random, &known, &mut plan.contracts[place]);
            }
        }
        _ => {
            let place = random.below(plan.samples.len());
            plan.samples[place] = spoilt_sample(random);
        }
    }
}

/// The block of a plan; a plan that has none is given one.
pub fn some_block<'a>(random: &mut Random, plan: &'a mut Plan) -> &'a mut Block {
    let interval = plan.header.interval;
    let first = plan.samples.first().map_or(0, |(setpoint, _)| *setpoint);
    plan.block.get_or_insert_with(|| {
        let led_up = vec![first.clamp(-LARGEST_POWER, LARGEST_POWER); block::length(interval)];
        Block::random(random, interval, 1_000, led_up)
    })
}

/// Puts one fault into the values or the length of a plan's block.
pub fn spoil_block(random: &mut Random, plan: &mut Plan) {
    let block = some_block(random, plan);
    match random.below(8) {
        0 => {
            let sign = random.pick(&[-1, 1]);
            // The largest number of eleven digits, and the smallest of twelve.
            let large = 99_999_999_999 - LARGEST_BOUND;
            let beyond = random.pick(&[0, 1, 1, 1, 2, large, large + 1, large + 1]);
            let bound = random.pick(&[0, 1]);
            *[&mut block.oga, &mut block.uga][bound] = sign * (LARGEST_BOUND + beyond);
        }
        1 | 2 => setpoint_about_the_range(random, block),
        3..=5 => newest_about_a_bound(random, block),
        6 => {
            let length = block.setpoints.len();
            let (shorter, longer) = (random.below(length + 1), length + random.below(300));
            let one_less = length.saturating_sub(1);
            let lengths = [
                0,
                1,
                one_less,
                one_less,
                length + 1,
                length + 1,
                shorter,
                longer,
            ];
            change_length(block, random.pick(&lengths));
        }
        // The length of another interval.
        _ => change_length(block, block::length(random.pick(&[1, 3, 4]))),
    }
}

/// A setpoint at an end of its range, or beyond it, at any place.
fn setpoint_about_the_range(random: &mut Random, block: &mut Block) {
    let Some(last) = block.setpoints.len().checked_sub(1) else {
        return;
    };
    let any = random.below(last + 1);
    let place = random.pick(&[0, last.saturating_sub(1), last, any, any]);
    let beyond = random.pick(&[0, 1, 1, 1, 997_999_999]);
    block.setpoints[place] = random.pick(&[-1, 1]) * (LARGEST_POWER + beyond);
}

/// Bounds at the newest setpoint, or by one unit on its wrong side, or exchanged;
/// or a newest setpoint by one kW beside them.
fn newest_about_a_bound(random: &mut Random, block: &mut Block) {
    let Some(newest) = block.setpoints.last_mut() else {
        return;
    };
    let units = *newest * UNITS_PER_KW;
    match random.below(7) {
        0 => block.oga = (units - 1).max(-LARGEST_BOUND),
        1 => block.uga = (units + 1).min(LARGEST_BOUND),
        2 => (block.oga, block.uga) = (units, units),
        3 => {
            (block.oga, block.uga) = (units, units);
            *newest += random.pick(&[-1, 1]);
        }
        4 => std::mem::swap(&mut block.oga, &mut block.uga),
        5 => *newest = -*newest,
        // Only the newest has to lie between them.
        _ => {
            (block.oga, block.uga) = (units, units);
            let place = block.setpoints.len().saturating_sub(2);
            block.setpoints[place] = random.between(-LARGEST_POWER, LARGEST_POWER);
        }
    }
}

/// Drops the oldest setpoints, or puts older ones before them, so that the
/// newest stays.
fn change_length(block: &mut Block, length: usize) {
    let newest = block.setpoints.last().copied().unwrap_or(0);
    block.setpoints.reverse();
    block.setpoints.resize(length, newest);
    block.setpoints.reverse();
}

/// Spoils the lines of an input about its block, or puts lines of a block where
/// there is none.
pub fn spoil_block_lines(random: &mut Random, lines: &mut Lines) {
    let end = end_of_block(lines);
    let within = place_about_block(random, end);
    match random.below(12) {
        // Interrupted.
        0..=3 => {
            let line = any_line(random, lines);
            lines.insert(within, line);
        }
        // Two O lines.
        4 => {
            let again = lines[1.min(lines.len() - 1)].clone();
            lines.insert(within, again);
        }
        // The input ends.
        5 => lines.truncate(within),
        // No O line, or no B lines.
        6 if random.once_in(2) && end > 1 => {
            lines.remove(1);
        }
        6 => {
            lines.drain(end.min(2)..end);
        }
        // The whole block at another place.
        7 => {
            let block: Lines = lines.drain(end.min(1)..end).collect();
            let place = place(random, lines);
            lines.splice(place..place, block);
        }
        // Single lines of one, mostly behind the first contract or sample.
        kind => {
            let line = any_block_line(random);
            let place = match kind {
                8 => first_of(lines, b"CS") + 1,
                9 => first_of(lines, b"S") + 1,
                _ => place(random, lines),
            };
            lines.insert(place.min(lines.len()), line);
        }
    }
}

/// A place within a block, or directly before or after it; directly after the
/// header where there is none.
fn place_about_block(random: &mut Random, end: usize) -> usize {
    if end < 2 {
        return end;
    }
    let any = 2 + random.below(end - 1);
    let near_end = end - random.below(end - 1).min(2);
    random.pick(&[1, 2, end - 1, end, near_end, any, any])
}

/// How many lines there are up to the end of the block, the header among them.
fn end_of_block(lines: &Lines) -> usize {
    let begins = |place, letter: &[u8]| {
        lines
            .get(place)
            .is_some_and(|line: &Vec<u8>| line.starts_with(letter))
    };
    let mut end = lines.len().min(1);
    if begins(end, b"O\t") {
        end += 1;
        while begins(end, b"B\t") {
            end += 1;
        }
    }
    end
}

/// The first line that begins with one of some letters, or else the last.
fn first_of(lines: &Lines, letters: &[u8]) -> usize {
    let is_of = |line: &Vec<u8>| line.first().is_some_and(|first| letters.contains(first));
    let place = lines.iter().position(is_of);
    place.unwrap_or(lines.len().saturating_sub(1))
}

/// An O or a B line, in range or not.
fn any_block_line(random: &mut Random) -> Vec<u8> {
    let beyond = random.pick(&[-1, 0, 1, 97_999_999]);
    if random.once_in(2) {
        format!("O\t{}\t0", LARGEST_BOUND + beyond).into_bytes()
    } else {
        let setpoint = random.pick(&[0, LARGEST_POWER + beyond]);
        format!("B\t{setpoint}").into_bytes()
    }
}

/// A line of any kind, good in itself or not.
pub fn any_line(random: &mut Random, lines: &Lines) -> Vec<u8> {
    match random.below(8) {
        0 => {
            let mut header = lines[0].clone();
            if random.once_in(2) {
                spoil_field(random, &mut header);
            }
            header
        }
        1 | 2 => {
            let mut contract = Contract {
                direction: random.pick(b"PN"),
                identifier: plan::identifier(random),
                award: 1,
                price: -LARGEST_PRICE,
            };
            if !random.once_in(3) {
                spoil_contract(random, &[], &mut contract);
            }
            plan::contract_line(&contract)
        }
        3 | 4 => {
            let (setpoint, actual) = if random.once_in(2) {
                (0, 0)
            } else {
                spoilt_sample(random)
            };
            format!("S\t{setpoint}\t{actual}").into_bytes()
        }
        5 => b"E".to_vec(),
        6 => any_block_line(random),
        _ => {
            let mut line = any_block_line(random);
            spoil_field(random, &mut line);
            line
        }
    }
}

/// Which of four values are spoilt: mostly one, so that it is the one that is
/// found, else several, so that the lowest refusal has to be.
fn chosen(random: &mut Random) -> [bool; 4] {
    if random.once_in(3) {
        [(); 4].map(|()| random.once_in(2))
    } else {
        let only = random.below(4);
        [0, 1, 2, 3].map(|place| place == only)
    }
}

pub fn spoil_header(random: &mut Random, header: &mut Header) {
    let [interval, lot, date, quarter_hours] = chosen(random);
    if interval {
        header.interval = random.pick(&[0, 2, 5, -1, -3, -4, 10, 31, 999_999_999]);
    }
    if lot {
        let lots: &[&[u8]] = &[b"0", b"-1", b"1000001", b"999999999", b"-5000", b"1000000"];
        header.lot = random.pick(lots).to_vec();
    }
    if date {
        header.date = odd_date(random);
    }
    if quarter_hours {
        header.quarter_hours = random.pick(&[0, 101, -1, -100, 999_999_999]);
    }
}

/// A date of the right form about the ends of a month, a year or the range.
fn odd_date(random: &mut Random) -> Vec<u8> {
    let year = random.pick(&[1999, 2000, 2016, 2017, 2018, 2050, 2096, 2099, 2100]);
    match random.below(4) {
        0 => random.pick(WELL_FORMED_DATES).to_vec(),
        1 => format!("{year}-02-{}", random.between(28, 30)).into_bytes(),
        _ => {
            let month = random.between(0, 13);
            let day = random.pick(&[0, 1, 28, 29, 30, 31, 32]);
            format!("{year}-{month:02}-{day:02}").into_bytes()
        }
    }
}

/// Spoils some values of a contract.
pub fn spoil_contract(random: &mut Random, known: &[Contract], contract: &mut Contract) {
    let [form, presence, award, price] = chosen(random);
    if form {
        contract.identifier = match random.below(4) {
            0 => random.pick(ODD_IDENTIFIERS).to_vec(),
            1 => vec![random.pick(b"A9-"); random.pick(&[15, 16, 17, 18])],
            _ => random.pick(ILL_FORMED_IDENTIFIERS).to_vec(),
        };
    } else if presence && !known.is_empty() {
        contract.identifier = known[random.below(known.len())].identifier.clone();
    }
    if award {
        contract.award = random.pick(&[0, -1, 1, 2_000_000, 2_000_001, 999_999_999, -2_000_000]);
    }
    if price {
        contract.price = random.pick(&[
            -LARGEST_PRICE - 1,
            LARGEST_PRICE + 1,
            -LARGEST_PRICE,
            999_999_999,
            0,
        ]);
    }
}

/// Setpoint and actual about the ends of the range; mostly one of them.
pub fn spoilt_sample(random: &mut Random) -> (i64, i64) {
    let mut power = || {
        let sign = random.pick(&[-1, 1]);
        sign * random.pick(&[
            LARGEST_POWER,
            LARGEST_POWER + 1,
            LARGEST_POWER + 1,
            999_999_999,
        ])
    };
    let (setpoint, actual) = (power(), power());
    match random.below(5) {
        0 | 1 => (setpoint, 0),
        2 | 3 => (0, actual),
        _ => (setpoint, actual),
    }
}

/// The sum of a direction's awards and its last price.
fn state_of_list(plan: &Plan, direction: u8) -> (i64, i64) {
    let list: Vec<&Contract> = plan
        .contracts
        .iter()
        .filter(|contract| contract.direction == direction)
        .collect();
    let awarded = list.iter().map(|contract| contract.award).sum();
    let price = list
        .last()
        .map_or(-LARGEST_PRICE, |contract| contract.price);
    (awarded, price)
}

/// A contract that would be good at the end of its list.
fn next_contract(random: &mut Random, plan: &Plan, direction: u8) -> Contract {
    let (_, price) = state_of_list(plan, direction);
    Contract {
        direction,
        identifier: plan::identifier(random),
        award: 1,
        price,
    }
}

/// 31 to 34 contracts in a direction; the last may have faults of its own.
fn fill_list(random: &mut Random, plan: &mut Plan) {
    let direction = random.pick(b"PN");
    let wanted = random.pick(&[31, 32, 33, 33, 34]);
    // Room for the awards that are added.
    for contract in plan
        .contracts
        .iter_mut()
        .filter(|contract| contract.direction == direction)
    {
        contract.award = contract.award.min(10_000);
    }
    let present = plan
        .contracts
        .iter()
        .filter(|contract| contract.direction == direction)
        .count();
    for _ in present..wanted {
        let contract = next_contract(random, plan, direction);
        plan.contracts.push(contract);
    }
    if random.once_in(2) {
        let known = plan.contracts.clone();
        if let Some(last) = plan.contracts.last_mut() {
            spoil_contract(random, &known, last);
        }
    }
}

/// A sum of awards about the limit.
fn limit_of_awards(random: &mut Random, plan: &mut Plan) {
    let direction = random.pick(b"PN");
    let (awarded, price) = state_of_list(plan, direction);
    let over = random.pick(&[-1, 0, 0, 1, 1, 2, 1_000_000]);
    let award = (LARGEST_POWER - awarded + over).clamp(0, LARGEST_POWER);
    let price = if random.once_in(4) { price - 1 } else { price };
    let identifier = plan::identifier(random);
    plan.contracts.push(Contract {
        direction,
        identifier,
        award,
        price,
    });
}

/// A price about that of the contract before.
fn order_of_prices(random: &mut Random, plan: &mut Plan) {
    let direction = random.pick(b"PN");
    for _ in 0..2 {
        let mut contract = next_contract(random, plan, direction);
        contract.price += random.pick(&[-1, -1, 0, 1, -1_000_000]);
        plan.contracts.push(contract);
    }
}

/// An identifier that stands in one of the lists already, or nearly so.
fn known_identifier(random: &mut Random, plan: &mut Plan) {
    if plan.contracts.is_empty() {
        return;
    }
    let mut identifier = plan.contracts[random.below(plan.contracts.len())]
        .identifier
        .clone();
    match random.below(5) {
        0 => identifier.make_ascii_lowercase(),
        1 => {
            identifier.pop();
        }
        _ => {}
    }
    let direction = random.pick(b"PN");
    let contract = Contract {
        identifier,
        ..next_contract(random, plan, direction)
    };
    plan.contracts.push(contract);
}

/// Spoils the lines of an input.
pub fn spoil_lines(random: &mut Random, lines: &mut Lines) {
    let place = place(random, lines);
    match random.below(19) {
        0 => {
            lines.remove(place);
        }
        1 => lines.insert(place, lines[place].clone()),
        2 => {
            let other = self::place(random, lines);
            lines.swap(place, other);
        }
        3 => {
            let length = random.below(lines[place].len() + 1);
            lines[place].truncate(length);
        }
        4..=6 => spoil_field(random, &mut lines[place]),
        7 => add_or_drop_field(random, &mut lines[place]),
        8 => {
            // No end line, or one that is no longer alone on its line.
            if random.once_in(2) {
                lines.retain(|line| line != b"E");
            } else {
                let tails: &[&[u8]] = &[b"\r", b"\t", b" ", b"\t0", b"E", b"\0"];
                let tail = random.pick(tails);
                lines
                    .iter_mut()
                    .filter(|line| *line == b"E")
                    .for_each(|line| line.extend(tail));
            }
        }
        9 => {
            // A header more, good or bad, at any place.
            let mut header = lines[0].clone();
            if random.once_in(2) {
                spoil_field(random, &mut header);
            }
            lines.insert(place, header);
        }
        10 => {
            // A contract too early or too late, or one that is no good anyway.
            let mut contract = Contract {
                direction: random.pick(b"PN"),
                identifier: plan::identifier(random),
                award: 1,
                price: LARGEST_PRICE,
            };
            if random.once_in(2) {
                spoil_contract(random, &[], &mut contract);
            }
            lines.insert(place, plan::contract_line(&contract));
        }
        11 => {
            let (setpoint, actual) = if random.once_in(2) {
                (0, 0)
            } else {
                spoilt_sample(random)
            };
            lines.insert(place, format!("S\t{setpoint}\t{actual}").into_bytes());
        }
        12 => lines.insert(place, b"E".to_vec()),
        13 | 17 | 18 => lengthen(random, &mut lines[place]),
        14 => {
            let empty: &[&[u8]] = &[b"", b"\t", b" ", b"\r", b"\t\t", b"\0"];
            lines.insert(place, random.pick(empty).to_vec());
        }
        15 => lines[place].push(b'\r'),
        _ => {
            let mut letter = random.pick(FIRST_FIELDS).to_vec();
            let tab = lines[place].iter().position(|&byte| byte == b'\t');
            letter.extend(&lines[place][tab.unwrap_or(lines[place].len())..]);
            lines[place] = letter;
        }
    }
}

/// A line, each kind about as often although most are samples.
fn place(random: &mut Random, lines: &Lines) -> usize {
    let last = lines.len() - 1;
    let (first_contract, first_sample) = (first_of(lines, b"CSGE"), first_of(lines, b"SGE"));
    match random.below(10) {
        0 => 0,
        1 => last,
        2 => last.saturating_sub(1),
        3 => random.below(first_sample.max(1)),
        4 | 5 => first_contract + random.below(first_sample.saturating_sub(first_contract) + 1),
        6 => first_sample,
        7 => 1.min(last),
        _ => random.below(lines.len()),
    }
}

pub fn spoil_field(random: &mut Random, line: &mut Vec<u8>) {
    let mut fields: Vec<Vec<u8>> = line
        .split(|&byte| byte == b'\t')
        .map(<[u8]>::to_vec)
        .collect();
    let place = if fields.len() == 1 {
        0
    } else {
        1 + random.below(fields.len() - 1)
    };
    let lists: &[&[&[u8]]] = match (fields[0].as_slice(), place) {
        (_, 0) => &[FIRST_FIELDS],
        (b"D", 1) => &[ILL_FORMED_DATES, WELL_FORMED_DATES, WELL_FORMED_DATES],
        (b"C", 1) | (b"U", 2) => &[OTHER_DIRECTIONS],
        (b"C", 2) | (b"U", 3) => &[ILL_FORMED_IDENTIFIERS, ODD_IDENTIFIERS],
        (b"O", _) => &[ILL_FORMED_NUMBERS, WELL_FORMED_NUMBERS, LONG_NUMBERS],
        _ => &[ILL_FORMED_NUMBERS, WELL_FORMED_NUMBERS],
    };
    let list = random.pick(lists);
    fields[place] = random.pick(list).to_vec();
    *line = fields.join(&b'\t');
}

fn add_or_drop_field(random: &mut Random, line: &mut Vec<u8>) {
    let mut fields: Vec<Vec<u8>> = line
        .split(|&byte| byte == b'\t')
        .map(<[u8]>::to_vec)
        .collect();
    let place = random.below(fields.len());
    if random.once_in(2) {
        fields.remove(place);
    } else {
        let field = if random.once_in(2) {
            Vec::new()
        } else {
            fields[place].clone()
        };
        fields.insert(place + random.below(2), field);
    }
    *line = fields.join(&b'\t');
}

/// A line of about the largest length, or far beyond it. Mostly it is made a
/// contract with a long identifier, which is then the only fault up to 80 bytes.
fn lengthen(random: &mut Random, line: &mut Vec<u8>) {
    let length = match random.below(10) {
        0..=2 => 80,
        3..=6 => 81,
        7 => random.between(78, 300) as usize,
        8 => random.pick(&[127, 128, 129, 255, 256, 257, 1_024, 4_096, 65_536]),
        _ => random.between(4_000, 200_000) as usize,
    };
    if random.once_in(3) {
        line.resize(length, random.pick(b"0A \t\xff"));
    } else {
        let tail = b"\t1\t1";
        *line = b"C\tP\t".to_vec();
        line.resize(length - tail.len(), b'A');
        line.extend(tail);
    }
}

/// Spoils the bytes of a written input.
pub fn spoil_bytes(random: &mut Random, text: &mut Vec<u8>) {
    if text.is_empty() {
        return;
    }
    let place = if random.once_in(2) {
        random.below(text.len())
    } else {
        random.below(text.len().min(200))
    };
    match random.below(9) {
        0 => text[place] = random.pick(ODD_BYTES),
        1 => text[place] = random.below(256) as u8,
        2 => text.insert(place, random.pick(ODD_BYTES)),
        3 => {
            text.remove(place);
        }
        // No LF at the end.
        4 => {
            text.pop();
        }
        5 => text.truncate(place),
        // More after the last line, with and without LF.
        6 => {
            let mut more = vec![random.pick(ODD_BYTES); random.below(300)];
            if random.once_in(2) {
                more.push(b'\n');
            }
            text.extend(more);
        }
        7 => {
            for _ in 0..random.below(8) {
                let place = random.below(text.len());
                text[place] = random.pick(ODD_BYTES);
            }
        }
        _ => {
            let whole: &[&[u8]] = &[
                b"",
                b"\n",
                b"E",
                b"E\n",
                b"D",
                b"D\n",
                b"\0",
                b"\n\n",
                b"S\t0\t0\n",
                b"\r\n",
                b"\xff\n",
            ];
            *text = random.pick(whole).to_vec();
        }
    }
}
