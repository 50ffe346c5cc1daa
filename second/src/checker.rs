//! Checks the operator's shares: reads an input and, after its end line, one
//! share for every contract and quarter hour, in the order in which our sheet
//! has its contracts. It says whether they hold or, once all of it was read,
//! the first quarter hour and direction in which they do not.

use crate::amounts::Energy;
use crate::run::{demand, well_formed_identifier, QuarterHour, Refusal, Run};
use crate::settle::{Direction, Settlement, DIRECTIONS};
use crate::sheet::letter;
use crate::text::{complete_lines, read_checked_line, CheckedLine, Line, OperatorShare};

/// What is printed for an input with shares: one line.
pub fn verdict(input: &[u8]) -> String {
    let mut desk = Desk::default();
    let mut lines = 0;
    for line in complete_lines(input) {
        lines += 1;
        if let Err(refusal) = desk.take_line(line) {
            return refused(lines, refusal);
        }
    }
    match desk.close() {
        Ok(verdict) => verdict,
        Err(refusal) => refused(lines + 1, refusal),
    }
}

fn refused(line: u64, refusal: Refusal) -> String {
    format!("R\t{line}\t{}\n", refusal.number())
}

/// What was read so far.
#[derive(Default)]
struct Desk {
    run: Option<Run>,
    quarter_hours: Vec<QuarterHour>,
    /// The shares, once the end line was read.
    shares: Option<Shares>,
}

/// The shares that have to come, in their order, and the values of those that
/// came.
struct Shares {
    places: Vec<Place>,
    values: Vec<i64>,
}

/// What a share is of.
#[derive(Clone, Debug, PartialEq, Eq)]
struct Place {
    quarter_hour: i32,
    direction: Direction,
    identifier: String,
}

impl Desk {
    fn take_line(&mut self, line: &[u8]) -> Result<(), Refusal> {
        let line = read_checked_line(line).ok_or(Refusal::IllFormedLine)?;
        match (line, &mut self.run) {
            (CheckedLine::OfInput(Line::Header(header)), run @ None) => {
                *run = Some(Run::open(header)?);
                Ok(())
            }
            (_, None) => Err(Refusal::WrongMoment),
            (CheckedLine::Share(share), Some(_)) => self.take_share(share),
            (CheckedLine::OfInput(_), Some(_)) if self.shares.is_some() => {
                Err(Refusal::WrongMoment)
            }
            (CheckedLine::OfInput(line), Some(_)) => self.take_line_of_input(line),
        }
    }

    fn take_line_of_input(&mut self, line: Line<'_>) -> Result<(), Refusal> {
        let run = self.run.as_mut().ok_or(Refusal::WrongMoment)?;
        match line {
            Line::Header(_) => Err(Refusal::WrongMoment),
            Line::PastBounds(bounds) => run.begin_block(bounds),
            Line::PastSetpoint(setpoint) => run.add_past_setpoint(setpoint),
            Line::Contract(offer) => run.add_contract(offer),
            Line::Sample(sample) => {
                run.add_sample(sample)?;
                if run.quarter_hour_waits() {
                    self.quarter_hours.push(run.take_quarter_hour()?);
                }
                Ok(())
            }
            Line::End => {
                run.end()?;
                self.shares = Some(Shares {
                    places: places(run, &self.quarter_hours),
                    values: Vec::new(),
                });
                Ok(())
            }
        }
    }

    /// A share comes after the end line, and there it is the next one.
    fn take_share(&mut self, share: OperatorShare<'_>) -> Result<(), Refusal> {
        let identifier = well_formed_identifier(share.identifier);
        let identifier = identifier.ok_or(Refusal::IllFormedIdentifier)?;
        if let Some(run) = &self.run {
            run.block_is_whole()?;
        }
        let shares = self.shares.as_mut().ok_or(Refusal::MisplacedShare)?;
        let place = Place {
            quarter_hour: share.quarter_hour,
            direction: share.direction,
            identifier: identifier.to_string(),
        };
        let next = shares.places.get(shares.values.len());
        demand(next == Some(&place), Refusal::MisplacedShare)?;
        shares.values.push(i64::from(share.share));
        Ok(())
    }

    /// The verdict, where nothing is missing at the end of the input.
    fn close(&self) -> Result<String, Refusal> {
        let shares = self.shares.as_ref().ok_or(Refusal::NoEndLine)?;
        let all = shares.values.len() == shares.places.len();
        demand(all, Refusal::MisplacedShare)?;
        Ok(
            match first_that_does_not_hold(&self.quarter_hours, shares) {
                None => format!("A\t{}\n", self.quarter_hours.len()),
                Some((quarter_hour, direction)) => {
                    format!("F\t{quarter_hour}\t{}\n", letter(direction))
                }
            },
        )
    }
}

/// What there has to be a share of, in the order of the sheet.
fn places(run: &Run, quarter_hours: &[QuarterHour]) -> Vec<Place> {
    let mut places = Vec::new();
    for quarter in quarter_hours {
        for direction in DIRECTIONS {
            for contract in run.lists().get(direction).contracts() {
                places.push(Place {
                    quarter_hour: quarter.number,
                    direction,
                    identifier: contract.identifier.clone(),
                });
            }
        }
    }
    places
}

fn first_that_does_not_hold(
    quarter_hours: &[QuarterHour],
    shares: &Shares,
) -> Option<(i32, Direction)> {
    let mut values = shares.values.as_slice();
    for quarter in quarter_hours {
        for direction in DIRECTIONS {
            let settlement = quarter.settlements.get(direction);
            let (own, rest) = values.split_at(settlement.contracts.len());
            values = rest;
            if !shares_hold(settlement, own) {
                return Some((quarter.number, direction));
            }
        }
    }
    None
}

/// Whether the shares of one quarter hour and direction hold: they sum to what
/// is handed out, each is between 0 and its gap, and each lies less than 1 kWh
/// from its part in proportion to the gaps.
fn shares_hold(settlement: &Settlement, shares: &[i64]) -> bool {
    let gaps = || settlement.contracts.iter().map(|figures| figures.gap);
    let all_gaps = gaps().sum::<Energy>();
    let handed_out = settlement.pool.surplus.min(all_gaps);
    let each = gaps().zip(shares).all(|(gap, share)| {
        let within = (0..=gap.0).contains(share);
        // Both sides of: share - gap × handed out / all gaps, times all gaps.
        let distance = (share * all_gaps.0 - gap.0 * handed_out.0).abs();
        within && (distance < all_gaps.0 || (all_gaps == Energy::ZERO && *share == 0))
    });
    each && shares.iter().sum::<i64>() == handed_out.0
}

#[cfg(test)]
mod tests {
    use super::*;
    use crate::settle::{ContractFigures, PoolFigures};

    fn settlement(surplus: i64, gaps: &[i64]) -> Settlement {
        let figures = |gap: &i64| ContractFigures {
            gap: Energy(*gap),
            ..ContractFigures::default()
        };
        Settlement {
            pool: PoolFigures {
                surplus: Energy(surplus),
                ..PoolFigures::default()
            },
            contracts: gaps.iter().map(figures).collect(),
        }
    }

    fn hold(surplus: i64, gaps: &[i64], shares: &[i64]) -> bool {
        shares_hold(&settlement(surplus, gaps), shares)
    }

    /// Gaps 1, 1, 1 and 2 kWh to hand out: any two of the three get one.
    #[test]
    fn leftover_kwh_may_go_to_any_of_them() {
        for shares in [[1, 1, 0], [1, 0, 1], [0, 1, 1]] {
            assert!(hold(2, &[1, 1, 1], &shares), "{shares:?}");
        }
        for shares in [
            [1, 1, 1],
            [1, 0, 0],
            [0, 0, 2],
            [2, 0, 0],
            [-1, 2, 1],
            [3, -1, 0],
        ] {
            assert!(!hold(2, &[1, 1, 1], &shares), "{shares:?}");
        }
    }

    /// Gaps 5, 3, 0 and 4 kWh: 2.5, 1.5 and 0.
    #[test]
    fn a_share_lies_less_than_one_kwh_from_its_part() {
        assert!(hold(4, &[5, 3, 0], &[3, 1, 0]));
        assert!(hold(4, &[5, 3, 0], &[2, 2, 0]));
        for shares in [
            [4, 0, 0],
            [1, 3, 0],
            [2, 1, 1],
            [3, 2, -1],
            [3, 2, 0],
            [2, 1, 0],
        ] {
            assert!(!hold(4, &[5, 3, 0], &shares), "{shares:?}");
        }
        // Where the part is whole, no other share is less than 1 kWh from it.
        assert!(hold(4, &[4, 4], &[2, 2]));
        assert!(!hold(4, &[4, 4], &[3, 1]));
        // More surplus than gaps: each gap is filled.
        assert!(hold(100, &[4, 3], &[4, 3]));
        assert!(!hold(100, &[4, 3], &[5, 2]));
        assert!(!hold(100, &[4, 3], &[4, 4]));
    }

    #[test]
    fn without_gaps_or_surplus_all_are_zero() {
        assert!(hold(9, &[0, 0], &[0, 0]));
        assert!(hold(0, &[5, 3], &[0, 0]));
        assert!(hold(9, &[], &[]));
        for shares in [[1, 0], [0, 1], [1, -1], [-1, 1]] {
            assert!(!hold(9, &[0, 0], &shares), "{shares:?}");
            assert!(!hold(0, &[5, 3], &shares), "{shares:?}");
        }
        for share in [999_999_999, -999_999_999] {
            assert!(!hold(9, &[500_000; 32], &[share; 32]));
        }
    }

    /// Both the input and what is printed are written with `|` for the tab.
    fn printed(input: &str) -> String {
        verdict(input.replace('|', "\t").as_bytes())
            .trim_end()
            .replace('\t', "|")
    }

    /// The example: A2 has a gap of 56 kWh, and 44 are handed out. A third
    /// contract, in the other direction, has none.
    fn example() -> String {
        let header = "D|2017-02-20|4|-|1\n";
        let contracts = "C|P|A1|6000|5000\nC|N|B1|1|1\nC|P|A2|6000|8000\n";
        let first = "S|10000|9600\n".repeat(125);
        let then = "S|10000|10400\n".repeat(100);
        format!("{header}{contracts}{first}{then}E\n")
    }

    const SHARES: &str = "U|0|P|A1|0\nU|0|P|A2|44\nU|0|N|B1|0\n";

    #[test]
    fn shares_of_an_input() {
        let with = |shares: &str| printed(&(example() + shares));
        assert_eq!(with(SHARES), "A|1");
        assert_eq!(with("U|0|P|A1|0\nU|0|P|A2|43\nU|0|N|B1|0\n"), "F|0|P");
        assert_eq!(with("U|0|P|A1|1\nU|0|P|A2|43\nU|0|N|B1|0\n"), "F|0|P");
        assert_eq!(with("U|0|P|A1|-1\nU|0|P|A2|45\nU|0|N|B1|0\n"), "F|0|P");
        assert_eq!(with("U|0|P|A1|0\nU|0|P|A2|44\nU|0|N|B1|1\n"), "F|0|N");
        assert_eq!(with("U|0|P|A1|1\nU|0|P|A2|44\nU|0|N|B1|1\n"), "F|0|P");
        // A last line without LF is not looked at.
        assert_eq!(with(&format!("{SHARES}X")), "A|1");
        let empty = "D|2017-02-20|4|-|2\n".to_string() + &"S|0|0\n".repeat(450) + "E\n";
        assert_eq!(printed(&empty), "A|2");
    }

    #[test]
    fn a_share_is_missing_surplus_or_out_of_order() {
        let with = |shares: &str| printed(&(example() + shares));
        assert_eq!(with(""), "R|231|22");
        assert_eq!(with("U|0|P|A1|0\nU|0|P|A2|44\n"), "R|233|22");
        assert_eq!(with("U|0|P|A1|0\nU|0|P|A2|44\nU|0|N|B1|0"), "R|233|22");
        assert_eq!(with(&format!("{SHARES}U|0|N|B1|0\n")), "R|234|22");
        assert_eq!(with("U|0|P|A2|44\n"), "R|231|22");
        for wrong in [
            "U|1|P|A1|0",
            "U|-1|P|A1|0",
            "U|0|N|A1|0",
            "U|0|P|a1|0",
            "U|0|P|A|0",
        ] {
            assert_eq!(with(&format!("{wrong}\n")), "R|231|22", "{wrong}");
        }
        // Before the end line, too, but not before the header.
        for (lines, refusal) in [(1, 22), (2, 22), (100, 22), (229, 22), (0, 1)] {
            let mut input: Vec<_> = example().lines().map(str::to_string).collect();
            input.insert(lines, "U|0|P|A1|0".to_string());
            let refused = format!("R|{}|{refusal}", lines + 1);
            assert_eq!(printed(&(input.join("\n") + "\n")), refused);
        }
    }

    #[test]
    fn the_grounds_of_a_share_in_their_order() {
        let with = |shares: &str| printed(&(example() + shares));
        // An identifier comes before the place, and the header before both.
        assert_eq!(with("U|0|P||0\n"), "R|231|7");
        assert_eq!(with(&format!("{SHARES}U|0|P|A_|0\n")), "R|234|7");
        assert_eq!(printed("U|0|P|A_|0\n"), "R|1|1");
        let header = "D|2017-02-20|4|-|1\n";
        assert_eq!(printed(&format!("{header}U|0|P|A_|0\n")), "R|2|7");
        // In an open block it shows that setpoints lack.
        for setpoints in [0, 74] {
            let block = "O|0|0\n".to_string() + &"B|0\n".repeat(setpoints);
            let refused = |share: &str| printed(&format!("{header}{block}{share}\n"));
            assert_eq!(refused("U|0|P|A|0"), format!("R|{}|17", setpoints + 3));
            assert_eq!(refused("U|0|P|A_|0"), format!("R|{}|7", setpoints + 3));
            assert_eq!(refused("U|0|P|A|"), format!("R|{}|14", setpoints + 3));
        }
        let block = "O|0|0\n".to_string() + &"B|0\n".repeat(75);
        assert_eq!(printed(&format!("{header}{block}U|0|P|A|0\n")), "R|78|22");
    }

    #[test]
    fn other_lines_after_the_end() {
        for line in [
            "E",
            "D|2017-02-20|4|-|1",
            "C|P|A3|0|0",
            "S|0|9999999",
            "O|0|0",
            "B|0",
        ] {
            for shares in ["", "U|0|P|A1|0\n", SHARES] {
                let number = 231 + shares.lines().count();
                let input = format!("{}{shares}{line}\n", example());
                assert_eq!(printed(&input), format!("R|{number}|1"), "{line}");
            }
        }
        for line in ["", "X", "e", "U", "U|0|P|A1", "U|0|X|A1|0", "G|0|0|0"] {
            let input = format!("{}{line}\n", example());
            assert_eq!(printed(&input), "R|231|14", "{line}");
        }
    }

    #[test]
    fn what_is_no_good_input_is_refused_as_it_is_settled() {
        assert_eq!(printed(""), "R|1|15");
        assert_eq!(printed("E\n"), "R|1|1");
        assert_eq!(printed("D|2017-02-20|2|-|1\n"), "R|1|2");
        assert_eq!(printed(example().trim_end()), "R|230|15");
        assert_eq!(printed(&example().replace("E\n", "S|0|0\n")), "R|230|1");
        let early = example().replacen("S|10000|9600\n", "E\n", 1);
        assert_eq!(printed(&early), "R|5|1");
    }
}
