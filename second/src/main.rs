//! Settles the secondary control energy of one pool: reads a text on standard
//! input and prints the settlement sheet. With the argument `mend` it reads a
//! recording with holes instead and prints its mended samples; with `checker` it
//! reads an input that the operator's shares follow and says whether they hold;
//! with `calls` it reads a script of library calls and prints what they answer;
//! with `channel` it prints the figures the channel is checked by.

mod amounts;
mod calls;
mod channel;
mod checker;
mod date;
mod mend;
mod run;
mod settle;
mod sheet;
mod text;

use std::env;
use std::io::{self, Read, Write};
use std::process::ExitCode;

use run::{Refusal, Run};
use text::Line;

fn main() -> ExitCode {
    let arguments: Vec<_> = env::args_os().skip(1).collect();
    let printed = match arguments.as_slice() {
        [] => read_input().map(|input| settled(&input)),
        [mode] if mode == "mend" => read_input().map(|recording| mend::mended(&recording)),
        [mode] if mode == "checker" => read_input().map(|input| checker::verdict(&input)),
        [mode] if mode == "calls" => read_input().and_then(|script| calls::answers(&script)),
        [mode] if mode == "channel" => Ok(channel_figures()),
        _ => {
            complain(
                "usage: second < input, second mend < recording, second checker < input, \
                 second calls < script, or second channel",
            );
            return ExitCode::from(2);
        }
    };
    // A refusal is a result like any other; only what cannot be read or
    // written is a failure. A reader that has gone away is one, and no panic.
    match printed.and_then(|text| print(&text)) {
        Ok(()) => ExitCode::SUCCESS,
        Err(error) => {
            complain(&format!("second: {error}"));
            ExitCode::FAILURE
        }
    }
}

fn read_input() -> io::Result<Vec<u8>> {
    let mut input = Vec::new();
    io::stdin().lock().read_to_end(&mut input)?;
    Ok(input)
}

fn print(text: &str) -> io::Result<()> {
    let mut output = io::stdout().lock();
    output.write_all(text.as_bytes())?;
    output.flush()
}

/// Writes to standard error if that is possible; if not, there is no one left
/// to tell.
fn complain(message: &str) {
    let _ = writeln!(io::stderr(), "{message}");
}

/// The sheet of an input. What was printed before a refusal stands.
fn settled(input: &[u8]) -> String {
    let mut sheet = String::new();
    let mut run = None;
    let mut complete_lines = 0;
    for line in text::complete_lines(input) {
        complete_lines += 1;
        match take_line(line, &mut run, &mut sheet) {
            Ok(Next::Line) => {}
            // After the end line nothing is read.
            Ok(Next::Nothing) => return sheet,
            Err(refusal) => return refused(sheet, complete_lines, refusal),
        }
    }
    refused(sheet, complete_lines + 1, Refusal::NoEndLine)
}

fn refused(mut sheet: String, line: u64, refusal: Refusal) -> String {
    sheet::written(sheet::print_refusal(&mut sheet, line, refusal.number()));
    sheet
}

/// What is to be read after a line that was taken.
enum Next {
    Line,
    Nothing,
}

/// Takes one line and prints what it brings about. There is a run once a
/// header was accepted.
fn take_line(line: &[u8], run: &mut Option<Run>, sheet: &mut String) -> Result<Next, Refusal> {
    // An ill-formed line is refused as such at any moment.
    let line = text::read_line(line).ok_or(Refusal::IllFormedLine)?;
    let Some(run) = run else {
        let Line::Header(header) = line else {
            return Err(Refusal::WrongMoment);
        };
        let opened = Run::open(header)?;
        sheet::written(sheet::print_heading(sheet, &opened.heading()));
        *run = Some(opened);
        return Ok(Next::Line);
    };
    match line {
        Line::Header(_) => return Err(Refusal::WrongMoment),
        Line::PastBounds(bounds) => run.begin_block(bounds)?,
        Line::PastSetpoint(setpoint) => run.add_past_setpoint(setpoint)?,
        Line::Contract(offer) => run.add_contract(offer)?,
        Line::Sample(sample) => {
            run.add_sample(sample)?;
            if run.quarter_hour_waits() {
                let quarter = run.take_quarter_hour()?;
                sheet::written(sheet::print_quarter_hour(sheet, run.lists(), &quarter));
            }
        }
        Line::End => {
            sheet::written(sheet::print_total(sheet, &run.end()?));
            sheet::written(sheet::print_carry(sheet, &run.carry()?));
            return Ok(Next::Nothing);
        }
    }
    Ok(Next::Line)
}

/// The figures the channel is checked by: the second, and the UGA in units.
fn channel_figures() -> String {
    let large_step = channel::uga_after_step(27_000, &[130, 131, 399, 400]);
    let small_step = channel::uga_after_step(2_700, &[275, 276]);
    large_step
        .iter()
        .chain(&small_step)
        .map(|(second, uga)| format!("UGA {second} {}\n", uga.0))
        .collect()
}

#[cfg(test)]
mod tests {
    use super::*;

    /// Both the input and the listing are written with `|` for the tab.
    fn tabbed(text: &str) -> String {
        text.replace('|', "\t")
    }

    fn settled_text(input: &str) -> String {
        settled(tabbed(input).as_bytes())
    }

    const HEADER: &str = "D|2017-02-20|4|-|1\n";
    const OPENING: &str = "V|3|2017-02-20|4|5000\n";

    fn example() -> String {
        let contracts = "C|P|A1|6000|5000\nC|P|A2|6000|8000\n";
        let first = "S|10000|9600\n".repeat(125);
        let then = "S|10000|10400\n".repeat(100);
        format!("{HEADER}{contracts}{first}{then}E\n")
    }

    const LISTING: &str = "\
V|3|2017-02-20|4|5000
Q|0|P|2500|2489|2444|44|56|44|0|2488|0|0|0
K|0|P|A1|1500|1500|1500|0|0|0|1500|7500|0
K|0|P|A2|1000|989|944|56|44|0|988|7904|0
Q|0|N|0|0|0|0|0|0|0|0|0|0|0
T|1|15404|0
";

    /// The carry block of a run at interval 4 that asked for one power only.
    fn held(kw: i64) -> String {
        let setpoints = format!("B|{kw}\n").repeat(75);
        format!("O|{0}|{0}\n{setpoints}", 5_400 * kw)
    }

    fn listing() -> String {
        tabbed(&format!("{LISTING}{}", held(10_000)))
    }

    #[test]
    fn the_example_prints_its_listing() {
        assert_eq!(settled_text(&example()), listing());
    }

    /// The trader's case: 13,000 kW asked for and delivered, 12,000 awarded.
    #[test]
    fn what_no_contract_took_stands_as_rest() {
        let contracts = "C|P|A1|6000|5000\nC|P|A2|6000|8000\n";
        let samples = "S|13000|13000\n".repeat(225);
        let listing = "\
V|3|2017-02-20|4|5000
Q|0|P|3250|3250|3250|0|0|0|0|3000|250|250|250
K|0|P|A1|1500|1500|1500|0|0|0|1500|7500|0
K|0|P|A2|1500|1500|1500|0|0|0|1500|12000|0
Q|0|N|0|0|0|0|0|0|0|0|0|0|0
T|1|19500|0
";
        let printed = settled_text(&format!("{HEADER}{contracts}{samples}E\n"));
        assert_eq!(printed, tabbed(listing) + &tabbed(&held(13_000)));
    }

    /// Each quarter hour has the rest of its own samples, in both directions,
    /// and of each power its own.
    #[test]
    fn the_rest_is_that_of_its_quarter_hour() {
        let header = "D|2017-02-20|4|-|2\n";
        let first = "S|13000|13500\n".repeat(225);
        let then = "S|-1000|-1004\n".repeat(225);
        let printed = settled_text(&format!("{header}C|P|A|12000|1\n{first}{then}E\n"));
        let lines: Vec<&str> = printed.lines().collect();
        let rest = |line: &str| line.split('\t').skip(11).collect::<Vec<_>>().join(" ");
        assert!(lines[1].starts_with("Q\t0\tP\t"));
        assert_eq!(rest(lines[1]), "250 375 250");
        assert!(lines[3].starts_with("Q\t0\tN\t"));
        assert_eq!(rest(lines[3]), "0 0 0");
        assert!(lines[4].starts_with("Q\t1\tP\t"));
        assert_eq!(rest(lines[4]), "0 0 0");
        // No negative contract: all of it is rest.
        assert!(lines[6].starts_with("Q\t1\tN\t250\t251\t250\t"));
        assert_eq!(rest(lines[6]), "250 251 250");
    }

    #[test]
    fn after_the_end_nothing_is_read() {
        for more in ["E\n", "X", "D|\n\n", "\0"] {
            assert_eq!(settled_text(&(example() + more)), listing());
        }
    }

    /// The refusal of an input after which nothing but a V line may stand.
    fn refusal(input: &str) -> String {
        settled_text(input)
            .replace('\t', "|")
            .trim_start_matches(OPENING)
            .trim_end()
            .to_string()
    }

    #[test]
    fn input_that_ends() {
        assert_eq!(refusal(""), "R|1|15");
        assert_eq!(refusal("E"), "R|1|15");
        assert_eq!(refusal(&"X".repeat(200)), "R|1|15");
        assert_eq!(refusal(HEADER), "R|2|15");
        assert_eq!(refusal(&format!("{HEADER}X")), "R|2|15");
        let cut = example();
        let sheet = settled_text(cut.trim_end());
        assert!(sheet.ends_with("R\t229\t15\n"), "{sheet}");
        assert!(sheet.contains("Q\t0\tN\t"), "what was printed stands");
    }

    #[test]
    fn wrong_moments() {
        for before in [
            "E\n",
            "S|0|0\n",
            "C|P|A|1|1\n",
            "S|9999999|0\n",
            "C|P||0|99999999\n",
            "O|0|0\n",
            "O|99999999999|0\n",
            "B|0\n",
            "B|999999999\n",
        ] {
            assert_eq!(refusal(before), "R|1|1", "{before}");
        }
        assert_eq!(refusal(&format!("{HEADER}{HEADER}")), "R|2|1");
        assert_eq!(refusal(&format!("{HEADER}D|1999-00-00|0|0|0\n")), "R|2|1");
        assert_eq!(refusal(&format!("{HEADER}E\n")), "R|2|1");
        assert_eq!(refusal(&format!("{HEADER}S|0|0\nC|P|A|1|1\n")), "R|3|1");
        assert_eq!(refusal(&format!("{HEADER}S|0|0\nE\n")), "R|3|1");
        let extra = example().replace("E\n", "S|0|0\nE\n");
        assert!(settled_text(&extra).ends_with("R\t229\t1\n"));
        let extra = example().replace("E\n", "C|P|A3|1|9000\nE\n");
        assert!(settled_text(&extra).ends_with("R\t229\t1\n"));
    }

    #[test]
    fn an_ill_formed_line_is_14_at_any_moment() {
        for line in [
            "\n",
            "E|\n",
            "S|0\n",
            "S|1000000000|0\n",
            "C|X|A|1|1\n",
            "D|\n",
            "E\r\n",
            "O|0\n",
            "O|100000000000|0\n",
            "B|\n",
            "B|1000000000\n",
        ] {
            assert_eq!(refusal(line), "R|1|14", "{line:?}");
            assert_eq!(refusal(&format!("{HEADER}{line}")), "R|2|14", "{line:?}");
            for (block, number) in [(block(0, 0, 3), 6), (block(0, 0, 75), 78)] {
                let refused = format!("R|{number}|14");
                assert_eq!(
                    refusal(&format!("{HEADER}{block}{line}")),
                    refused,
                    "{line:?}"
                );
            }
            let after_last = example().replace("E\n", line);
            assert!(
                settled_text(&after_last).ends_with("R\t229\t14\n"),
                "{line:?}"
            );
        }
        assert_eq!(refusal("D|2017-02-20|4|-|1\r\n"), "R|1|14");
    }

    #[test]
    fn refusals_of_single_lines() {
        assert_eq!(refusal("D|2017-02-29|-1|0|0\n"), "R|1|2");
        assert_eq!(refusal("D|2017-02-29|1|0|0\n"), "R|1|3");
        assert_eq!(refusal("D|2017-02-29|1|-|0\n"), "R|1|4");
        assert_eq!(refusal("D|2016-02-29|1|-|0\n"), "R|1|5");
        let after_header = |line: &str| refusal(&format!("{HEADER}C|P|A|1999999|5\n{line}\n"));
        assert_eq!(after_header("C|P||0|4"), "R|3|7");
        assert_eq!(after_header("C|N|A|0|4"), "R|3|8");
        assert_eq!(after_header("C|P|B|0|4"), "R|3|9");
        assert_eq!(after_header("C|P|B|2|4"), "R|3|10");
        assert_eq!(after_header("C|P|B|1|-10000000"), "R|3|11");
        assert_eq!(after_header("C|P|B|1|4"), "R|3|12");
        assert_eq!(after_header("S|999999999|0"), "R|3|13");
        assert_eq!(after_header("C|P|-|1|5"), "R|4|15");
    }

    /// A block with so many setpoints of 0.
    fn block(oga: i64, uga: i64, setpoints: usize) -> String {
        format!("O|{oga}|{uga}\n{}", "B|0\n".repeat(setpoints))
    }

    /// What line a block of these lines is refused at, after a header with an
    /// interval of 4 seconds, and the number.
    fn block_refusal(lines: &str) -> String {
        refusal(&format!("{HEADER}{lines}"))
    }

    const LIMIT: i64 = 10_800_000_000;

    #[test]
    fn an_o_line_stands_directly_after_the_header() {
        let contract = "C|P|A|1|1\n";
        for before in [
            contract.to_string(),
            "S|0|0\n".to_string(),
            block(0, 0, 0),
            block(0, 0, 74),
            block(0, 0, 75),
            block(0, 0, 75) + contract,
        ] {
            let line = 2 + before.lines().count();
            for bounds in ["O|0|0\n", "O|10800000001|0\n"] {
                let refused = format!("R|{line}|1");
                assert_eq!(block_refusal(&format!("{before}{bounds}")), refused);
            }
        }
        let too_late = example().replace("E\n", "O|0|0\nE\n");
        assert!(settled_text(&too_late).ends_with("R\t229\t1\n"));
    }

    #[test]
    fn a_b_line_stands_in_a_block() {
        for before in ["", "C|P|A|1|1\n", "S|0|0\n"] {
            for setpoint in ["B|0\n", "B|2000001\n"] {
                let line = 2 + before.lines().count();
                let refused = format!("R|{line}|1");
                assert_eq!(block_refusal(&format!("{before}{setpoint}")), refused);
                if !before.is_empty() {
                    let full = block(0, 0, 75);
                    let refused = format!("R|{}|1", line + 76);
                    let lines = format!("{full}{before}{setpoint}");
                    assert_eq!(block_refusal(&lines), refused);
                }
            }
        }
        let too_late = example().replace("E\n", "B|0\nE\n");
        assert!(settled_text(&too_late).ends_with("R\t229\t1\n"));
    }

    #[test]
    fn a_b_too_many_is_told_directly_after_the_block() {
        for setpoint in ["B|0\n", "B|2000001\n", "B|999999999\n"] {
            let lines = block(0, 0, 75) + setpoint;
            assert_eq!(block_refusal(&lines), "R|78|17");
        }
    }

    /// Too few setpoints are told by the first line that is no B, unless that
    /// line has a ground of its own before.
    #[test]
    fn a_b_too_few_is_told_by_the_line_that_shows_it() {
        for setpoints in [0, 1, 74] {
            let told = |line: &str| {
                let lines = block(0, 0, setpoints) + line;
                let said = block_refusal(&format!("{lines}\n"));
                let at = format!("R|{}|", setpoints + 3);
                said.strip_prefix(&at).unwrap_or(&said).to_string()
            };
            assert_eq!(told("C|P|A|1|1"), "17");
            assert_eq!(told("S|0|0"), "17");
            assert_eq!(told("C|P||1|1"), "7");
            assert_eq!(told("C|P|A|0|1"), "9");
            assert_eq!(told("C|P|A|1|10000000"), "11");
            assert_eq!(told("S|2000001|0"), "13");
            assert_eq!(told("S|0|-2000001"), "13");
            assert_eq!(told("D|2017-02-20|4|-|1"), "1");
            assert_eq!(told("D|2017-02-20|9|-|1"), "1");
            assert_eq!(told("O|0|0"), "1");
            assert_eq!(told("O|99999999999|0"), "1");
            assert_eq!(told("E"), "1");
            assert_eq!(told("X"), "14");
            assert_eq!(told(""), "14");
            // No line shows it where the input ends.
            let cut = format!("{HEADER}{}B|1", block(0, 0, setpoints));
            assert_eq!(refusal(&cut), format!("R|{}|15", setpoints + 3));
        }
    }

    #[test]
    fn the_interval_says_how_many_setpoints_a_block_has() {
        for (interval, setpoints) in [(1, 301), (3, 100), (4, 75)] {
            let after = |count, line: &str| {
                let header = format!("D|2017-02-20|{interval}|-|1\n");
                let sheet = settled_text(&format!("{header}{}{line}\n", block(0, 0, count)));
                let last = sheet.lines().last().unwrap();
                last.rsplit('\t').next().unwrap().to_string()
            };
            assert_eq!(after(setpoints, "S|0|0"), "15");
            assert_eq!(after(setpoints, "C|N|A|1|1"), "15");
            assert_eq!(after(setpoints, "B|0"), "17");
            assert_eq!(after(setpoints - 1, "S|0|0"), "17");
            assert_eq!(after(setpoints - 1, "B|0"), "15");
        }
    }

    #[test]
    fn a_block_has_ranges() {
        let at = |oga: i64, uga: i64, setpoints: &[i32]| {
            let bounds = format!("O|{oga}|{uga}\n");
            let setpoints = setpoints.iter().map(|setpoint| format!("B|{setpoint}\n"));
            block_refusal(&(bounds + &setpoints.collect::<String>()))
        };
        for out in [LIMIT + 1, -LIMIT - 1, 99_999_999_999, -99_999_999_999] {
            assert_eq!(at(out, 0, &[]), "R|2|18");
            assert_eq!(at(0, out, &[]), "R|2|18");
        }
        assert_eq!(at(LIMIT, -LIMIT, &[]), "R|3|15");
        assert_eq!(at(-LIMIT, LIMIT, &[]), "R|3|15");
        for out in [2_000_001, -2_000_001, 999_999_999] {
            assert_eq!(at(LIMIT, -LIMIT, &[0, out]), "R|4|18");
        }
        assert_eq!(at(LIMIT, -LIMIT, &[2_000_000, -2_000_000]), "R|5|15");
        // The newest, and no other, lies between the bounds.
        let newest = |oga, uga, setpoint| {
            let mut setpoints = vec![1_000_000; 74];
            setpoints.push(setpoint);
            at(oga, uga, &setpoints)
        };
        assert_eq!(newest(5_400, 5_400, 1), "R|78|15");
        assert_eq!(newest(LIMIT, LIMIT, 2_000_000), "R|78|15");
        assert_eq!(newest(-LIMIT, -LIMIT, -2_000_000), "R|78|15");
        assert_eq!(newest(5_399, 0, 1), "R|77|18");
        assert_eq!(newest(9_000, 5_401, 1), "R|77|18");
        assert_eq!(newest(0, 9_000, 1), "R|77|18");
        assert_eq!(newest(LIMIT, -LIMIT, 2_000_001), "R|77|18");
    }

    /// Setpoint and actual of a restless day, the same for the same place.
    fn restless(place: usize) -> String {
        let levels = [0, 9_000, -4_000, 15_000, 2_000, -12_000, 100, 7_000];
        let setpoint = levels[place / 37 % 8] + (place % 11) as i32 * 50;
        let late = levels[place.saturating_sub(45) / 37 % 8];
        format!("S|{setpoint}|{}\n", late + (place % 7) as i32 * 100)
    }

    fn restless_run(interval: usize, places: std::ops::Range<usize>, block: &str) -> String {
        let quarter_hours = places.len() * interval / 900;
        let header = format!("D|2017-02-20|{interval}|3000|{quarter_hours}\n");
        let contracts = "C|P|A|3000|10\nC|N|B|2500|-7\nC|P|C|9000|700\nC|N|D|9000|3333\n";
        let samples: String = places.map(restless).collect();
        format!("{header}{block}{contracts}{samples}E\n")
    }

    /// A sheet taken apart: the Q and K lines with their quarter hours raised,
    /// the numbers of T, and the block.
    fn parts(sheet: &str, quarter_hours: i64) -> (Vec<String>, Vec<i64>, String) {
        let block = sheet.find("O\t").expect("no block");
        let (figures, block) = sheet.split_at(block);
        let mut lines: Vec<&str> = figures.lines().skip(1).collect();
        let total = lines.pop().unwrap().split('\t').skip(1);
        let total = total.map(|number| number.parse().unwrap()).collect();
        let raised = lines.iter().map(|line| {
            let mut fields: Vec<String> = line.split('\t').map(str::to_string).collect();
            fields[1] = (fields[1].parse::<i64>().unwrap() + quarter_hours).to_string();
            fields.join(" ")
        });
        (raised.collect(), total, block.to_string())
    }

    #[test]
    fn two_runs_joined_by_a_block_are_one_run() {
        for (interval, setpoints) in [(1, 301), (3, 100), (4, 75)] {
            let quarter = 900 / interval;
            for cut in 1..4 {
                let (middle, end) = (cut * quarter, 4 * quarter);
                let first = settled_text(&restless_run(interval, 0..middle, ""));
                let (first_lines, first_total, block) = parts(&first, 0);
                assert_eq!(block.lines().count(), 1 + setpoints);
                let second = settled_text(&restless_run(interval, middle..end, &block));
                let both = settled_text(&restless_run(interval, 0..end, ""));
                let (mut lines, mut total, block) = parts(&second, cut as i64);
                lines.splice(0..0, first_lines);
                for (sum, number) in total.iter_mut().zip(first_total) {
                    *sum += number;
                }
                assert_eq!((lines, total, block), parts(&both, 0));
                // Without the block it is another day.
                let alone = settled_text(&restless_run(interval, middle..end, ""));
                assert_ne!(parts(&alone, 0).0, parts(&second, 0).0);
            }
        }
    }

    /// Also one that a run printed which itself began with a block at the ends
    /// of the ranges.
    #[test]
    fn a_printed_block_is_accepted() {
        let extremes = [
            block(LIMIT, -LIMIT, 75),
            block(0, -LIMIT, 75),
            block(LIMIT, 0, 75),
        ];
        let courses: [fn(usize) -> i32; 4] = [
            |_| 2_000_000,
            |place| 2_000_000 - 4_000_000 * (place as i32 % 2),
            |place| if place < 224 { -2_000_000 } else { 2_000_000 },
            |place| (place as i32 - 112) * 17_000,
        ];
        for block in extremes {
            for course in courses {
                let samples = (0..225).map(|place| format!("S|{}|0\n", course(place)));
                let samples: String = samples.collect();
                for lot in [1, 5_000, 1_000_000] {
                    let header = format!("D|2017-02-20|4|{lot}|1\n");
                    let sheet = settled_text(&format!("{header}{block}{samples}E\n"));
                    let (_, _, printed) = parts(&sheet, 0);
                    assert_eq!(block_refusal(&printed), "R|78|15", "{printed}");
                }
            }
        }
    }

    /// A block that says what the start says anyway changes nothing.
    #[test]
    fn the_start_is_a_block_of_the_first_setpoint() {
        let carried = example().replace(HEADER, &format!("{HEADER}{}", held(10_000)));
        assert_eq!(settled_text(&carried), listing());
    }

    #[test]
    fn a_refused_run_prints_no_block() {
        for line in ["X\n", "S|0|0\n", ""] {
            let sheet = settled_text(&example().replace("E\n", line));
            assert!(sheet.contains("Q\t0\tN\t"));
            assert!(
                !sheet.contains("\nO\t") && !sheet.contains("\nB\t"),
                "{sheet}"
            );
        }
    }

    #[test]
    fn the_channel_figures_are_those_of_the_scope() {
        let figures = "UGA 130 0\nUGA 131 540000\nUGA 399 145260000\nUGA 400 145800000\n\
                       UGA 275 14500000\nUGA 276 14580000\n";
        assert_eq!(channel_figures(), figures);
    }
}
