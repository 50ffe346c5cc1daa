//! Library calls in any order: reads a script with one call a line and answers
//! each as the library should. All calls are on the one run at hand. The lines
//! of a script, with | for the tab:
//!
//! ```text
//! O|year|month|day|interval|lot|quarters        opens a run; what that gives, refused or not, takes the place of the run at hand
//! A|OGA|UGA                                     begins the carry block of the run with these bounds, in units
//! B|times|setpoint                              the same past setpoint of the block so often
//! C|P or N|award|price|identifier               a contract
//! S|times|setpoint|actual                       the same sample so often
//! K                                             takes the quarter hour
//! E                                             ends
//! H                                             asks for the heading and the contract lists
//! V|B or T|bytes|year|month|day|interval|lot    prints a head
//! Q|B or T|bytes|quarter                        prints the sheets of the last taking
//! T|B or T|bytes|quarters|fees|penalties        prints a total
//! P|B or T|bytes                                prints the carry block that the run leaves behind, its O and B lines
//! R|B or T|bytes|line|refusal                   prints a refusal
//! ```
//!
//! Numbers are those of their types: of 64 bits OGA, UGA, fees and penalties,
//! of 16 `times`, of 32 setpoint, actual, award, price, interval, lot and
//! quarters of an opening. Refusals go from 0 to 18.
//!
//! A printing call is lent so many bytes (B), or so many more or fewer than its
//! text has (T), of 16,384 at most. P on a run that can't be ended yet, or on
//! none, is refused with 1, before 16; it has no text then, and T counts from 0.
//!
//! An answer is a line with the number of the script's line, that of the
//! refusal (0 where there is none) and counts: of B and S how many were
//! accepted (the refusal is that of the last), of H the contracts in each
//! direction, of an accepted printing call the length of its text. After it
//! stand, whether refused or not, the sheets (K), the total (E), the head (H),
//! and the whole buffer that was lent, with a line end after it.

use std::io;

use crate::amounts::Money;
use crate::channel::Interval;
use crate::date::Date;
use crate::run::{
    Header, Heading, Offer, PastBounds, PerDirection, QuarterHour, Refusal, Run, Sample, Total,
};
use crate::settle::MeritOrder;
use crate::sheet;
use crate::text;

/// The longest buffer that is lent.
const LARGEST_BUFFER: usize = 16_384;
/// Fills a buffer before it is lent, so that a byte left alone can be told.
const UNTOUCHED: u8 = b'.';
/// The largest number that a refusal has.
const LAST_REFUSAL: u8 = Refusal::BlockValue as u8;
/// What stands in the place of a run that was not opened: it has no quarter
/// hour, so that every call on it is at a wrong moment, and this heading.
const NO_RUN: Heading = Heading {
    date: Date {
        year: 2000,
        month: 1,
        day: 1,
    },
    interval: Interval::One,
    lot: 1,
};

#[derive(Clone, Copy, Debug)]
enum Call<'a> {
    Open(Header),
    PastBounds(PastBounds),
    PastSetpoints(u16, i32),
    Contract(Offer<'a>),
    Samples(u16, Sample),
    Take,
    End,
    Heading,
    Print(Printing, Room),
}

/// What is printed.
#[derive(Clone, Copy, Debug)]
enum Printing {
    Heading(Heading),
    /// The quarter hour taken last, under this number.
    QuarterHour(u8),
    Total(Total),
    /// The block that the run leaves behind.
    Carry,
    Refusal(u64, u8),
}

/// How long a buffer is lent.
#[derive(Clone, Copy, Debug)]
enum Room {
    Bytes(i64),
    BesideText(i64),
}

impl Room {
    fn bytes(self, text: &str) -> usize {
        let bytes = match self {
            Room::Bytes(bytes) => bytes,
            Room::BesideText(more) => text.len() as i64 + more,
        };
        bytes.clamp(0, LARGEST_BUFFER as i64) as usize
    }
}

/// What the calls of a script answer. A line that is no call is an error of
/// the script.
pub fn answers(script: &[u8]) -> io::Result<String> {
    let mut caller = Caller::default();
    for (line, number) in text::complete_lines(script).zip(1..) {
        let call = read_call(line).ok_or_else(|| {
            let message = format!("line {number} of the script is no call");
            io::Error::new(io::ErrorKind::InvalidData, message)
        })?;
        caller.make(number, call);
    }
    Ok(caller.answers)
}

/// Who calls the library, on one run.
#[derive(Default)]
struct Caller {
    /// Nothing before an opening was accepted, or after one was refused.
    run: Option<Run>,
    /// What the last taking answered.
    quarter: QuarterHour,
    answers: String,
}

impl Caller {
    fn make(&mut self, line: u64, call: Call<'_>) {
        match call {
            Call::Open(header) => self.open(line, header),
            Call::PastBounds(bounds) => self.begin_block(line, bounds),
            Call::PastSetpoints(times, setpoint) => self.add_past_setpoints(line, times, setpoint),
            Call::Contract(offer) => self.add_contract(line, offer),
            Call::Samples(times, sample) => self.add_samples(line, times, sample),
            Call::Take => self.take(line),
            Call::End => self.end(line),
            Call::Heading => self.heading(line),
            Call::Print(printing, room) => self.print(line, printing, room),
        }
    }

    fn open(&mut self, line: u64, header: Header) {
        let opened = Run::open(header);
        self.answer(line, opened.as_ref().err(), &[]);
        self.run = opened.ok();
        self.quarter = QuarterHour::default();
    }

    fn begin_block(&mut self, line: u64, bounds: PastBounds) {
        let begun = self.run().and_then(|run| run.begin_block(bounds));
        self.answer(line, begun.as_ref().err(), &[]);
    }

    fn add_past_setpoints(&mut self, line: u64, times: u16, setpoint: i32) {
        self.repeat(line, times, |run| run.add_past_setpoint(setpoint));
    }

    fn add_contract(&mut self, line: u64, offer: Offer<'_>) {
        let added = self.run().and_then(|run| run.add_contract(offer));
        self.answer(line, added.as_ref().err(), &[]);
    }

    fn add_samples(&mut self, line: u64, times: u16, sample: Sample) {
        self.repeat(line, times, |run| run.add_sample(sample));
    }

    /// Makes a call so often. Answers how often it was accepted; the refusal is
    /// that of the last.
    fn repeat(
        &mut self,
        line: u64,
        times: u16,
        mut call: impl FnMut(&mut Run) -> Result<(), Refusal>,
    ) {
        let mut answer = Ok(());
        let mut accepted = 0;
        for _ in 0..times {
            answer = self.run().and_then(&mut call);
            accepted += usize::from(answer.is_ok());
        }
        self.answer(line, answer.as_ref().err(), &[accepted]);
    }

    /// A refusal has no figures, and the number of the quarter hour that is
    /// still to be taken.
    fn take(&mut self, line: u64) {
        let taken = self.run().and_then(Run::take_quarter_hour);
        self.answer(line, taken.as_ref().err(), &[]);
        self.quarter = taken.unwrap_or_else(|_| QuarterHour {
            number: self.so_far().quarter_hours,
            ..QuarterHour::default()
        });
        let lists = self.lists();
        sheet::written(sheet::print_quarter_hour(
            &mut self.answers,
            &lists,
            &self.quarter,
        ));
    }

    /// A refusal has what was taken so far.
    fn end(&mut self, line: u64) {
        let ended = self.run().and_then(|run| run.end());
        self.answer(line, ended.as_ref().err(), &[]);
        let total = ended.unwrap_or_else(|_| self.so_far());
        sheet::written(sheet::print_total(&mut self.answers, &total));
    }

    fn heading(&mut self, line: u64) {
        let PerDirection { positive, negative } = self.lists();
        let lengths = [positive.contracts().len(), negative.contracts().len()];
        self.answer(line, None, &lengths);
        let heading = self.run.as_ref().map_or(NO_RUN, Run::heading);
        sheet::written(sheet::print_heading(&mut self.answers, &heading));
    }

    /// Answers the length of the text, and shows the whole buffer, also where
    /// there is nothing to print.
    fn print(&mut self, line: u64, printing: Printing, room: Room) {
        let text = self.text(printing);
        let wanted = text.as_deref().unwrap_or("");
        let mut buffer = vec![UNTOUCHED; room.bytes(wanted)];
        match text.and_then(|text| print_into(&mut buffer, &text)) {
            Ok(length) => self.answer(line, None, &[length]),
            Err(refusal) => self.answer(line, Some(&refusal), &[]),
        }
        self.answers += &String::from_utf8_lossy(&buffer);
        self.answers.push('\n');
    }

    /// A call on no run is at a wrong moment.
    fn run(&mut self) -> Result<&mut Run, Refusal> {
        self.run.as_mut().ok_or(Refusal::WrongMoment)
    }

    fn so_far(&self) -> Total {
        self.run.as_ref().map_or(Total::default(), Run::so_far)
    }

    fn lists(&self) -> PerDirection<MeritOrder> {
        let lists = self.run.as_ref().map(|run| run.lists().clone());
        lists.unwrap_or_default()
    }

    /// The first line of an answer.
    fn answer(&mut self, line: u64, refusal: Option<&Refusal>, counts: &[usize]) {
        let number = refusal.map_or(0, |refusal| refusal.number());
        self.answers += &format!("{line}\t{number}");
        for count in counts {
            self.answers += &format!("\t{count}");
        }
        self.answers.push('\n');
    }

    fn text(&self, printing: Printing) -> Result<String, Refusal> {
        let mut text = String::new();
        sheet::written(match printing {
            Printing::Heading(heading) => sheet::print_heading(&mut text, &heading),
            Printing::QuarterHour(number) => {
                let quarter = QuarterHour {
                    number: i32::from(number),
                    ..self.quarter.clone()
                };
                sheet::print_quarter_hour(&mut text, &self.lists(), &quarter)
            }
            Printing::Total(total) => sheet::print_total(&mut text, &total),
            Printing::Carry => {
                let run = self.run.as_ref().ok_or(Refusal::WrongMoment)?;
                sheet::print_carry(&mut text, &run.carry()?)
            }
            Printing::Refusal(line, number) => sheet::print_refusal(&mut text, line, number),
        });
        Ok(text)
    }
}

/// Writes a text at the start of a buffer and reports its length, or changes
/// no byte of a buffer that is too short.
fn print_into(buffer: &mut [u8], text: &str) -> Result<usize, Refusal> {
    let start = buffer.get_mut(..text.len()).ok_or(Refusal::ShortBuffer)?;
    start.copy_from_slice(text.as_bytes());
    Ok(text.len())
}

/// Reads a line of the script, or gives nothing if it is no call.
fn read_call(line: &[u8]) -> Option<Call<'_>> {
    let mut fields = line.split(|&byte| byte == b'\t');
    match fields.next()? {
        b"O" => read_opening(fields).map(Call::Open),
        b"A" => {
            let [oga, uga] = text::exactly(fields)?;
            Some(Call::PastBounds(PastBounds {
                oga: read_number(oga)?,
                uga: read_number(uga)?,
            }))
        }
        b"B" => {
            let [times, setpoint] = text::exactly(fields)?;
            let setpoint = read_number(setpoint)?;
            Some(Call::PastSetpoints(read_number(times)?, setpoint))
        }
        b"C" => read_contract(fields).map(Call::Contract),
        b"S" => {
            let [times, setpoint, actual] = text::exactly(fields)?;
            let sample = Sample {
                setpoint: read_number(setpoint)?,
                actual: read_number(actual)?,
            };
            Some(Call::Samples(read_number(times)?, sample))
        }
        b"K" => text::exactly(fields).map(|[]| Call::Take),
        b"E" => text::exactly(fields).map(|[]| Call::End),
        b"H" => text::exactly(fields).map(|[]| Call::Heading),
        kind => {
            let room = read_room(fields.next()?, fields.next()?)?;
            Some(Call::Print(read_printing(kind, fields)?, room))
        }
    }
}

fn read_opening<'a>(fields: impl Iterator<Item = &'a [u8]>) -> Option<Header> {
    let [year, month, day, interval, lot, quarter_hours] = text::exactly(fields)?;
    Some(Header {
        date: read_date(year, month, day)?,
        interval: read_number(interval)?,
        lot: read_number(lot)?,
        quarter_hours: read_number(quarter_hours)?,
    })
}

fn read_contract<'a>(fields: impl Iterator<Item = &'a [u8]>) -> Option<Offer<'a>> {
    let [direction, award, price, identifier] = text::exactly(fields)?;
    Some(Offer {
        direction: text::read_direction(direction)?,
        identifier,
        award: read_number(award)?,
        price: read_number(price)?,
    })
}

/// What is printed, from the fields after the room.
fn read_printing<'a>(kind: &[u8], fields: impl Iterator<Item = &'a [u8]>) -> Option<Printing> {
    match kind {
        b"V" => {
            let [year, month, day, interval, lot] = text::exactly(fields)?;
            Some(Printing::Heading(Heading {
                date: read_date(year, month, day)?,
                interval: Interval::from_seconds(read_number(interval)?)?,
                lot: i64::from(read_number::<u32>(lot)?),
            }))
        }
        b"Q" => {
            let [number] = text::exactly(fields)?;
            Some(Printing::QuarterHour(read_number(number)?))
        }
        b"T" => {
            let [quarter_hours, fees, penalties] = text::exactly(fields)?;
            Some(Printing::Total(Total {
                quarter_hours: i32::from(read_number::<u8>(quarter_hours)?),
                fees: Money(read_number(fees)?),
                penalties: Money(read_number(penalties)?),
            }))
        }
        b"P" => text::exactly(fields).map(|[]| Printing::Carry),
        b"R" => {
            let [line, number] = text::exactly(fields)?;
            let number = read_number(number).filter(|number| *number <= LAST_REFUSAL)?;
            Some(Printing::Refusal(read_number(line)?, number))
        }
        _ => None,
    }
}

/// A number that its type can hold.
fn read_number<T: std::str::FromStr>(field: &[u8]) -> Option<T> {
    std::str::from_utf8(field).ok()?.parse().ok()
}

fn read_date(year: &[u8], month: &[u8], day: &[u8]) -> Option<Date> {
    Some(Date {
        year: read_number(year)?,
        month: read_number(month)?,
        day: read_number(day)?,
    })
}

fn read_room(base: &[u8], bytes: &[u8]) -> Option<Room> {
    match base {
        b"B" => Some(Room::Bytes(read_number(bytes)?)),
        b"T" => Some(Room::BesideText(read_number(bytes)?)),
        _ => None,
    }
}

#[cfg(test)]
mod tests {
    use super::*;

    /// The answers to a script, both with `|` for the tab.
    fn answered(script: &str) -> String {
        let script = script.replace('|', "\t");
        let answers = answers(script.as_bytes()).unwrap();
        answers.replace('\t', "|")
    }

    const OPEN: &str = "O|2017|2|20|4|5000|1\n";
    const NOTHING: &str = "Q|0|P|0|0|0|0|0|0|0|0|0|0|0\nQ|0|N|0|0|0|0|0|0|0|0|0|0|0\n";

    #[test]
    fn without_a_run_every_call_is_at_a_wrong_moment() {
        let calls = "A|0|0\nB|2|0\nC|P|1|1|A\nS|3|0|0\nK\nE\nP|B|3\nH\n";
        let refused = |first: u32| {
            let numbers: Vec<String> = (first..).take(8).map(|line| line.to_string()).collect();
            let [bounds, past, contract, samples, take, end, carry, heading] =
                numbers.try_into().unwrap();
            format!(
                "{bounds}|1\n{past}|1|0\n{contract}|1\n{samples}|1|0\n{take}|1\n{NOTHING}{end}|1\n\
                 T|0|0|0\n{carry}|1\n...\n{heading}|0|0|0\nV|3|2000-01-01|1|1\n"
            )
        };
        assert_eq!(answered(calls), refused(1));
        // A refused opening gives no run, also where there was one.
        let script = format!("{OPEN}O|2017|2|29|4|5000|1\n{calls}");
        assert_eq!(answered(&script), format!("1|0\n2|4\n{}", refused(3)));
    }

    #[test]
    fn an_opening_begins_anew() {
        let script = format!("{OPEN}C|N|1|1|A\nH\nO|2018|3|1|1|1|100\nH\n");
        let answers =
            "1|0\n2|0\n3|0|0|1\nV|3|2017-02-20|4|5000\n4|0\n5|0|0|0\nV|3|2018-03-01|1|1\n";
        assert_eq!(answered(&script), answers);
    }

    #[test]
    fn samples_are_counted() {
        let script = format!("{OPEN}S|0|0|0\nS|200|0|0\nS|2|2000001|0\nS|26|0|0\nS|1|2000001|0\n");
        let answers = "1|0\n2|0|0\n3|0|200\n4|13|0\n5|1|25\n6|1|0\n";
        assert_eq!(answered(&script), answers);
    }

    #[test]
    fn a_block_is_given_by_calls_of_its_own() {
        let script = format!(
            "{OPEN}B|2|0\nA|10800000001|0\nA|-9223372036854775808|0\nA|54000000|0\nA|0|0\n\
             B|0|0\nB|70|3\nB|1|2000001\nC|P|1|1|A_\nC|P|1|1|A\nS|2|0|2000001\nS|2|0|0\nK\n\
             B|10|10001\nB|3|10000\nB|1|0\nA|0|0\nC|P|1|1|A\nB|1|0\nS|1|0|0\n"
        );
        let answers = format!(
            "1|0\n2|1|0\n3|18\n4|18\n5|0\n6|1\n7|0|0\n8|0|70\n9|18|0\n10|7\n11|17\n12|13|0\n\
             13|17|0\n14|1\n{NOTHING}15|18|4\n16|17|1\n17|17|0\n18|1\n19|0\n20|1|0\n21|0|1\n"
        );
        assert_eq!(answered(&script), answers);
    }

    #[test]
    fn the_block_of_a_run_that_can_be_ended_is_printed() {
        let setpoints = "B|10000\n".repeat(74);
        let block = format!("O|54000000|-3456000\n{setpoints}B|-640\n");
        let length = block.len();
        let script = format!(
            "{OPEN}P|T|2\nS|224|10000|0\nP|B|1\nS|1|-640|0\nP|T|0\nK\nP|T|0\nP|T|1\nP|T|-1\nP|B|0\n"
        );
        let answered = answered(&script);
        let (before, after) = answered.split_once("7|0\n").unwrap();
        assert_eq!(before, "1|0\n2|1\n..\n3|0|224\n4|1\n.\n5|0|1\n6|1\n\n");
        let after = after.split_once("8|0").unwrap().1;
        let short = ".".repeat(length - 1);
        let printed =
            format!("|{length}\n{block}\n9|0|{length}\n{block}.\n10|16\n{short}\n11|16\n\n");
        assert_eq!(after, printed);
    }

    /// A block that one run printed is taken by the next.
    #[test]
    fn a_printed_block_is_given_by_calls() {
        let first = answered(&format!("{OPEN}S|225|7|0\nK\nP|T|0\n"));
        let bounds = first.lines().find(|line| line.starts_with("O|")).unwrap();
        let bounds = bounds.replace('O', "A");
        let second = answered(&format!("{OPEN}{bounds}\nB|75|7\nS|225|7|0\nK\nP|T|0\n"));
        assert!(second.starts_with("1|0\n2|0\n3|0|75\n4|0|225\n5|0\n"));
        let block = |answers: &str| answers[answers.find("O|").unwrap()..].to_string();
        assert_eq!(block(&first), block(&second));
    }

    #[test]
    fn a_quarter_hour_is_taken_and_ended_in_its_time() {
        let quarter = "\
Q|0|P|2500|2489|2444|44|56|44|0|2488|0|0|0
K|0|P|A1|1500|1500|1500|0|0|0|1500|7500|0
K|0|P|A2|1000|989|944|56|44|0|988|7904|0
Q|0|N|0|0|0|0|0|0|0|0|0|0|0
";
        let script = format!(
            "{OPEN}C|P|6000|5000|A1\nC|P|6000|8000|A2\nS|125|10000|9600\nC|P|1|9000|A3\nK\n\
             S|100|10000|10400\nE\nK\nQ|T|0|0\nE\nE\nK\n"
        );
        let length = quarter.len();
        let total = "T|1|15404|0";
        let empty = NOTHING.replace("Q|0", "Q|1");
        let answers = format!(
            "1|0\n2|0\n3|0\n4|0|125\n5|1\n6|1\n{NOTHING}7|0|100\n8|1\nT|0|0|0\n9|0\n{quarter}\
             10|0|{length}\n{quarter}\n11|0\n{total}\n12|0\n{total}\n13|1\n{empty}"
        );
        assert_eq!(answered(&script), answers);
    }

    #[test]
    fn a_short_buffer_is_left_as_it_was() {
        let printed = |room: &str| answered(&format!("R|{room}|12|15\n"));
        assert_eq!(printed("T|0"), "1|0|8\nR|12|15\n\n");
        assert_eq!(printed("B|8"), printed("T|0"));
        assert_eq!(printed("B|10"), "1|0|8\nR|12|15\n..\n");
        assert_eq!(printed("T|2"), printed("B|10"));
        assert_eq!(printed("T|-1"), "1|16\n.......\n");
        assert_eq!(printed("B|0"), "1|16\n\n");
        assert_eq!(printed("T|-9"), "1|16\n\n");
        assert_eq!(printed("T|20000"), printed("B|16384"));
    }

    #[test]
    fn any_number_is_printed() {
        let script =
            "V|T|0|65535|255|0|3|4294967295\nT|T|0|255|-1|-9223372036854775808\nR|T|0|0|0\n";
        let answers = "1|0|28\nV|3|5535-55-00|3|4294967295\n\n2|0|30\nT|255|-1|-9223372036854775808\n\n3|0|6\nR|0|0\n\n";
        assert_eq!(answered(script), answers);
    }

    #[test]
    fn what_is_no_call_is_an_error() {
        for line in [
            "",
            "X",
            "K|",
            "O|2017|2|20|4|5000",
            "O|2017|2|256|4|5000|1",
            "C|X|1|1|A",
            "C|P|2147483648|1|A",
            "S|65536|0|0",
            "V|B|0|2017|2|20|2|1",
            "Q|X|0|0",
            "R|B|0|1|19",
            "A|0",
            "A|0|9223372036854775808",
            "B|0",
            "B|65536|0",
            "B|1|2147483648",
            "P|B",
            "P|B|0|0",
        ] {
            let script = format!("{OPEN}{line}\n").replace('|', "\t");
            assert!(answers(script.as_bytes()).is_err(), "{line}");
        }
    }
}
