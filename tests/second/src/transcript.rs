//! Running lines and writing the transcript (section 10).

use std::fmt::Write;

use crate::apportion::{TieRule, MOST_SHARES};
use crate::book::{Book, Division, Whereabouts};
use crate::ledger::{Account, Column, Journal, Ledger, Sheet};
use crate::lines::{read, split_lines, Line};
use crate::refusal::Refusal;

/// The longest input that is not refused.
pub const LONGEST_INPUT: usize = 65_536;

const SHEET_ROOM: usize = 4_000_000;
const JOURNAL_RECORDS: usize = 4_096;
const MARK: u32 = 1;

#[derive(Clone, Copy, Debug, PartialEq, Eq)]
pub enum Program {
    Sheet,
    Journal,
}

/// The whole transcript of one of the two programs: bytes in, bytes out.
pub fn transcript(program: Program, input: &[u8]) -> Vec<u8> {
    match program {
        Program::Sheet => run(sheet_book(), input),
        Program::Journal => run(journal_book(), input),
    }
}

/// The book that the sheet's program opens.
pub fn sheet_book() -> Book<Sheet> {
    Book::open(Sheet::open(SHEET_ROOM), MARK)
}

/// The book that the journal's program opens.
pub fn journal_book() -> Book<Journal> {
    Book::open(Journal::open(JOURNAL_RECORDS), MARK)
}

fn run<L: Ledger>(mut book: Book<L>, input: &[u8]) -> Vec<u8> {
    let mut text = Text::new();
    if input.len() > LONGEST_INPUT {
        text.line(format_args!("0 no {}", Refusal::InputTooLong));
        return text.bytes();
    }
    for (at, line) in split_lines(input).enumerate() {
        match carry_out(&mut book, line) {
            Ok(None) => {}
            Ok(Some(numbers)) => text.line(format_args!("{} ok{}", at + 1, Spaced(&numbers))),
            Err(refusal) => text.line(format_args!("{} no {refusal}", at + 1)),
        }
    }
    audit(&book, &mut text);
    text.bytes()
}

/// The numbers of the answer; `None` for a line without words.
pub fn carry_out<L: Ledger>(book: &mut Book<L>, line: &[u8]) -> Result<Option<Vec<i64>>, Refusal> {
    let Some(line) = read(line)? else {
        return Ok(None);
    };
    let numbers = match line {
        Line::Post(legs) => {
            book.post(&legs)?;
            vec![]
        }
        Line::Conv(transfer) => {
            let (booked, slip) = book.convert(transfer)?;
            vec![booked, i64::from(book.park(slip))]
        }
        Line::Split { account, currency, amount, shares } => {
            let (mut portions, mut fractions) = ([0; MOST_SHARES], [0; MOST_SHARES]);
            let division = Division { account, currency, amount, shares: &shares, rule: TieRule::SmallerPlace };
            book.split(division, &mut portions, &mut fractions)?;
            portions[..shares.len()].to_vec()
        }
        Line::Carry { number, account } => {
            let slip = book.take_up(number)?;
            if let Err((slip, refusal)) = book.carry(slip, account) {
                book.park(slip);
                return Err(refusal);
            }
            vec![]
        }
        Line::Sweep { account, column } => vec![book.sweep(account, column)?],
    };
    Ok(Some(numbers))
}

fn audit<L: Ledger>(book: &Book<L>, text: &mut Text) {
    let ledger = book.ledger();
    text.line(format_args!("audit {} {}", L::KIND, ledger.room()));
    let mut cells = 0;
    for account in Account::all() {
        for column in Column::all() {
            let amount = ledger.cell(account, column);
            if amount != 0 {
                text.line(format_args!("cell {} {} {amount}", account.number(), column.number()));
                cells += 1;
            }
        }
    }
    for record in book.docket() {
        let letter = match record.whereabouts {
            Whereabouts::Parked => 'p',
            Whereabouts::Out => 'o',
        };
        text.line(format_args!(
            "open {} {letter} {} {} {} {}",
            record.number,
            record.from.number(),
            record.to.number(),
            record.euro_residue.unwrap_or(0),
            record.national_residue.unwrap_or(0),
        ));
    }
    text.line(format_args!("end {cells} {}", book.docket().len()));
}

/// The lines written so far, each ended with byte 10.
struct Text(String);

impl Text {
    fn new() -> Text {
        Text(String::new())
    }

    fn line(&mut self, line: std::fmt::Arguments<'_>) {
        // Writing into a string never fails.
        let _ = self.0.write_fmt(line);
        self.0.push('\n');
    }

    fn bytes(self) -> Vec<u8> {
        self.0.into_bytes()
    }
}

/// Numbers, each after a space.
struct Spaced<'a>(&'a [i64]);

impl std::fmt::Display for Spaced<'_> {
    fn fmt(&self, out: &mut std::fmt::Formatter<'_>) -> std::fmt::Result {
        self.0.iter().try_for_each(|number| write!(out, " {number}"))
    }
}

#[cfg(test)]
mod tests {
    use super::*;

    fn sheet(input: &[u8]) -> String {
        String::from_utf8_lossy(&transcript(Program::Sheet, input)).into_owned()
    }

    #[test]
    fn example_of_section_10() {
        let expected = "1 ok 5113 1\naudit S 3999994\ncell 0 0 -5113\ncell 0 2 10000\ncell 0 13 158790\n\
            cell 1 13 -158790\ncell 10 2 -10000\ncell 20 0 5113\nopen 1 p 2 0 -158790 0\nend 6 1\n";
        assert_eq!(sheet(b"conv 10 20 DEM EUR 10000"), expected);
    }

    #[test]
    fn sizes() {
        assert_eq!(sheet(b""), "audit S 4000000\nend 0 0\n");
        assert_eq!(sheet(&[b' '; 65_536]), "audit S 4000000\nend 0 0\n");
        assert_eq!(sheet(&[b' '; 65_537]), "0 no R 22 0\n");
        assert_eq!(transcript(Program::Journal, b"\n\nx"), b"3 no R 20 1\naudit J 4096\nend 0 0\n");
    }

    #[test]
    fn a_refused_carry_leaves_the_slip_parked() {
        let text = sheet(b"conv 10 20 ITL EUR 9\ncarry 1 1\ncarry 1 20\ncarry 1 20\n");
        assert!(text.starts_with("1 ok 0 1\n2 no B 4 0\n3 ok\n4 no B 13 0\naudit S 3999992\n"), "{text}");
    }
}
