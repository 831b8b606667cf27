//! The same work by the second implementation, which is plain Rust without proofs.

use second::apportion::{TieRule, MOST_SHARES};
use second::book::{Book, Division, Transfer};
use second::ledger::{Account, Column, Ledger, Sheet};
use second::lines::{read, Line};
use second::money::Currency;
use second::refusal::Refusal;
use second::transcript::{sheet_book, transcript, Program};

/// What is booked, or below zero the number of the refusal.
pub fn convert(source: u64, target: u64, amount: i64) -> i64 {
    match converted(source, target, amount) {
        Ok(booked) => booked,
        Err(refusal) => -i64::from(refusal.registered().number),
    }
}

fn converted(source: u64, target: u64, amount: i64) -> Result<i64, Refusal> {
    let unknown = Refusal::NoSuchCurrency { place: 0 };
    let from = Currency::from_number(source).ok_or(unknown)?;
    let to = Currency::from_number(target).ok_or(unknown)?;
    Ok(second::money::convert(from, to, amount)?.booked)
}

/// What account 3 holds in a column after so many conversions from account 2, with their residues carried there.
pub fn convert_rounds(source: u64, target: u64, amount: i64, rounds: u64, column: u64) -> i64 {
    let mut book = sheet_book();
    let transfer = Transfer { from_account: 2, to_account: 3, from: source, to: target, amount };
    for _ in 0..rounds {
        // A line parks each slip and takes it up again, and so do both sides here.
        if let Ok((_, slip)) = book.convert(transfer) {
            let number = u64::from(book.park(slip));
            if let Ok(slip) = book.take_up(number) {
                if let Err((slip, _)) = book.carry(slip, transfer.to_account) {
                    book.park(slip);
                }
            }
        }
    }
    cell(&book, 3, column)
}

/// What a cell holds after the line was carried out so many times. Only posts and splits are measured so.
pub fn line_rounds(line: &[u8], rounds: u64, account: u64, column: u64) -> i64 {
    let mut book = sheet_book();
    match read(line) {
        Ok(Some(Line::Post(legs))) => {
            for _ in 0..rounds {
                let _ = std::hint::black_box(book.post(&legs));
            }
        }
        Ok(Some(Line::Split { account, currency, amount, shares })) => {
            let division = Division { account, currency, amount, shares: &shares, rule: TieRule::SmallerPlace };
            for _ in 0..rounds {
                let (mut portions, mut fractions) = ([0; MOST_SHARES], [0; MOST_SHARES]);
                let _ = book.split(division, &mut portions, &mut fractions);
                std::hint::black_box((portions, fractions));
            }
        }
        _ => panic!("neither a post nor a split"),
    }
    cell(&book, account, column)
}

fn cell(book: &Book<Sheet>, account: u64, column: u64) -> i64 {
    let account = Account::all().nth(account as usize);
    let column = Column::all().nth(column as usize);
    account.zip(column).map_or(0, |(account, column)| book.ledger().cell(account, column))
}

pub fn sheet_transcript(input: &[u8]) -> Vec<u8> {
    transcript(Program::Sheet, input)
}

pub fn journal_transcript(input: &[u8]) -> Vec<u8> {
    transcript(Program::Journal, input)
}
