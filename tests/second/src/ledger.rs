//! Accounts, columns, legs and entries, and the two ledgers that take entries (sections 5 and 6).

use crate::money::{Currency, CURRENCIES, LARGEST};
use crate::refusal::Refusal;

pub const ACCOUNTS: usize = 128;
pub const COLUMNS: usize = 34;
pub const CELLS: usize = ACCOUNTS * COLUMNS;

/// The most legs that an entry has.
pub const ENTRY_LEGS: usize = 16;

const FLOOR: i64 = -1_000_000_000_000_000;
const CEILING: i64 = 1_000_000_000_000_000;
const SHEET_ROOM: usize = 9_000_000;
const JOURNAL_RECORDS: usize = 65_536;

#[derive(Clone, Copy, Debug, PartialEq, Eq)]
pub struct Account(u8);

impl Account {
    /// The exchange account, through which conversions go.
    pub const EXCHANGE: Account = Account(0);
    /// The docket account, which holds the residues that no account has taken yet.
    pub const DOCKET: Account = Account(1);

    /// One of the named accounts, 2 to 127.
    pub fn named(number: u64) -> Option<Account> {
        let account = Account(u8::try_from(number).ok()?);
        (2..ACCOUNTS).contains(&account.number()).then_some(account)
    }

    pub fn number(self) -> usize {
        usize::from(self.0)
    }

    pub fn all() -> impl Iterator<Item = Account> {
        (0..ACCOUNTS as u8).map(Account)
    }
}

#[derive(Clone, Copy, Debug, PartialEq, Eq)]
pub struct Column(u8);

impl Column {
    pub fn money(currency: Currency) -> Column {
        Column(currency.number() as u8)
    }

    /// Column 11 + i. The euro has no fraction; only national currencies are put in.
    pub fn euro_fraction(national: Currency) -> Column {
        Column((CURRENCIES - 1 + national.number()) as u8)
    }

    /// Column 22 + j. The euro has no fraction; only national currencies are put in.
    pub fn national_fraction(national: Currency) -> Column {
        Column((2 * (CURRENCIES - 1) + national.number()) as u8)
    }

    pub fn number(self) -> usize {
        usize::from(self.0)
    }

    pub fn all() -> impl Iterator<Item = Column> {
        (0..COLUMNS as u8).map(Column)
    }
}

/// A fraction column, 12 to 33: its column, the currency in which it is swept, and D, the parts to a whole.
#[derive(Clone, Copy, Debug, PartialEq, Eq)]
pub struct Fraction {
    pub column: Column,
    pub currency: Currency,
    pub whole: i64,
}

impl Fraction {
    pub fn from_number(number: u64) -> Option<Fraction> {
        let nationals = CURRENCIES as u64 - 1;
        let (currency, national) = if (nationals + 1..=2 * nationals).contains(&number) {
            (Currency::EURO, Currency::from_number(number - nationals)?)
        } else {
            let national = Currency::from_number(number.checked_sub(2 * nationals)?)?;
            (national, national)
        };
        // The euro has no rate, so column 22 + 0 never gets past this line.
        let rate = national.rate()?;
        let whole = if currency == Currency::EURO { 10 * rate.r } else { rate.p };
        Some(Fraction { column: Column(u8::try_from(number).ok()?), currency, whole })
    }
}

/// An account, a column and a signed amount, in minor units for a money column and in parts for a fraction column.
#[derive(Clone, Copy, Debug, PartialEq, Eq)]
pub struct Leg {
    pub account: Account,
    pub column: Column,
    pub amount: i64,
}

impl Leg {
    pub fn new(account: Account, column: Column, amount: i64) -> Leg {
        Leg { account, column, amount }
    }

    fn cell(&self) -> usize {
        cell_index(self.account, self.column)
    }
}

fn cell_index(account: Account, column: Column) -> usize {
    account.number() * COLUMNS + column.number()
}

/// 0 to 16 legs that sum to zero in each column.
#[derive(Clone, Debug, PartialEq, Eq)]
pub struct Entry {
    legs: [Leg; ENTRY_LEGS],
    count: usize,
}

impl Entry {
    /// `None` for legs that are no such list.
    pub fn from_legs(legs: &[Leg]) -> Option<Entry> {
        let in_range = legs.iter().all(|leg| leg.amount.unsigned_abs() <= LARGEST as u64);
        if legs.len() > ENTRY_LEGS || !in_range || !sums_to_zero(legs) {
            return None;
        }
        let mut entry = Entry { legs: [Leg::new(Account::EXCHANGE, Column(0), 0); ENTRY_LEGS], count: legs.len() };
        entry.legs[..legs.len()].copy_from_slice(legs);
        Some(entry)
    }

    pub fn legs(&self) -> &[Leg] {
        &self.legs[..self.count]
    }
}

fn sums_to_zero(legs: &[Leg]) -> bool {
    let mut sums = [0i64; COLUMNS];
    for leg in legs {
        sums[leg.column.number()] += leg.amount;
    }
    sums.iter().all(|&sum| sum == 0)
}

pub trait Ledger {
    /// The letter that belongs to the type.
    const KIND: char;

    /// How many more legs it takes.
    fn room(&self) -> usize;

    fn cell(&self, account: Account, column: Column) -> i64;

    /// Refused 17 and 18; a refusal changes nothing.
    fn take(&mut self, entry: &Entry) -> Result<(), Refusal>;
}

fn inside(amount: i64) -> bool {
    (FLOOR..=CEILING).contains(&amount)
}

/// Keeps one number for each cell.
#[derive(Clone, Debug)]
pub struct Sheet {
    cells: Vec<i64>,
    room: usize,
}

impl Sheet {
    pub fn open(room: usize) -> Sheet {
        Sheet { cells: vec![0; CELLS], room: room.min(SHEET_ROOM) }
    }

    fn undo(&mut self, legs: &[Leg]) {
        for leg in legs {
            self.cells[leg.cell()] -= leg.amount;
        }
    }
}

impl Ledger for Sheet {
    const KIND: char = 'S';

    fn room(&self) -> usize {
        self.room
    }

    fn cell(&self, account: Account, column: Column) -> i64 {
        self.cells[cell_index(account, column)]
    }

    fn take(&mut self, entry: &Entry) -> Result<(), Refusal> {
        let legs = entry.legs();
        if legs.len() > self.room {
            return Err(Refusal::NoRoom { height: 0 });
        }
        for (at, leg) in legs.iter().enumerate() {
            let cell = &mut self.cells[leg.cell()];
            *cell += leg.amount;
            if !inside(*cell) {
                self.undo(&legs[..=at]);
                return Err(Refusal::OutsideBounds { place: at + 1, height: 0 });
            }
        }
        self.room -= legs.len();
        Ok(())
    }
}

/// Keeps every leg as a record; a cell is the sum over the records.
#[derive(Clone, Debug)]
pub struct Journal {
    records: Vec<Leg>,
    capacity: usize,
}

impl Journal {
    pub fn open(records: usize) -> Journal {
        let capacity = records.min(JOURNAL_RECORDS);
        Journal { records: Vec::with_capacity(capacity), capacity }
    }
}

impl Ledger for Journal {
    const KIND: char = 'J';

    fn room(&self) -> usize {
        self.capacity - self.records.len()
    }

    fn cell(&self, account: Account, column: Column) -> i64 {
        self.records
            .iter()
            .filter(|record| record.account == account && record.column == column)
            .map(|record| record.amount)
            .sum()
    }

    fn take(&mut self, entry: &Entry) -> Result<(), Refusal> {
        let legs = entry.legs();
        if legs.len() > self.room() {
            return Err(Refusal::NoRoom { height: 0 });
        }
        let before = self.records.len();
        for (at, leg) in legs.iter().enumerate() {
            self.records.push(*leg);
            if !inside(self.cell(leg.account, leg.column)) {
                self.records.truncate(before);
                return Err(Refusal::OutsideBounds { place: at + 1, height: 0 });
            }
        }
        Ok(())
    }
}

#[cfg(test)]
mod tests {
    use super::*;

    fn leg(account: u8, amount: i64) -> Leg {
        Leg::new(Account(account), Column(0), amount)
    }

    fn fill_up<L: Ledger>(mut ledger: L) {
        let entry = Entry::from_legs(&[leg(2, LARGEST), leg(3, -LARGEST)]).expect("an entry");
        for _ in 0..10_000 {
            ledger.take(&entry).expect("10,000 times T is below the ceiling");
        }
        let room = ledger.room();
        let refusal = Refusal::OutsideBounds { place: 1, height: 0 };
        assert_eq!(ledger.take(&entry), Err(refusal));
        let back_and_forth =
            Entry::from_legs(&[leg(3, LARGEST), leg(2, -1), leg(2, 20_001), leg(3, -20_000 - LARGEST)]);
        assert_eq!(back_and_forth, None);
        let third = Entry::from_legs(&[leg(3, 20_000), leg(2, -1), leg(2, 10_002), leg(3, -30_001)]).expect("an entry");
        assert_eq!(ledger.take(&third), Err(Refusal::OutsideBounds { place: 3, height: 0 }));
        assert_eq!(ledger.room(), room);
        assert_eq!(ledger.cell(Account(2), Column(0)), 10_000 * LARGEST);
        assert_eq!(ledger.cell(Account(3), Column(0)), -10_000 * LARGEST);
    }

    #[test]
    fn bounds_of_the_sheet() {
        fill_up(Sheet::open(4_000_000));
    }

    #[test]
    fn bounds_of_the_journal() {
        fill_up(Journal::open(30_000));
    }

    #[test]
    fn room() {
        let entry = Entry::from_legs(&[leg(2, 1), leg(2, -1)]).expect("an entry");
        let mut journal = Journal::open(3);
        assert_eq!(journal.take(&entry), Ok(()));
        assert_eq!(journal.take(&entry), Err(Refusal::NoRoom { height: 0 }));
        assert_eq!(journal.room(), 1);
        assert_eq!(Sheet::open(10_000_000).room(), 9_000_000);
    }

    #[test]
    fn fraction_columns() {
        let numbers: Vec<u64> = (0..100).filter(|&number| Fraction::from_number(number).is_some()).collect();
        assert_eq!(numbers, (12..=33).collect::<Vec<u64>>());
        let lira = Fraction::from_number(17).expect("a fraction column");
        assert_eq!((lira.currency, lira.whole), (Currency::EURO, 1_936_270));
        let punt = Fraction::from_number(27).expect("a fraction column");
        assert_eq!((punt.currency.code(), punt.whole), ("IEP", 10_000_000));
    }
}
