//! The book: its calls, the docket and the refusals in their order (section 8).

use crate::apportion::{apportion, Share, TieRule, MOST_SHARES};
use crate::ledger::{Account, Column, Entry, Fraction, Ledger, Leg, ENTRY_LEGS};
use crate::money::{check_amount, convert, Conversion, Currency, CURRENCIES};
use crate::refusal::Refusal;

const DOCKET_RECORDS: usize = 64;
const LAST_SLIP: u32 = 999_999;
const MOST_SWEPT: i64 = 1_000;

/// A leg of a post, as a caller names it.
#[derive(Clone, Copy, Debug, PartialEq, Eq)]
pub struct PostLeg {
    pub account: u64,
    pub currency: u64,
    pub amount: i64,
}

/// What a conversion is asked of, as a caller names it.
#[derive(Clone, Copy, Debug, PartialEq, Eq)]
pub struct Transfer {
    pub from_account: u64,
    pub to_account: u64,
    pub from: u64,
    pub to: u64,
    pub amount: i64,
}

/// The amount to be split, the account that it leaves and the shares that get it.
#[derive(Clone, Copy, Debug, PartialEq, Eq)]
pub struct Division<'a> {
    pub account: u64,
    pub currency: u64,
    pub amount: i64,
    pub shares: &'a [Share],
    pub rule: TieRule,
}

/// The right to the residues of one conversion. Only carrying and parking spend it, and both take it by value.
#[must_use]
#[derive(Debug)]
pub struct Slip {
    mark: u32,
    number: u32,
}

#[derive(Clone, Copy, Debug, PartialEq, Eq)]
pub enum Whereabouts {
    Out,
    Parked,
}

#[derive(Clone, Copy, Debug, PartialEq, Eq)]
pub struct DocketRecord {
    pub number: u32,
    pub from: Currency,
    pub to: Currency,
    pub euro_residue: Option<i64>,
    pub national_residue: Option<i64>,
    pub whereabouts: Whereabouts,
}

#[derive(Clone, Debug)]
pub struct Book<L> {
    ledger: L,
    mark: u32,
    fit: bool,
    docket: Vec<DocketRecord>,
    slips_given: u32,
}

impl<L: Ledger> Book<L> {
    pub fn open(ledger: L, mark: u32) -> Book<L> {
        let fit = [Account::EXCHANGE, Account::DOCKET]
            .into_iter()
            .all(|account| Column::all().all(|column| ledger.cell(account, column) == 0));
        Book { ledger, mark, fit, docket: Vec::with_capacity(DOCKET_RECORDS), slips_given: 0 }
    }

    pub fn ledger(&self) -> &L {
        &self.ledger
    }

    /// The records by rising number.
    pub fn docket(&self) -> &[DocketRecord] {
        &self.docket
    }

    /// Refused 1, 6, leg by leg 4, 2, 5, then 7.
    pub fn post(&mut self, post: &[PostLeg]) -> Result<(), Refusal> {
        self.check_fit()?;
        if !(2..=ENTRY_LEGS).contains(&post.len()) {
            return Err(Refusal::NumberOfLegs);
        }
        let mut legs = Legs::new();
        let mut sums = [0i64; CURRENCIES];
        for (at, leg) in post.iter().enumerate() {
            let place = at + 1;
            let account = named(leg.account, place)?;
            let currency = in_table(leg.currency, place)?;
            check_either_way(leg.amount, place)?;
            sums[currency.number()] += leg.amount;
            legs.add(account, Column::money(currency), leg.amount);
        }
        if let Some(currency) = sums.iter().position(|&sum| sum != 0) {
            return Err(Refusal::NotZero { currency });
        }
        self.ledger.take(&legs.entry())
    }

    /// Answers b and the slip. Refused 1, 2, 3, 4, 5, 9, 10, 11.
    pub fn convert(&mut self, transfer: Transfer) -> Result<(i64, Slip), Refusal> {
        self.check_fit()?;
        let from = in_table(transfer.from, 0)?;
        let to = in_table(transfer.to, 0)?;
        // `convert` has this refusal too, but the accounts come between it and the amount.
        if from == to {
            return Err(Refusal::EqualCurrencies);
        }
        let from_account = named(transfer.from_account, 0)?;
        let to_account = named(transfer.to_account, 0)?;
        let conversion = convert(from, to, transfer.amount)?;
        if self.docket.len() >= DOCKET_RECORDS {
            return Err(Refusal::DocketFull);
        }
        if self.slips_given >= LAST_SLIP {
            return Err(Refusal::SlipsGiven);
        }
        let Conversion { booked, euro_residue, national_residue } = conversion;
        let record = DocketRecord {
            number: self.slips_given + 1,
            from,
            to,
            euro_residue,
            national_residue,
            whereabouts: Whereabouts::Out,
        };
        let mut legs = Legs::new();
        legs.move_over(from_account, Account::EXCHANGE, Column::money(from), transfer.amount);
        legs.move_over(Account::EXCHANGE, to_account, Column::money(to), booked);
        for (column, parts) in residues(&record) {
            legs.move_over(Account::EXCHANGE, Account::DOCKET, column, parts);
        }
        self.ledger.take(&legs.entry())?;
        self.slips_given += 1;
        self.docket.push(record);
        Ok((booked, Slip { mark: self.mark, number: record.number }))
    }

    /// Writes the portions and the fractions into the two lists. Refused 1, 2, 4, then as section 7 has it.
    pub fn split(
        &mut self,
        division: Division<'_>,
        portions: &mut [i64],
        fractions: &mut [i64],
    ) -> Result<(), Refusal> {
        self.check_fit()?;
        let column = Column::money(in_table(division.currency, 0)?);
        let account = named(division.account, 0)?;
        // The lists must stay untouched if the ledger refuses, so the reckoning has its own.
        let (mut own_portions, mut own_fractions) = ([0; MOST_SHARES], [0; MOST_SHARES]);
        let portion_room = portions.len().min(MOST_SHARES);
        let fraction_room = fractions.len().min(MOST_SHARES);
        apportion(
            division.amount,
            division.shares,
            division.rule,
            &mut own_portions[..portion_room],
            &mut own_fractions[..fraction_room],
        )?;
        let mut legs = Legs::new();
        legs.add(account, column, -division.amount);
        for (at, (share, &portion)) in division.shares.iter().zip(&own_portions).enumerate() {
            legs.add(named(share.account, at + 1)?, column, portion);
        }
        self.ledger.take(&legs.entry())?;
        let count = division.shares.len();
        portions[..count].copy_from_slice(&own_portions[..count]);
        fractions[..count].copy_from_slice(&own_fractions[..count]);
        Ok(())
    }

    /// Strikes the record. Refused 1, 12, 4; a refusal hands the slip back.
    pub fn carry(&mut self, slip: Slip, account: u64) -> Result<(), (Slip, Refusal)> {
        match self.carry_residues(&slip, account) {
            Ok(()) => Ok(()),
            Err(refusal) => Err((slip, refusal)),
        }
    }

    fn carry_residues(&mut self, slip: &Slip, account: u64) -> Result<(), Refusal> {
        self.check_fit()?;
        let at = self.position_out(slip).ok_or(Refusal::NotThisBooksSlip)?;
        let account = named(account, 0)?;
        let mut legs = Legs::new();
        for (column, parts) in residues(&self.docket[at]) {
            legs.move_over(Account::DOCKET, account, column, parts);
        }
        self.ledger.take(&legs.entry())?;
        self.docket.remove(at);
        Ok(())
    }

    /// Never refused; answers the number, or 0 for a slip that is not this book's.
    pub fn park(&mut self, slip: Slip) -> u32 {
        match self.position_out(&slip) {
            Some(at) => {
                self.docket[at].whereabouts = Whereabouts::Parked;
                slip.number
            }
            None => 0,
        }
    }

    /// Refused 1, 13, 14.
    pub fn take_up(&mut self, number: u64) -> Result<Slip, Refusal> {
        self.check_fit()?;
        let record =
            self.docket.iter_mut().find(|record| u64::from(record.number) == number).ok_or(Refusal::NotOnDocket)?;
        if record.whereabouts == Whereabouts::Out {
            return Err(Refusal::NumberOut);
        }
        record.whereabouts = Whereabouts::Out;
        Ok(Slip { mark: self.mark, number: record.number })
    }

    /// Answers q. Refused 1, 4, 16, 15.
    pub fn sweep(&mut self, account: u64, column: u64) -> Result<i64, Refusal> {
        self.check_fit()?;
        let account = named(account, 0)?;
        let fraction = Fraction::from_number(column).ok_or(Refusal::NotAFraction)?;
        // Division of whole numbers cuts toward zero.
        let wholes = self.ledger.cell(account, fraction.column) / fraction.whole;
        let swept = wholes.clamp(-MOST_SWEPT, MOST_SWEPT);
        if swept == 0 {
            return Err(Refusal::SweepOfNothing);
        }
        let mut legs = Legs::new();
        legs.move_over(account, Account::EXCHANGE, Column::money(fraction.currency), -swept);
        legs.move_over(account, Account::EXCHANGE, fraction.column, swept * fraction.whole);
        self.ledger.take(&legs.entry())?;
        Ok(swept)
    }

    fn check_fit(&self) -> Result<(), Refusal> {
        if self.fit {
            Ok(())
        } else {
            Err(Refusal::Unfit)
        }
    }

    /// A slip is this book's if the mark agrees and the number is on record as out.
    fn position_out(&self, slip: &Slip) -> Option<usize> {
        if slip.mark != self.mark {
            return None;
        }
        self.docket.iter().position(|record| record.number == slip.number && record.whereabouts == Whereabouts::Out)
    }
}

/// The residues that a conversion has, euro first. One that comes to 0 is still there; only an absent one is left out.
fn residues(record: &DocketRecord) -> impl Iterator<Item = (Column, i64)> {
    let euro = record.euro_residue.map(|parts| (Column::euro_fraction(record.from), parts));
    let national = record.national_residue.map(|parts| (Column::national_fraction(record.to), parts));
    euro.into_iter().chain(national)
}

/// The legs of an entry that the book writes itself.
struct Legs {
    legs: [Leg; ENTRY_LEGS],
    count: usize,
}

impl Legs {
    fn new() -> Legs {
        let nothing = Leg::new(Account::EXCHANGE, Column::money(Currency::EURO), 0);
        Legs { legs: [nothing; ENTRY_LEGS], count: 0 }
    }

    fn add(&mut self, account: Account, column: Column, amount: i64) {
        self.legs[self.count] = Leg::new(account, column, amount);
        self.count += 1;
    }

    /// Two legs: `from` gets −amount, then `to` gets +amount.
    fn move_over(&mut self, from: Account, to: Account, column: Column, amount: i64) {
        self.add(from, column, -amount);
        self.add(to, column, amount);
    }

    fn entry(&self) -> Entry {
        Entry::from_legs(&self.legs[..self.count]).expect("the book writes legs of at most T that sum to zero")
    }
}

fn named(number: u64, place: usize) -> Result<Account, Refusal> {
    Account::named(number).ok_or(Refusal::NotNamed { place })
}

fn in_table(number: u64, place: usize) -> Result<Currency, Refusal> {
    Currency::from_number(number).ok_or(Refusal::NoSuchCurrency { place })
}

fn check_either_way(amount: i64, place: usize) -> Result<(), Refusal> {
    check_amount(amount.saturating_abs()).map_err(|_| Refusal::AmountOutOfRange { place })
}

#[cfg(test)]
mod tests {
    use super::*;
    use crate::ledger::{Journal, Sheet};
    use crate::money::LARGEST;

    const EUR: u64 = 0;
    const DEM: u64 = 2;
    const ITL: u64 = 6;

    fn book() -> Book<Sheet> {
        Book::open(Sheet::open(4_000_000), 77)
    }

    fn transfer(from: u64, to: u64, amount: i64) -> Transfer {
        Transfer { from_account: 40, to_account: 41, from, to, amount }
    }

    fn refusal<V>(answer: Result<V, Refusal>) -> String {
        answer.err().map_or("ok".to_string(), |refusal| refusal.to_string())
    }

    #[test]
    fn slips_of_nine_lire() {
        for (slips, answer) in [(2, Err(Refusal::SweepOfNothing)), (3, Ok(1))] {
            let mut book = book();
            for _ in 0..slips {
                let (_, slip) = book.convert(transfer(ITL, EUR, 9)).expect("a conversion");
                book.carry(slip, 40).expect("carried");
            }
            assert_eq!(book.sweep(40, 17), answer);
            let account = Account::named(40).expect("named");
            let column = Fraction::from_number(17).expect("a fraction column").column;
            let stays = if slips == 2 { 1_800_000 } else { 763_730 };
            assert_eq!(book.ledger().cell(account, column), stays);
        }
    }

    #[test]
    fn slips_are_spent_once() {
        let (mut book, mut other) = (book(), Book::open(Sheet::open(100), 78));
        let (_, slip) = book.convert(transfer(DEM, EUR, 1)).expect("a conversion");
        assert_eq!(refusal(book.take_up(1)), "B 14 0");
        let (slip, refused) = other.carry(slip, 40).expect_err("another book's");
        assert_eq!(refused, Refusal::NotThisBooksSlip);
        let (slip, refused) = book.carry(slip, 1).expect_err("not named");
        assert_eq!(refused, Refusal::NotNamed { place: 0 });
        assert_eq!(book.park(slip), 1);
        assert_eq!(other.park(book.take_up(1).expect("parked")), 0);
        assert_eq!(refusal(book.take_up(2)), "B 13 0");
    }

    #[test]
    fn unfit() {
        let mut ledger = Sheet::open(10);
        let column = Column::money(Currency::EURO);
        let named = Account::named(2).expect("named");
        let legs = [Leg::new(Account::DOCKET, column, 1), Leg::new(named, column, -1)];
        ledger.take(&Entry::from_legs(&legs).expect("an entry")).expect("taken");
        let mut book = Book::open(ledger, 1);
        assert_eq!(refusal(book.post(&[])), "B 1 0");
        assert_eq!(refusal(book.sweep(0, 0)), "B 1 0");
    }

    #[test]
    fn order_of_refusals() {
        let mut book = book();
        let ask = |book: &mut Book<Sheet>, from_account, from, to, amount| {
            refusal(book.convert(Transfer { from_account, to_account: 3, from, to, amount }))
        };
        assert_eq!(ask(&mut book, 0, 12, 12, 0), "B 2 0");
        assert_eq!(ask(&mut book, 0, 2, 2, 0), "B 3 0");
        assert_eq!(ask(&mut book, 0, 0, 2, 0), "B 4 0");
        assert_eq!(ask(&mut book, 2, 0, 2, 0), "B 5 0");
        assert_eq!(ask(&mut book, 2, 0, 2, LARGEST), "B 9 0");
        let leg = |account, currency, amount| PostLeg { account, currency, amount };
        assert_eq!(refusal(book.post(&[leg(0, 0, 0)])), "B 6 0");
        assert_eq!(refusal(book.post(&[leg(2, 0, 1), leg(1, 12, 0)])), "B 4 2");
        assert_eq!(refusal(book.post(&[leg(2, 0, 1), leg(3, 12, 0)])), "B 2 2");
        assert_eq!(refusal(book.post(&[leg(2, 0, 1), leg(3, 3, i64::MIN)])), "B 5 2");
        assert_eq!(refusal(book.post(&[leg(2, 3, 1), leg(3, 2, 1)])), "B 7 2");
        assert_eq!(refusal(book.sweep(1, 11)), "B 4 0");
        assert_eq!(refusal(book.sweep(2, 11)), "B 16 0");
        assert_eq!(refusal(book.sweep(2, 33)), "B 15 0");
    }

    #[test]
    fn a_refused_split_leaves_the_lists() {
        let mut book = Book::open(Journal::open(2), 1);
        let shares = [Share { account: 2, weight: 1 }, Share { account: 3, weight: 1 }];
        let division = Division { account: 4, currency: EUR, amount: 5, shares: &shares, rule: TieRule::SmallerPlace };
        let (mut portions, mut fractions) = ([9; 3], [9; 3]);
        assert_eq!(refusal(book.split(division, &mut portions, &mut fractions)), "L 17 0 0");
        assert_eq!((portions, fractions), ([9; 3], [9; 3]));
    }
}
