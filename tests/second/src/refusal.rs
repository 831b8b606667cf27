//! The refusal register (section 11).

use std::fmt;

/// Every refusal, in the order of the register. A `place` counts from 1; 0 means that no single place is meant.
#[derive(Clone, Copy, Debug, PartialEq, Eq)]
pub enum Refusal {
    Unfit,
    NoSuchCurrency { place: usize },
    EqualCurrencies,
    NotNamed { place: usize },
    AmountOutOfRange { place: usize },
    NumberOfLegs,
    NotZero { currency: usize },
    Shares { place: usize },
    BookedTooLarge,
    DocketFull,
    SlipsGiven,
    NotThisBooksSlip,
    NotOnDocket,
    NumberOut,
    SweepOfNothing,
    NotAFraction,
    NoRoom { height: usize },
    OutsideBounds { place: usize, height: usize },
    WordNotOfItsKind { column: usize },
    NoPattern,
    ListTooShort,
    InputTooLong,
}

#[derive(Clone, Copy, Debug, PartialEq, Eq)]
pub enum Part {
    Reader,
    Book,
    /// Only a ledger's refusal has a height.
    Ledger {
        height: usize,
    },
}

/// A refusal as the register writes it.
#[derive(Clone, Copy, Debug, PartialEq, Eq)]
pub struct Registered {
    pub part: Part,
    pub number: u8,
    pub place: usize,
}

impl Refusal {
    pub fn registered(self) -> Registered {
        use Part::{Book, Ledger, Reader};
        let (part, number, place) = match self {
            Refusal::Unfit => (Book, 1, 0),
            Refusal::NoSuchCurrency { place } => (Book, 2, place),
            Refusal::EqualCurrencies => (Book, 3, 0),
            Refusal::NotNamed { place } => (Book, 4, place),
            Refusal::AmountOutOfRange { place } => (Book, 5, place),
            Refusal::NumberOfLegs => (Book, 6, 0),
            Refusal::NotZero { currency } => (Book, 7, currency),
            Refusal::Shares { place } => (Book, 8, place),
            Refusal::BookedTooLarge => (Book, 9, 0),
            Refusal::DocketFull => (Book, 10, 0),
            Refusal::SlipsGiven => (Book, 11, 0),
            Refusal::NotThisBooksSlip => (Book, 12, 0),
            Refusal::NotOnDocket => (Book, 13, 0),
            Refusal::NumberOut => (Book, 14, 0),
            Refusal::SweepOfNothing => (Book, 15, 0),
            Refusal::NotAFraction => (Book, 16, 0),
            Refusal::NoRoom { height } => (Ledger { height }, 17, 0),
            Refusal::OutsideBounds { place, height } => (Ledger { height }, 18, place),
            Refusal::WordNotOfItsKind { column } => (Reader, 19, column),
            Refusal::NoPattern => (Reader, 20, 1),
            Refusal::ListTooShort => (Book, 21, 0),
            Refusal::InputTooLong => (Reader, 22, 0),
        };
        Registered { part, number, place }
    }
}

impl fmt::Display for Refusal {
    fn fmt(&self, out: &mut fmt::Formatter<'_>) -> fmt::Result {
        let Registered { part, number, place } = self.registered();
        match part {
            Part::Reader => write!(out, "R {number} {place}"),
            Part::Book => write!(out, "B {number} {place}"),
            Part::Ledger { height } => write!(out, "L {number} {place} {height}"),
        }
    }
}

#[cfg(test)]
mod tests {
    use super::Refusal;

    #[test]
    fn written_as_the_register_has_it() {
        assert_eq!(Refusal::EqualCurrencies.to_string(), "B 3 0");
        assert_eq!(Refusal::OutsideBounds { place: 2, height: 0 }.to_string(), "L 18 2 0");
        assert_eq!(Refusal::NoPattern.to_string(), "R 20 1");
    }
}
