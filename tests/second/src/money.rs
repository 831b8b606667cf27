//! Currencies, half-up rounding and conversions (sections 1 to 4).

use crate::refusal::Refusal;

/// T, the largest amount, in minor units.
pub const LARGEST: i64 = 99_999_999_999;

/// How many currencies there are, the euro included.
pub const CURRENCIES: usize = 12;

/// The fixed rate of a national currency: one euro is `r` ÷ 10^k units, and a minor unit has `p` parts.
#[derive(Clone, Copy, Debug, PartialEq, Eq)]
pub struct Rate {
    pub r: i64,
    pub p: i64,
}

impl Rate {
    /// s × P is 10^(k+3).
    const fn new(r: i64, k: u32, s: i64) -> Rate {
        Rate { r, p: 10i64.pow(k + 3) / s }
    }
}

const CODES: [&str; CURRENCIES] = ["EUR", "BEF", "DEM", "ESP", "FRF", "IEP", "ITL", "LUF", "NLG", "ATS", "PTE", "FIM"];

/// The rates of currencies 1 to 11, in the order of the table.
const RATES: [Rate; CURRENCIES - 1] = [
    Rate::new(403_399, 4, 1),
    Rate::new(195_583, 5, 100),
    Rate::new(166_386, 3, 1),
    Rate::new(655_957, 5, 100),
    Rate::new(787_564, 6, 100),
    Rate::new(193_627, 2, 1),
    Rate::new(403_399, 4, 1),
    Rate::new(220_371, 5, 100),
    Rate::new(137_603, 4, 100),
    Rate::new(200_482, 3, 1),
    Rate::new(594_573, 5, 100),
];

/// One of the twelve currencies; 0 is the euro.
#[derive(Clone, Copy, Debug, PartialEq, Eq)]
pub struct Currency(u8);

impl Currency {
    pub const EURO: Currency = Currency(0);

    pub fn from_number(number: u64) -> Option<Currency> {
        let number = u8::try_from(number).ok()?;
        (usize::from(number) < CURRENCIES).then_some(Currency(number))
    }

    pub fn from_code(code: &[u8]) -> Option<Currency> {
        let number = CODES.iter().position(|known| known.as_bytes() == code)?;
        Currency::from_number(number as u64)
    }

    pub fn all() -> impl Iterator<Item = Currency> {
        (0..CURRENCIES as u8).map(Currency)
    }

    pub fn number(self) -> usize {
        usize::from(self.0)
    }

    pub fn code(self) -> &'static str {
        CODES[self.number()]
    }

    /// The euro has no rate.
    pub fn rate(self) -> Option<Rate> {
        self.number().checked_sub(1).map(|at| RATES[at])
    }
}

/// The nearest whole number to x ÷ y, the upper one at exactly half, and what x has above that many times y.
#[derive(Clone, Copy, Debug, PartialEq, Eq)]
pub struct Rounded {
    pub whole: i128,
    pub residue: i128,
}

/// Half-up of x ÷ y, for y above 0.
pub fn half_up(x: i128, y: i128) -> Rounded {
    let whole = (2 * x + y).div_euclid(2 * y);
    Rounded { whole, residue: x - y * whole }
}

/// What a conversion comes to. A residue is `None` only where the euro stands on its side.
#[derive(Clone, Copy, Debug, PartialEq, Eq)]
pub struct Conversion {
    pub booked: i64,
    pub euro_residue: Option<i64>,
    pub national_residue: Option<i64>,
}

/// Refused 3, 5, 9, in this order.
pub fn convert(from: Currency, to: Currency, amount: i64) -> Result<Conversion, Refusal> {
    if from == to {
        return Err(Refusal::EqualCurrencies);
    }
    check_amount(amount)?;
    let amount = i128::from(amount);
    let (booked, euro_residue, national_residue) = match (from.rate(), to.rate()) {
        (Some(i), None) => {
            let cents = half_up(amount * i128::from(i.p), 10 * i128::from(i.r));
            (cents.whole, Some(cents.residue), None)
        }
        (Some(i), Some(j)) => {
            let mills = half_up(amount * i128::from(i.p), i128::from(i.r));
            let minor = from_mills(mills.whole, j);
            (minor.whole, Some(mills.residue), Some(minor.residue))
        }
        (None, Some(j)) => {
            let minor = from_mills(10 * amount, j);
            (minor.whole, None, Some(minor.residue))
        }
        (None, None) => return Err(Refusal::EqualCurrencies),
    };
    let booked = i64::try_from(booked).map_err(|_| Refusal::BookedTooLarge)?;
    if booked > LARGEST {
        return Err(Refusal::BookedTooLarge);
    }
    // A residue is at most half of 10 × R or of P, so it always fits.
    Ok(Conversion {
        booked,
        euro_residue: euro_residue.map(|parts| parts as i64),
        national_residue: national_residue.map(|parts| parts as i64),
    })
}

fn from_mills(mills: i128, to: Rate) -> Rounded {
    half_up(mills * i128::from(to.r), i128::from(to.p))
}

/// Refused 5 at place 0 for an amount outside 1 to T.
pub fn check_amount(amount: i64) -> Result<(), Refusal> {
    if (1..=LARGEST).contains(&amount) {
        Ok(())
    } else {
        Err(Refusal::AmountOutOfRange { place: 0 })
    }
}

#[cfg(test)]
mod tests {
    use super::*;

    fn currency(code: &str) -> Currency {
        Currency::from_code(code.as_bytes()).expect("a code of the table")
    }

    fn check(from: &str, to: &str, amount: i64, booked: i64, euro: Option<i64>, national: Option<i64>) {
        let expected = Conversion { booked, euro_residue: euro, national_residue: national };
        assert_eq!(convert(currency(from), currency(to), amount), Ok(expected));
    }

    #[test]
    fn parts_to_a_minor_unit() {
        let powers = [7, 6, 6, 6, 7, 5, 7, 6, 5, 6, 6];
        for (rate, power) in RATES.iter().zip(powers) {
            assert_eq!(rate.p, 10i64.pow(power));
        }
    }

    #[test]
    fn rounding() {
        assert_eq!(half_up(3, 2), Rounded { whole: 2, residue: -1 });
        assert_eq!(half_up(-3, 2), Rounded { whole: -1, residue: -1 });
        assert_eq!(half_up(4, 3), Rounded { whole: 1, residue: 1 });
    }

    #[test]
    fn table_of_section_4() {
        check("DEM", "EUR", 10000, 5113, Some(-158790), None);
        check("EUR", "DEM", 150000, 293375, None, Some(-500000));
        check("ITL", "EUR", 9, 0, Some(900000), None);
        check("ITL", "EUR", 10, 1, Some(-936270), None);
        check("DEM", "FRF", 10000, 33538, Some(36793), Some(425453));
        check("BEF", "LUF", 1000, 1000, Some(142189), Some(-142189));
    }

    #[test]
    fn refusals_in_order() {
        let (euro, mark) = (currency("EUR"), currency("DEM"));
        assert_eq!(convert(mark, mark, 0), Err(Refusal::EqualCurrencies));
        assert_eq!(convert(euro, mark, 0), Err(Refusal::AmountOutOfRange { place: 0 }));
        assert_eq!(convert(euro, mark, LARGEST + 1), Err(Refusal::AmountOutOfRange { place: 0 }));
        assert_eq!(convert(euro, mark, LARGEST), Err(Refusal::BookedTooLarge));
    }
}
