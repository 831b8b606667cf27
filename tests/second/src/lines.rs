//! Words and the patterns of lines (section 9).

use crate::apportion::Share;
use crate::book::{PostLeg, Transfer};
use crate::money::Currency;
use crate::refusal::Refusal;

const MOST_WORDS: usize = 49;
const MOST_DIGITS: usize = 11;

/// The bytes between spaces, and the column of the first, in bytes, from 1.
#[derive(Clone, Copy, Debug, PartialEq, Eq)]
pub struct Word<'a> {
    pub column: usize,
    pub bytes: &'a [u8],
}

/// A line that has been read.
#[derive(Clone, Debug, PartialEq, Eq)]
pub enum Line {
    Post(Vec<PostLeg>),
    Conv(Transfer),
    Split { account: u64, currency: u64, amount: i64, shares: Vec<Share> },
    Carry { number: u64, account: u64 },
    Sweep { account: u64, column: u64 },
}

/// The lines of an input. A byte 10 at the very end begins no further line.
pub fn split_lines(input: &[u8]) -> impl Iterator<Item = &[u8]> {
    input.split_inclusive(|&byte| byte == b'\n').map(|line| line.strip_suffix(b"\n").unwrap_or(line))
}

pub fn split_words(line: &[u8]) -> impl Iterator<Item = Word<'_>> {
    let mut column = 1;
    line.split(|&byte| byte == b' ').filter_map(move |bytes| {
        let word = Word { column, bytes };
        column += bytes.len() + 1;
        (!bytes.is_empty()).then_some(word)
    })
}

/// `None` for a line without words. Refused 20, then 19.
pub fn read(line: &[u8]) -> Result<Option<Line>, Refusal> {
    let words: Vec<Word> = split_words(line).take(MOST_WORDS + 1).collect();
    if words.len() > MOST_WORDS {
        return Err(Refusal::NoPattern);
    }
    let Some((first, rest)) = words.split_first() else {
        return Ok(None);
    };
    let line = match (first.bytes, rest) {
        (b"post", legs) if legs.len() % 3 == 0 => read_post(legs)?,
        (b"conv", [from_account, to_account, from, to, amount]) => Line::Conv(Transfer {
            from_account: number(from_account)?,
            to_account: number(to_account)?,
            from: code(from)?,
            to: code(to)?,
            amount: number(amount)? as i64,
        }),
        (b"split", [account, currency, amount, pairs @ ..]) => Line::Split {
            account: number(account)?,
            currency: code(currency)?,
            amount: number(amount)? as i64,
            shares: pairs.iter().map(pair).collect::<Result<_, _>>()?,
        },
        (b"carry", [slip, account]) => Line::Carry { number: number(slip)?, account: number(account)? },
        (b"sweep", [account, column]) => Line::Sweep { account: number(account)?, column: number(column)? },
        _ => return Err(Refusal::NoPattern),
    };
    Ok(Some(line))
}

fn read_post(words: &[Word]) -> Result<Line, Refusal> {
    let legs = words.chunks_exact(3).map(|leg| {
        Ok(PostLeg { account: number(&leg[0])?, currency: code(&leg[1])?, amount: signed_number(&leg[2])? })
    });
    Ok(Line::Post(legs.collect::<Result<_, Refusal>>()?))
}

fn number(word: &Word) -> Result<u64, Refusal> {
    digits(word.bytes).ok_or(not_of_its_kind(word))
}

fn signed_number(word: &Word) -> Result<i64, Refusal> {
    let (sign, unsigned) = match word.bytes {
        [b'+', unsigned @ ..] => (1, unsigned),
        [b'-', unsigned @ ..] => (-1, unsigned),
        _ => return Err(not_of_its_kind(word)),
    };
    let size = digits(unsigned).ok_or(not_of_its_kind(word))?;
    Ok(sign * size as i64)
}

/// The number of the currency. A code that is not in the table is refused like a word that is no code.
fn code(word: &Word) -> Result<u64, Refusal> {
    let currency = Currency::from_code(word.bytes).ok_or(not_of_its_kind(word))?;
    Ok(currency.number() as u64)
}

fn pair(word: &Word) -> Result<Share, Refusal> {
    let refusal = not_of_its_kind(word);
    let colon = word.bytes.iter().position(|&byte| byte == b':').ok_or(refusal)?;
    let account = digits(&word.bytes[..colon]).ok_or(refusal)?;
    let weight = digits(&word.bytes[colon + 1..]).ok_or(refusal)?;
    Ok(Share { account, weight })
}

/// 1 to 11 digits with no needless 0 in front.
fn digits(bytes: &[u8]) -> Option<u64> {
    let needless = bytes.len() > 1 && bytes[0] == b'0';
    if bytes.is_empty() || bytes.len() > MOST_DIGITS || needless || !bytes.iter().all(u8::is_ascii_digit) {
        return None;
    }
    Some(bytes.iter().fold(0, |number, &digit| 10 * number + u64::from(digit - b'0')))
}

fn not_of_its_kind(word: &Word) -> Refusal {
    Refusal::WordNotOfItsKind { column: word.column }
}

#[cfg(test)]
mod tests {
    use super::*;

    fn refusal(line: &str) -> String {
        read(line.as_bytes()).err().map_or("ok".to_string(), |refusal| refusal.to_string())
    }

    #[test]
    fn words_have_columns() {
        let columns: Vec<usize> = split_words(b"  a bc   d ").map(|word| word.column).collect();
        assert_eq!(columns, [3, 5, 10]);
    }

    #[test]
    fn last_newline_begins_no_line() {
        assert_eq!(split_lines(b"").count(), 0);
        assert_eq!(split_lines(b"\n").count(), 1);
        assert_eq!(split_lines(b"a\n\nb").count(), 3);
        assert_eq!(split_lines(b"a\n\nb\n").count(), 3);
    }

    #[test]
    fn kinds() {
        assert_eq!(digits(b"99999999999"), Some(99_999_999_999));
        assert_eq!(digits(b"0"), Some(0));
        for name in ["", "00", "01", "100000000000", "1a", "+1", "-"] {
            assert_eq!(digits(name.as_bytes()), None);
        }
        for name in ["1:", ":1", ":", "1:2:3", "1", "01:2", "1:+2"] {
            assert_eq!(refusal(&format!("split 2 EUR 5 {name}")), "R 19 15");
        }
        for name in ["+", "-", "5", "+-5", "+05", "5+", "+100000000000"] {
            assert_eq!(refusal(&format!(" post 2 EUR {name}")), "R 19 13");
        }
    }

    #[test]
    fn patterns() {
        for line in ["post", "split 2 EUR 5", "post 2 EUR +0"] {
            assert_eq!(refusal(line), "ok");
        }
        for line in ["  Post", "post 1", "conv 1 2 EUR DEM", "split 1 EUR", "carry 1", "sweep 1 2 3", "end"] {
            assert_eq!(refusal(line), "R 20 1");
        }
        assert_eq!(refusal("conv 2 x eur DEM 5"), "R 19 8");
        assert_eq!(refusal("conv 2 2 EUR USD 5"), "R 19 14");
    }

    #[test]
    fn forty_nine_words() {
        let line = |count: usize| format!("split 2 EUR 5{}", " 2:1".repeat(count - 4));
        assert_eq!(refusal(&line(49)), "ok");
        assert_eq!(refusal(&line(50)), "R 20 1");
    }
}
