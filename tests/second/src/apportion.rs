//! Splits by largest remainders (section 7).

use crate::ledger::Account;
use crate::money::check_amount;
use crate::refusal::Refusal;

pub const MOST_SHARES: usize = 15;
pub const LARGEST_WEIGHT: u64 = 1_000_000;

/// An account with a weight, as a caller names them.
#[derive(Clone, Copy, Debug, PartialEq, Eq)]
pub struct Share {
    pub account: u64,
    pub weight: u64,
}

/// Which of two shares with equal remainders is ahead.
#[derive(Clone, Copy, Debug, PartialEq, Eq)]
pub enum TieRule {
    SmallerPlace,
    /// The larger weight, then the smaller place.
    LargerWeight,
}

/// Writes the portions and the fractions from the front of the two lists. Refused 5, 8, 4 or 8 share by share, 8, 21;
/// on a refusal both lists are untouched.
pub fn apportion(
    amount: i64,
    shares: &[Share],
    rule: TieRule,
    portions: &mut [i64],
    fractions: &mut [i64],
) -> Result<(), Refusal> {
    check_amount(amount)?;
    let total = total_weight(shares)?;
    if portions.len() < shares.len() || fractions.len() < shares.len() {
        return Err(Refusal::ListTooShort);
    }
    let amount = i128::from(amount);
    let mut left = amount;
    for (at, share) in shares.iter().enumerate() {
        let product = amount * i128::from(share.weight);
        portions[at] = (product / total) as i64;
        fractions[at] = (product % total) as i64;
        left -= product / total;
    }
    for place in first_in_line(shares, rule, fractions).into_iter().take(left as usize) {
        portions[place] += 1;
        fractions[place] -= total as i64;
    }
    Ok(())
}

/// W, after every refusal that hangs on the shares alone.
fn total_weight(shares: &[Share]) -> Result<i128, Refusal> {
    if !(1..=MOST_SHARES).contains(&shares.len()) {
        return Err(Refusal::Shares { place: 0 });
    }
    for (at, share) in shares.iter().enumerate() {
        let place = at + 1;
        Account::named(share.account).ok_or(Refusal::NotNamed { place })?;
        if share.weight > LARGEST_WEIGHT {
            return Err(Refusal::Shares { place });
        }
    }
    match shares.iter().map(|share| i128::from(share.weight)).sum() {
        0 => Err(Refusal::Shares { place: 0 }),
        total => Ok(total),
    }
}

/// The places in the order in which they get the units left.
fn first_in_line(shares: &[Share], rule: TieRule, remainders: &[i64]) -> Vec<usize> {
    let mut places: Vec<usize> = (0..shares.len()).collect();
    // The sort is stable, so that equal shares stay by smaller place.
    places.sort_by(|&one, &other| {
        let by_remainder = remainders[other].cmp(&remainders[one]);
        match rule {
            TieRule::SmallerPlace => by_remainder,
            TieRule::LargerWeight => by_remainder.then(shares[other].weight.cmp(&shares[one].weight)),
        }
    });
    places
}

#[cfg(test)]
mod tests {
    use super::*;

    fn split(amount: i64, weights: &[u64], rule: TieRule) -> (Vec<i64>, Vec<i64>) {
        let shares: Vec<Share> = weights.iter().map(|&weight| Share { account: 5, weight }).collect();
        let (mut portions, mut fractions) = (vec![0; shares.len()], vec![0; shares.len()]);
        apportion(amount, &shares, rule, &mut portions, &mut fractions).expect("a split");
        (portions, fractions)
    }

    #[test]
    fn examples_of_section_7() {
        use TieRule::{LargerWeight, SmallerPlace};
        assert_eq!(split(100, &[1, 1, 1], SmallerPlace), (vec![34, 33, 33], vec![-2, 1, 1]));
        assert_eq!(split(3, &[1, 3, 2], SmallerPlace).0, [1, 1, 1]);
        assert_eq!(split(3, &[1, 3, 2], LargerWeight).0, [0, 2, 1]);
    }

    #[test]
    fn refusals_in_order() {
        let refused = |amount, shares: &[Share], length| {
            let (mut portions, mut fractions) = (vec![7; length], vec![7; 15]);
            let answer = apportion(amount, shares, TieRule::SmallerPlace, &mut portions, &mut fractions);
            assert!(portions.iter().chain(&fractions).all(|&number| number == 7));
            answer.expect_err("a refusal").to_string()
        };
        let share = |account, weight| Share { account, weight };
        assert_eq!(refused(0, &[], 15), "B 5 0");
        assert_eq!(refused(1, &[], 15), "B 8 0");
        assert_eq!(refused(1, &[share(0, 2_000_000); 16], 15), "B 8 0");
        assert_eq!(refused(1, &[share(2, 0), share(1, 1_000_001)], 15), "B 4 2");
        assert_eq!(refused(1, &[share(2, 1_000_001), share(1, 0)], 15), "B 8 1");
        assert_eq!(refused(1, &[share(2, 0), share(3, 0)], 1), "B 8 0");
        assert_eq!(refused(1, &[share(2, 0), share(3, 1)], 1), "B 21 0");
    }
}
