//! W2's rule on random amounts that add up to 0 and on made months: the column adds up to 0; each figure is the exact amount
//! rounded down or up; of what is given to those rounded up, a larger remainder never has less, and of equal ones the lower
//! party number has it first. Columns by rules that look reasonable break it, and the made months tell each of them.

use second::invoice::invoice;
use second::make::{files, Aim};
use second::month::settle;
use second::random::Random;
use second::setting::Setting;

const ORE: i64 = 1_000_000;

fn rounded_down(amount: i64) -> i64 {
    amount.div_euclid(ORE)
}

fn remainder(amount: i64) -> i64 {
    amount.rem_euclid(ORE)
}

/// The first part of the rule that a column does not meet.
fn breach(amounts: &[i64], column: &[i64]) -> Option<&'static str> {
    if column.len() != amounts.len() {
        return Some("a figure for each");
    }
    if column.iter().map(|&ore| i128::from(ore)).sum::<i128>() != 0 {
        return Some("the sum");
    }
    let parties: Vec<(i64, i64)> = amounts
        .iter()
        .zip(column)
        .map(|(&amount, &ore)| (remainder(amount), ore - rounded_down(amount)))
        .collect();
    for (number, &(remainder, extra)) in parties.iter().enumerate() {
        let rounded_up = i64::from(remainder > 0);
        if extra != 0 && extra != rounded_up {
            return Some("rounded down or up");
        }
        for &(later_remainder, later_extra) in &parties[number + 1..] {
            if remainder > later_remainder && extra < later_extra
                || remainder < later_remainder && extra > later_extra
            {
                return Some("larger remainder, less");
            }
            if remainder == later_remainder && extra < later_extra {
                return Some("equal remainders, higher number");
            }
        }
    }
    None
}

/// An amount: any small one, one of any size, or a few quarters, halves or tenths of an øre, so that remainders are equal.
fn random_amount(random: &mut Random, style: usize) -> i64 {
    match style {
        0 => random.between(-3 * ORE, 3 * ORE),
        1 => random.bits() as i64 >> (6 + random.below(58)),
        2 => random.between(-9, 9) * (ORE / 4),
        3 => random.between(-9, 9) * (ORE / 2),
        4 => random.between(-40, 40) * (ORE / 10),
        _ => random.between(-9, 9) * ORE + random.between(-1, 1),
    }
}

/// Amounts of 1 to 64 parties that add up to 0: one of them balances the others.
fn balanced_amounts(random: &mut Random) -> Vec<i64> {
    let most = *random.pick(&[4, 9, 64]);
    let parties = 1 + random.below(most);
    let style = random.below(6);
    let mut amounts: Vec<i64> = (0..parties).map(|_| random_amount(random, style)).collect();
    let balancing = random.below(parties);
    amounts[balancing] = 0;
    amounts[balancing] = -amounts.iter().sum::<i64>();
    amounts
}

/// The rule's own column of amounts that add up to 0.
fn column_of(amounts: &[i64]) -> Vec<i64> {
    invoice(amounts, amounts.len()).unwrap()
}

#[test]
fn the_rule_holds_for_random_amounts() {
    let (mut parts, mut ties) = (0, 0);
    for number in 0..50_000 {
        let amounts = balanced_amounts(&mut Random::of_file(61, number));
        let column = column_of(&amounts);
        assert_eq!(breach(&amounts, &column), None, "{amounts:?} {column:?}");
        parts += u64::from(amounts.iter().any(|&amount| remainder(amount) > 0));
        ties += u64::from(column != wrong::ties_to_the_higher_number(&amounts, 0));
    }
    assert!(parts > 30_000 && ties > 10_000, "{parts} {ties}");
}

/// Rules that look reasonable, over the amounts of all parties and the number of the carrier.
mod wrong {
    use super::{remainder, rounded_down, ORE};

    pub type Rule = fn(&[i64], usize) -> Vec<i64>;

    pub const RULES: &[(&str, Rule)] = &[
        ("to nearest, halves away from zero", halves_away_from_zero),
        ("rounded down and no more", |amounts, _| down(amounts)),
        ("all that is missing to the carrier", all_to_the_carrier),
        ("all to the largest remainder", |amounts, _| {
            let first = in_order(amounts, |amount, party| (-remainder(amount), party))[0];
            with_all_to(amounts, first)
        }),
        ("ties to the higher number", ties_to_the_higher_number),
        ("the smallest remainders first", |amounts, _| {
            let order = in_order(amounts, |amount, party| (remainder(amount), party));
            given(amounts, &order, missing(amounts))
        }),
        ("by the numbers alone", |amounts, _| {
            let order = in_order(amounts, |_, party| (0, party));
            given(amounts, &order, missing(amounts))
        }),
        ("negatives cut towards zero", negatives_towards_zero),
        ("remainders measured from zero", |amounts, _| {
            let order = in_order(amounts, |amount, party| (-(amount % ORE).abs(), party));
            given(amounts, &order, missing(amounts))
        }),
        ("one øre too few", |amounts, _| {
            let order = in_order(amounts, |amount, party| (-remainder(amount), party));
            given(amounts, &order, missing(amounts).saturating_sub(1))
        }),
        ("one øre too many", |amounts, _| {
            let order = in_order(amounts, |amount, party| (-remainder(amount), party));
            given(amounts, &order, missing(amounts) + 1)
        }),
    ];

    fn down(amounts: &[i64]) -> Vec<i64> {
        amounts.iter().map(|&amount| rounded_down(amount)).collect()
    }

    fn missing(amounts: &[i64]) -> usize {
        -down(amounts).iter().sum::<i64>() as usize
    }

    /// The parties by a key of amount and number.
    fn in_order(amounts: &[i64], key: impl Fn(i64, usize) -> (i64, usize)) -> Vec<usize> {
        let mut order: Vec<usize> = (0..amounts.len()).collect();
        order.sort_by_key(|&party| key(amounts[party], party));
        order
    }

    /// Rounded down, and one more for so many in this order.
    fn given(amounts: &[i64], order: &[usize], count: usize) -> Vec<i64> {
        let mut column = down(amounts);
        for &party in order.iter().take(count) {
            column[party] += 1;
        }
        column
    }

    fn with_all_to(amounts: &[i64], party: usize) -> Vec<i64> {
        let mut column = down(amounts);
        column[party] += missing(amounts) as i64;
        column
    }

    fn halves_away_from_zero(amounts: &[i64], _: usize) -> Vec<i64> {
        let nearest = |amount: &i64| amount.signum() * ((amount.abs() + ORE / 2) / ORE);
        amounts.iter().map(nearest).collect()
    }

    fn all_to_the_carrier(amounts: &[i64], carrier: usize) -> Vec<i64> {
        with_all_to(amounts, carrier)
    }

    pub fn ties_to_the_higher_number(amounts: &[i64], _: usize) -> Vec<i64> {
        let order = in_order(amounts, |amount, party| {
            (-remainder(amount), amounts.len() - party)
        });
        given(amounts, &order, missing(amounts))
    }

    /// What is then missing from zero, or too much, by the largest parts cut off.
    fn negatives_towards_zero(amounts: &[i64], _: usize) -> Vec<i64> {
        let mut column: Vec<i64> = amounts.iter().map(|amount| amount / ORE).collect();
        let missing = -column.iter().sum::<i64>();
        let order = in_order(amounts, |amount, party| {
            (-(amount % ORE * missing.signum()), party)
        });
        for &party in order.iter().take(missing.unsigned_abs() as usize) {
            column[party] += missing.signum();
        }
        column
    }
}

/// The test above can fail: each wrong rule gives other columns than the rule on many amounts, and every one of them is a
/// breach.
#[test]
fn wrong_rules_are_breaches() {
    for (name, rule) in wrong::RULES {
        let mut breaches = 0;
        for number in 0..2_000 {
            let mut random = Random::of_file(62, number);
            let amounts = balanced_amounts(&mut random);
            let carrier = random.below(amounts.len());
            let column = rule(&amounts, carrier);
            let differs = column != column_of(&amounts);
            assert_eq!(breach(&amounts, &column).is_some(), differs, "{name}");
            breaches += u64::from(differs);
        }
        assert!(breaches > 200, "{name}: {breaches}");
    }
}

/// The exact amounts of an accepted month, its invoice column and its carrier.
fn columns(file: &[u8], setting: Setting) -> Option<(Vec<i64>, Vec<i64>, usize)> {
    let month = settle(file, setting).ok()?;
    let sums = month.party_sums();
    let amounts = sums.iter().map(|sums| sums.amount_millionths);
    let invoices = sums.iter().map(|sums| sums.invoice_ore);
    let carrier = usize::from(month.file.heading.carrier);
    Some((amounts.collect(), invoices.collect(), carrier))
}

#[test]
fn the_rule_holds_for_made_months() {
    let mut months = 0;
    let made = files(63, 1_500);
    for made in made.filter(|made| made.aim(Setting::PROVISIONAL) == Aim::Accepted) {
        let (amounts, invoices, _) = columns(&made.bytes, Setting::PROVISIONAL).unwrap();
        assert_eq!(breach(&amounts, &invoices), None, "{}", made.name);
        months += 1;
    }
    assert!(months > 400, "{months}");
}

/// Whatever the seed, 1,500 files have several months that show each wrong rule, of those that a final run accepts.
#[test]
fn made_months_tell_every_wrong_rule() {
    for seed in 64..70 {
        let files = files(seed, 1_500);
        let months: Vec<_> = files
            .filter_map(|made| columns(&made.bytes, Setting::FINAL))
            .collect();
        for (name, rule) in wrong::RULES {
            let differing = months
                .iter()
                .filter(|(amounts, invoices, carrier)| rule(amounts, *carrier) != *invoices);
            let differing = differing.count();
            assert!(differing >= 8, "seed {seed}, {name}: {differing}");
        }
    }
}
