//! W6's second operation and what the two give together, READINGS A70, A104 and A106: every refusal with its place, in their
//! order, figures by hand and of made months; then operations that look reasonable, each told apart by the inputs on which the
//! compiled service is held against this program's.

mod common;
#[path = "settle/inputs.rs"]
mod inputs;
#[path = "settle/priced_hours.rs"]
mod priced_hours;

use std::collections::BTreeMap;

use common::{month_of, told};
use priced_hours::PricedHours;
use second::hours::hours;
use second::make::{files, without_prices};
use second::month::{settle, Month};
use second::random::Random;
use second::reconciliation::{amounts, reconciliation};
use second::record::{first_record, Reading, Record};
use second::refusal::{Number, Refusal};
use second::setting::Setting;
use second::statement::statement;

// Refusals and figures.

/// The limit of a difference.
const LIMIT: i64 = 2_000_000_001;

/// The operation with an output of the needed length.
fn amounts_of(
    differences: &[i64],
    parties: usize,
    prices: &[i64],
) -> Result<Vec<i64>, (u8, usize)> {
    let answer = amounts(differences, parties, prices, differences.len());
    answer.map_err(|refusal| (refusal.number as u8, refusal.place))
}

#[test]
fn a70_amounts_are_hour_by_hour_and_within_an_hour_party_by_party() {
    let differences = [5, -3, -2, 0, 1, -1];
    assert_eq!(
        amounts_of(&differences, 3, &[10, -7]),
        Ok(vec![50, -30, -20, 0, -7, 7])
    );
    // The same list as three hours of two parties does not add up.
    assert_eq!(amounts_of(&differences, 2, &[10, -7, 1]), Err((4, 0)));
    assert_eq!(amounts_of(&[0], 1, &[5_000_000]), Ok(vec![0]));
    let most = 5_000_000 * LIMIT;
    assert_eq!(
        amounts_of(&[LIMIT, -LIMIT], 2, &[-5_000_000]),
        Ok(vec![-most, most])
    );
}

/// Two equal shares, 2 and 3 Wh, and 5 Wh read at the first: both operations by hand.
#[test]
fn the_two_operations_by_hand() {
    let draft = month_of(&[1, 1], &[2, 3], &[Reading::of_month(0, 0, 2, 5)]);
    let file = without_prices(draft).bytes();
    let month = settle(&file, Setting::FINAL.of_quantities()).unwrap();
    let [first, second] = &month.hours[..] else {
        panic!("two hours");
    };
    assert_eq!((&first.distributed_wh[..], first.loss_wh), (&[1, 1][..], 0));
    assert_eq!(
        (&second.distributed_wh[..], second.loss_wh),
        (&[2, 1][..], 0)
    );
    assert_eq!(
        [&first.periodised_wh, &second.periodised_wh],
        [&[2, 0], &[3, 0]]
    );
    let differences = [&first.differences_wh[..], &second.differences_wh].concat();
    assert_eq!(differences, [1, -1, 1, -1]);
    assert_eq!(
        amounts_of(&differences, 2, &[7, -9]),
        Ok(vec![7, -7, -9, 9])
    );
}

#[test]
fn a70_16_comes_first() {
    for lent in [0, 3, 5, usize::MAX] {
        assert_eq!(told(amounts(&[1, -1, 2, -2], 2, &[1, 1], lent)), (16, 0));
        assert_eq!(told(amounts(&[i64::MIN; 4], 9, &[i64::MAX], lent)), (16, 0));
    }
    assert_eq!(told(amounts(&[], 0, &[], 1)), (16, 0));
}

/// The true product: what is left of it in 64 bits is the length of the list.
#[test]
fn a70_lists_of_unequal_length_are_4_at_0() {
    let good = [1, -1, 2, -2];
    for (parties, hours) in [(2, 1), (2, 3), (1, 2), (3, 2), (0, 2), (4, 0)] {
        let late = [vec![0; hours], vec![i64::MAX]].concat();
        assert_eq!(amounts_of(&good, parties, &late[..hours]), Err((4, 0)));
    }
    for parties in [usize::MAX, usize::MAX / 2 + 1, usize::MAX / 2 + 3, 1 << 32] {
        for prices in [&[0; 2][..], &[0; 4], &[i64::MAX; 2]] {
            assert_eq!(amounts_of(&good, parties, prices), Err((4, 0)));
            assert_eq!(amounts_of(&[], parties, prices), Err((4, 0)));
        }
    }
    // A price outside its range comes after it, at its own place.
    assert_eq!(amounts_of(&good, 2, &[0, 5_000_001]), Err((4, 1)));
    assert_eq!(amounts_of(&good, 2, &[0, 0, 5_000_001]), Err((4, 0)));
}

#[test]
fn a70_h_and_p_are_4_at_0() {
    let none = amounts_of(&[], 1, &[]);
    assert_eq!(none, Err((4, 0)));
    assert_eq!(amounts_of(&[], usize::MAX, &[]), Err((4, 0)));
    assert_eq!(amounts_of(&[], 0, &[0]), Err((4, 0)));
    assert_eq!(amounts_of(&[0; 746], 1, &[0; 746]), Err((4, 0)));
    assert_eq!(amounts_of(&[0; 65], 65, &[0]), Err((4, 0)));
    // Before the values.
    let late = [vec![0; 745], vec![5_000_001]].concat();
    assert_eq!(amounts_of(&[0; 746], 1, &late), Err((4, 0)));
    let uneven = [vec![0; 129], vec![1]].concat();
    assert_eq!(amounts_of(&uneven, 65, &[0; 2]), Err((4, 0)));
    let all = vec![0; 745 * 64];
    assert_eq!(amounts_of(&all, 64, &[3; 745]), Ok(all.clone()));
}

#[test]
fn a70_a_price_is_4_at_its_index_before_the_sums() {
    let uneven = [1, 1, 0, 0, 0, 0];
    for price in [-5_000_001, 5_000_001, i64::MIN, i64::MAX] {
        assert_eq!(amounts_of(&uneven, 2, &[0, 0, price]), Err((4, 2)));
        assert_eq!(amounts_of(&uneven, 2, &[0, price, price]), Err((4, 1)));
    }
    assert_eq!(
        amounts_of(&uneven, 2, &[0, -5_000_000, 5_000_000]),
        Err((4, 0))
    );
}

/// "differences of an hour that don't add up to 0 are 4, place the hour": each hour by itself, and by its true sum.
#[test]
fn a70_differences_that_do_not_add_up_are_4_at_the_hour() {
    assert_eq!(amounts_of(&[1, -1, 1, 0, 0, 5], 2, &[0; 3]), Err((4, 1)));
    assert_eq!(amounts_of(&[1], 1, &[0]), Err((4, 0)));
    // Over the month they do add up.
    assert_eq!(amounts_of(&[0, 0, 1, 0, -1, 0], 2, &[0; 3]), Err((4, 1)));
    for wrapping in [
        &[i64::MIN; 2][..],
        &[1 << 62; 4],
        &[i64::MAX, i64::MAX, 2],
        &[i64::MIN, i64::MIN, 1, -1],
        &[i64::MIN; 64],
    ] {
        assert_eq!(wrapping.iter().fold(0i64, |sum, &d| sum.wrapping_add(d)), 0);
        assert_eq!(amounts_of(wrapping, wrapping.len(), &[0]), Err((4, 0)));
    }
    // The true sum is 0, although it passes 64 bits on the way: then it is the limit that is passed.
    for (one, other) in [(i64::MAX, -i64::MAX), (-i64::MAX, i64::MAX)] {
        assert_eq!(amounts_of(&[one, one, other, other], 4, &[0]), Err((19, 0)));
    }
    assert_eq!(amounts_of(&[i64::MIN, i64::MAX, 1], 3, &[0]), Err((19, 0)));
}

/// "19, a difference beyond 2,000,000,001 Wh of either sign, place the hour, after 4."
#[test]
fn a70_a_difference_beyond_its_limit_is_19_at_the_hour() {
    assert!(amounts_of(&[LIMIT, -LIMIT], 2, &[1]).is_ok());
    assert!(amounts_of(&[-LIMIT, LIMIT], 2, &[1]).is_ok());
    // One of them alone is beyond.
    for beyond in [[LIMIT + 1, -LIMIT, -1], [-1, -LIMIT, LIMIT + 1]] {
        assert_eq!(amounts_of(&beyond, 3, &[1]), Err((19, 0)));
        assert_eq!(amounts_of(&beyond.map(|wh| -wh), 3, &[1]), Err((19, 0)));
        let second = [[0; 3], beyond].concat();
        assert_eq!(amounts_of(&second, 3, &[1, 1]), Err((19, 1)));
        let both = [beyond, beyond].concat();
        assert_eq!(amounts_of(&both, 3, &[1, 1]), Err((19, 0)));
    }
}

/// "A difference beyond the limit in hour 0 and one not adding up in hour 5: 4 at 5."
#[test]
fn a70_19_comes_after_every_4() {
    let mut differences = vec![0; 12];
    (differences[0], differences[1]) = (LIMIT + 1, -LIMIT - 1);
    assert_eq!(amounts_of(&differences, 2, &[0; 6]), Err((19, 0)));
    differences[11] = 1;
    assert_eq!(amounts_of(&differences, 2, &[0; 6]), Err((4, 5)));
    let prices = [0, 0, 0, 5_000_001, 0, 0];
    assert_eq!(amounts_of(&differences, 2, &prices), Err((4, 3)));
    assert_eq!(amounts_of(&differences, 2, &[0; 5]), Err((4, 0)));
}

// The two together.

/// The differences of a month, hour by hour and within an hour party by party, and its prices.
fn differences_and_prices(month: &Month) -> (Vec<i64>, Vec<i64>) {
    let differences = month
        .hours
        .iter()
        .flat_map(|hour| hour.differences_wh.clone());
    let prices = month.file.prices.iter().map(|price| price.price_ore.into());
    (differences.collect(), prices.collect())
}

/// The month as it came days before: without its prices, and counted so.
fn before_the_prices(month: &Month, file: &[u8]) -> Vec<u8> {
    let priced = 7 * month.file.prices.len();
    let mut rest = file;
    let mut records = 0;
    while let Ok((record, after)) = first_record(rest) {
        if matches!(record, Record::Price(_)) {
            break;
        }
        rest = after;
        records += 1;
    }
    let (before, from_prices) = file.split_at(file.len() - rest.len());
    let readings = &from_prices[priced..from_prices.len() - 5];
    let count = (records + month.file.readings.len()) as u32;
    [before, readings, &Record::End(count).encode()].concat()
}

/// Volumes first, prices later: for every accepted month the first operation on the file without prices and then the second on
/// its differences and the prices give the amounts that the month has with its prices, which add up to 0 in every hour (A104:
/// and are never refused); and the hours are printed the same.
#[test]
fn the_second_after_the_first_gives_the_months_amounts() {
    let mut months = 0;
    for made in files(91, 900) {
        let Ok(month) = settle(&made.bytes, Setting::FINAL) else {
            continue;
        };
        let volumes = before_the_prices(&month, &made.bytes);
        assert!(
            statement(&volumes).starts_with("refused 3 at "),
            "{}",
            made.name
        );
        assert_eq!(hours(&volumes), hours(&made.bytes), "{}", made.name);
        let first = settle(&volumes, Setting::FINAL.of_quantities()).unwrap();
        assert_eq!(told(first.amounts_millionths()), (4, 0));
        let (differences, _) = differences_and_prices(&first);
        let (_, prices) = differences_and_prices(&month);
        let parties = month.file.parties.len();
        let by_hour = amounts_of(&differences, parties, &prices).unwrap();
        assert_eq!(month.amounts_millionths(), Ok(by_hour.clone()));
        for hour in by_hour.chunks(parties) {
            assert_eq!(hour.iter().sum::<i64>(), 0, "{}", made.name);
        }
        for (party, sums) in month.party_sums().iter().enumerate() {
            let of_party = by_hour.iter().skip(party).step_by(parties);
            assert_eq!(sums.amount_millionths, of_party.sum::<i64>());
        }
        months += 1;
    }
    assert!(months > 180, "{months}");
}

/// A106: the reconciliation of one hour is the two parts, one after the other.
#[test]
fn a106_one_hour_is_its_quantities_and_then_its_amounts() {
    let mut compared = 0;
    for made in files(92, 300) {
        let Ok(month) = settle(&made.bytes, Setting::PROVISIONAL) else {
            continue;
        };
        let parties = month.file.parties.len();
        let hours = month.hours.iter().zip(month.applied_wh());
        for ((hour, &residual_wh), price) in hours.zip(&month.file.prices) {
            let price_ore = i64::from(price.price_ore);
            let one_hour = reconciliation(
                residual_wh,
                &hour.distributed_wh,
                &hour.periodised_wh,
                month.file.heading.carrier.into(),
                price_ore,
                parties,
                parties,
            );
            let one_hour = one_hour.unwrap();
            assert_eq!(one_hour.loss_wh, hour.loss_wh);
            assert_eq!(one_hour.differences_wh, hour.differences_wh);
            let alone = amounts_of(&hour.differences_wh, parties, &[price_ore]);
            assert_eq!(Ok(one_hour.amounts_millionths), alone);
            compared += 1;
        }
    }
    assert!(compared > 3_000, "{compared}");
}

/// A106: "keeps its name and its promise". Any distributed figures within their range are taken there, also 63 of -1 that no
/// month has in one hour; so the carrier's difference can pass the limit of the second operation, and no 19 is told.
#[test]
fn a106_one_hour_knows_no_19() {
    let mut distributed = vec![-1; 64];
    distributed[0] = 2_000_000_001;
    let mut periodised = vec![0; 64];
    periodised[1] = 2_000_000_000;
    let residual_wh = 2_000_000_001 - 63;
    let hour = reconciliation(residual_wh, &distributed, &periodised, 0, -3, 64, 64).unwrap();
    assert_eq!(hour.differences_wh[0], -2_000_000_063);
    assert_eq!(hour.amounts_millionths[0], 6_000_000_189);
    assert_eq!(amounts_of(&hour.differences_wh, 64, &[-3]), Err((19, 0)));
}

/// "their output stays the same to the byte": a month with prices is read the same whether they are needed or not.
#[test]
fn a_month_with_prices_is_the_same_in_a_run_of_quantities() {
    let mut months = 0;
    for made in files(93, 900) {
        for setting in [Setting::FINAL, Setting::PROVISIONAL] {
            let Ok(month) = settle(&made.bytes, setting) else {
                continue;
            };
            let of_quantities = settle(&made.bytes, setting.of_quantities()).unwrap();
            assert_eq!(of_quantities.party_sums(), month.party_sums());
            months += 1;
        }
    }
    assert!(months > 400, "{months}");
}

// Operations that look reasonable.

/// A test of an input, which tells the refusal where it fails. Those of the values are asked of lists of any length.
type Check = fn(&PricedHours) -> Option<Refusal>;

fn by_hour(hours: &PricedHours) -> impl Iterator<Item = &[i64]> {
    hours.differences.chunks(hours.parties.clamp(1, 1_000))
}

/// A refusal at the first hour whose differences are so.
fn at_hour(hours: &PricedHours, number: Number, is_so: impl Fn(&[i64]) -> bool) -> Option<Refusal> {
    by_hour(hours).position(is_so).map(|hour| number.at(hour))
}

fn true_sum(hour: &[i64]) -> i128 {
    hour.iter().map(|&wh| i128::from(wh)).sum()
}

/// The tests in their order, and their places in it.
const RULE: [Check; 7] = [lent, lengths, h, p, prices, sums, differences];
const LENT: usize = 0;
const LENGTHS: usize = 1;
const H: usize = 2;
const P: usize = 3;
const PRICES: usize = 4;
const SUMS: usize = 5;
const DIFFERENCES: usize = 6;

fn lent(hours: &PricedHours) -> Option<Refusal> {
    let is_wrong = hours.lent != hours.differences.len();
    is_wrong.then(|| Number::WrongOutputLength.at(0))
}

fn lengths(hours: &PricedHours) -> Option<Refusal> {
    let needed = hours.prices.len() as u128 * hours.parties as u128;
    (hours.differences.len() as u128 != needed).then(|| Number::OutsideRange.at(0))
}

fn h(hours: &PricedHours) -> Option<Refusal> {
    (!(1..=745).contains(&hours.prices.len())).then(|| Number::OutsideRange.at(0))
}

fn p(hours: &PricedHours) -> Option<Refusal> {
    (!(1..=64).contains(&hours.parties)).then(|| Number::OutsideRange.at(0))
}

fn prices(hours: &PricedHours) -> Option<Refusal> {
    let mut prices = hours.prices.iter();
    let outside = prices.position(|price| !(-5_000_000..=5_000_000).contains(price));
    outside.map(|hour| Number::OutsideRange.at(hour))
}

fn sums(hours: &PricedHours) -> Option<Refusal> {
    at_hour(hours, Number::OutsideRange, |hour| true_sum(hour) != 0)
}

fn differences(hours: &PricedHours) -> Option<Refusal> {
    beyond(hours, -LIMIT, LIMIT)
}

/// 19 for differences that are not from the least to the most.
fn beyond(hours: &PricedHours, least: i64, most: i64) -> Option<Refusal> {
    at_hour(hours, Number::DifferenceTooLarge, |hour| {
        hour.iter().any(|wh| !(least..=most).contains(wh))
    })
}

/// The first refusal of these tests in their order.
fn refused_by(hours: &PricedHours, checks: &[Check]) -> Option<Refusal> {
    checks.iter().find_map(|check| check(hours))
}

mod wrong_operations {
    use super::*;

    /// What is done to the rule.
    pub type Edit = fn(&mut [Check; 7]);

    pub const EDITS: &[(&str, Edit)] = &[
        ("lengths before 16", |rule| rule.swap(LENT, LENGTHS)),
        ("16 last", |rule| rule.rotate_left(1)),
        ("16 against prices x P", |rule| rule[LENT] = lent_by_prices),
        ("lengths not looked at", |rule| rule[LENGTHS] = nothing),
        ("H not looked at", |rule| rule[H] = nothing),
        ("P not looked at", |rule| rule[P] = nothing),
        ("prices not looked at", |rule| rule[PRICES] = nothing),
        ("prices after the sums", |rule| rule.swap(PRICES, SUMS)),
        ("prices before the lengths", |rule| {
            rule.swap(PRICES, LENGTHS)
        }),
        ("sums not looked at", |rule| rule[SUMS] = nothing),
        ("sums of 64 bits", |rule| rule[SUMS] = wrapped_sums),
        ("sums that stop at 64 bits", |rule| {
            rule[SUMS] = stopped_sums
        }),
        ("the sum of all hours", |rule| rule[SUMS] = sum_of_all),
        ("sums at 0", |rule| rule[SUMS] = sums_at_0),
        ("19 before 4", |rule| rule.swap(SUMS, DIFFERENCES)),
        ("4 and 19 hour by hour", |rule| rule[SUMS] = hour_by_hour),
        ("differences not looked at", |rule| {
            rule[DIFFERENCES] = nothing
        }),
        ("19 at the difference", |rule| {
            rule[DIFFERENCES] = at_difference
        }),
        ("4 for a difference", |rule| {
            rule[DIFFERENCES] = differences_4
        }),
        ("a limit of 2,000,000,000", |rule| {
            rule[DIFFERENCES] = |hours| beyond(hours, 1 - LIMIT, LIMIT - 1)
        }),
        ("a limit of 2,000,000,002", |rule| {
            rule[DIFFERENCES] = |hours| beyond(hours, -LIMIT - 1, LIMIT + 1)
        }),
        ("a limit above alone", |rule| {
            rule[DIFFERENCES] = |hours| beyond(hours, i64::MIN, LIMIT)
        }),
        ("a limit below alone", |rule| {
            rule[DIFFERENCES] = |hours| beyond(hours, -LIMIT, i64::MAX)
        }),
    ];

    fn nothing(_: &PricedHours) -> Option<Refusal> {
        None
    }

    fn lent_by_prices(hours: &PricedHours) -> Option<Refusal> {
        let needed = hours.prices.len() as u128 * hours.parties as u128;
        (hours.lent as u128 != needed).then(|| Number::WrongOutputLength.at(0))
    }

    fn wrapped_sums(hours: &PricedHours) -> Option<Refusal> {
        at_hour(hours, Number::OutsideRange, |hour| {
            hour.iter().fold(0i64, |sum, &wh| sum.wrapping_add(wh)) != 0
        })
    }

    fn stopped_sums(hours: &PricedHours) -> Option<Refusal> {
        at_hour(hours, Number::OutsideRange, |hour| {
            hour.iter().fold(0i64, |sum, &wh| sum.saturating_add(wh)) != 0
        })
    }

    fn sum_of_all(hours: &PricedHours) -> Option<Refusal> {
        (true_sum(&hours.differences) != 0).then(|| Number::OutsideRange.at(0))
    }

    fn sums_at_0(hours: &PricedHours) -> Option<Refusal> {
        sums(hours).map(|refusal| refusal.number.at(0))
    }

    fn hour_by_hour(hours: &PricedHours) -> Option<Refusal> {
        let both = [sums(hours), differences(hours)].into_iter().flatten();
        both.min_by_key(|refusal| refusal.place)
    }

    fn at_difference(hours: &PricedHours) -> Option<Refusal> {
        let mut differences = hours.differences.iter();
        let beyond = differences.position(|wh| !(-LIMIT..=LIMIT).contains(wh));
        beyond.map(|place| Number::DifferenceTooLarge.at(place))
    }

    fn differences_4(hours: &PricedHours) -> Option<Refusal> {
        differences(hours).map(|refusal| Number::OutsideRange.at(refusal.place))
    }

    pub type Figures = fn(&PricedHours) -> Vec<i64>;

    pub const FIGURES: &[(&str, Figures)] = &[
        ("the first hour's price for all", |hours| {
            let price = hours.prices[0];
            hours.differences.iter().map(|wh| wh * price).collect()
        }),
        ("prices by party", |hours| {
            let differences = hours.differences.iter().enumerate();
            differences
                .map(|(place, wh)| wh * hours.prices[place % hours.prices.len()])
                .collect()
        }),
        ("amounts party by party", |hours| {
            let rule = figures(hours);
            let parties = 0..hours.parties;
            parties
                .flat_map(|party| rule.iter().skip(party).step_by(hours.parties).copied())
                .collect()
        }),
        ("whole øre", |hours| {
            let rule = figures(hours).into_iter();
            rule.map(|amount| amount.div_euclid(1_000_000) * 1_000_000)
                .collect()
        }),
        ("the other sign", |hours| {
            figures(hours).into_iter().map(|amount| -amount).collect()
        }),
        ("nothing written", |hours| vec![0; hours.lent]),
    ];
}

/// The amounts of a good input.
fn figures(hours: &PricedHours) -> Vec<i64> {
    let differences = by_hour(hours).zip(&hours.prices);
    differences
        .flat_map(|(hour, price)| hour.iter().map(move |wh| wh * price))
        .collect()
}

/// The inputs on which the compiled service is held against this program's, and their answers.
fn inputs_and_answers(seed: u64) -> Vec<(PricedHours, Result<Vec<i64>, Refusal>)> {
    let inputs = (0..10_000).map(|number| {
        let random = &mut Random::of_file(seed, number);
        let mut hours = PricedHours::good(random);
        for fault in inputs::faults(random, PricedHours::FAULTS) {
            hours.damage(random, fault);
        }
        hours
    });
    inputs
        .map(|hours| {
            let answer = amounts(&hours.differences, hours.parties, &hours.prices, hours.lent);
            (hours, answer)
        })
        .collect()
}

/// Each fault of the inputs leads to what it is to lead to.
#[test]
fn every_fault_of_the_inputs_reaches_its_refusals() {
    for &(fault, numbers) in PricedHours::REFUSALS {
        let mut told = BTreeMap::new();
        for number in 0..2_000 {
            let random = &mut Random::of_file(fault as u64, number);
            let mut hours = PricedHours::good(random);
            hours.damage(random, fault);
            let answer = amounts(&hours.differences, hours.parties, &hours.prices, hours.lent);
            let refused = answer.err().map_or(0, |refusal| refusal.number as u8);
            *told.entry(refused).or_insert(0) += 1;
        }
        assert!(told.keys().eq(numbers), "{fault}: {told:?}");
        assert!(told.values().all(|&times| times >= 20), "{fault}: {told:?}");
    }
}

/// A tenth of the inputs of the comparison tells every wrong operation; and the rules here are the operation's.
#[test]
fn random_inputs_tell_every_wrong_operation() {
    for seed in [49, 99] {
        let inputs = inputs_and_answers(seed);
        for (hours, answer) in &inputs {
            assert_eq!(refused_by(hours, &RULE), answer.as_ref().err().copied());
            if let Ok(amounts) = answer {
                assert_eq!(*amounts, figures(hours));
            }
        }
        for (name, edit) in wrong_operations::EDITS {
            let mut checks = RULE;
            edit(&mut checks);
            let refused = |hours: &PricedHours| refused_by(hours, &checks);
            let differing = inputs
                .iter()
                .filter(|(hours, answer)| refused(hours) != answer.as_ref().err().copied());
            let differing = differing.count();
            assert!(differing >= 5, "seed {seed}, {name}: {differing}");
        }
        for (name, figures) in wrong_operations::FIGURES {
            let differing = inputs
                .iter()
                .filter(|(hours, answer)| answer.as_ref().is_ok_and(|a| *a != figures(hours)));
            let differing = differing.count();
            assert!(differing >= 100, "seed {seed}, {name}: {differing}");
        }
        for number in [4, 16, 19] {
            let told = inputs
                .iter()
                .filter_map(|(_, answer)| answer.as_ref().err());
            let told = told.filter(|refusal| refusal.number as u8 == number);
            assert!(told.count() > 200);
        }
    }
}
