//! W3's record 08 in a month file: its figures by hand, the worked cases, 18 and 13 and their order; and rules that look
//! reasonable, each told apart by the made files.

mod common;

use common::{assert_accepted, assert_refused, assert_refused_for_amounts, month_of};
use second::draft::measured_hour;
use second::make::files;
use second::month::settle;
use second::month_file;
use second::periodisation::periodised_wh;
use second::record::{Reading, Record, Weights};
use second::refusal::{Number, Refusal};
use second::residual::curve;
use second::setting::{Prices, Setting};
use second::statement::statement;

/// W 1, hours of 4 and 0 Wh, so curve numbers of 4,000,000 and 0, and these readings.
fn month_of_4_and_0(readings: &[Reading]) -> Vec<u8> {
    month_of(&[1], &[4, 0], readings).bytes()
}

/// A reading of party 0.
fn reading(a: u16, b: u16, e_wh: u32) -> Reading {
    Reading::of_month(0, a, b, e_wh)
}

/// All parties' periodised figures, hour by hour, of a month that is settled.
fn periodised(file: &[u8]) -> Vec<i64> {
    let month = settle(file, Setting::FINAL).unwrap();
    let hours = month.hours.iter();
    hours.map(|hour| hour.periodised_wh.iter().sum()).collect()
}

/// 7 Wh over five equal weights are 1, 1, 2, 1 and 2: two in April, three in May.
#[test]
fn w3_two_months_first_and_second() {
    let april = month_of(&[2], &[1, 1], &[reading(0, 2, 7).weighing(0, 2_500_000)]).bytes();
    assert_eq!(periodised(&april), [1, 1]);
    let part = reading(0, 3, 7).weighing(1_000_000, 2_500_000);
    let may = month_of(&[2], &[1, 1, 1], &[part]).bytes();
    assert_eq!(periodised(&may), [2, 1, 2]);
    assert_eq!(
        statement(&may),
        "area 007 2016-04 hours 3 parties 1 estimated 0
0000000000017 3 5 -2 0 0
total 3 5 -2 0 0
"
    );
}

#[test]
fn w3_mixed_with_04_a_reading_counts_both() {
    let part = Reading::of_month(1, 0, 2, 3).weighing(5, 9_000_000);
    let readings = [reading(0, 1, 3), part, reading(1, 2, 3)];
    let mut draft = month_of(&[1, 1], &[4, 0], &readings);
    draft.refixed[1] = measured_hour(1, 1);
    assert_refused(&draft.bytes(), 13, 2);
    // In any order.
    for order in [[0, 2, 1], [1, 0, 2], [2, 1, 0]] {
        draft.readings = order.map(|number| readings[number]).to_vec();
        let place = order.iter().position(|&number| number == 2).unwrap();
        assert_refused(&draft.bytes(), 13, place);
    }
    draft.readings = vec![part, reading(0, 1, 3), part];
    assert_accepted(&draft.bytes());
}

#[test]
fn w3_18_before_13_of_the_same_reading() {
    assert_refused(&month_of_4_and_0(&[reading(0, 1, 3).weighing(0, 0)]), 18, 0);
    assert_refused(&month_of_4_and_0(&[reading(1, 2, 3).weighing(1, 0)]), 18, 0);
}

#[test]
fn w3_13_of_an_08_and_none_with_e_0() {
    assert_refused(&month_of_4_and_0(&[reading(1, 2, 3).weighing(0, 0)]), 13, 0);
    let nothing = month_of_4_and_0(&[reading(1, 2, 0).weighing(0, 0)]);
    assert_eq!(periodised(&nothing), [0, 0]);
}

#[test]
fn w3_13_of_an_earlier_reading_and_18_of_a_later_one() {
    let too_much = reading(0, 1, 3).weighing(1, 4_000_000);
    let no_weight = reading(1, 2, 3);
    for no_weight in [no_weight, no_weight.weighing(0, 0)] {
        assert_refused(&month_of_4_and_0(&[no_weight, too_much]), 13, 0);
        assert_refused(&month_of_4_and_0(&[too_much, no_weight]), 18, 0);
        let good = reading(0, 2, 3).weighing(0, 4_000_000);
        assert_refused(&month_of_4_and_0(&[good, too_much, no_weight]), 18, 1);
    }
}

#[test]
fn w3_own_weight_0_with_a_positive_whole_is_accepted() {
    let file = month_of_4_and_0(&[reading(1, 2, 3).weighing(77, 4_000_000)]);
    assert_eq!(periodised(&file), [0, 0]);
    // All of the weight lies before, or all after.
    let e_wh = 1_000_000_000;
    for before in [0, 4_000_000] {
        let part = reading(1, 2, e_wh).weighing(before, 4_000_000);
        assert_eq!(periodised(&month_of_4_and_0(&[part])), [0, 0]);
    }
}

#[test]
fn w3_e_0_does_not_excuse_18() {
    let part = |before, whole| month_of_4_and_0(&[reading(0, 1, 0).weighing(before, whole)]);
    assert_refused(&part(1, 4_000_000), 18, 0);
    assert_refused(&part(0, 3_999_999), 18, 0);
    assert_refused(&part(0, 8_784_000_000_001), 18, 0);
    assert_eq!(periodised(&part(0, 4_000_000)), [0, 0]);
}

/// Before 9,000,000 and here 4,000,000 and 1,000,000 of 14,000,000: 11 Wh come to 7.07, 10.21 and 11, so 7, 10 and 11.
#[test]
fn w3_exactly_the_whole_and_the_last_wh_comes_out() {
    let part = |whole| reading(0, 2, 11).weighing(9_000_000, whole);
    let file = |whole| month_of(&[1], &[4, 1], &[part(whole)]).bytes();
    assert_eq!(periodised(&file(14_000_000)), [3, 1]);
    assert_refused(&file(13_999_999), 18, 0);
    // One more, and the last Wh is left to another month: 10.99, so 10.
    assert_eq!(periodised(&file(14_000_001)), [3, 0]);
}

/// "true sums": what is left of the sum in 64 bits would be within the whole.
#[test]
fn w3_18_is_judged_on_the_true_sum() {
    for before in [u64::MAX, u64::MAX - 3_999_999, 1 << 63] {
        let part = reading(0, 1, 3).weighing(before, 8_784_000_000_000);
        assert_refused(&month_of_4_and_0(&[part]), 18, 0);
    }
    assert_refused(
        &month_of_4_and_0(&[reading(0, 1, 3).weighing(u64::MAX, u64::MAX)]),
        18,
        0,
    );
}

#[test]
fn w3_the_whole_is_at_most_8_784_000_000_000() {
    let part = |before, whole| month_of_4_and_0(&[reading(0, 1, 3).weighing(before, whole)]);
    let largest = 8_784_000_000_000;
    assert_accepted(&part(0, largest));
    assert_accepted(&part(largest - 4_000_000, largest));
    assert_refused(&part(largest - 3_999_999, largest), 18, 0);
    assert_refused(&part(0, largest + 1), 18, 0);
    assert_refused(&part(0, u64::MAX), 18, 0);
}

#[test]
fn w3_18_comes_after_10_and_before_14() {
    let too_much = reading(0, 1, 0).weighing(1, 0);
    let crowd = [reading(0, 1, 1_000_000_000); 3];
    let readings = [&crowd[..], &[too_much]].concat();
    assert_refused(&month_of(&[1], &[4, 0], &readings).bytes(), 18, 3);
    assert_refused(&month_of(&[1], &[4, 1_001], &readings).bytes(), 10, 1);
    assert_refused(&month_of(&[1], &[4, -1], &readings).bytes(), 8, 1);
    assert_refused(&month_of(&[1], &[4, 0], &crowd).bytes(), 14, 0);
    let parts = crowd.map(|reading| reading.weighing(0, 4_000_000));
    assert_refused(&month_of(&[1], &[4, 0], &parts).bytes(), 14, 0);
}

/// The fields are judged with the record, whatever its weights: 4, then 11, then 12, before everything after the reading.
#[test]
fn w3_the_fields_of_an_08_are_judged_like_those_of_a_04() {
    // Heading, party, two hours twice, two prices: the reading is record 8.
    let part = |party, a, b, e_wh| {
        let reading = Reading::of_month(party, a, b, e_wh).weighing(u64::MAX, 0);
        month_of(&[1], &[4, 1], &[reading]).bytes()
    };
    assert_refused(&part(1, 2, 2, 2_000_000_000), 4, 8);
    assert_refused(&part(0, 2, 2, 2_000_000_000), 11, 8);
    assert_refused(&part(0, 1, 3, 2_000_000_000), 11, 8);
    assert_refused(&part(0, 0, 2, 1_000_000_001), 12, 8);
    assert_refused(&part(0, 0, 2, 1_000_000_000), 18, 0);
}

/// "stands among the 04 records": nowhere else.
#[test]
fn w3_an_08_before_the_last_price_is_3_and_one_cut_short_1() {
    let draft = month_of(&[1], &[4, 1], &[reading(0, 1, 0).weighing(0, 4_000_000)]);
    let records = draft.records();
    let part = &records[8];
    assert_eq!((part.len(), part[0]), (26, 8));
    for place in 0..8 {
        let mut early = records.clone();
        early.insert(place, part.clone());
        assert_refused_for_amounts(&early.concat(), 3, place);
    }
    let before: usize = records[..8].iter().map(Vec::len).sum();
    for length in 1..26 {
        assert_refused(&draft.bytes()[..before + length], 1, 8);
    }
    // After the end it is bytes after the end.
    let after = [draft.bytes(), part.clone()].concat();
    assert_refused(&after, 1, 10);
}

/// "A 04 is the 08 with nothing before it and its own weight as the whole".
#[test]
fn a_04_is_the_08_of_its_own_weight() {
    let mut compared = 0;
    for made in files(71, 600) {
        let Ok(month) = settle(&made.bytes, Setting::PROVISIONAL) else {
            continue;
        };
        for reading in &month.file.readings {
            let weights = own_weights(reading, &month.curve);
            let whole = weights.iter().map(|&weight| u64::from(weight)).sum();
            let as_08 = Some(Weights { before: 0, whole });
            let e_wh = u64::from(reading.e_wh);
            assert_eq!(
                periodised_wh(e_wh, None, weights),
                periodised_wh(e_wh, as_08, weights)
            );
            compared += 1;
        }
    }
    assert!(compared > 5_000, "{compared}");
}

fn own_weights<'a>(reading: &Reading, curve: &'a [u32]) -> &'a [u32] {
    &curve[usize::from(reading.a)..usize::from(reading.b)]
}

/// What a rule makes of all readings of a month: their figures, or 18 or 13 at one of them.
type Judged = Result<Vec<Vec<u64>>, Refusal>;

/// The rule itself, reading by reading.
fn by_the_rule(readings: &[Reading], curve: &[u32]) -> Judged {
    each(readings, curve, |e_wh, weights, own| {
        periodised_wh(e_wh, weights, own)
    })
}

/// A rule for one reading, applied to each in turn.
fn each(
    readings: &[Reading],
    curve: &[u32],
    rule: impl Fn(u64, Option<Weights>, &[u32]) -> Result<Vec<u64>, Number>,
) -> Judged {
    let readings = readings.iter().enumerate();
    readings
        .map(|(number, reading)| {
            let own = own_weights(reading, curve);
            let figures = rule(u64::from(reading.e_wh), reading.weights, own);
            figures.map_err(|refused| refused.at(number))
        })
        .collect()
}

/// Rules that look reasonable, over the readings of a month and its curve.
mod wrong {
    use super::*;

    pub type Rule = fn(&[Reading], &[u32]) -> Judged;

    /// A rule for one 08: its E, its weights, and the curve numbers of its hours.
    type RuleOf08 = fn(u64, Weights, &[u32]) -> Result<Vec<u64>, Number>;

    pub const RULES: &[(&str, Rule)] = &[
        ("growth counted from 0", |readings, curve| {
            each_08(readings, curve, |e_wh, weights, own| {
                let mut figures = periodised_wh(e_wh, Some(weights), own)?;
                if weights.whole > 0 {
                    figures[0] += so_far(e_wh, weights.before, weights.whole);
                }
                Ok(figures)
            })
        }),
        ("the weight before left out", |readings, curve| {
            each_08(readings, curve, |e_wh, weights, own| {
                periodised_wh(e_wh, Some(weights), own)?;
                periodised_wh(
                    e_wh,
                    Some(Weights {
                        before: 0,
                        ..weights
                    }),
                    own,
                )
            })
        }),
        ("before and whole swapped", |readings, curve| {
            each_08(readings, curve, |e_wh, Weights { before, whole }, own| {
                let swapped = Weights {
                    before: whole,
                    whole: before,
                };
                periodised_wh(e_wh, Some(swapped), own)
            })
        }),
        ("the whole is this month's alone", |readings, curve| {
            each_08(readings, curve, |e_wh, weights, own| {
                periodised_wh(e_wh, Some(weights), own)?;
                periodised_wh(e_wh, None, own)
            })
        }),
        ("each hour rounded down by itself", |readings, curve| {
            each_08(readings, curve, |e_wh, weights, own| {
                periodised_wh(e_wh, Some(weights), own)?;
                let hour = |&weight: &u32| so_far(e_wh, weight.into(), weights.whole.max(1));
                Ok(own.iter().map(hour).collect())
            })
        }),
        ("13 before 18 of the same reading", |readings, curve| {
            each_08(readings, curve, |e_wh, weights, own| {
                if e_wh > 0 && weights.whole == 0 {
                    return Err(Number::NoWeight);
                }
                periodised_wh(e_wh, Some(weights), own)
            })
        }),
        ("18 of every reading before any 13", |readings, curve| {
            let judged = by_the_rule(readings, curve);
            let is_18 = |number: &usize| {
                let one = by_the_rule(&readings[*number..=*number], curve);
                one.is_err_and(|refusal| refusal.number == Number::TooMuchWeight)
            };
            let first_18 = (0..readings.len()).find(is_18);
            first_18.map_or(judged, |number| Err(Number::TooMuchWeight.at(number)))
        }),
        ("18 by a sum that wraps", |readings, curve| {
            each_08(readings, curve, |e_wh, weights, own| {
                let sum = weights.before.wrapping_add(sum(own));
                if sum > weights.whole || weights.whole > LARGEST {
                    return Err(Number::TooMuchWeight);
                }
                let own_figures = periodised_wh(e_wh, Some(weights), own);
                own_figures.or_else(|_| Ok(vec![0; own.len()]))
            })
        }),
        ("18 without the whole's limit", |readings, curve| {
            each_08(readings, curve, |e_wh, weights, own| {
                let whole = weights.whole.min(LARGEST);
                periodised_wh(e_wh, Some(Weights { whole, ..weights }), own)
            })
        }),
        ("18 of an exact whole too", |readings, curve| {
            each_08(readings, curve, |e_wh, weights, own| {
                let is_whole =
                    u128::from(weights.before) + u128::from(sum(own)) == u128::from(weights.whole);
                if is_whole && weights.whole > 0 {
                    return Err(Number::TooMuchWeight);
                }
                periodised_wh(e_wh, Some(weights), own)
            })
        }),
        ("E 0 excuses 18", |readings, curve| {
            each_08(readings, curve, |e_wh, weights, own| match e_wh {
                0 => Ok(vec![0; own.len()]),
                _ => periodised_wh(e_wh, Some(weights), own),
            })
        }),
        ("no weight here is 13", |readings, curve| {
            each_08(readings, curve, |e_wh, weights, own| {
                let figures = periodised_wh(e_wh, Some(weights), own)?;
                if e_wh > 0 && sum(own) == 0 {
                    return Err(Number::NoWeight);
                }
                Ok(figures)
            })
        }),
        ("places count the 08 records alone", |readings, curve| {
            by_the_rule(readings, curve).map_err(|refusal| {
                let before = readings[..refusal.place].iter();
                refusal
                    .number
                    .at(before.filter(|r| r.weights.is_some()).count())
            })
        }),
        ("places count the 04 records alone", |readings, curve| {
            by_the_rule(readings, curve).map_err(|refusal| {
                let before = readings[..refusal.place].iter();
                refusal
                    .number
                    .at(before.filter(|r| r.weights.is_none()).count())
            })
        }),
    ];

    const LARGEST: u64 = 8_784_000_000_000;

    fn sum(weights: &[u32]) -> u64 {
        weights.iter().map(|&weight| u64::from(weight)).sum()
    }

    fn so_far(e_wh: u64, weights: u64, whole: u64) -> u64 {
        (u128::from(e_wh) * u128::from(weights) / u128::from(whole)) as u64
    }

    /// A rule of its own for the 08 records.
    fn each_08(readings: &[Reading], curve: &[u32], rule: RuleOf08) -> Judged {
        each(readings, curve, |e_wh, weights, own| match weights {
            Some(weights) => rule(e_wh, weights, own),
            None => periodised_wh(e_wh, None, own),
        })
    }
}

/// The readings and the curve of a file for which a final run comes as far as judging its readings.
fn readings_and_curve(bytes: &[u8]) -> Option<(Vec<Reading>, Vec<u32>)> {
    let file = month_file::read(bytes, Prices::Needed).ok()?;
    let refused_before = match settle(bytes, Setting::FINAL) {
        Ok(_) => false,
        Err(refusal) => !matches!(
            refusal.number,
            Number::TooMuchWeight | Number::NoWeight | Number::TooMuchPeriodised
        ),
    };
    if refused_before {
        return None;
    }
    let fixed_wh = file.fixed.iter().map(|flows| {
        let taken = flows.hourly_wh as i64 + flows.flex_wh as i64;
        (flows.net_supply_wh + flows.production_wh as i64 - taken) as u32
    });
    let fixed_wh: Vec<u32> = fixed_wh.collect();
    let share_sum_kwh = file.parties.iter().map(|party| party.load_share_kwh).sum();
    let curve = curve(&fixed_wh, share_sum_kwh, fixed_wh.len()).unwrap();
    Some((file.readings, curve))
}

/// Whatever the seed, 1,500 files have several that show each wrong rule.
#[test]
fn made_files_tell_every_wrong_rule() {
    for seed in 72..76 {
        let made = files(seed, 1_500);
        let months: Vec<_> = made
            .filter_map(|made| readings_and_curve(&made.bytes))
            .map(|(readings, curve)| (by_the_rule(&readings, &curve), readings, curve))
            .collect();
        for (name, rule) in wrong::RULES {
            let differing = months
                .iter()
                .filter(|(judged, readings, curve)| rule(readings, curve) != *judged);
            let differing = differing.count();
            assert!(differing >= 3, "seed {seed}, {name}: {differing}");
        }
    }
}

/// The rules here are those of the month: what they refuse, the file is refused with.
#[test]
fn the_rules_here_judge_as_the_month_does() {
    let (mut refused, mut settled) = (0, 0);
    for made in files(76, 1_500) {
        let Some((readings, curve)) = readings_and_curve(&made.bytes) else {
            continue;
        };
        let of_month = settle(&made.bytes, Setting::FINAL);
        match by_the_rule(&readings, &curve) {
            Err(refusal) => {
                assert_eq!(of_month.err(), Some(refusal), "{}", made.name);
                refused += 1;
            }
            Ok(figures) => {
                let told = of_month.err().map(|refusal| refusal.number);
                assert!(matches!(told, None | Some(Number::TooMuchPeriodised)));
                let e_wh: Vec<u64> = readings.iter().map(|r| u64::from(r.e_wh)).collect();
                let parts = figures.iter().map(|figures| figures.iter().sum::<u64>());
                assert!(parts.zip(e_wh).all(|(part_wh, e_wh)| part_wh <= e_wh));
                settled += 1;
            }
        }
    }
    assert!(refused > 40 && settled > 300, "{refused} {settled}");
}

/// A record of the file and the record that it is read as are one.
#[test]
fn an_08_of_a_file_is_read_as_it_was_written() {
    let readings = [
        reading(0, 2, 11).weighing(9_000_000, 14_000_000),
        reading(1, 2, 5),
        reading(0, 1, 0).weighing(0, 4_000_000),
    ];
    let draft = month_of(&[1], &[4, 1], &readings);
    let bytes = draft.bytes();
    assert_eq!(
        month_file::read(&bytes, Prices::Needed).unwrap().readings,
        readings
    );
    let records = draft.records();
    for (number, &reading) in readings.iter().enumerate() {
        assert_eq!(records[8 + number], Record::Reading(reading).encode());
    }
}
