//! Demand 3 on random months: "in every hour the parties' distributed figures add up to the residual to the Wh. After
//! every hour each party's sum of these since the month's first hour is its exact share of the residual so far, rounded
//! down or up to a whole Wh. Over any run of hours the sum is less than 2 Wh from the exact share. A party with a larger
//! load share never has the smaller sum since the first hour."

use second::draft::{measured_hour, Draft};
use second::examples::s1;
use second::make::{files, Aim};
use second::month::{settle, Month};
use second::setting::Setting;

/// The parties' running sums after each hour, those before hour 0 first, and R likewise.
fn running(month: &Month) -> (Vec<Vec<i128>>, Vec<i128>) {
    let mut sums = vec![vec![0i128; month.file.parties.len()]];
    let mut residual_sums = vec![0i128];
    for (hour, &residual) in month.hours.iter().zip(month.applied_wh()) {
        let before = sums.last().unwrap();
        let after = before.iter().zip(&hour.distributed_wh);
        sums.push(
            after
                .map(|(sum, &figure)| sum + i128::from(figure))
                .collect(),
        );
        residual_sums.push(residual_sums.last().unwrap() + i128::from(residual));
    }
    (sums, residual_sums)
}

/// The first part of demand 3 that a month's distributed figures do not meet.
fn breach(month: &Month) -> Option<&'static str> {
    let w = i128::from(month.share_sum_kwh);
    let parties = month.file.parties.iter();
    let shares: Vec<i128> = parties.map(|party| party.load_share_kwh.into()).collect();
    let (sums, residual_sums) = running(month);
    for (figures, &residual) in month.hours.iter().zip(month.applied_wh()) {
        if figures.distributed_wh.iter().sum::<i64>() != i64::from(residual) {
            return Some("the sum of an hour");
        }
    }
    for (sums, residual_sum) in sums.iter().zip(&residual_sums) {
        for (&sum, share) in sums.iter().zip(&shares) {
            let down = share * residual_sum / w;
            let up = (share * residual_sum + w - 1) / w;
            if sum != down && sum != up {
                return Some("rounded down or up");
            }
            if *share == 0 && sum != 0 {
                return Some("a share of 0");
            }
        }
        for (one, one_share) in sums.iter().zip(&shares) {
            for (other, other_share) in sums.iter().zip(&shares) {
                if one_share > other_share && one < other {
                    return Some("larger share, smaller sum");
                }
            }
        }
    }
    // Every run of hours; in a long month, those of every seventh beginning.
    let step = if month.hours.len() > 50 { 7 } else { 1 };
    for from in (0..residual_sums.len()).step_by(step) {
        for to in from..residual_sums.len() {
            let run_wh = residual_sums[to] - residual_sums[from];
            for (party, share) in shares.iter().enumerate() {
                let sum = sums[to][party] - sums[from][party];
                if (sum * w - share * run_wh).abs() >= 2 * w {
                    return Some("2 Wh over a run");
                }
            }
        }
    }
    None
}

#[test]
fn demand_3_holds_for_every_valid_shape() {
    let mut months = 0;
    for seed in 31..34 {
        for made in files(seed, 144).filter(|made| made.lenient_aim == Aim::Accepted) {
            let month = settle(&made.bytes, Setting::PROVISIONAL.of_quantities()).unwrap();
            assert_eq!(breach(&month), None, "{}", made.name);
            months += 1;
        }
    }
    assert_eq!(months, 144);
}

/// S1's parties with these shares, three hours of this residual, and no readings.
fn three_hours(shares_kwh: [u64; 3], residual_wh: i64) -> Draft {
    let mut draft = s1();
    for (party, share) in draft.parties.iter_mut().zip(shares_kwh) {
        party.load_share_kwh = share;
    }
    draft.fixed = (0..3).map(|h| measured_hour(h, residual_wh)).collect();
    draft.refixed = draft.fixed.clone();
    draft.readings.clear();
    draft
}

/// The breach of a month whose figures are replaced by these.
fn breach_of(shares_kwh: [u64; 3], residual_wh: i64, hours: [[i64; 3]; 3]) -> Option<&'static str> {
    let file = three_hours(shares_kwh, residual_wh).bytes();
    let mut month = settle(&file, Setting::FINAL).unwrap();
    assert_eq!(breach(&month), None);
    for (hour, figures) in month.hours.iter_mut().zip(hours) {
        hour.distributed_wh = figures.to_vec();
    }
    breach(&month)
}

/// The test above can fail: "errors that look reasonable", and others, break it.
#[test]
fn wrong_roundings_are_breaches() {
    let equal = [1_000_000; 3];
    // Each hour rounded to nearest by itself.
    assert_eq!(breach_of(equal, 1, [[0; 3]; 3]), Some("the sum of an hour"));
    // Every leftover to the carrier.
    let leftovers = breach_of(equal, 4, [[1, 1, 2]; 3]);
    assert_eq!(leftovers, Some("rounded down or up"));
    // Hour 0 settled and nothing later.
    let first_hour = [[1, 1, 1], [0; 3], [0; 3]];
    assert_eq!(breach_of(equal, 3, first_hour), Some("the sum of an hour"));
    // The leftover Wh to a smaller share of the larger one's remainder: sums rounded, but in the wrong order.
    let wrong_order = [[0, 0, 1], [1, 0, 0], [0, 1, 0]];
    assert_eq!(
        breach_of([3_000_000, 3_000_000, 2_000_000], 1, wrong_order),
        Some("larger share, smaller sum")
    );
}
