//! What follows the reading of a file, READINGS A25 to A29. All files are S1 with something changed.

mod common;

use common::{assert_accepted, assert_refused, told};
use second::draft::{measured_hour, Draft};
use second::examples::s1;
use second::month::month_sums;
use second::record::Reading;
use second::setting::Stage;

fn changed(change: impl FnOnce(&mut Draft)) -> Vec<u8> {
    let mut draft = s1();
    change(&mut draft);
    draft.bytes()
}

fn reading(party: u8, a: u16, b: u16, e_wh: u32) -> Reading {
    Reading::of_month(party, a, b, e_wh)
}

fn silence(draft: &mut Draft, hour: usize) {
    draft.fixed[hour].status = 0;
    draft.fixed[hour].net_supply_wh = 0;
}

fn silence_refixed(draft: &mut Draft, hour: usize) {
    draft.refixed[hour].status = 0;
    draft.refixed[hour].net_supply_wh = 0;
}

#[test]
fn a25_each_hour_is_7_8_9() {
    assert_refused(&changed(|draft| silence(draft, 2)), 7, 2);
    assert_refused(&changed(|draft| silence_refixed(draft, 2)), 7, 2);
    assert_refused(&changed(|draft| draft.fixed[1].net_supply_wh = -1), 8, 1);
    assert_refused(
        &changed(|draft| draft.refixed[1].flex_wh = 48_000_001),
        8,
        1,
    );
    assert_refused(
        &changed(|draft| draft.fixed[0].net_supply_wh = 2_000_000_001),
        9,
        0,
    );
    assert_refused(
        &changed(|draft| draft.refixed[2].production_wh = 1_961_000_001),
        9,
        2,
    );
    assert_accepted(&changed(|draft| {
        draft.refixed[2].production_wh = 1_961_000_000
    }));
}

#[test]
fn a25_all_fixed_hours_come_before_all_refixed() {
    let file = changed(|draft| {
        silence_refixed(draft, 0);
        draft.fixed[2].net_supply_wh = 2_000_000_001;
    });
    assert_refused(&file, 9, 2);
    let file = changed(|draft| {
        silence_refixed(draft, 0);
        draft.refixed[1].net_supply_wh = -1;
    });
    assert_refused(&file, 7, 0);
}

#[test]
fn a25_an_earlier_hour_comes_before_a_later_one() {
    let file = changed(|draft| {
        draft.fixed[0].net_supply_wh = 2_000_000_001;
        draft.fixed[1].net_supply_wh = -1;
        silence(draft, 2);
    });
    assert_refused(&file, 9, 0);
    let file = changed(|draft| {
        draft.fixed[1].net_supply_wh = -1;
        silence(draft, 2);
    });
    assert_refused(&file, 8, 1);
}

#[test]
fn a25_w_comes_before_the_hours() {
    let file = changed(|draft| {
        silence(draft, 0);
        draft.parties.iter_mut().for_each(|p| p.load_share_kwh = 0);
    });
    assert_refused(&file, 6, 0);
}

/// W 40,000 and fixed residuals of 40,000,000: curve numbers of exactly 1,000,000,000. One Wh more gives 1,000,000,025.
fn steep(draft: &mut Draft) {
    for (party, share) in draft.parties.iter_mut().zip([10_000, 20_000, 10_000]) {
        party.load_share_kwh = share;
    }
    draft.fixed[1] = measured_hour(1, 40_000_000);
}

#[test]
fn a26_curve_numbers_are_judged_on_the_fixed_series_alone() {
    assert_accepted(&changed(steep));
    let file = changed(|draft| {
        steep(draft);
        draft.fixed[2].net_supply_wh += 1;
    });
    assert_refused(&file, 10, 2);
    // The refixed series may exceed it.
    let file = changed(|draft| {
        steep(draft);
        draft.refixed[2].net_supply_wh = 2_000_000_000;
    });
    assert_accepted(&file);
    // Without any reading, too; and after all the residuals.
    let file = changed(|draft| {
        steep(draft);
        draft.fixed[0].net_supply_wh += 1;
        draft.readings.clear();
    });
    assert_refused(&file, 10, 0);
    let file = changed(|draft| {
        steep(draft);
        draft.fixed[0].net_supply_wh += 1;
        silence_refixed(draft, 2);
    });
    assert_refused(&file, 7, 2);
}

#[test]
fn a27_13_counts_the_readings_in_file_order() {
    let weightless = |draft: &mut Draft| draft.fixed[1] = measured_hour(1, 0);
    // S1's readings 1, 4 and 7 are of hour 1 alone.
    assert_refused(&changed(weightless), 13, 1);
    let file = changed(|draft| {
        weightless(draft);
        draft.readings[1].e_wh = 0;
    });
    assert_refused(&file, 13, 4);
    let file = changed(|draft| {
        weightless(draft);
        for number in [1, 4, 7] {
            draft.readings[number].e_wh = 0;
        }
    });
    assert_accepted(&file);
    // A span with some weight is enough.
    let file = changed(|draft| {
        weightless(draft);
        draft.readings = vec![reading(0, 1, 3, 5)];
    });
    assert_accepted(&file);
}

#[test]
fn a27_a_positive_residual_of_curve_number_0_gives_13() {
    let with_hour_1 = |residual_wh: i64| {
        changed(|draft| {
            draft.parties[0].load_share_kwh = 3_991_500_000;
            draft.fixed[1] = measured_hour(1, residual_wh);
        })
    };
    // W is 4,000,000,000: 3,999 x 1,000,000 / W rounds down to 0, 4,000 gives 1.
    assert_refused(&with_hour_1(3_999), 13, 1);
    assert_accepted(&with_hour_1(4_000));
}

#[test]
fn a27_13_comes_after_10_and_before_14() {
    let crowd = [
        reading(0, 2, 3, 1_000_000_000),
        reading(1, 2, 3, 1_000_000_000),
        reading(2, 2, 3, 1),
    ];
    let file = changed(|draft| {
        draft.fixed[1] = measured_hour(1, 0);
        draft.readings = crowd.to_vec();
        draft.readings.push(reading(0, 1, 2, 1));
    });
    assert_refused(&file, 13, 3);
    let file = changed(|draft| {
        steep(draft);
        draft.fixed[2].net_supply_wh += 1;
        draft.fixed[1] = measured_hour(1, 0);
    });
    assert_refused(&file, 10, 2);
}

#[test]
fn a28_14_sums_all_parties_of_an_hour() {
    let crowded = |hour: u16, last_wh: u32| {
        changed(|draft| {
            draft.readings = vec![
                reading(0, hour, hour + 1, 1_000_000_000),
                reading(1, hour, hour + 1, 999_999_999),
                reading(2, hour, hour + 1, last_wh),
            ]
        })
    };
    for hour in 0..3 {
        assert_accepted(&crowded(hour, 1));
        assert_refused(&crowded(hour, 2), 14, usize::from(hour));
    }
    // The first such hour is told, though the readings name the later one first.
    let file = changed(|draft| {
        draft.readings = vec![reading(0, 2, 3, 1_000_000_000); 3];
        draft.readings.extend([reading(1, 0, 1, 1_000_000_000); 3]);
    });
    assert_refused(&file, 14, 0);
}

#[test]
fn a29_16_is_last_and_only_of_a_call_with_lent_outputs() {
    let good = s1().bytes();
    assert_eq!(told(month_sums(&good, Stage::Final, 2)), (16, 0));
    assert_eq!(told(month_sums(&good, Stage::Final, 4)), (16, 0));
    let sums = month_sums(&good, Stage::Final, 3).unwrap();
    assert_eq!(sums[2].loss_wh, 2_800_000);
    assert_eq!(sums[0].amount_millionths, 266_850_000_000);
    // Every other refusal comes first.
    assert_eq!(told(month_sums(&[], Stage::Final, 0)), (1, 0));
    let crowded = changed(|draft| draft.readings = vec![reading(0, 0, 1, 1_000_000_000); 3]);
    assert_eq!(told(month_sums(&crowded, Stage::Final, 0)), (14, 0));
}
