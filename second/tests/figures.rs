//! 01's "Figures to check against", each by its name, S1's five lines, and the figures of 02 that replace or join them.

mod common;

use common::{assert_accepted, assert_refused, told};
use second::distribution::distribution;
use second::draft::{measured_hour, Draft};
use second::examples;
use second::invoice::invoice;
use second::make::month;
use second::periodisation::periodisation;
use second::random::Random;
use second::reconciliation::reconciliation;
use second::record::Reading;
use second::residual::{curve, residual};
use second::setting::Setting;
use second::statement::statement;

#[test]
fn s1_prints_its_five_lines() {
    let expected = "area 007 2016-04 hours 3 parties 3 estimated 0
0000000000017 18900000 27600000 0 8700000 266850
0000000000024 75600000 63100000 0 -12500000 -382800
0000000000031 31500000 32500000 2800000 3800000 115950
total 126000000 123200000 2800000 0 0
";
    assert_eq!(statement(&examples::s1().bytes()), expected);
}

/// H2 6.3, hour by hour, in kWh and DKK there: its amounts are our exact ones.
#[test]
fn s1_hours_are_those_of_h2_6_3() {
    let file = examples::s1().bytes();
    let month = second::month::settle(&file, Setting::FINAL).unwrap();
    assert_eq!(month.curve, [4_000_000, 5_000_000, 4_000_000]);
    let distributed: Vec<_> = month.hours.iter().map(|h| &h.distributed_wh[..]).collect();
    assert_eq!(
        distributed,
        [
            [5_850_000, 23_400_000, 9_750_000],
            [7_200_000, 28_800_000, 12_000_000],
            [5_850_000, 23_400_000, 9_750_000]
        ]
    );
    let loss: Vec<_> = month.hours.iter().map(|h| h.loss_wh).collect();
    assert_eq!(loss, [1_100_000, 600_000, 1_100_000]);
    let amounts = month.amounts_millionths().unwrap().into_iter();
    let amounts_dkk: Vec<f64> = amounts.map(|amount| amount as f64 / 1e8).collect();
    assert_eq!(
        amounts_dkk.chunks(3).collect::<Vec<_>>(),
        [
            [565.5, -957.0, 391.5],
            [858.0, -1221.0, 363.0],
            [1245.0, -1650.0, 405.0]
        ]
    );
}

fn residual_of_one(status: u8, flows: (i64, u64, u64, u64)) -> Result<Vec<u32>, (u8, usize)> {
    let (net, production, hourly, flex) = flows;
    let answer = residual(&[status], &[net], &[production], &[hourly], &[flex], 1);
    answer.map_err(|refusal| (refusal.number as u8, refusal.place))
}

#[test]
fn r1_flows_minus_5_105_40_20_give_40() {
    assert_eq!(residual_of_one(1, (-5, 105, 40, 20)), Ok(vec![40]));
}

#[test]
fn r2_a_residual_of_minus_1_is_8() {
    assert_eq!(residual_of_one(1, (10, 0, 6, 5)), Err((8, 0)));
}

#[test]
fn r3_a_real_zero_is_0_and_a_missing_hour_is_7() {
    assert_eq!(residual_of_one(1, (0, 0, 0, 0)), Ok(vec![0]));
    assert_eq!(residual_of_one(2, (0, 0, 0, 0)), Ok(vec![0]));
    assert_eq!(residual_of_one(0, (0, 0, 0, 0)), Err((7, 0)));
}

#[test]
fn c1_40_000_000_with_w_10_000_000_gives_4_000_000() {
    assert_eq!(curve(&[40_000_000], 10_000_000, 1), Ok(vec![4_000_000]));
}

#[test]
fn c2_1_with_w_3_gives_333_333() {
    assert_eq!(curve(&[1], 3, 1), Ok(vec![333_333]));
    assert_eq!(curve(&[2], 3, 1), Ok(vec![666_666]));
}

#[test]
fn c3_w_1_takes_1_000_and_refuses_1_001() {
    assert_eq!(curve(&[1_000], 1, 1), Ok(vec![1_000_000_000]));
    assert_eq!(told(curve(&[1_001], 1, 1)), (10, 0));
}

#[test]
fn d1_three_equal_shares_take_turns() {
    assert_eq!(
        distribution(&[1, 1, 1], &[1, 1, 1], 9),
        Ok(vec![1, 0, 0, 0, 1, 0, 0, 0, 1])
    );
}

#[test]
fn d2_a_share_of_0_always_has_0() {
    let residuals = [7, 0, 1, 2_000_000_000, 3];
    let figures = distribution(&[0, 5], &residuals, 10).unwrap();
    for (hour, &residual) in residuals.iter().enumerate() {
        assert_eq!(figures[2 * hour..2 * hour + 2], [0, i64::from(residual)]);
    }
}

#[test]
fn d3_a_figure_can_be_minus_1() {
    assert_eq!(
        distribution(&[6, 6, 2], &[10, 1], 6),
        Ok(vec![4, 4, 2, 1, 1, -1])
    );
}

#[test]
fn p1_10_over_three_equal_weights_is_3_3_4() {
    assert_eq!(periodisation(10, &[1, 1, 1], 3), Ok(vec![3, 3, 4]));
}

#[test]
fn p2_1_over_0_5_5_is_0_0_1() {
    assert_eq!(periodisation(1, &[0, 5, 5], 3), Ok(vec![0, 0, 1]));
}

#[test]
fn p3_7_over_no_weight_is_13_and_0_is_accepted() {
    assert_eq!(told(periodisation(7, &[0, 0], 2)), (13, 0));
    assert_eq!(periodisation(0, &[0, 0], 2), Ok(vec![0, 0]));
}

/// "exact amounts of 0.5, 0.5 and -1 øre come out as 1, 1 and -1 .. The example becomes 1, 0, -1. Case M1 is replaced by
/// this one".
#[test]
fn w2_half_an_ore_twice_and_minus_1_become_1_0_minus_1() {
    assert_eq!(
        invoice(&[500_000, 500_000, -1_000_000], 3),
        Ok(vec![1, 0, -1])
    );
}

#[test]
fn w2_amounts_are_rounded_down_also_below_zero() {
    // -1 with 500,000 over, twice, and 1: the one that is missing goes to the lower number.
    assert_eq!(
        invoice(&[-500_000, -500_000, 1_000_000], 3),
        Ok(vec![0, -1, 1])
    );
    // -1 with 700,000 over and 0 with 300,000.
    assert_eq!(invoice(&[-300_000, 300_000], 2), Ok(vec![0, 0]));
    // -1 with 250,000 over, as the three others: a tie of all four.
    assert_eq!(
        invoice(&[250_000, 250_000, 250_000, -750_000], 4),
        Ok(vec![1, 0, 0, -1])
    );
    // -2 with 750,000 over before 0 with 500,000, twice, and 0 with 250,000: of two missing, one is the first's of the ties.
    assert_eq!(
        invoice(&[250_000, 500_000, 500_000, -1_250_000], 4),
        Ok(vec![0, 1, 0, -1])
    );
}

#[test]
fn w2_whole_amounts_stay() {
    assert_eq!(invoice(&[0], 1), Ok(vec![0]));
    assert_eq!(
        invoice(&[-2_000_000, 5_000_000, -3_000_000], 3),
        Ok(vec![-2, 5, -3])
    );
}

/// Down, the smallest amount is -9,223,372,036,855 with 224,192 over, and the largest 9,223,372,036,854 with 775,807.
#[test]
fn w2_the_extremes_of_the_machine_are_taken() {
    assert_eq!(
        invoice(&[i64::MIN, i64::MAX, 1], 3),
        Ok(vec![-9_223_372_036_855, 9_223_372_036_855, 0])
    );
    assert_eq!(
        invoice(&[i64::MAX, -i64::MAX], 2),
        Ok(vec![9_223_372_036_855, -9_223_372_036_855])
    );
    // Thirty-one of either and what balances them: thirty-one missing, one for each of the largest amounts.
    let mut amounts = [[i64::MIN, i64::MAX]; 31].concat();
    amounts.push(31);
    let mut figures = [[-9_223_372_036_855, 9_223_372_036_855]; 31].concat();
    figures.push(0);
    assert_eq!(invoice(&amounts, 63), Ok(figures));
}

/// A month of so many hours and parties that is good but for its size.
fn sized(hours: usize, parties: usize) -> Draft {
    month(&mut Random::of_file(1, 1), hours, parties, true, 10)
}

#[test]
fn bounds_745_hours_accepted_746_is_4() {
    assert_accepted(&sized(745, 2).bytes());
    assert_refused(&sized(746, 2).bytes(), 4, 0);
    assert!(curve(&[1; 745], 1, 745).is_ok());
    assert_eq!(told(curve(&[1; 746], 1, 746)), (4, 0));
}

#[test]
fn bounds_64_parties_accepted_65_is_4() {
    assert_accepted(&sized(2, 64).bytes());
    assert_refused(&sized(2, 65).bytes(), 4, 0);
    assert!(distribution(&[1; 64], &[1], 64).is_ok());
    assert_eq!(told(distribution(&[1; 65], &[1], 65)), (4, 0));
    assert!(reconciliation(0, &[0; 64], &[0; 64], 63, 0, 64, 64).is_ok());
    assert_eq!(
        told(reconciliation(0, &[0; 65], &[0; 65], 0, 0, 65, 65)),
        (4, 0)
    );
    assert_eq!(invoice(&[0; 64], 64), Ok(vec![0; 64]));
    assert_eq!(told(invoice(&[0; 65], 65)), (4, 0));
}

#[test]
fn bounds_8_784_weights_accepted_8_785_is_11() {
    let figures = periodisation(1_000_000_000, &[1_000_000_000; 8_784], 8_784).unwrap();
    assert_eq!(figures.iter().sum::<u64>(), 1_000_000_000);
    assert_eq!(told(periodisation(1, &[1; 8_785], 8_785)), (11, 0));
}

#[test]
fn bounds_e_1_000_000_000_accepted_one_more_is_12() {
    assert_eq!(
        periodisation(1_000_000_000, &[5], 1),
        Ok(vec![1_000_000_000])
    );
    assert_eq!(told(periodisation(1_000_000_001, &[5], 1)), (12, 0));
    let mut draft = examples::s1();
    draft.fixed[0] = measured_hour(0, 40_000_000);
    draft.readings = vec![Reading::of_month(0, 0, 1, 1_000_000_000)];
    assert_accepted(&draft.bytes());
    draft.readings[0].e_wh += 1;
    assert_refused(&draft.bytes(), 12, 13);
}
