//! The services alone, READINGS A30 to A40 and A54: every refusal with its place, and the order of two.

mod common;

use common::told;
use second::distribution::distribution;
use second::invoice::invoice;
use second::periodisation::periodisation;
use second::reconciliation::{reconciliation, ReconciledHour};
use second::refusal::Refusal;
use second::residual::{curve, residual};

const FLOW_MAX: u64 = 8_000_000_000;

/// Flows for the residual service that can be changed one by one: three good hours of residual 40.
struct Flows {
    statuses: Vec<u8>,
    net: Vec<i64>,
    production: Vec<u64>,
    hourly: Vec<u64>,
    flex: Vec<u64>,
    lent: usize,
}

fn flows(change: impl FnOnce(&mut Flows)) -> Result<Vec<u32>, Refusal> {
    let mut flows = Flows {
        statuses: vec![1; 3],
        net: vec![-5; 3],
        production: vec![105; 3],
        hourly: vec![40; 3],
        flex: vec![20; 3],
        lent: 3,
    };
    change(&mut flows);
    residual(
        &flows.statuses,
        &flows.net,
        &flows.production,
        &flows.hourly,
        &flows.flex,
        flows.lent,
    )
}

#[test]
fn residual_gives_every_hour() {
    assert_eq!(flows(|_| ()), Ok(vec![40; 3]));
    let extremes = flows(|flows| {
        flows.net = vec![8_000_000_000, -8_000_000_000, 8_000_000_000];
        flows.production = vec![FLOW_MAX, FLOW_MAX, 2_000_000_000];
        flows.hourly = vec![FLOW_MAX, 0, FLOW_MAX];
        flows.flex = vec![FLOW_MAX, 0, 0];
    });
    assert_eq!(extremes, Ok(vec![0, 0, 2_000_000_000]));
}

#[test]
fn a30_residual_16_is_against_the_statuses_and_first() {
    assert_eq!(told(flows(|flows| flows.lent = 2)), (16, 0));
    let everything_wrong = flows(|flows| {
        flows.statuses = vec![9; 2];
        flows.net = vec![i64::MIN; 3];
    });
    assert_eq!(told(everything_wrong), (16, 0));
    let lent_as_statuses = flows(|flows| {
        flows.statuses.pop();
        flows.lent = 2;
    });
    assert_eq!(told(lent_as_statuses), (4, 0));
}

#[test]
fn a31_residual_lengths_and_h_are_4_at_0_before_the_values() {
    let wrong_value = |flows: &mut Flows| flows.net[2] = i64::MAX;
    assert_eq!(told(flows(wrong_value)), (4, 2));
    let shorter = flows(|flows| {
        wrong_value(flows);
        flows.flex.pop();
    });
    assert_eq!(told(shorter), (4, 0));
    for longer in [
        flows(|flows| flows.net.push(0)),
        flows(|flows| flows.production.push(0)),
        flows(|flows| flows.hourly.push(0)),
        flows(|flows| flows.flex.push(0)),
    ] {
        assert_eq!(told(longer), (4, 0));
    }
    let of_length = |hours: usize| {
        flows(|flows| {
            flows.statuses = vec![1; hours];
            flows.net = vec![1; hours];
            flows.production = vec![0; hours];
            flows.hourly = vec![0; hours];
            flows.flex = vec![0; hours];
            flows.lent = hours;
        })
    };
    assert_eq!(told(of_length(0)), (4, 0));
    assert_eq!(told(of_length(746)), (4, 0));
    assert_eq!(of_length(745), Ok(vec![1; 745]));
}

#[test]
fn a33_residual_ranges_go_list_by_list() {
    assert_eq!(told(flows(|flows| flows.statuses[1] = 3)), (4, 1));
    assert_eq!(told(flows(|flows| flows.net[1] = 8_000_000_001)), (4, 1));
    assert_eq!(told(flows(|flows| flows.net[1] = -8_000_000_001)), (4, 1));
    assert_eq!(
        told(flows(|flows| flows.production[2] = FLOW_MAX + 1)),
        (4, 2)
    );
    assert_eq!(told(flows(|flows| flows.hourly[2] = FLOW_MAX + 1)), (4, 2));
    assert_eq!(told(flows(|flows| flows.flex[0] = u64::MAX)), (4, 0));
    // The status list is named first, the flex list last.
    let status_late = flows(|flows| {
        flows.statuses[2] = 255;
        flows.net[1] = i64::MAX;
    });
    assert_eq!(told(status_late), (4, 2));
    let flex_early = flows(|flows| {
        flows.flex[0] = u64::MAX;
        flows.hourly[1] = u64::MAX;
    });
    assert_eq!(told(flex_early), (4, 1));
    // The first value outside in its list.
    let two = flows(|flows| {
        flows.net[1] = i64::MAX;
        flows.net[2] = i64::MIN;
    });
    assert_eq!(told(two), (4, 1));
}

#[test]
fn a33_residual_a_figure_with_status_0_is_4_after_all_ranges_before_7() {
    let silent = |flows: &mut Flows, hour: usize| {
        flows.statuses[hour] = 0;
        flows.net[hour] = 0;
        flows.production[hour] = 0;
        flows.hourly[hour] = 0;
        flows.flex[hour] = 0;
    };
    assert_eq!(told(flows(|flows| silent(flows, 1))), (7, 1));
    assert_eq!(told(flows(|flows| flows.statuses[1] = 0)), (4, 1));
    let missing_then_figure = flows(|flows| {
        silent(flows, 0);
        flows.statuses[2] = 0;
    });
    assert_eq!(told(missing_then_figure), (4, 2));
    let figure_then_range = flows(|flows| {
        flows.statuses[0] = 0;
        flows.flex[2] = u64::MAX;
    });
    assert_eq!(told(figure_then_range), (4, 2));
    for figure in 0..4 {
        let one_figure = flows(|flows| {
            silent(flows, 1);
            match figure {
                0 => flows.net[1] = 1,
                1 => flows.production[1] = 1,
                2 => flows.hourly[1] = 1,
                _ => flows.flex[1] = 1,
            }
        });
        assert_eq!(told(one_figure), (4, 1));
    }
}

#[test]
fn residual_is_7_8_9_hour_by_hour() {
    assert_eq!(told(flows(|flows| flows.flex[2] = 61)), (8, 2));
    assert_eq!(told(flows(|flows| flows.net[2] = 1_999_999_956)), (9, 2));
    assert_eq!(
        flows(|flows| flows.net[2] = 1_999_999_955),
        Ok(vec![40, 40, 2_000_000_000])
    );
    let large_before_negative = flows(|flows| {
        flows.net[0] = 8_000_000_000;
        flows.flex[1] = FLOW_MAX;
    });
    assert_eq!(told(large_before_negative), (9, 0));
    let far_below = flows(|flows| {
        flows.net[0] = -8_000_000_000;
        flows.hourly[0] = FLOW_MAX;
        flows.flex[0] = FLOW_MAX;
    });
    assert_eq!(told(far_below), (8, 0));
}

#[test]
fn a34_curve_is_16_4_6_9_10() {
    assert_eq!(told(curve(&[], 0, 1)), (16, 0));
    assert_eq!(told(curve(&[1, 2], 0, 1)), (16, 0));
    assert_eq!(told(curve(&[], 0, 0)), (4, 0));
    assert_eq!(told(curve(&[u32::MAX; 746], 0, 746)), (4, 0));
    for w in [0, 4_000_000_001, u64::MAX] {
        assert_eq!(told(curve(&[u32::MAX], w, 1)), (6, 0));
    }
    // 9 over all hours before any 10.
    assert_eq!(told(curve(&[5_000, 1, 2_000_000_001], 1, 3)), (9, 2));
    assert_eq!(told(curve(&[1, 1_001, 5_000], 1, 3)), (10, 1));
    assert_eq!(
        curve(&[2_000_000_000, 0, 3_999, 4_000], 4_000_000_000, 4),
        Ok(vec![500_000, 0, 0, 1])
    );
}

/// floor(residual x 1,000,000 / W) is 1,000,000,000 up to the last residual below 1,000,000,001 x W / 1,000,000.
#[test]
fn curve_number_limit_is_after_rounding() {
    assert_eq!(
        curve(&[1_500_000_001], 1_500_000, 1),
        Ok(vec![1_000_000_000])
    );
    assert_eq!(told(curve(&[1_500_000_002], 1_500_000, 1)), (10, 0));
}

#[test]
fn a35_distribution_is_16_4_6_9() {
    assert_eq!(told(distribution(&[], &[], 1)), (16, 0));
    assert_eq!(told(distribution(&[u64::MAX, 1], &[1, 1], 3)), (16, 0));
    assert_eq!(told(distribution(&[], &[1], 0)), (4, 0));
    assert_eq!(told(distribution(&[1], &[], 0)), (4, 0));
    assert_eq!(told(distribution(&[1], &[1; 746], 746)), (4, 0));
    let large = 4_000_000_001;
    assert_eq!(
        told(distribution(&[1, large, large], &[u32::MAX], 3)),
        (4, 1)
    );
    assert_eq!(told(distribution(&[0, 0], &[u32::MAX], 2)), (6, 0));
    assert_eq!(
        told(distribution(&[4_000_000_000, 1], &[u32::MAX], 2)),
        (6, 0)
    );
    assert_eq!(
        told(distribution(&[1], &[1, 2_000_000_001, u32::MAX], 3)),
        (9, 1)
    );
    assert_eq!(
        distribution(&[4_000_000_000], &[2_000_000_000], 1),
        Ok(vec![2_000_000_000])
    );
}

/// A40: hour by hour, within an hour party by party.
#[test]
fn a40_distribution_is_laid_out_hour_by_hour() {
    assert_eq!(distribution(&[1, 3], &[4, 8], 4), Ok(vec![1, 3, 2, 6]));
}

#[test]
fn distribution_gives_leftovers_by_remainder_then_by_number() {
    // 10 by 3, 3, 1: 30/7, 30/7, 10/7 are 4 r 2, 4 r 2, 1 r 3: the last has the largest remainder.
    assert_eq!(distribution(&[3, 3, 1], &[10], 3), Ok(vec![4, 4, 2]));
    // 11: 33/7, 33/7, 11/7 are 4 r 5, 4 r 5, 1 r 4: two left over, one each to the first two.
    assert_eq!(distribution(&[3, 3, 1], &[11], 3), Ok(vec![5, 5, 1]));
    // 1: one left over, equal remainders, the lower number.
    assert_eq!(distribution(&[2, 2], &[1], 2), Ok(vec![1, 0]));
}

#[test]
fn a36_periodisation_is_16_11_12_10_13() {
    assert_eq!(told(periodisation(u64::MAX, &[], 1)), (16, 0));
    assert_eq!(told(periodisation(u64::MAX, &[], 0)), (11, 0));
    assert_eq!(
        told(periodisation(u64::MAX, &[u32::MAX; 8_785], 8_785)),
        (11, 0)
    );
    assert_eq!(told(periodisation(1_000_000_001, &[u32::MAX], 1)), (12, 0));
    assert_eq!(told(periodisation(u64::MAX, &[0], 1)), (12, 0));
    assert_eq!(
        told(periodisation(1, &[0, 1_000_000_001, u32::MAX], 3)),
        (10, 1)
    );
    assert_eq!(told(periodisation(1, &[0, 0], 2)), (13, 0));
}

#[test]
fn periodisation_adds_up_to_e() {
    let weights = [0, 1, 1_000_000_000, 3, 0, 7];
    let figures = periodisation(999_999_999, &weights, 6).unwrap();
    assert_eq!(figures.iter().sum::<u64>(), 999_999_999);
    assert_eq!((figures[0], figures[4]), (0, 0));
}

/// One hour whose inputs can be changed one by one: residual 40, three parties, carrier 2.
struct Hour {
    residual: u32,
    distributed: Vec<i64>,
    periodised: Vec<i64>,
    carrier: u64,
    price: i64,
    lent: (usize, usize),
}

fn hour(change: impl FnOnce(&mut Hour)) -> Result<ReconciledHour, Refusal> {
    let mut hour = Hour {
        residual: 40,
        distributed: vec![10, 31, -1],
        periodised: vec![20, 5, 0],
        carrier: 2,
        price: -3,
        lent: (3, 3),
    };
    change(&mut hour);
    reconciliation(
        hour.residual,
        &hour.distributed,
        &hour.periodised,
        hour.carrier,
        hour.price,
        hour.lent.0,
        hour.lent.1,
    )
}

#[test]
fn reconciliation_gives_loss_differences_and_amounts() {
    // Loss 40 - 25 = 15. Differences 20 - 10, 5 - 31, 0 + 15 + 1.
    let expected = ReconciledHour {
        loss_wh: 15,
        differences_wh: vec![10, -26, 16],
        amounts_millionths: vec![-30, 78, -48],
    };
    assert_eq!(hour(|_| ()), Ok(expected));
    // A negative loss is not clipped.
    let negative = hour(|hour| hour.periodised = vec![100, 0, 0]).unwrap();
    assert_eq!(negative.loss_wh, -60);
    assert_eq!(negative.differences_wh, [90, -31, -59]);
}

#[test]
fn a39_reconciliation_16_for_either_output() {
    assert_eq!(told(hour(|hour| hour.lent = (2, 3))), (16, 0));
    assert_eq!(told(hour(|hour| hour.lent = (3, 4))), (16, 0));
    // The needed length is that of the distributed figures, the list named first.
    let shorter_periodised = hour(|hour| {
        hour.periodised.pop();
    });
    assert_eq!(told(shorter_periodised), (4, 0));
    let shorter_distributed = hour(|hour| {
        hour.distributed.pop();
    });
    assert_eq!(told(shorter_distributed), (16, 0));
}

#[test]
fn a38_reconciliation_single_numbers_come_before_the_lists() {
    let late_value = |hour: &mut Hour| hour.distributed[1] = i64::MAX;
    assert_eq!(told(hour(late_value)), (4, 1));
    for carrier in [3, 64, u64::MAX] {
        let refused = hour(|hour| {
            late_value(hour);
            hour.carrier = carrier;
        });
        assert_eq!(told(refused), (4, 0));
    }
    for price in [-5_000_001, 5_000_001, i64::MIN, i64::MAX] {
        let refused = hour(|hour| {
            late_value(hour);
            hour.price = price;
        });
        assert_eq!(told(refused), (4, 0));
    }
    let no_party = reconciliation(0, &[], &[], 0, 0, 0, 0);
    assert_eq!(told(no_party), (4, 0));
}

#[test]
fn reconciliation_ranges_of_the_lists() {
    assert_eq!(told(hour(|hour| hour.distributed[2] = -2)), (4, 2));
    assert_eq!(
        told(hour(|hour| hour.distributed[1] = 2_000_000_002)),
        (4, 1)
    );
    assert_eq!(told(hour(|hour| hour.periodised[1] = -1)), (4, 1));
    assert_eq!(
        told(hour(|hour| hour.periodised[2] = 2_000_000_001)),
        (4, 2)
    );
    // Distributed is named before periodised.
    let both = hour(|hour| {
        hour.periodised[0] = i64::MIN;
        hour.distributed[2] = i64::MIN;
    });
    assert_eq!(told(both), (4, 2));
    let at_limits = hour(|hour| {
        hour.residual = 2_000_000_000;
        hour.distributed = vec![2_000_000_001, 0, -1];
        hour.periodised = vec![0, 2_000_000_000, 0];
        hour.price = 5_000_000;
    });
    let at_limits = at_limits.unwrap();
    assert_eq!(at_limits.loss_wh, 0);
    assert_eq!(at_limits.differences_wh, [-2_000_000_001, 2_000_000_000, 1]);
    assert_eq!(at_limits.amounts_millionths[0], -10_000_000_005_000_000);
}

#[test]
fn a37_reconciliation_adding_up_is_the_last_4_then_9_then_14() {
    assert_eq!(told(hour(|hour| hour.residual = 41)), (4, 0));
    let range_first = hour(|hour| {
        hour.residual = 41;
        hour.periodised[1] = -1;
    });
    assert_eq!(told(range_first), (4, 1));
    // A residual above the limit is 4 unless the figures add up to it.
    assert_eq!(told(hour(|hour| hour.residual = u32::MAX)), (4, 0));
    let too_large = |hour: &mut Hour| {
        hour.residual = 2_000_000_001;
        hour.distributed = vec![2_000_000_001, 0, 0];
    };
    assert_eq!(told(hour(too_large)), (9, 0));
    let too_much = |hour: &mut Hour| hour.periodised = vec![2_000_000_000, 1, 0];
    assert_eq!(told(hour(too_much)), (14, 0));
    let both = hour(|hour| {
        too_large(hour);
        too_much(hour);
    });
    assert_eq!(told(both), (9, 0));
}

#[test]
fn a54_invoice_is_16_then_4_for_p_then_4_for_the_sum() {
    for (parties, lent) in [(2, 1), (2, 3), (2, 0), (0, 1), (65, 64), (64, 65)] {
        assert_eq!(told(invoice(&vec![1; parties], lent)), (16, 0));
    }
    // No amount adds up to 0 and is still refused, as is one too many.
    assert_eq!(told(invoice(&[], 0)), (4, 0));
    assert_eq!(told(invoice(&[0; 65], 65)), (4, 0));
    assert_eq!(invoice(&[0; 64], 64), Ok(vec![0; 64]));
    for amounts in [&[1][..], &[-1], &[1_000_000], &[500_000, 500_000, -999_999]] {
        assert_eq!(told(invoice(amounts, amounts.len())), (4, 0));
    }
}

/// Sums of 64 bits would come to 0.
#[test]
fn a54_the_sum_of_the_amounts_is_the_true_one() {
    for amounts in [
        &[1 << 62; 4][..],
        &[i64::MIN; 2],
        &[i64::MIN, i64::MIN, 1, -1],
        &[i64::MAX, i64::MAX, 2],
        &[i64::MIN; 64],
    ] {
        assert_eq!(amounts.iter().fold(0i64, |sum, &a| sum.wrapping_add(a)), 0);
        assert_eq!(told(invoice(amounts, amounts.len())), (4, 0));
    }
    // On the way to 0 the sum may pass 64 bits, in either direction.
    let (one, other) = (i64::MAX, -i64::MAX);
    for amounts in [[one, one, other, other], [other, other, one, one]] {
        let figures = invoice(&amounts, 4).unwrap();
        assert_eq!(figures.iter().sum::<i64>(), 0);
    }
}

/// The code by which a service called from C tells a refusal.
#[test]
fn a_refusal_as_one_number() {
    let refusal = periodisation(1, &[0, 1_000_000_001], 2).unwrap_err();
    assert_eq!(refusal.code(), 10 + 256);
}
