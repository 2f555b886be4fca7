//! Periodised consumption (H2 6.2): a reading's E over the weights of its hours, the part of it that falls into one month,
//! and the periodisation service. (01, "Periodised consumption"; 02, W3)

use crate::limits;
use crate::record::Weights;
use crate::refusal::{Number, Refusal};

/// "After each hour the reading's sum so far is E x (weights so far) / S, rounded down". S is positive.
fn sum_so_far_wh(e_wh: u64, weights_so_far: u128, weights_whole: u128) -> u128 {
    u128::from(e_wh) * weights_so_far / weights_whole
}

/// The figures of a reading in the hours of one month, which have these weights, hour by hour: "the hour's figure is the
/// growth", and the sum so far has begun in the months before: "each hour equals the figure of one long periodisation over
/// the joined curve" (02, W3). "With E = 0 and S = 0 every figure is 0." A reading without weights of its own (a 04) has
/// nothing before and is whole with these hours.
///
/// Refused with 18 where the weights are more than the whole, or it more than its limit; then with 13 where E is positive
/// and the whole zero.
pub fn periodised_wh(
    e_wh: u64,
    of_reading: Option<Weights>,
    weights: &[u32],
) -> Result<Vec<u64>, Number> {
    let own: u128 = weights.iter().map(|&weight| u128::from(weight)).sum();
    let (before, whole) = match of_reading {
        Some(weights) => (weights.before.into(), weights.whole.into()),
        None => (0, own),
    };
    if before + own > whole || whole > limits::WHOLE_WEIGHT_MAX {
        return Err(Number::TooMuchWeight);
    }
    if whole == 0 {
        return if e_wh == 0 {
            Ok(vec![0; weights.len()])
        } else {
            Err(Number::NoWeight)
        };
    }
    let mut so_far = before;
    let mut before_wh = sum_so_far_wh(e_wh, before, whole);
    let figures = weights.iter().map(|&weight| {
        so_far += u128::from(weight);
        let after_wh = sum_so_far_wh(e_wh, so_far, whole);
        let figure = after_wh - before_wh;
        before_wh = after_wh;
        figure as u64
    });
    Ok(figures.collect())
}

/// The periodisation service: 16, then "11, 12, 10, 13 (all at place 0 but 10)". It has no 4.
pub fn periodisation(e_wh: u64, weights: &[u32], lent_length: usize) -> Result<Vec<u64>, Refusal> {
    if lent_length != weights.len() {
        return Err(Number::WrongOutputLength.at(0));
    }
    if !limits::WEIGHTS.contains(&(weights.len() as i128)) {
        return Err(Number::BadSpan.at(0));
    }
    if e_wh > limits::READING_WH_MAX {
        return Err(Number::ReadingTooLarge.at(0));
    }
    let too_large = |&weight: &u32| u128::from(weight) > limits::CURVE_NUMBER_MAX;
    if let Some(hour) = weights.iter().position(too_large) {
        return Err(Number::CurveNumberTooLarge.at(hour));
    }
    periodised_wh(e_wh, None, weights).map_err(|number| number.at(0))
}
