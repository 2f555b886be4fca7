//! From flows to the curve (H2 chapter 4 and 1.13): the residual of an hour and its judgement, the residual service, the
//! applied series, W, the curve number and the curve service.

use crate::limits::{self, Range};
use crate::refusal::{Number, Refusal};

/// "Residual of an hour (H2 ch. 4) = net supply + local production - hourly settled - flex settled."
pub(crate) fn residual_wh(
    net_supply_wh: i64,
    production_wh: u64,
    hourly_wh: u64,
    flex_wh: u64,
) -> i128 {
    i128::from(net_supply_wh) + i128::from(production_wh)
        - i128::from(hourly_wh)
        - i128::from(flex_wh)
}

/// "then the fixed hours in order, each 7, 8, 9": the judgement of one hour by its status and its residual.
/// "A figure of 0 with status 1 or 2 is a real zero."
pub(crate) fn judge_hour(status: u8, residual_wh: i128) -> Result<u32, Number> {
    match (status, residual_wh) {
        (limits::STATUS_MISSING, _) => Err(Number::MissingHour),
        (_, ..0) => Err(Number::NegativeResidual),
        (_, 0..=limits::RESIDUAL_WH_MAX) => Ok(residual_wh as u32),
        _ => Err(Number::ResidualTooLarge),
    }
}

/// The residual service. 16 against the statuses; 4: unequal lists, H, the ranges list by list, a figure with status 0;
/// then hour by hour 7, 8, 9.
pub fn residual(
    statuses: &[u8],
    net_supply_wh: &[i64],
    production_wh: &[u64],
    hourly_wh: &[u64],
    flex_wh: &[u64],
    lent_length: usize,
) -> Result<Vec<u32>, Refusal> {
    let hours = statuses.len();
    if lent_length != hours {
        return Err(Number::WrongOutputLength.at(0));
    }
    let lengths = [
        net_supply_wh.len(),
        production_wh.len(),
        hourly_wh.len(),
        flex_wh.len(),
    ];
    if lengths.iter().any(|&length| length != hours) {
        return Err(Number::OutsideRange.at(0));
    }
    hours_within_limit(hours)?;
    all_within(statuses, &limits::STATUS)?;
    all_within(net_supply_wh, &limits::NET_SUPPLY_WH)?;
    all_within(production_wh, &limits::OTHER_FLOW_WH)?;
    all_within(hourly_wh, &limits::OTHER_FLOW_WH)?;
    all_within(flex_wh, &limits::OTHER_FLOW_WH)?;
    // "With status 0 a figure other than 0 is refused with 4 (service alone: at that hour, after all ranges)."
    let figure_of_missing = |&hour: &usize| {
        statuses[hour] == limits::STATUS_MISSING
            && (net_supply_wh[hour] != 0
                || production_wh[hour] != 0
                || hourly_wh[hour] != 0
                || flex_wh[hour] != 0)
    };
    if let Some(hour) = (0..hours).find(figure_of_missing) {
        return Err(Number::OutsideRange.at(hour));
    }
    (0..hours)
        .map(|hour| {
            let residual_wh = residual_wh(
                net_supply_wh[hour],
                production_wh[hour],
                hourly_wh[hour],
                flex_wh[hour],
            );
            judge_hour(statuses[hour], residual_wh).map_err(|number| number.at(hour))
        })
        .collect()
}

/// "The applied series is the refixed series if the file has one, otherwise the fixed series."
pub(crate) fn applied<'a, T>(fixed: &'a [T], refixed: &'a [T]) -> &'a [T] {
    if refixed.is_empty() {
        fixed
    } else {
        refixed
    }
}

/// "W is the sum of all load shares of the month." Refused with 6 when it "is 0 or too large", by the true sum.
pub(crate) fn share_sum_kwh(load_shares_kwh: impl Iterator<Item = u64>) -> Result<u64, Refusal> {
    let sum: u128 = load_shares_kwh.map(u128::from).sum();
    if limits::SHARE_SUM_KWH.contains(&(sum as i128)) {
        Ok(sum as u64)
    } else {
        Err(Number::BadShareSum.at(0))
    }
}

/// "Curve number of an hour (H2 1.13) = fixed residual x 1,000,000 / W, rounded down." W is positive.
pub(crate) fn curve_number(fixed_residual_wh: u32, share_sum_kwh: u64) -> u128 {
    u128::from(fixed_residual_wh) * limits::CURVE_FACTOR / u128::from(share_sum_kwh)
}

/// The curve of a whole series, or 10 at the first hour whose number is too large.
pub(crate) fn curve_of(
    fixed_residuals_wh: &[u32],
    share_sum_kwh: u64,
) -> Result<Vec<u32>, Refusal> {
    let numbers = fixed_residuals_wh.iter().enumerate().map(|(hour, &fixed)| {
        let number = curve_number(fixed, share_sum_kwh);
        if number > limits::CURVE_NUMBER_MAX {
            return Err(Number::CurveNumberTooLarge.at(hour));
        }
        Ok(number as u32)
    });
    numbers.collect()
}

/// The curve service: 16, 4 (H), "6, 9 over all hours, 10".
pub fn curve(
    residuals_wh: &[u32],
    share_sum_kwh: u64,
    lent_length: usize,
) -> Result<Vec<u32>, Refusal> {
    if lent_length != residuals_wh.len() {
        return Err(Number::WrongOutputLength.at(0));
    }
    hours_within_limit(residuals_wh.len())?;
    if !limits::SHARE_SUM_KWH.contains(&share_sum_kwh.into()) {
        return Err(Number::BadShareSum.at(0));
    }
    residuals_within_limit(residuals_wh)?;
    curve_of(residuals_wh, share_sum_kwh)
}

/// "then 4 (H and P included)": H outside its range is 4 at place 0.
pub(crate) fn hours_within_limit(hours: usize) -> Result<(), Refusal> {
    count_within(hours, &limits::HOURS)
}

/// As `hours_within_limit`, for P.
pub(crate) fn parties_within_limit(parties: usize) -> Result<(), Refusal> {
    count_within(parties, &limits::PARTIES)
}

fn count_within(count: usize, range: &Range) -> Result<(), Refusal> {
    if range.contains(&(count as i128)) {
        Ok(())
    } else {
        Err(Number::OutsideRange.at(0))
    }
}

/// "Else the place of 4 is the first value outside in its list".
pub(crate) fn all_within<T: Copy + Into<i128>>(values: &[T], range: &Range) -> Result<(), Refusal> {
    match values
        .iter()
        .position(|&value| !range.contains(&value.into()))
    {
        Some(place) => Err(Number::OutsideRange.at(place)),
        None => Ok(()),
    }
}

/// "9 over all hours": the first residual that is too large. "each service takes residuals unsigned".
pub(crate) fn residuals_within_limit(residuals_wh: &[u32]) -> Result<(), Refusal> {
    let too_large = |&residual: &u32| i128::from(residual) > limits::RESIDUAL_WH_MAX;
    match residuals_wh.iter().position(too_large) {
        Some(hour) => Err(Number::ResidualTooLarge.at(hour)),
        None => Ok(()),
    }
}
