//! The planner of a reading over several months: "a planner makes them from E, a of the first month, b of the last, the
//! party's number in each and the months' curves". (02, W3)
//!
//! "not 1 to 13 curves of 1 to 745 hours is 4; a reading over 8,784 hours or with an empty part in a month is 11; then 12,
//! 10, 13; all place 0".

use std::ops::Range;

use crate::limits;
use crate::record::{Reading, Surroundings};
use crate::refusal::{Number, Refusal};

/// The 08 records of a reading of E Wh from hour a of the first month to before hour b of the last, one for each month. The
/// months' curves are joined into one list; `hours` tells how many of its numbers each month has, `parties` what number the
/// reading's party has in it.
pub fn plan(
    e_wh: u64,
    a: u16,
    b: u16,
    parties: &[u8],
    hours: &[u16],
    curves: &[u32],
) -> Result<Vec<Reading>, Refusal> {
    records(e_wh, a, b, parties, hours, curves).map_err(|number| number.at(0))
}

/// The planner as C calls it, lent lists of these lengths for the records' a, b, weight before and weight of the whole: 16
/// first, where one is not as long as `hours`.
pub fn plan_lent(
    e_wh: u64,
    a: u16,
    b: u16,
    parties: &[u8],
    hours: &[u16],
    curves: &[u32],
    lent_lengths: [usize; 4],
) -> Result<Vec<Reading>, Refusal> {
    if lent_lengths.iter().any(|&length| length != hours.len()) {
        return Err(Number::WrongOutputLength.at(0));
    }
    plan(e_wh, a, b, parties, hours, curves)
}

fn records(
    e_wh: u64,
    a: u16,
    b: u16,
    parties: &[u8],
    hours: &[u16],
    curves: &[u32],
) -> Result<Vec<Reading>, Number> {
    if !is_list_of_months(parties, hours, curves) {
        return Err(Number::OutsideRange);
    }
    let parts = parts(a, b, hours).ok_or(Number::BadSpan)?;
    if e_wh > limits::READING_WH_MAX {
        return Err(Number::ReadingTooLarge);
    }
    // Every curve number is judged, also of the hours outside the reading.
    if curves
        .iter()
        .any(|&n| u128::from(n) > limits::CURVE_NUMBER_MAX)
    {
        return Err(Number::CurveNumberTooLarge);
    }
    let own_weights: Vec<u64> = month_curves(hours, curves)
        .zip(&parts)
        .map(|(curve, part)| weight(&curve[usize::from(part.start)..usize::from(part.end)]))
        .collect();
    let whole = own_weights.iter().sum();
    if e_wh > 0 && whole == 0 {
        return Err(Number::NoWeight);
    }
    let month = |(number, part): (usize, Range<u16>)| {
        let before = own_weights[..number].iter().sum();
        Reading::of_month(parties[number], part.start, part.end, e_wh as u32)
            .weighing(before, whole)
    };
    Ok(parts.into_iter().enumerate().map(month).collect())
}

/// What is not 4: a party for each month, 1 to 13 months of 1 to 745 hours that make up the list of curves, and parties that
/// a record alone can have.
fn is_list_of_months(parties: &[u8], hours: &[u16], curves: &[u32]) -> bool {
    let all_hours: usize = hours.iter().map(|&hours| usize::from(hours)).sum();
    parties.len() == hours.len()
        && limits::READING_MONTHS.contains(&(hours.len() as i128))
        && hours.iter().all(|&h| limits::HOURS.contains(&h.into()))
        && all_hours == curves.len()
        && parties.iter().all(|&p| p < Surroundings::ALONE.parties)
}

/// The reading's hours in each month: all of them but those before a in the first and from b on in the last. None, which
/// is 11, where a month has none, where b is beyond the last, or where there are more than a reading may have.
fn parts(a: u16, b: u16, hours: &[u16]) -> Option<Vec<Range<u16>>> {
    let last = hours.len() - 1;
    let part = |(number, &hours): (usize, &u16)| {
        let start = if number == 0 { a } else { 0 };
        let end = if number == last { b } else { hours };
        (start < end && end <= hours).then_some(start..end)
    };
    let parts: Vec<Range<u16>> = hours.iter().enumerate().map(part).collect::<Option<_>>()?;
    let all_hours: i128 = parts.iter().map(|part| part.len() as i128).sum();
    limits::WEIGHTS.contains(&all_hours).then_some(parts)
}

/// The joined list of curves, month by month.
fn month_curves<'a>(hours: &'a [u16], curves: &'a [u32]) -> impl Iterator<Item = &'a [u32]> {
    let mut rest = curves;
    hours.iter().map(move |&hours| {
        let (month, later) = rest.split_at(usize::from(hours));
        rest = later;
        month
    })
}

fn weight(curve: &[u32]) -> u64 {
    curve.iter().map(|&number| u64::from(number)).sum()
}
