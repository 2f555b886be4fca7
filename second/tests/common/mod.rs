//! What several tests share.

use second::brp::brp;
use second::draft::{measured_hour, prices_of, Draft, DraftParty};
use second::gln::with_check_digit;
use second::hours::hours;
use second::preview::preview;
use second::record::{Heading, HourFlows, Reading};
use second::refusal::Refusal;
use second::statement::statement;

/// Number and place of a refusal that must have been given.
#[allow(dead_code)]
pub fn told<T>(answer: Result<T, Refusal>) -> (u8, usize) {
    match answer {
        Ok(_) => panic!("accepted"),
        Err(refusal) => (refusal.number as u8, refusal.place),
    }
}

/// April 2016 in area 7 with these load shares, fixed residuals (the refixed are the same) and readings; prices 0, carrier 0.
#[allow(dead_code)]
pub fn month_of(shares_kwh: &[u64], residuals_wh: &[i64], readings: &[Reading]) -> Draft {
    let hours = residuals_wh.iter().enumerate();
    let series: Vec<HourFlows> = hours.map(|(hour, &wh)| measured_hour(hour, wh)).collect();
    let party =
        |(number, &share_kwh): (u64, &u64)| DraftParty::of_02(with_check_digit(number), share_kwh);
    Draft {
        heading: Heading {
            area: 7,
            year: 2016,
            month: 4,
            hours: residuals_wh.len() as u16,
            parties: shares_kwh.len() as u8,
            carrier: 0,
        },
        parties: (1..).zip(shares_kwh).map(party).collect(),
        fixed: series.clone(),
        refixed: series,
        prices: prices_of(residuals_wh.iter().map(|_| 0)),
        readings: readings.to_vec(),
        end_count: None,
    }
}

/// That every program refuses a file with this one line.
#[allow(dead_code)]
#[track_caller]
pub fn assert_refused(file: &[u8], number: u8, place: usize) {
    assert_refused_as_final(file, number, place);
    assert_refused_as_provisional(file, number, place);
}

/// That the final programs refuse a file with this one line.
#[allow(dead_code)]
#[track_caller]
pub fn assert_refused_as_final(file: &[u8], number: u8, place: usize) {
    let line = format!("refused {number} at {place}\n");
    assert_eq!(statement(file), line);
    assert_eq!(hours(file), line);
    assert_eq!(brp(file), line);
}

/// That the programs that print money refuse a file with this one line.
#[allow(dead_code)]
#[track_caller]
pub fn assert_refused_for_amounts(file: &[u8], number: u8, place: usize) {
    let line = format!("refused {number} at {place}\n");
    assert_eq!(statement(file), line);
    assert_eq!(brp(file), line);
    assert_refused_as_provisional(file, number, place);
}

/// That the preview of a file is this one refusal line.
#[allow(dead_code)]
#[track_caller]
pub fn assert_refused_as_provisional(file: &[u8], number: u8, place: usize) {
    assert_eq!(preview(file), format!("refused {number} at {place}\n"));
}

/// That every program settles a file, and the preview as the statement.
#[allow(dead_code)]
#[track_caller]
pub fn assert_accepted(file: &[u8]) {
    let text = statement(file);
    assert!(text.starts_with("area "), "{text}");
    assert!(hours(file).starts_with("area "));
    assert_eq!(preview(file), text);
    assert!(brp(file).starts_with("area "));
}

/// That a file is settled as a provisional month, and refused as a final one.
#[allow(dead_code)]
#[track_caller]
pub fn assert_accepted_as_provisional(file: &[u8]) {
    assert_refused_as_final(file, 17, 0);
    let text = preview(file);
    let (heading, _) = text.split_once('\n').unwrap();
    assert!(heading.starts_with("area "), "{text}");
    assert!(heading.ends_with(" provisional"), "{text}");
}
