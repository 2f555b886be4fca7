//! The hours' text: what the regulator's reviewer asks about one month. (00: which hours were measured, do the parts add
//! up in each hour, has anybody been pushed the same way all month)
//!
//! - the statement's heading line;
//! - one line per hour: the hour, the status of its fixed and of its applied figure, fixed residual, applied residual, curve
//!   number, all parties' distributed, all parties' periodised, grid loss;
//! - one line per party in file order: its GLN, then the smallest and the largest distance of its running sum from its
//!   exact share, taken after each hour, each as the exact fraction `n/W`, not in lowest terms.
//!
//! Sums and distances are taken of the figures themselves, and not of the rule that gave them: wrong figures would show.

use crate::limits::{STATUS_ESTIMATED, STATUS_MEASURED};
use crate::month::Month;
use crate::report::Report;
use crate::statement::{heading, line};

/// What the hours program prints for a month file.
pub fn hours(file: &[u8]) -> String {
    Report::Hours.of(file)
}

/// The hours of a settled month: heading, one line per hour, one line per party in order.
pub fn text(month: &Month) -> String {
    let mut lines = heading(month) + "\n";
    lines.extend((0..month.hours.len()).map(|hour| hour_line(month, hour)));
    lines.extend((0..month.file.parties.len()).map(|party| party_line(month, party)));
    lines
}

fn hour_line(month: &Month, hour: usize) -> String {
    let fixed_status = status_word(month.file.fixed[hour].status);
    let applied_status = status_word(month.applied_flows()[hour].status);
    let figures = &month.hours[hour];
    let columns = [
        month.fixed_wh[hour].into(),
        month.applied_wh()[hour].into(),
        month.curve[hour].into(),
        figures.distributed_wh.iter().sum(),
        figures.periodised_wh.iter().sum(),
        figures.loss_wh,
    ];
    line(&format!("{hour} {fixed_status} {applied_status}"), &columns)
}

/// The word for the status of a settled hour. There is none for a missing one: it must never pass for another.
fn status_word(status: u8) -> &'static str {
    match status {
        STATUS_MEASURED => "measured",
        STATUS_ESTIMATED => "estimated",
        _ => unreachable!("a month with a missing hour is refused"),
    }
}

fn party_line(month: &Month, party: usize) -> String {
    let gln = String::from_utf8_lossy(month.file.parties[party].gln);
    let share_sum_kwh = month.share_sum_kwh;
    let distances = distance_numerators(month, party);
    let smallest = distances.iter().min().expect("a month has an hour");
    let largest = distances.iter().max().expect("a month has an hour");
    format!("{gln} {smallest}/{share_sum_kwh} {largest}/{share_sum_kwh}\n")
}

/// W times the distance, in Wh, of a party's running sum from its exact share, after each hour: running sum x W - share x R.
fn distance_numerators(month: &Month, party: usize) -> Vec<i128> {
    let share_sum_kwh = i128::from(month.share_sum_kwh);
    let load_share_kwh = i128::from(month.file.parties[party].load_share_kwh);
    let (mut running_wh, mut residual_sum_wh) = (0i128, 0i128);
    let hours = month.hours.iter().zip(month.applied_wh());
    hours
        .map(|(figures, &residual_wh)| {
            running_wh += i128::from(figures.distributed_wh[party]);
            residual_sum_wh += i128::from(residual_wh);
            running_wh * share_sum_kwh - load_share_kwh * residual_sum_wh
        })
        .collect()
}
