//! Distributed consumption (H2 5.3): the running sums of all parties, and the distribution service. (01, "Distributed
//! consumption")

use crate::largest_remainder::apportion;
use crate::limits;
use crate::refusal::{Number, Refusal};
use crate::residual::{
    all_within, hours_within_limit, parties_within_limit, residuals_within_limit, share_sum_kwh,
};

/// The distribution of a month as far as it has come: R and the parties' running sums after the hours so far.
pub(crate) struct Distribution<'a> {
    load_shares_kwh: &'a [u64],
    share_sum_kwh: u64,
    residual_sum_wh: i128,
    running_wh: Vec<i128>,
}

impl<'a> Distribution<'a> {
    /// Before hour 0: R is 0 and every running sum is 0. W is the sum of the shares.
    pub(crate) fn before_first_hour(load_shares_kwh: &'a [u64], share_sum_kwh: u64) -> Self {
        Distribution {
            load_shares_kwh,
            share_sum_kwh,
            residual_sum_wh: 0,
            running_wh: vec![0; load_shares_kwh.len()],
        }
    }

    /// The parties' figures of the next hour: "its running sum after t less that after t-1". A figure can be -1. "A party's
    /// running sum after t starts as share x R / W rounded down. The Wh still left over go one each to the parties with the
    /// largest remainders of that division".
    pub(crate) fn next_hour(&mut self, residual_wh: u32) -> Vec<i64> {
        self.residual_sum_wh += i128::from(residual_wh);
        let running_wh = apportion(
            self.residual_sum_wh,
            self.load_shares_kwh,
            self.share_sum_kwh,
        );
        let before_wh = std::mem::replace(&mut self.running_wh, running_wh);
        let grown = self.running_wh.iter().zip(&before_wh);
        grown
            .map(|(after, before)| (after - before) as i64)
            .collect()
    }
}

/// The distribution service: 16, 4 (H, P, the shares), 6, 9. The figures are handed back hour by hour, within an hour
/// party by party.
pub fn distribution(
    load_shares_kwh: &[u64],
    residuals_wh: &[u32],
    lent_length: usize,
) -> Result<Vec<i64>, Refusal> {
    let needed_length = load_shares_kwh.len() as u128 * residuals_wh.len() as u128;
    if lent_length as u128 != needed_length {
        return Err(Number::WrongOutputLength.at(0));
    }
    hours_within_limit(residuals_wh.len())?;
    parties_within_limit(load_shares_kwh.len())?;
    all_within(load_shares_kwh, &limits::LOAD_SHARE_KWH)?;
    let share_sum_kwh = share_sum_kwh(load_shares_kwh.iter().copied())?;
    residuals_within_limit(residuals_wh)?;
    let mut distribution = Distribution::before_first_hour(load_shares_kwh, share_sum_kwh);
    let hours = residuals_wh
        .iter()
        .flat_map(|&residual| distribution.next_hour(residual));
    Ok(hours.collect())
}
