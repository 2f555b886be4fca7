//! Every limit of 01 and 02, once, under the sentence that gives it ("Numbers that bound it" of 01, if not said otherwise).
//!
//! Ranges are of 128-bit numbers, so that any machine value can be asked about.

use std::ops::RangeInclusive;

/// A range of 01, both ends included.
pub type Range = RangeInclusive<i128>;

/// "At most 65,536 bytes." (The month file)
pub const FILE_BYTES_MAX: usize = 65_536;

/// "Area 1..999."
pub const AREA: Range = 1..=999;
/// "Year 2000..2099."
pub const YEAR: Range = 2000..=2099;
/// "Month 1..12."
pub const MONTH: Range = 1..=12;
/// "H 1..745."
pub const HOURS: Range = 1..=745;
/// "P 1..64"
pub const PARTIES: Range = 1..=64;

/// "Load share 0..4,000,000,000" (kWh per year)
pub const LOAD_SHARE_KWH: Range = 0..=4_000_000_000;
/// "W 1..4,000,000,000." (kWh per year)
pub const SHARE_SUM_KWH: Range = 1..=4_000_000_000;

/// "Each hour has a status: 0 missing, 1 measured, 2 estimated." (From flows to the curve)
pub const STATUS: Range = 0..=2;
pub const STATUS_MISSING: u8 = 0;
pub const STATUS_MEASURED: u8 = 1;
pub const STATUS_ESTIMATED: u8 = 2;

/// "Net supply -8,000,000,000..8,000,000,000"
pub const NET_SUPPLY_WH: Range = -8_000_000_000..=8_000_000_000;
/// "other flows 0..8,000,000,000."
pub const OTHER_FLOW_WH: Range = 0..=8_000_000_000;

/// "Residual 0..2,000,000,000."
pub const RESIDUAL_WH_MAX: i128 = 2_000_000_000;
/// "Curve number at most 1,000,000,000."
pub const CURVE_NUMBER_MAX: u128 = 1_000_000_000;
/// "fixed residual x 1,000,000 / W" (From flows to the curve)
pub const CURVE_FACTOR: u128 = 1_000_000;

/// "E at most 1,000,000,000."
pub const READING_WH_MAX: u64 = 1_000_000_000;
/// "The service takes E and the weights alone, 1 to 8,784 hours of them." (Periodised consumption)
pub const WEIGHTS: Range = 1..=8_784;
/// "A yearly reading crosses up to thirteen month files." (02, W3)
pub const READING_MONTHS: Range = 1..=13;
/// "or the whole is over 8,784,000,000,000" (02, W3): so many hours at the largest curve number.
pub const WHOLE_WEIGHT_MAX: u128 = 8_784_000_000_000;
/// "All periodised consumption in an hour at most 2,000,000,000."
pub const PERIODISED_HOUR_WH_MAX: i128 = 2_000_000_000;

/// "distributed outside -1..2,000,000,001" (Refusal numbers, reconciliation of one hour)
pub const DISTRIBUTED_WH: Range = -1..=2_000_000_001;
/// "periodised outside 0..2,000,000,000" (Refusal numbers, reconciliation of one hour)
pub const PERIODISED_WH: Range = 0..=2_000_000_000;

/// "19, a difference beyond 2,000,000,001 Wh of either sign" (02, W6)
pub const DIFFERENCE_WH: Range = -2_000_000_001..=2_000_000_001;

/// "Price -5,000,000..5,000,000." (øre per MWh)
pub const PRICE_ORE: Range = -5_000_000..=5_000_000;
/// "in millionths of an øre" (Reconciliation): Wh times øre per MWh.
pub const MILLIONTHS_PER_ORE: i128 = 1_000_000;

/// "GLN 13 ASCII digits" (The month file)
pub const GLN_DIGITS: usize = 13;
