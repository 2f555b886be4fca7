//! The maker of month files: valid ones of every shape, here, and damaged ones (`damage`), each with its expected outputs.
//!
//! Seed and file number alone decide a file. Every third file is valid; the shapes and the damages are gone through in
//! turn, their details are random. Most months are refixed, so that a final run gets past its 17 and to what comes after;
//! about a fifth are not. Most have their prices, so that a run that gives amounts gets past its 3; about a seventh have
//! none. "Valid" is said of a provisional run of quantities, which takes them all. A third of the months, valid or to be
//! damaged, has its parties as 12 records, under BRPs of every kind.

use std::collections::BTreeSet;
use std::fmt;
use std::fs;
use std::io;
use std::ops::RangeInclusive;
use std::path::Path;

use crate::damage;
use crate::draft::{measured_hour, prices_of, Draft, DraftParty};
use crate::gln::{with_check_digit, Gln};
use crate::limits::{
    CURVE_FACTOR, CURVE_NUMBER_MAX, FILE_BYTES_MAX, GLN_DIGITS, HOURS, PARTIES, READING_WH_MAX,
    RESIDUAL_WH_MAX, SHARE_SUM_KWH, STATUS_ESTIMATED, STATUS_MEASURED, WHOLE_WEIGHT_MAX,
};
use crate::month::{settle, Month};
use crate::periodisation::periodised_wh;
use crate::plan::plan;
use crate::random::Random;
use crate::record::{Heading, HourFlows, Reading, Weights};
use crate::refusal::{Number, Refusal};
use crate::report::Report;
use crate::residual::{curve_number, residual_wh};
use crate::setting::{Prices, Setting, Stage};

/// What the maker of a file meant it to give in a run. The expected output comes from the file itself; the tests hold the
/// two against each other.
#[derive(Clone, Copy, Debug, PartialEq, Eq)]
pub enum Aim {
    Accepted,
    Refused(Refusal),
    /// Random damage, or several faults of which the first is not foretold.
    Anything,
}

/// A file of a seed.
pub struct MadeFile {
    pub number: u64,
    /// The shape or the damage.
    pub name: &'static str,
    pub bytes: Vec<u8>,
    /// Whether the month was made with a refixed series.
    pub refixed: bool,
    /// Of a month made without prices, the record that stands where the price of hour 0 would.
    pub unpriced_at: Option<usize>,
    /// What a provisional run of quantities is to give.
    pub lenient_aim: Aim,
}

impl MadeFile {
    /// The file of these bytes, made of this draft as a provisional run of quantities reads it.
    pub fn new(
        number: u64,
        name: &'static str,
        draft: &Draft,
        bytes: Vec<u8>,
        lenient_aim: Aim,
    ) -> MadeFile {
        MadeFile {
            number,
            name,
            bytes,
            refixed: !draft.refixed.is_empty(),
            unpriced_at: draft.prices.is_empty().then(|| draft.at_price(0)),
            lenient_aim,
        }
    }

    /// What a run of this setting is to give. Where there are no prices a run that gives amounts has 3 there in place of
    /// acceptance and of every refusal that comes later. Where there are no 06 records a final run has 17 in place of
    /// acceptance and of every refusal that comes after the file is read.
    pub fn aim(&self, setting: Setting) -> Aim {
        let refusal = match self.lenient_aim {
            Aim::Anything => return Aim::Anything,
            Aim::Accepted => None,
            Aim::Refused(refusal) => Some(refusal),
        };
        let of_reading = refusal.filter(|refusal| !is_after_the_reading(refusal.number));
        if let (Prices::Needed, Some(record)) = (setting.prices, self.unpriced_at) {
            if !of_reading.is_some_and(|refusal| is_before_3_at(record, refusal)) {
                return Aim::Refused(Number::OutOfOrder.at(record));
            }
        }
        if setting.stage == Stage::Final && !self.refixed && of_reading.is_none() {
            return Aim::Refused(Number::NoRefixedSeries.at(0));
        }
        self.lenient_aim
    }
}

/// "record by record: 2, then 1, 3": whether a refusal of the reading comes before a 3 at this record.
fn is_before_3_at(record: usize, refusal: Refusal) -> bool {
    let of_record = matches!(refusal.number, Number::UnknownKind | Number::BrokenFile);
    refusal.place < record || (refusal.place == record && of_record)
}

/// "Then 6; then the fixed hours in order, each 7, 8, 9; .. 10 by hour; 13 by reading; 14 by hour", and 18 before the 13 of
/// the same reading (02, W3).
fn is_after_the_reading(number: Number) -> bool {
    matches!(
        number,
        Number::BadShareSum
            | Number::MissingHour
            | Number::NegativeResidual
            | Number::ResidualTooLarge
            | Number::CurveNumberTooLarge
            | Number::NoWeight
            | Number::TooMuchWeight
            | Number::TooMuchPeriodised
    )
}

/// The file of this number of a seed.
pub fn file(seed: u64, number: u64) -> MadeFile {
    let random = &mut Random::of_file(seed, number);
    let valid_before = number.div_ceil(3);
    if !number.is_multiple_of(3) {
        return damage::damaged(number, (number - valid_before) as usize, random);
    }
    let (name, shape) = SHAPES[(number / 3) as usize % SHAPES.len()];
    let draft = shape(random);
    MadeFile::new(number, name, &draft, draft.bytes(), Aim::Accepted)
}

/// The first so many files of a seed.
pub fn files(seed: u64, count: u64) -> impl Iterator<Item = MadeFile> {
    (0..count).map(move |number| file(seed, number))
}

/// Writes the files of a seed as NNNNNNN.month and what each program must print as NNNNNNN.statement, .hours, .preview
/// and .brp. Tells the tally of each setting.
pub fn write_files(seed: u64, count: u64, directory: &Path) -> io::Result<[Tally; 4]> {
    fs::create_dir_all(directory)?;
    let mut tallies = Setting::ALL.map(Tally::new);
    for made in files(seed, count) {
        let path = directory.join(format!("{:07}.month", made.number));
        fs::write(&path, &made.bytes)?;
        for report in Report::ALL {
            fs::write(path.with_extension(report.word()), report.of(&made.bytes))?;
        }
        for tally in &mut tallies {
            tally.count(&settle(&made.bytes, tally.setting));
        }
    }
    Ok(tallies)
}

/// How often files were accepted in runs of a setting, and how often refused with each number.
pub struct Tally {
    pub setting: Setting,
    pub accepted: u64,
    /// Of the accepted ones, those of `HOURS` and `PARTIES` at their most.
    pub of_full_size: u64,
    /// Of the accepted ones, those that are not refixed.
    pub not_refixed: u64,
    /// Of the accepted ones, those whose parties are 12 records.
    pub of_12_records: u64,
    /// Of the accepted ones, those without prices.
    pub without_prices: u64,
    /// By refusal number.
    pub refused: [u64; 20],
}

impl Tally {
    pub fn new(setting: Setting) -> Self {
        Tally {
            setting,
            accepted: 0,
            of_full_size: 0,
            not_refixed: 0,
            of_12_records: 0,
            without_prices: 0,
            refused: [0; 20],
        }
    }

    /// The refusals that a file can get in this setting: 1 to 15, a final run's 17, and 18.
    fn numbers(&self) -> impl Iterator<Item = usize> {
        let of_setting = match self.setting.stage {
            Stage::Final => Some(17),
            Stage::Provisional => None,
        };
        (1..=15).chain(of_setting).chain([18])
    }

    pub fn count(&mut self, judged: &Result<Month, Refusal>) {
        match judged {
            Ok(month) => {
                let heading = &month.file.heading;
                self.accepted += 1;
                self.of_full_size += u64::from(
                    i128::from(heading.hours) == *HOURS.end()
                        && i128::from(heading.parties) == *PARTIES.end(),
                );
                self.not_refixed += u64::from(month.refixed_wh.is_empty());
                self.of_12_records += u64::from(month.file.parties[0].brp_gln.is_some());
                self.without_prices += u64::from(month.file.prices.is_empty());
            }
            Err(refusal) => self.refused[refusal.number as usize] += 1,
        }
    }

    /// Adds what another tally has counted.
    pub fn add(&mut self, other: &Tally) {
        self.accepted += other.accepted;
        self.of_full_size += other.of_full_size;
        self.not_refixed += other.not_refixed;
        self.of_12_records += other.of_12_records;
        self.without_prices += other.without_prices;
        for (count, more) in self.refused.iter_mut().zip(other.refused) {
            *count += more;
        }
    }

    /// Fails, naming them, if some of the refusals of the setting did not occur, or no accepted month of full size or none
    /// of less, or none of 02 records or none of 12, or in provisional runs no accepted month that is refixed or none that is
    /// not, or in runs of quantities no accepted month with prices or none without.
    pub fn complete(&self) -> Result<(), String> {
        let mut missing: Vec<String> = self
            .numbers()
            .filter(|&number| self.refused[number] == 0)
            .map(|number| format!("refused {number}"))
            .collect();
        if self.accepted == self.of_full_size {
            missing.push("accepted, small".to_string());
        }
        if self.of_full_size == 0 {
            missing.push("accepted, of full size".to_string());
        }
        if self.accepted == self.of_12_records {
            missing.push("accepted, of 02 records".to_string());
        }
        if self.of_12_records == 0 {
            missing.push("accepted, of 12 records".to_string());
        }
        if self.accepted == self.not_refixed {
            missing.push("accepted, refixed".to_string());
        }
        if self.setting.stage == Stage::Provisional && self.not_refixed == 0 {
            missing.push("accepted, not refixed".to_string());
        }
        if self.accepted == self.without_prices {
            missing.push("accepted, with prices".to_string());
        }
        if self.setting.prices == Prices::Optional && self.without_prices == 0 {
            missing.push("accepted, without prices".to_string());
        }
        if missing.is_empty() {
            Ok(())
        } else {
            Err(format!("did not occur: {}", missing.join("; ")))
        }
    }
}

impl fmt::Display for Tally {
    fn fmt(&self, out: &mut fmt::Formatter) -> fmt::Result {
        writeln!(out, "{}", self.setting.words())?;
        for number in self.numbers() {
            writeln!(out, "refused {number}: {}", self.refused[number])?;
        }
        writeln!(
            out,
            "accepted: {}, of which of full size: {}, of 12 records: {}, not refixed: {}, without prices: {}",
            self.accepted,
            self.of_full_size,
            self.of_12_records,
            self.not_refixed,
            self.without_prices
        )
    }
}

type Shape = fn(&mut Random) -> Draft;

/// The valid shapes, in the order in which they are made.
pub const SHAPES: &[(&str, Shape)] = &[
    ("small", |random| small_month(random, true)),
    ("small, not refixed", |random| small_month(random, false)),
    ("one hour, one party", |random| {
        let refixed = is_refixed(random);
        month(random, 1, 1, refixed, 2)
    }),
    ("745 hours, 64 parties", |random| {
        // 64 parties of 12 records leave room for so many.
        let readings = random.below(440);
        month(random, 745, 64, true, readings)
    }),
    ("745 hours, 64 parties, not refixed", |random| {
        let readings = random.below(400);
        month(random, 745, 64, false, readings)
    }),
    ("a month of 28 to 31 days", |random| {
        let hours = *random.pick(&[671, 672, 696, 719, 720, 721, 743, 744, 745]);
        let (parties, refixed) = (10 + random.below(30), is_refixed(random));
        month(random, hours, parties, refixed, 100)
    }),
    ("spans of real zeros", real_zeros),
    ("no consumption at all", no_consumption),
    ("estimated hours", estimated_hours),
    ("zero shares", |random| {
        let parties = 2 + random.below(6);
        let mut shares = random_shares(random, parties);
        for _ in 0..parties - 1 {
            let party = random.below(parties);
            if shares.iter().sum::<u64>() > shares[party] {
                shares[party] = 0;
            }
        }
        small_month_of(random, shares)
    }),
    ("equal shares", |random| {
        let parties = 2 + random.below(9);
        let share = 1 + random.any_size(4_000_000_000 / parties as u64 - 1);
        small_month_of(random, vec![share; parties])
    }),
    ("W at its upper limit", |random| {
        let parties = 1 + random.below(6);
        let shares = shares_of_sum(random, parties, 4_000_000_000);
        small_month_of(random, shares)
    }),
    ("W 1", |random| {
        let mut shares = vec![0; 1 + random.below(4)];
        let party = random.below(shares.len());
        shares[party] = 1;
        small_month_of(random, shares)
    }),
    ("negative prices", |random| {
        let refixed = is_refixed(random);
        let mut draft = small_month(random, refixed);
        for price in &mut draft.prices {
            price.price_ore = -1 - random.any_size(4_999_999) as i32;
        }
        draft
    }),
    ("prices at their limits", |random| {
        let refixed = is_refixed(random);
        let mut draft = small_month(random, refixed);
        set_prices(random, &mut draft, &[-5_000_000, 5_000_000]);
        draft
    }),
    ("negative net supply", negative_net_supply),
    ("flows at their limits", flows_at_limits),
    ("many overlapping readings", |random| {
        // As many hours as leave room for them.
        let (hours, refixed) = *random.pick(&[(400, true), (600, true), (745, false)]);
        let most = if hours == 600 { 1_700 } else { 3_100 };
        let (parties, readings) = (1 + random.below(8), random.between(500, most) as usize);
        month(random, hours, parties, refixed, readings)
    }),
    ("readings over several months", |random| {
        let (hours, parties) = (2 + random.below(20), 1 + random.below(5));
        let refixed = is_refixed(random);
        let mut draft = month(random, hours, parties, refixed, 0);
        let (of_month, over_months) = (random.below(5), 2 + random.below(6));
        add_readings_of_kinds(random, &mut draft, of_month, over_months);
        draft
    }),
    ("planned readings", planned_readings),
    ("weights at their limits", weights_at_limits),
    (
        "readings over several months without weight here",
        no_weight_here,
    ),
    ("E 0 over zero weights", nothing_over_zero_weights),
    ("E at its limit", |random| {
        let refixed = is_refixed(random);
        let mut draft = month_of_residual(random, 2_000_000_000, refixed);
        let hours = draft.fixed.len();
        add_reading(random, &mut draft, 0, hours, READING_WH_MAX as u32);
        add_reading(random, &mut draft, 0, 1, READING_WH_MAX as u32);
        draft
    }),
    ("residual at its limit", |random| {
        let refixed = is_refixed(random);
        let mut draft = month_of_residual(random, 2_000_000_000, refixed);
        add_readings(random, &mut draft, 4);
        draft
    }),
    ("curve number at its limit", curve_number_at_limit),
    ("2,000,000,000 periodised in an hour", |random| {
        let refixed = is_refixed(random);
        let mut draft = month_of_residual(random, 1_500_000_000, refixed);
        let hour = random.below(draft.fixed.len());
        add_reading(random, &mut draft, hour, hour + 1, READING_WH_MAX as u32);
        add_reading(random, &mut draft, hour, hour + 1, READING_WH_MAX as u32);
        draft
    }),
    ("65,536 bytes", |random| longest_file(random, true)),
    ("heading at its limits", |random| {
        let refixed = is_refixed(random);
        let mut draft = small_month(random, refixed);
        draft.heading.area = *random.pick(&[1, 99, 100, 999]);
        draft.heading.year = *random.pick(&[2000, 2099]);
        draft.heading.month = *random.pick(&[1, 9, 10, 12]);
        draft.heading.carrier = *random.pick(&[0, draft.heading.parties - 1]);
        draft
    }),
    ("no readings", |random| {
        let refixed = is_refixed(random);
        let mut draft = small_month(random, refixed);
        draft.readings.clear();
        draft
    }),
    ("GLNs at their limits", |random| {
        let refixed = is_refixed(random);
        let mut draft = month(random, 2, 5, refixed, 3);
        draft.parties[0].gln = with_check_digit(0);
        draft.parties[1].gln = with_check_digit(1);
        draft.parties[3].gln = with_check_digit(999_999_999_998);
        draft.parties[4].gln = with_check_digit(999_999_999_999);
        draft
    }),
    ("positive residuals, curve numbers 0", |random| {
        let refixed = is_refixed(random);
        let mut draft = month_of_shares(random, 6, vec![4_000_000_000, 0], refixed);
        set_residuals(random, &mut draft.fixed, 1..=3_999);
        add_readings(random, &mut draft, 3);
        draft
    }),
    ("negative grid loss", |random| {
        let mut draft = month_of_residual(random, 2_000_000_000, true);
        set_residuals(random, &mut draft.refixed, 0..=1_000);
        add_readings(random, &mut draft, 6);
        draft
    }),
    ("ties and small residuals", |random| {
        let parties = 2 + random.below(10);
        let shares = (0..parties).map(|_| *random.pick(&[0, 1, 2, 2, 6, 6]));
        let mut shares: Vec<u64> = shares.collect();
        shares[parties / 2] = 6;
        let (hours, refixed) = (10 + random.below(40), is_refixed(random));
        let mut draft = month_of_shares(random, hours, shares, refixed);
        for series in [&mut draft.fixed, &mut draft.refixed] {
            set_residuals(random, series, 0..=13);
        }
        add_readings(random, &mut draft, 5);
        set_prices(random, &mut draft, &[250_000, -250_000, 500_000, 750_000]);
        draft
    }),
    ("amounts of half an øre", |random| {
        let parties = 3 + random.below(10);
        let shares = shares_of_sum(random, parties, 9);
        let refixed = is_refixed(random);
        let mut draft = month_of_shares(random, 3, shares, refixed);
        set_residuals(random, &mut draft.fixed, 1_000..=2_000);
        add_readings(random, &mut draft, parties);
        // Any difference at these prices is a whole number of half øre.
        set_prices(random, &mut draft, &[500_000, -500_000, 1_500_000]);
        draft
    }),
    ("largest sums", |random| {
        let shares = shares_of_sum(random, 64, 4_000_000_000);
        let refixed = is_refixed(random);
        let mut draft = month_of_shares(random, 745, shares, refixed);
        for series in [&mut draft.fixed, &mut draft.refixed] {
            set_residuals(random, series, 2_000_000_000..=2_000_000_000);
        }
        add_readings(random, &mut draft, 60);
        draft
    }),
    ("largest amounts", largest_amounts),
    ("one BRP for all", |random| {
        let (parties, refixed) = (2 + random.below(9), is_refixed(random));
        let mut draft = month(random, 3, parties, refixed, 8);
        give_brps(random, &mut draft.parties, one_for_all);
        draft
    }),
    ("each its own BRP, in 12 records", |random| {
        let (parties, refixed) = (1 + random.below(9), is_refixed(random));
        let mut draft = month(random, 3, parties, refixed, 8);
        give_brps(random, &mut draft.parties, each_its_own);
        draft
    }),
    ("parts of an øre, of suppliers of a few BRPs", |random| {
        // Refixed: the BRP program is final.
        let parties = 20 + random.below(44);
        let shares = shares_of_sum(random, parties, 997);
        let mut draft = month_of_shares(random, 4, shares, true);
        for series in [&mut draft.fixed, &mut draft.refixed] {
            set_residuals(random, series, 1_000..=2_000);
        }
        add_readings(random, &mut draft, parties);
        set_prices(random, &mut draft, &[300_000, -450_000, 250_000, 730_001]);
        give_brps(random, &mut draft.parties, a_few);
        draft
    }),
    ("745 hours, one party", |random| {
        let refixed = is_refixed(random);
        month(random, 745, 1, refixed, 30)
    }),
    ("no prices", |random| {
        without_prices(small_month(random, true))
    }),
    ("no prices, not refixed", |random| {
        without_prices(small_month(random, false))
    }),
    ("no prices and no readings", |random| {
        let refixed = is_refixed(random);
        let mut draft = without_prices(small_month(random, refixed));
        draft.readings.clear();
        draft
    }),
    ("no prices, an 08 where they would begin", |random| {
        let (hours, parties) = (1 + random.below(6), 1 + random.below(5));
        let refixed = is_refixed(random);
        let mut draft = without_prices(month(random, hours, parties, refixed, 0));
        let of_month = random.below(3);
        add_readings_of_kinds(random, &mut draft, of_month, 1);
        let is_04 = |reading: &Reading| reading.weights.is_none();
        draft.readings.sort_by_key(is_04);
        draft
    }),
    ("no prices, 12 records", |random| {
        let refixed = is_refixed(random);
        let mut draft = without_prices(small_month(random, refixed));
        give_any_brps(random, &mut draft.parties);
        draft
    }),
    ("no prices, 745 hours, 64 parties", |random| {
        let (readings, refixed) = (random.below(400), is_refixed(random));
        without_prices(month(random, 745, 64, refixed, readings))
    }),
    ("no prices, 65,536 bytes", |random| {
        longest_file(random, false)
    }),
];

/// Whether a month gets a refixed series: four times in five.
pub fn is_refixed(random: &mut Random) -> bool {
    !random.once_in(5)
}

/// The month before its prices have come: "Prices reach us days after the volumes." (02, W6)
pub fn without_prices(mut draft: Draft) -> Draft {
    draft.prices.clear();
    draft
}

/// A month of random figures, accepted by its making.
pub fn month(
    random: &mut Random,
    hours: usize,
    parties: usize,
    refixed: bool,
    readings: usize,
) -> Draft {
    let shares = random_shares(random, parties);
    let mut draft = month_of_shares(random, hours, shares, refixed);
    add_readings(random, &mut draft, readings);
    draft
}

fn small_month(random: &mut Random, refixed: bool) -> Draft {
    let (hours, parties, readings) = (1 + random.below(6), 1 + random.below(5), random.below(7));
    month(random, hours, parties, refixed, readings)
}

fn small_month_of(random: &mut Random, shares_kwh: Vec<u64>) -> Draft {
    let (hours, refixed) = (1 + random.below(6), is_refixed(random));
    let mut draft = month_of_shares(random, hours, shares_kwh, refixed);
    add_readings(random, &mut draft, 4);
    draft
}

/// A month without readings, of these load shares.
fn month_of_shares(
    random: &mut Random,
    hours: usize,
    shares_kwh: Vec<u64>,
    refixed: bool,
) -> Draft {
    let share_sum: u64 = shares_kwh.iter().sum();
    let parties = parties_of_shares(random, &shares_kwh);
    let most_fixed = most_residual_wh(share_sum);
    // Once in a while the residuals are all small, so that remainders decide.
    let scale = random.any_size(most_fixed as u64) as i64;
    let highest = *random.pick(&[most_fixed, scale, most_fixed / 2]);
    let series = |random: &mut Random, highest: i64| -> Vec<HourFlows> {
        let hours = 0..hours;
        hours
            .map(|hour| {
                let residual = random.between(0, highest);
                random_hour(random, hour, residual)
            })
            .collect()
    };
    Draft {
        heading: Heading {
            area: random.between(1, 999) as u16,
            year: random.between(2000, 2099) as u16,
            month: random.between(1, 12) as u8,
            hours: hours as u16,
            parties: shares_kwh.len() as u8,
            carrier: random.below(shares_kwh.len()) as u8,
        },
        parties,
        fixed: series(random, highest),
        refixed: if refixed {
            // The curve does not bound the refixed series.
            let highest = if random.once_in(4) {
                RESIDUAL_WH_MAX as i64
            } else {
                highest
            };
            series(random, highest)
        } else {
            Vec::new()
        },
        prices: prices_of((0..hours).map(|_| random.between(-1_000_000, 5_000_000) as i32)),
        readings: Vec::new(),
        end_count: None,
    }
}

/// A small month whose every fixed hour has this residual, and W so large that the curve numbers are well in their limit.
fn month_of_residual(random: &mut Random, residual_wh: i64, refixed: bool) -> Draft {
    let parties = 1 + random.below(5);
    let share_sum = random.between(2_000_000, 4_000_000_000) as u64;
    let shares = shares_of_sum(random, parties, share_sum);
    let hours = 1 + random.below(5);
    let mut draft = month_of_shares(random, hours, shares, refixed);
    for series in [&mut draft.fixed, &mut draft.refixed] {
        set_residuals(random, series, residual_wh..=residual_wh);
    }
    draft
}

/// Gives every hour of a series new flows with a residual from this range.
fn set_residuals(random: &mut Random, series: &mut [HourFlows], range_wh: RangeInclusive<i64>) {
    for flows in series {
        let residual = random.between(*range_wh.start(), *range_wh.end());
        *flows = random_hour(random, usize::from(flows.hour), residual);
    }
}

/// Gives every hour one of these prices. At a few quarters or halves of an øre per Wh several parties' amounts have the same
/// part of an øre over, so that a missing øre is given by a tie.
fn set_prices(random: &mut Random, draft: &mut Draft, prices_ore: &[i32]) {
    for price in &mut draft.prices {
        price.price_ore = *random.pick(prices_ore);
    }
}

/// Parties of these load shares, in two times of three as 02 records, else as 12.
fn parties_of_shares(random: &mut Random, shares_kwh: &[u64]) -> Vec<DraftParty> {
    let glns = rising_glns(random, shares_kwh.len()).into_iter();
    let parties = glns.zip(shares_kwh);
    let mut parties: Vec<DraftParty> = parties
        .map(|(gln, &load_share_kwh)| DraftParty::of_02(gln, load_share_kwh))
        .collect();
    if random.once_in(3) {
        give_any_brps(random, &mut parties);
    }
    parties
}

/// What BRP GLNs suppliers of these GLNs get, one each.
type Brps = fn(&mut Random, &[Gln]) -> Vec<Gln>;

/// The ways in which suppliers can be under BRPs. The common one stands here several times: only where a BRP has some of the
/// suppliers, and not all, it shows when their whole øre are made.
const BRPS: [Brps; 6] = [one_for_all, a_few, each_its_own, a_few, each_another, a_few];

/// Makes all parties 12 records, under BRPs in one of these ways.
pub fn give_any_brps(random: &mut Random, parties: &mut [DraftParty]) {
    let brps = *random.pick(&BRPS);
    give_brps(random, parties, brps);
}

fn give_brps(random: &mut Random, parties: &mut [DraftParty], brps: Brps) {
    let suppliers: Vec<Gln> = parties.iter().map(|party| party.gln).collect();
    for (party, brp) in parties.iter_mut().zip(brps(random, &suppliers)) {
        *party = party.under(brp);
    }
}

/// One BRP of all suppliers, one of them or another party.
fn one_for_all(random: &mut Random, suppliers: &[Gln]) -> Vec<Gln> {
    vec![any_brp(random, suppliers); suppliers.len()]
}

/// Every supplier its own BRP, as in a file of 02 records.
fn each_its_own(_: &mut Random, suppliers: &[Gln]) -> Vec<Gln> {
    suppliers.to_vec()
}

/// A BRP for every supplier, hardly ever in rising order; now and then some other supplier.
fn each_another(random: &mut Random, suppliers: &[Gln]) -> Vec<Gln> {
    let others = suppliers.iter();
    others.map(|_| any_brp(random, suppliers)).collect()
}

/// Suppliers of a few BRPs, in any order.
fn a_few(random: &mut Random, suppliers: &[Gln]) -> Vec<Gln> {
    let brps: Vec<Gln> = (0..2 + random.below(4))
        .map(|_| any_brp(random, suppliers))
        .collect();
    let suppliers = suppliers.iter();
    suppliers.map(|_| *random.pick(&brps)).collect()
}

/// The GLN of a supplier, the lowest and the highest there is, or any other.
fn any_brp(random: &mut Random, suppliers: &[Gln]) -> Gln {
    match random.below(8) {
        0 | 1 => *random.pick(suppliers),
        2 => with_check_digit(*random.pick(&[0, 999_999_999_999])),
        _ => with_check_digit(random.below(1_000_000_000_000) as u64),
    }
}

/// So many different GLNs in rising order.
fn rising_glns(random: &mut Random, count: usize) -> Vec<Gln> {
    let mut first_twelve = BTreeSet::new();
    while first_twelve.len() < count {
        first_twelve.insert(random.below(1_000_000_000_000) as u64);
    }
    first_twelve.into_iter().map(with_check_digit).collect()
}

/// Load shares of all sizes, some 0, with W in its limits.
fn random_shares(random: &mut Random, parties: usize) -> Vec<u64> {
    let highest = 4_000_000_000 / parties as u64;
    let mut shares: Vec<u64> = (0..parties)
        .map(|_| match random.below(4) {
            0 => random.any_size(highest),
            _ => random.below(highest as usize) as u64,
        })
        .collect();
    if shares.iter().all(|&share| share == 0) {
        shares[0] = 1;
    }
    shares
}

/// Random load shares that add up to this.
fn shares_of_sum(random: &mut Random, parties: usize, sum: u64) -> Vec<u64> {
    let mut borders: Vec<u64> = (1..parties)
        .map(|_| random.below(sum as usize + 1) as u64)
        .collect();
    borders.sort_unstable();
    borders.push(sum);
    let mut before = 0;
    borders
        .into_iter()
        .map(|border| border - std::mem::replace(&mut before, border))
        .collect()
}

/// The largest fixed residual that W lets pass: within its own limit, and its curve number within that of the curve.
pub fn most_residual_wh(share_sum_kwh: u64) -> i64 {
    // residual x 1,000,000 / W rounded down is at most the limit exactly when residual x 1,000,000 < (limit + 1) x W.
    let by_curve =
        ((CURVE_NUMBER_MAX + 1) * u128::from(share_sum_kwh)).saturating_sub(1) / CURVE_FACTOR;
    by_curve.min(RESIDUAL_WH_MAX as u128) as i64
}

/// An hour with random flows that come to this residual, from -2,000,000,000 up; measured, or now and then estimated.
pub fn random_hour(random: &mut Random, hour: usize, residual_wh: i64) -> HourFlows {
    let production_wh = random.any_size(6_000_000_000);
    let hourly_wh = random.any_size(2_000_000_000);
    let flex_wh = random.any_size(2_000_000_000);
    HourFlows {
        hour: hour as u16,
        status: if random.once_in(8) {
            STATUS_ESTIMATED
        } else {
            STATUS_MEASURED
        },
        net_supply_wh: residual_wh - production_wh as i64 + hourly_wh as i64 + flex_wh as i64,
        production_wh,
        hourly_wh,
        flex_wh,
    }
}

/// The bytes of a 04 and of an 08 record.
const BYTES_OF_MONTH: usize = 10;
const BYTES_OVER_MONTHS: usize = 26;

/// Adds so many random readings, about a quarter of them over several months, where the file has room for these.
pub fn add_readings(random: &mut Random, draft: &mut Draft, count: usize) {
    let longer = BYTES_OVER_MONTHS - BYTES_OF_MONTH;
    let most = spare_bytes(draft).saturating_sub(count * BYTES_OF_MONTH) / longer;
    let wanted = (0..count).filter(|_| random.once_in(4)).count();
    let over_months = wanted.min(most);
    add_readings_of_kinds(random, draft, count - over_months, over_months);
}

/// What a file of this draft may still grow by, if a damage is to add a refixed series, BRPs and a few records and it is
/// still to be no longer than a file may be.
fn spare_bytes(draft: &Draft) -> usize {
    let refixed = if draft.refixed.is_empty() {
        36 * draft.fixed.len()
    } else {
        0
    };
    let of_02 = draft.parties.iter().filter(|p| p.brp_gln.is_none());
    let brps = GLN_DIGITS * of_02.count();
    FILE_BYTES_MAX.saturating_sub(draft.bytes().len() + refixed + brps + 1_000)
}

/// Adds random readings of this month and over several, so many of each, in any order and overlapping as they fall, each
/// with an E that the curve and the hours' limit still take.
fn add_readings_of_kinds(
    random: &mut Random,
    draft: &mut Draft,
    of_month: usize,
    over_months: usize,
) {
    let mut are_over_months = vec![false; of_month];
    are_over_months.resize(of_month + over_months, true);
    random.shuffle(&mut are_over_months);
    let curve = curve(draft);
    let mut room_wh = vec![2_000_000_000u64; curve.len()];
    for is_over_months in are_over_months {
        let a = random.below(curve.len());
        let b = random.between(a as i64 + 1, curve.len() as i64) as usize;
        let weights = is_over_months.then(|| random_weights(random, own_weight(&curve[a..b])));
        let wanted_wh = match random.below(8) {
            0 => 0,
            1 => READING_WH_MAX,
            _ => random.any_size(READING_WH_MAX),
        };
        let e_wh = fitting_e_wh(wanted_wh, weights, &curve[a..b], &mut room_wh[a..b]);
        add_reading(random, draft, a, b, e_wh as u32).weights = weights;
    }
}

/// Adds a reading of a random party within this month, and hands it back to be changed.
fn add_reading<'a>(
    random: &mut Random,
    draft: &'a mut Draft,
    a: usize,
    b: usize,
    e_wh: u32,
) -> &'a mut Reading {
    let party = random.below(draft.parties.len()) as u8;
    let reading = Reading::of_month(party, a as u16, b as u16, e_wh);
    draft.readings.push(reading);
    draft.readings.last_mut().expect("one was added")
}

/// The month's own weight of a reading over these numbers of its curve.
pub fn own_weight(curve: &[u32]) -> u64 {
    curve.iter().map(|&number| u64::from(number)).sum()
}

/// Good weights of a reading over several months with this weight in this one: months before it, after it, both, neither;
/// about as heavy as this one, or of any size.
pub fn random_weights(random: &mut Random, own: u64) -> Weights {
    let most = WHOLE_WEIGHT_MAX as u64 - own;
    let mut other = |most: u64| match random.below(4) {
        0 => 0,
        1 => random.any_size(most),
        2 => random.any_size(own).min(most),
        _ => random.between(0, 6 * own as i64 + 6).min(most as i64) as u64,
    };
    let before = other(most);
    let after = other(most - before);
    Weights {
        before,
        whole: before + own + after,
    }
}

/// The wanted E, or less of it where the hours have no room for it, or 0 where there is no weight. Takes the room.
fn fitting_e_wh(
    wanted_wh: u64,
    of_reading: Option<Weights>,
    weights: &[u32],
    room_wh: &mut [u64],
) -> u64 {
    let mut e_wh = wanted_wh;
    while e_wh > 0 {
        let Ok(figures) = periodised_wh(e_wh, of_reading, weights) else {
            return 0;
        };
        if figures
            .iter()
            .zip(room_wh.iter())
            .all(|(figure, room)| figure <= room)
        {
            for (room, figure) in room_wh.iter_mut().zip(figures) {
                *room -= figure;
            }
            return e_wh;
        }
        e_wh /= 1_000;
    }
    0
}

/// The curve of a draft whose fixed hours and shares are good; of another, some numbers.
pub fn curve(draft: &Draft) -> Vec<u32> {
    let [least, most] = [SHARE_SUM_KWH.start(), SHARE_SUM_KWH.end()].map(|&limit| limit as u128);
    let share_sum = draft.share_sum_kwh().clamp(least, most) as u64;
    let residuals = draft.fixed.iter().map(residual_of);
    residuals
        .map(|residual| curve_number(residual, share_sum) as u32)
        .collect()
}

/// The residual of an hour that has a good one.
fn residual_of(flows: &HourFlows) -> u32 {
    let residual_wh = residual_wh(
        flows.net_supply_wh,
        flows.production_wh,
        flows.hourly_wh,
        flows.flex_wh,
    );
    residual_wh as u32
}

/// Spans of hours whose residual is a real zero, in the fixed series and, elsewhere, in the refixed one.
fn real_zeros(random: &mut Random) -> Draft {
    let (hours, parties) = (6 + random.below(30), 1 + random.below(5));
    let refixed = is_refixed(random);
    let mut draft = month(random, hours, parties, refixed, 0);
    for series in [&mut draft.fixed, &mut draft.refixed] {
        let from = random.below(hours / 2);
        let length = 1 + random.below(hours / 2);
        let zeros = series.iter_mut().skip(from).take(length);
        zeros.for_each(|flows| *flows = random_hour(random, usize::from(flows.hour), 0));
    }
    add_readings(random, &mut draft, 8);
    draft
}

/// Every hour a real zero: no curve, nothing distributed, readings of 0 only.
fn no_consumption(random: &mut Random) -> Draft {
    let refixed = is_refixed(random);
    let mut draft = month(random, 5, 3, refixed, 0);
    for series in [&mut draft.fixed, &mut draft.refixed] {
        set_residuals(random, series, 0..=0);
    }
    add_readings(random, &mut draft, 3);
    draft
}

/// Estimated hours in both series, at different hours, so that the count shows which series is applied.
fn estimated_hours(random: &mut Random) -> Draft {
    let (hours, refixed) = (4 + random.below(20), is_refixed(random));
    let mut draft = month(random, hours, 3, refixed, 5);
    for (series, once_in) in [(&mut draft.fixed, 2), (&mut draft.refixed, 3)] {
        for flows in series.iter_mut() {
            let estimated = random.once_in(once_in);
            flows.status = if estimated {
                STATUS_ESTIMATED
            } else {
                STATUS_MEASURED
            };
        }
    }
    draft
}

/// An area that produces more than it uses.
fn negative_net_supply(random: &mut Random) -> Draft {
    let refixed = is_refixed(random);
    let mut draft = small_month(random, refixed);
    for series in [&mut draft.fixed, &mut draft.refixed] {
        for flows in series.iter_mut() {
            let residual = residual_of(flows) as u64;
            let exported_wh = random.between(1, 2_000_000_000);
            flows.hourly_wh = random.any_size(2_000_000_000);
            flows.flex_wh = random.any_size(2_000_000_000);
            flows.net_supply_wh = -exported_wh;
            flows.production_wh = residual + flows.hourly_wh + flows.flex_wh + exported_wh as u64;
        }
    }
    draft
}

/// Net supply, production, hourly and flex at both ends of their ranges, with residuals 0 and 2,000,000,000.
const FLOWS_AT_LIMITS: [(i64, u64, u64, u64); 7] = [
    (8_000_000_000, 8_000_000_000, 8_000_000_000, 8_000_000_000),
    (-8_000_000_000, 8_000_000_000, 0, 0),
    (8_000_000_000, 0, 8_000_000_000, 0),
    (8_000_000_000, 0, 0, 8_000_000_000),
    (8_000_000_000, 2_000_000_000, 8_000_000_000, 0),
    (-6_000_000_000, 8_000_000_000, 0, 0),
    (8_000_000_000, 8_000_000_000, 8_000_000_000, 6_000_000_000),
];

/// One hour of each, in another order in the refixed series.
fn flows_at_limits(random: &mut Random) -> Draft {
    let hours = FLOWS_AT_LIMITS.len();
    let shares = shares_of_sum(random, 3, 4_000_000_000);
    let refixed = is_refixed(random);
    let mut draft = month_of_shares(random, hours, shares, refixed);
    let turned = random.below(hours);
    for (series, turned) in [(&mut draft.fixed, 0), (&mut draft.refixed, turned)] {
        for (hour, flows) in series.iter_mut().enumerate() {
            let (net, production, hourly, flex) = FLOWS_AT_LIMITS[(hour + turned) % hours];
            flows.net_supply_wh = net;
            flows.production_wh = production;
            flows.hourly_wh = hourly;
            flows.flex_wh = flex;
        }
    }
    add_readings(random, &mut draft, 3);
    draft
}

/// Readings of 0 over hours without any weight, beside others.
fn nothing_over_zero_weights(random: &mut Random) -> Draft {
    let refixed = is_refixed(random);
    let mut draft = month(random, 6, 3, refixed, 0);
    for hour in 2..4 {
        draft.fixed[hour] = random_hour(random, hour, 0);
    }
    add_reading(random, &mut draft, 2, 4, 0);
    add_readings(random, &mut draft, 3);
    add_reading(random, &mut draft, 3, 4, 0);
    draft
}

/// Curve numbers of exactly 1,000,000,000, from residuals that divide evenly and from the largest that do not.
fn curve_number_at_limit(random: &mut Random) -> Draft {
    let share_sum = random.between(1, 1_999_000) as u64;
    let parties = 1 + random.below(3);
    let shares = shares_of_sum(random, parties, share_sum);
    let refixed = is_refixed(random);
    let mut draft = month_of_shares(random, 4, shares, refixed);
    for hour in [0, 2] {
        let residual = *random.pick(&[share_sum as i64 * 1_000, most_residual_wh(share_sum)]);
        draft.fixed[hour] = random_hour(random, hour, residual);
    }
    add_readings(random, &mut draft, 4);
    draft
}

/// A file of exactly 65,536 bytes: readings fill what hours and parties leave, over 6,000 of them in a month of few hours,
/// or 2,500 if all are over several months.
fn longest_file(random: &mut Random, priced: bool) -> Draft {
    loop {
        let few_hours = 1 + random.below(9);
        // With 02 records and an even number of prices no number of readings comes to it.
        let hours = *random.pick(&[few_hours, 301, 511, 739, 745]);
        let (parties, refixed) = (1 + random.below(64), is_refixed(random));
        let mut draft = month(random, hours, parties, refixed, 0);
        if !priced {
            draft = without_prices(draft);
        }
        let left = FILE_BYTES_MAX - draft.bytes().len();
        let most = left / BYTES_OVER_MONTHS;
        let some = random.below(most + 1);
        let over_months = *random.pick(&[0, some, most]);
        let left = left - over_months * BYTES_OVER_MONTHS;
        if left.is_multiple_of(BYTES_OF_MONTH) {
            let of_month = left / BYTES_OF_MONTH;
            add_readings_of_kinds(random, &mut draft, of_month, over_months);
            return draft;
        }
    }
}

/// Readings of a year or less, planned over this month and others before and after it, beside one of this month alone.
fn planned_readings(random: &mut Random) -> Draft {
    let (hours, parties) = (1 + random.below(24), 1 + random.below(5));
    let refixed = is_refixed(random);
    let mut draft = month(random, hours, parties, refixed, 1);
    let curve = curve(&draft);
    for _ in 0..1 + random.below(4) {
        let party = random.below(parties) as u8;
        draft
            .readings
            .extend(planned_reading(random, party, &curve));
    }
    random.shuffle(&mut draft.readings);
    draft
}

/// The record of this month of a reading that is planned over it and others; none where no curve has any weight. Its E is
/// so small that the hours take several of them.
fn planned_reading(random: &mut Random, party: u8, curve: &[u32]) -> Option<Reading> {
    let months = 1 + random.below(13);
    let this = random.below(months);
    let mut parties: Vec<u8> = (0..months).map(|_| random.below(64) as u8).collect();
    let mut curves: Vec<Vec<u32>> = (0..months).map(|_| other_curve(random, curve)).collect();
    parties[this] = party;
    curves[this] = curve.to_vec();
    let hours: Vec<u16> = curves.iter().map(|curve| curve.len() as u16).collect();
    let a = random.below(curves[0].len()) as u16;
    let from = if months == 1 { a + 1 } else { 1 };
    let b = random.between(from.into(), hours[months - 1].into()) as u16;
    let e_wh = random.any_size(200_000_000);
    let planned = plan(e_wh, a, b, &parties, &hours, &curves.concat()).ok()?;
    Some(planned[this])
}

/// A few hours of another month, with numbers about as large as this one's.
fn other_curve(random: &mut Random, curve: &[u32]) -> Vec<u32> {
    let hours = 1 + random.below(24);
    (0..hours)
        .map(|_| *random.pick(curve) / 2 + *random.pick(curve) / 2)
        .collect()
}

/// What lies before and in this month is the whole, alone and up to the largest there is, with an E up to its limit.
fn weights_at_limits(random: &mut Random) -> Draft {
    let refixed = is_refixed(random);
    let mut draft = month_of_residual(random, 2_000_000_000, refixed);
    let curve = curve(&draft);
    let own = own_weight(&curve);
    let largest = WHOLE_WEIGHT_MAX as u64;
    let any_before = 1 + random.any_size(largest - own - 1);
    for (before, whole) in [
        (any_before, any_before + own),
        (largest - own, largest),
        (0, largest),
        (0, own),
    ] {
        let e_wh = *random.pick(&[0, 1, 7, 400_000_000, 500_000_000]);
        let reading = add_reading(random, &mut draft, 0, curve.len(), e_wh);
        *reading = reading.weighing(before, whole);
    }
    random.shuffle(&mut draft.readings);
    draft
}

/// Hours of real zeros: a reading with all of its weight in other months, which may have any E, and readings of 0 without
/// any weight at all.
fn no_weight_here(random: &mut Random) -> Draft {
    let refixed = is_refixed(random);
    let mut draft = month(random, 6, 3, refixed, 0);
    for hour in 2..4 {
        draft.fixed[hour] = random_hour(random, hour, 0);
    }
    let weights = Weights {
        before: random.any_size(9_000),
        whole: random.between(9_000, 9_000_000_000) as u64,
    };
    for (e_wh, weights) in [
        (READING_WH_MAX as u32, Some(weights)),
        (1, Some(weights)),
        (0, Some(weights)),
        (
            0,
            Some(Weights {
                before: 0,
                whole: 0,
            }),
        ),
        (0, None),
    ] {
        add_reading(random, &mut draft, 2, 4, e_wh).weights = weights;
    }
    random.shuffle(&mut draft.readings);
    add_readings(random, &mut draft, 3);
    draft
}

/// All is distributed to party 0, every hour 2,000,000,000 Wh at the highest price, and all is read at party 1. With a
/// refixed series the file has no room for so many readings: party 1 carries the loss, and has the rest as that.
fn largest_amounts(random: &mut Random) -> Draft {
    let (hours, refixed) = (745, random.once_in(2));
    let mut draft = month_of_shares(random, hours, vec![4_000_000_000, 0, 0], refixed);
    for series in [&mut draft.fixed, &mut draft.refixed] {
        for (hour, flows) in series.iter_mut().enumerate() {
            *flows = measured_hour(hour, 2_000_000_000);
        }
    }
    let price_ore = *random.pick(&[-5_000_000, 5_000_000]);
    for price in &mut draft.prices {
        price.price_ore = price_ore;
    }
    let mut hours_read = hours;
    if refixed {
        draft.heading.carrier = 1;
        hours_read = 300;
    }
    for hour in 0..hours_read {
        let reading = Reading::of_month(1, hour as u16, hour as u16 + 1, READING_WH_MAX as u32);
        draft.readings.extend([reading; 2]);
    }
    draft
}
