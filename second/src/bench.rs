//! Month files to count instructions on: of a chosen size, with figures of one kind, so that counts of different sizes can
//! be held against each other. The size alone decides the file.

use crate::draft::{prices_of, Draft, DraftParty};
use crate::gln::with_check_digit;
use crate::limits::{FILE_BYTES_MAX, PERIODISED_HOUR_WH_MAX, READING_WH_MAX};
use crate::make::random_hour;
use crate::random::Random;
use crate::record::{Heading, HourFlows, Reading, Record};

/// How many readings a file has.
#[derive(Clone, Copy, Debug, PartialEq, Eq)]
pub enum Readings {
    Count(usize),
    /// As many as the file's length has room for.
    Most,
}

/// What is wrong with a file, at its very end.
#[derive(Clone, Copy, Debug, PartialEq, Eq)]
pub enum Fault {
    /// One byte after the end record.
    ByteAfter,
    /// A count in the end record that is wrong in its last byte.
    Count,
}

/// The size of a month.
#[derive(Clone, Copy, Debug)]
pub struct Size {
    /// At least one.
    pub hours: usize,
    /// At least one.
    pub parties: usize,
    /// The BRPs of the parties, 1 up to the number of parties, in 12 records; None for 02 records.
    pub brps: Option<usize>,
    pub refixed: bool,
    pub readings: Readings,
    /// The hours of each reading: 1 up to the month's.
    pub span: usize,
}

/// The month file of this size.
pub fn bench_file(size: &Size, fault: Option<Fault>) -> Vec<u8> {
    let mut draft = month(size);
    if fault == Some(Fault::Count) {
        draft.end_count = Some(draft.at_end() as u32 ^ 1);
    }
    let mut bytes = draft.bytes();
    if fault == Some(Fault::ByteAfter) {
        bytes.push(0);
    }
    bytes
}

/// Residuals about 100 MWh, shares of 10 to 60 GWh a year, prices of 200 to 600 DKK. The curve numbers stay below
/// 20,000,000, and an hour's readings within their limit even if all have all of their E in it.
fn month(size: &Size) -> Draft {
    let random = &mut Random::of_file(744, 64);
    let series = |random: &mut Random| -> Vec<HourFlows> {
        (0..size.hours)
            .map(|hour| {
                let residual_wh = random.between(60_000_000, 140_000_000);
                random_hour(random, hour, residual_wh)
            })
            .collect()
    };
    let mut draft = Draft {
        heading: Heading {
            area: 744,
            year: 2016,
            month: 1,
            hours: size.hours as u16,
            parties: size.parties as u8,
            carrier: (size.parties / 2) as u8,
        },
        parties: (0..size.parties)
            .map(|party| party_of(size, party, random))
            .collect(),
        fixed: series(random),
        refixed: if size.refixed {
            series(random)
        } else {
            Vec::new()
        },
        prices: prices_of((0..size.hours).map(|_| random.between(20_000, 60_000) as i32)),
        readings: Vec::new(),
        end_count: None,
    };
    draft.readings = readings(size, &draft, random);
    draft
}

/// The suppliers are under the BRPs in turn, and the BRPs' GLNs fall, so that putting them in order is all work there is.
fn party_of(size: &Size, party: usize, random: &mut Random) -> DraftParty {
    let gln = with_check_digit(579_000_000_001 + party as u64);
    let load_share_kwh = random.between(10_000_000, 60_000_000) as u64;
    let supplier = DraftParty::of_02(gln, load_share_kwh);
    match size.brps {
        None => supplier,
        Some(brps) => supplier.under(with_check_digit(579_000_001_000 - (party % brps) as u64)),
    }
}

fn readings(size: &Size, draft: &Draft, random: &mut Random) -> Vec<Reading> {
    let reading = |e_wh: u32, party: usize, a: usize| {
        Reading::of_month(party as u8, a as u16, (a + size.span) as u16, e_wh)
    };
    let one_reading = Record::Reading(reading(0, 0, 0)).encode().len();
    let count = match size.readings {
        Readings::Count(count) => count,
        Readings::Most => (FILE_BYTES_MAX - draft.bytes().len()) / one_reading,
    };
    let most_wh = PERIODISED_HOUR_WH_MAX as i64 / count.max(1) as i64;
    let most_wh = most_wh.min(READING_WH_MAX as i64);
    (0..count)
        .map(|_| {
            let e_wh = random.between(1, most_wh) as u32;
            let a = random.below(size.hours - size.span + 1);
            reading(e_wh, random.below(size.parties), a)
        })
        .collect()
}
