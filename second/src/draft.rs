//! A month that can be edited before it becomes a file: what the maker of files and the examples work on.
//!
//! Nothing here is judged: a draft may hold any field value, any number of records and any count at its end.

use crate::gln::Gln;
use crate::limits::STATUS_MEASURED;
use crate::record::{Heading, HourFlows, Party, Price, Reading, Record};

/// A party of a draft, with its own copy of the GLNs.
#[derive(Clone, Copy, Debug)]
pub struct DraftParty {
    pub gln: Gln,
    /// Of a 12 record; None for a 02.
    pub brp_gln: Option<Gln>,
    pub load_share_kwh: u64,
}

impl DraftParty {
    /// A party that is its own BRP: a 02 record.
    pub const fn of_02(gln: Gln, load_share_kwh: u64) -> DraftParty {
        DraftParty {
            gln,
            brp_gln: None,
            load_share_kwh,
        }
    }

    /// The same supplier under this BRP: a 12 record.
    pub const fn under(self, brp_gln: Gln) -> DraftParty {
        DraftParty {
            brp_gln: Some(brp_gln),
            ..self
        }
    }

    fn record(&self) -> Record<'_> {
        Record::Party(Party {
            gln: &self.gln,
            brp_gln: self.brp_gln.as_ref().map(|gln| &gln[..]),
            load_share_kwh: self.load_share_kwh,
        })
    }
}

/// A month file as lists of records in file order.
#[derive(Clone, Debug)]
pub struct Draft {
    pub heading: Heading,
    pub parties: Vec<DraftParty>,
    pub fixed: Vec<HourFlows>,
    /// Empty for a file without a refixed series.
    pub refixed: Vec<HourFlows>,
    pub prices: Vec<Price>,
    pub readings: Vec<Reading>,
    /// The count of the end record; None for the right one.
    pub end_count: Option<u32>,
}

impl Draft {
    /// All records of the file as bytes, one by one.
    pub fn records(&self) -> Vec<Vec<u8>> {
        let mut records = vec![Record::Heading(self.heading).encode()];
        records.extend(self.parties.iter().map(|party| party.record().encode()));
        records.extend(self.fixed.iter().map(|&hour| Record::Fixed(hour).encode()));
        let refixed = self.refixed.iter();
        records.extend(refixed.map(|&hour| Record::Refixed(hour).encode()));
        records.extend(self.prices.iter().map(|&p| Record::Price(p).encode()));
        records.extend(self.readings.iter().map(|&r| Record::Reading(r).encode()));
        let count = self.end_count.unwrap_or(records.len() as u32);
        records.push(Record::End(count).encode());
        records
    }

    /// The file.
    pub fn bytes(&self) -> Vec<u8> {
        self.records().concat()
    }

    /// The record number of a party.
    pub fn at_party(&self, party: usize) -> usize {
        1 + party
    }

    /// The record number of a fixed hour.
    pub fn at_fixed(&self, hour: usize) -> usize {
        self.at_party(self.parties.len()) + hour
    }

    /// The record number of a refixed hour.
    pub fn at_refixed(&self, hour: usize) -> usize {
        self.at_fixed(self.fixed.len()) + hour
    }

    /// The record number of an hour's price.
    pub fn at_price(&self, hour: usize) -> usize {
        self.at_refixed(self.refixed.len()) + hour
    }

    /// The record number of a reading.
    pub fn at_reading(&self, reading: usize) -> usize {
        self.at_price(self.prices.len()) + reading
    }

    /// The record number of the end.
    pub fn at_end(&self) -> usize {
        self.at_reading(self.readings.len())
    }

    /// The sum of the load shares, whatever it is.
    pub fn share_sum_kwh(&self) -> u128 {
        let shares = self.parties.iter();
        shares.map(|party| u128::from(party.load_share_kwh)).sum()
    }
}

/// A measured hour whose net supply alone is its residual.
pub fn measured_hour(hour: usize, residual_wh: i64) -> HourFlows {
    HourFlows {
        hour: hour as u16,
        status: STATUS_MEASURED,
        net_supply_wh: residual_wh,
        production_wh: 0,
        hourly_wh: 0,
        flex_wh: 0,
    }
}

/// The prices of hours 0, 1, 2 and so on.
pub fn prices_of(prices_ore: impl IntoIterator<Item = i32>) -> Vec<Price> {
    let hours = prices_ore.into_iter().zip(0..);
    hours
        .map(|(price_ore, hour)| Price { hour, price_ore })
        .collect()
}
