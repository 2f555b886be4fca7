//! The walk through a whole month file, record by record. (01, "The month file" and "Refusal numbers"; 02, W3, W5, W6)
//!
//! "The file is read first, record by record: 2, then 1, 3, 4, 5, 11, 12, 15." One pass over the records, and for each
//! record all tests in that order before the next record is looked at.

use crate::limits::FILE_BYTES_MAX;
use crate::record::{
    first_record, judge_fields, Heading, HourFlows, Party, Price, Reading, Record, Surroundings,
};
use crate::refusal::{Number, Refusal};
use crate::setting::Prices;

/// An accepted file. The GLNs are parts of the file's bytes.
#[derive(Clone, Debug)]
pub struct MonthFile<'a> {
    pub heading: Heading,
    /// All 02 or all 12 (02, W5), in file order.
    pub parties: Vec<Party<'a>>,
    pub fixed: Vec<HourFlows>,
    /// Empty if the file has no refixed series.
    pub refixed: Vec<HourFlows>,
    /// Empty if the file has no prices, which only a run of quantities takes.
    pub prices: Vec<Price>,
    /// "'reading' in 01 counts 04 and 08 together" (02, W3): both, in file order.
    pub readings: Vec<Reading>,
}

/// Reads a whole file, or refuses it with 1 to 5, 11, 12 or 15 at a record. The caller says whether it needs the prices.
pub fn read(file: &[u8], prices: Prices) -> Result<MonthFile<'_>, Refusal> {
    // "An empty or too long file is refused before all else, place 0"
    if file.is_empty() || file.len() > FILE_BYTES_MAX {
        return Err(Number::BrokenFile.at(0));
    }
    let mut so_far = SoFar::default();
    let mut rest = file;
    let mut records = 0;
    loop {
        // A cut body and a missing end alike: "the place is the number of complete records".
        let (record, after) = first_record(rest).map_err(|number| number.at(records))?;
        if !so_far.expects(&record, prices) {
            return Err(Number::OutOfOrder.at(records));
        }
        judge_fields(&record, &so_far.surroundings()).map_err(|number| number.at(records))?;
        if let Record::End(count) = record {
            if count as usize != records {
                return Err(Number::WrongCount.at(records));
            }
            // "Bytes after the end are always 1, never 2, and come after its 15."
            if !after.is_empty() {
                return Err(Number::BrokenFile.at(records + 1));
            }
            return so_far.finished().ok_or(Number::OutOfOrder.at(records));
        }
        so_far.keep(record);
        rest = after;
        records += 1;
    }
}

/// What has been read of a file so far; each record in it was accepted.
#[derive(Default)]
struct SoFar<'a> {
    heading: Option<Heading>,
    parties: Vec<Party<'a>>,
    fixed: Vec<HourFlows>,
    refixed: Vec<HourFlows>,
    prices: Vec<Price>,
    readings: Vec<Reading>,
}

impl<'a> SoFar<'a> {
    /// "Order: one 01; P times 02; H times 03; none or H times 06; H times 05; any number of 04; one 07. Hour fields
    /// run 0, 1, 2 and so on". An 08 "stands among the 04 records" (02, W3). A 12 "may stand in place of 02 for all
    /// parties of a file", and "a mixture of 02 and 12 is 3" (02, W5). "A file for the first alone may have no 05
    /// records" (02, W6): then it has none, and where it has one it has H.
    fn expects(&self, record: &Record, prices: Prices) -> bool {
        let Some(heading) = self.heading else {
            return matches!(record, Record::Heading(_));
        };
        let parties_complete = self.parties.len() == usize::from(heading.parties);
        let complete = |length: usize| length == usize::from(heading.hours);
        // The hour that is due in a series of which so many are read; none is due after the last.
        let due = |length: usize, hour: u16| !complete(length) && usize::from(hour) == length;
        // "none or H times 06"
        let series_complete =
            complete(self.fixed.len()) && (self.refixed.is_empty() || complete(self.refixed.len()));
        let no_prices = prices == Prices::Optional && self.prices.is_empty();
        match record {
            Record::Heading(_) => false,
            Record::Party(party) => !parties_complete && self.is_as_before(party),
            Record::Fixed(flows) => parties_complete && due(self.fixed.len(), flows.hour),
            Record::Refixed(flows) => {
                complete(self.fixed.len())
                    && self.prices.is_empty()
                    && self.readings.is_empty()
                    && due(self.refixed.len(), flows.hour)
            }
            Record::Price(price) => {
                series_complete && self.readings.is_empty() && due(self.prices.len(), price.hour)
            }
            Record::Reading(_) | Record::End(_) => {
                series_complete && (complete(self.prices.len()) || no_prices)
            }
        }
    }

    /// Whether a party is of the kind, 02 or 12, of the party before; the first may be of either.
    fn is_as_before(&self, party: &Party) -> bool {
        let before = self.parties.last();
        before.is_none_or(|before| before.brp_gln.is_some() == party.brp_gln.is_some())
    }

    /// The file's own H and P once the heading is read, and the GLN of the party before.
    fn surroundings(&self) -> Surroundings<'a> {
        Surroundings {
            hours: self.heading.map_or(0, |heading| heading.hours),
            parties: self.heading.map_or(0, |heading| heading.parties),
            gln_before: self.parties.last().map(|party| party.gln),
        }
    }

    fn keep(&mut self, record: Record<'a>) {
        match record {
            Record::Heading(heading) => self.heading = Some(heading),
            Record::Party(party) => self.parties.push(party),
            Record::Fixed(flows) => self.fixed.push(flows),
            Record::Refixed(flows) => self.refixed.push(flows),
            Record::Price(price) => self.prices.push(price),
            Record::Reading(reading) => self.readings.push(reading),
            Record::End(_) => {}
        }
    }

    /// The whole file, its end having been accepted. (An end is expected only after a heading.)
    fn finished(self) -> Option<MonthFile<'a>> {
        Some(MonthFile {
            heading: self.heading?,
            parties: self.parties,
            fixed: self.fixed,
            refixed: self.refixed,
            prices: self.prices,
            readings: self.readings,
        })
    }
}
