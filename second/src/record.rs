//! One record of the month file: its kinds and body lengths, its fields as big-endian bytes, the judgement of its
//! fields, and reading and writing one record alone. (01, "The month file"; 02, W3, W5)
//!
//! A new kind is a line in `body_length`, a variant of `Record`, and its arm in each `match` below.

use crate::gln;
use crate::limits::{self, Range};
use crate::refusal::{Number, Refusal};

pub const HEADING: u8 = 0x01;
pub const PARTY: u8 = 0x02;
pub const FIXED_HOUR: u8 = 0x03;
pub const READING: u8 = 0x04;
pub const PRICE: u8 = 0x05;
pub const REFIXED_HOUR: u8 = 0x06;
pub const END: u8 = 0x07;
pub const YEARLY_READING: u8 = 0x08;
pub const PARTY_WITH_BRP: u8 = 0x12;

/// "The body lengths, by kind, are these". None for an unknown kind.
pub fn body_length(kind: u8) -> Option<usize> {
    match kind {
        HEADING => Some(9),
        PARTY => Some(21),
        FIXED_HOUR => Some(35),
        REFIXED_HOUR => Some(35),
        PRICE => Some(6),
        READING => Some(9),
        END => Some(4),
        // "A new record 08 (body 25: ..)" (02, W3)
        YEARLY_READING => Some(25),
        // "A new party record 12 hexadecimal (body 34: ..)" (02, W5)
        PARTY_WITH_BRP => Some(34),
        _ => None,
    }
}

/// "area 2, year 2, month 1, hours H 2, parties P 1, loss carrier 1"
#[derive(Clone, Copy, Debug, PartialEq, Eq)]
pub struct Heading {
    pub area: u16,
    pub year: u16,
    pub month: u8,
    pub hours: u16,
    pub parties: u8,
    pub carrier: u8,
}

/// "GLN 13 ASCII digits, load share 8": a balance supplier. The digits are a part of the file; for the writer they may be
/// any bytes.
#[derive(Clone, Copy, Debug, PartialEq, Eq)]
pub struct Party<'a> {
    pub gln: &'a [u8],
    /// Of a 12 record. A 02 has none.
    pub brp_gln: Option<&'a [u8]>,
    pub load_share_kwh: u64,
}

impl<'a> Party<'a> {
    /// The GLN of the balance responsible party. "A file with 02 records is still read, each party being its own BRP."
    /// (02, W5)
    pub fn brp(&self) -> &'a [u8] {
        self.brp_gln.unwrap_or(self.gln)
    }
}

/// "hour 2, status 1, net supply 8, production 8, hourly 8, flex 8", fixed or refixed.
#[derive(Clone, Copy, Debug, PartialEq, Eq)]
pub struct HourFlows {
    pub hour: u16,
    pub status: u8,
    pub net_supply_wh: i64,
    pub production_wh: u64,
    pub hourly_wh: u64,
    pub flex_wh: u64,
}

/// "hour 2, price 4"
#[derive(Clone, Copy, Debug, PartialEq, Eq)]
pub struct Price {
    pub hour: u16,
    pub price_ore: i32,
}

/// "party 1, a 2, b 2, E 4": E Wh over the hours from a to before b. Of a reading over several months this is the part in
/// one of them: the hours are this month's, and E is the whole reading's.
#[derive(Clone, Copy, Debug, PartialEq, Eq)]
pub struct Reading {
    pub party: u8,
    pub a: u16,
    pub b: u16,
    pub e_wh: u32,
    /// Of an 08 record. A 04 has none: it is a reading of which nothing lies outside its hours.
    pub weights: Option<Weights>,
}

/// "weight before this month 8, weight of the whole reading 8" (02, W3)
#[derive(Clone, Copy, Debug, PartialEq, Eq)]
pub struct Weights {
    pub before: u64,
    pub whole: u64,
}

impl Reading {
    /// A reading within one month: a 04 record.
    pub const fn of_month(party: u8, a: u16, b: u16, e_wh: u32) -> Reading {
        Reading {
            party,
            a,
            b,
            e_wh,
            weights: None,
        }
    }

    /// The same hours and E as the part of a reading over several months: an 08 record.
    pub const fn weighing(self, before: u64, whole: u64) -> Reading {
        Reading {
            weights: Some(Weights { before, whole }),
            ..self
        }
    }
}

/// One record, kind and fields.
#[derive(Clone, Copy, Debug, PartialEq, Eq)]
pub enum Record<'a> {
    Heading(Heading),
    /// 02, or 12 if it has a BRP GLN.
    Party(Party<'a>),
    Fixed(HourFlows),
    Refixed(HourFlows),
    Price(Price),
    /// 04, or 08 if it has weights.
    Reading(Reading),
    /// "number of records before it"
    End(u32),
}

impl<'a> Record<'a> {
    pub fn kind(&self) -> u8 {
        match self {
            Record::Heading(_) => HEADING,
            Record::Party(party) => match party.brp_gln {
                None => PARTY,
                Some(_) => PARTY_WITH_BRP,
            },
            Record::Fixed(_) => FIXED_HOUR,
            Record::Refixed(_) => REFIXED_HOUR,
            Record::Price(_) => PRICE,
            Record::Reading(reading) => match reading.weights {
                None => READING,
                Some(_) => YEARLY_READING,
            },
            Record::End(_) => END,
        }
    }

    /// The record of a known kind whose body this is. The body has the kind's length.
    fn decode(kind: u8, body: &'a [u8]) -> Option<Record<'a>> {
        let mut fields = Fields { rest: body };
        Some(match kind {
            HEADING => Record::Heading(Heading {
                area: fields.number(2) as u16,
                year: fields.number(2) as u16,
                month: fields.number(1) as u8,
                hours: fields.number(2) as u16,
                parties: fields.number(1) as u8,
                carrier: fields.number(1) as u8,
            }),
            PARTY => Record::Party(Party {
                gln: fields.bytes(limits::GLN_DIGITS),
                brp_gln: None,
                load_share_kwh: fields.number(8),
            }),
            // "supplier GLN 13, BRP GLN 13, load share 8" (02, W5)
            PARTY_WITH_BRP => Record::Party(Party {
                gln: fields.bytes(limits::GLN_DIGITS),
                brp_gln: Some(fields.bytes(limits::GLN_DIGITS)),
                load_share_kwh: fields.number(8),
            }),
            FIXED_HOUR => Record::Fixed(fields.hour_flows()),
            REFIXED_HOUR => Record::Refixed(fields.hour_flows()),
            PRICE => Record::Price(Price {
                hour: fields.number(2) as u16,
                price_ore: fields.number(4) as u32 as i32,
            }),
            READING => Record::Reading(fields.reading()),
            YEARLY_READING => {
                let reading = fields.reading();
                let (before, whole) = (fields.number(8), fields.number(8));
                Record::Reading(reading.weighing(before, whole))
            }
            END => Record::End(fields.number(4) as u32),
            _ => return None,
        })
    }

    /// Kind and body as bytes, whatever the fields hold: the writer judges first, the maker of damaged files does not.
    pub fn encode(&self) -> Vec<u8> {
        let mut bytes = vec![self.kind()];
        match self {
            Record::Heading(heading) => {
                bytes.extend(heading.area.to_be_bytes());
                bytes.extend(heading.year.to_be_bytes());
                bytes.push(heading.month);
                bytes.extend(heading.hours.to_be_bytes());
                bytes.push(heading.parties);
                bytes.push(heading.carrier);
            }
            Record::Party(party) => {
                bytes.extend(party.gln);
                bytes.extend(party.brp_gln.unwrap_or_default());
                bytes.extend(party.load_share_kwh.to_be_bytes());
            }
            Record::Fixed(hour) | Record::Refixed(hour) => {
                bytes.extend(hour.hour.to_be_bytes());
                bytes.push(hour.status);
                bytes.extend(hour.net_supply_wh.to_be_bytes());
                bytes.extend(hour.production_wh.to_be_bytes());
                bytes.extend(hour.hourly_wh.to_be_bytes());
                bytes.extend(hour.flex_wh.to_be_bytes());
            }
            Record::Price(price) => {
                bytes.extend(price.hour.to_be_bytes());
                bytes.extend(price.price_ore.to_be_bytes());
            }
            Record::Reading(reading) => {
                bytes.push(reading.party);
                bytes.extend(reading.a.to_be_bytes());
                bytes.extend(reading.b.to_be_bytes());
                bytes.extend(reading.e_wh.to_be_bytes());
                if let Some(weights) = reading.weights {
                    bytes.extend(weights.before.to_be_bytes());
                    bytes.extend(weights.whole.to_be_bytes());
                }
            }
            Record::End(count) => bytes.extend(count.to_be_bytes()),
        }
        bytes
    }

    /// The fields as plain numbers in the order of the table; a party's GLN or GLNs are not among them.
    pub fn fields(&self) -> Vec<i128> {
        match *self {
            Record::Heading(heading) => vec![
                heading.area.into(),
                heading.year.into(),
                heading.month.into(),
                heading.hours.into(),
                heading.parties.into(),
                heading.carrier.into(),
            ],
            Record::Party(party) => vec![party.load_share_kwh.into()],
            Record::Fixed(hour) | Record::Refixed(hour) => vec![
                hour.hour.into(),
                hour.status.into(),
                hour.net_supply_wh.into(),
                hour.production_wh.into(),
                hour.hourly_wh.into(),
                hour.flex_wh.into(),
            ],
            Record::Price(price) => vec![price.hour.into(), price.price_ore.into()],
            Record::Reading(reading) => {
                let mut fields = vec![
                    reading.party.into(),
                    reading.a.into(),
                    reading.b.into(),
                    reading.e_wh.into(),
                ];
                if let Some(weights) = reading.weights {
                    fields.extend([i128::from(weights.before), i128::from(weights.whole)]);
                }
                fields
            }
            Record::End(count) => vec![count.into()],
        }
    }
}

/// A body that is taken apart from its start.
struct Fields<'a> {
    rest: &'a [u8],
}

impl<'a> Fields<'a> {
    fn bytes(&mut self, length: usize) -> &'a [u8] {
        let (field, rest) = self.rest.split_at(length);
        self.rest = rest;
        field
    }

    /// "Numbers are big-endian"
    fn number(&mut self, length: usize) -> u64 {
        self.bytes(length)
            .iter()
            .fold(0, |number, &byte| number << 8 | u64::from(byte))
    }

    fn hour_flows(&mut self) -> HourFlows {
        HourFlows {
            hour: self.number(2) as u16,
            status: self.number(1) as u8,
            // "net supply and price are two's complement"
            net_supply_wh: self.number(8) as i64,
            production_wh: self.number(8),
            hourly_wh: self.number(8),
            flex_wh: self.number(8),
        }
    }

    /// What a 04 holds and an 08 begins with.
    fn reading(&mut self) -> Reading {
        let (party, a, b) = (self.number(1), self.number(2), self.number(2));
        Reading::of_month(party as u8, a as u16, b as u16, self.number(4) as u32)
    }
}

/// What a record's fields are judged against besides themselves: in a file its H, its P and the GLN before; alone the
/// greatest H and P and no GLN before.
pub struct Surroundings<'a> {
    pub hours: u16,
    pub parties: u8,
    pub gln_before: Option<&'a [u8]>,
}

impl Surroundings<'_> {
    /// "There b above 745 is 11; an hour above 744 or a reading's party above 63 is 4"
    pub const ALONE: Surroundings<'static> = Surroundings {
        hours: *limits::HOURS.end() as u16,
        parties: *limits::PARTIES.end() as u8,
        gln_before: None,
    };
}

/// The judgement of one record's fields: 4, 5, 11, 12, in that order. Any weights pass it.
pub fn judge_fields(record: &Record, around: &Surroundings) -> Result<(), Number> {
    if !fields_within_ranges(record, around) {
        return Err(Number::OutsideRange);
    }
    match record {
        Record::Party(party) => {
            // "BRP GLNs need not rise and may repeat." (02, W5)
            let rising = around.gln_before.is_none_or(|before| before < party.gln);
            if !gln::is_gln(party.gln) || !gln::is_gln(party.brp()) || !rising {
                return Err(Number::BadGln);
            }
        }
        Record::Reading(reading) => {
            if reading.a >= reading.b || reading.b > around.hours {
                return Err(Number::BadSpan);
            }
            if u64::from(reading.e_wh) > limits::READING_WH_MAX {
                return Err(Number::ReadingTooLarge);
            }
        }
        _ => {}
    }
    Ok(())
}

/// The ranges behind refusal 4, status 0 with a figure included. A reading's a, b and E have their own refusals.
fn fields_within_ranges(record: &Record, around: &Surroundings) -> bool {
    match record {
        Record::Heading(heading) => {
            within(heading.area, &limits::AREA)
                && within(heading.year, &limits::YEAR)
                && within(heading.month, &limits::MONTH)
                && within(heading.hours, &limits::HOURS)
                && within(heading.parties, &limits::PARTIES)
                && heading.carrier < heading.parties
        }
        Record::Party(party) => within(party.load_share_kwh, &limits::LOAD_SHARE_KWH),
        Record::Fixed(hour) | Record::Refixed(hour) => {
            hour.hour < around.hours
                && within(hour.status, &limits::STATUS)
                && within(hour.net_supply_wh, &limits::NET_SUPPLY_WH)
                && within(hour.production_wh, &limits::OTHER_FLOW_WH)
                && within(hour.hourly_wh, &limits::OTHER_FLOW_WH)
                && within(hour.flex_wh, &limits::OTHER_FLOW_WH)
                && (hour.status != limits::STATUS_MISSING || hour.has_no_figure())
        }
        Record::Price(price) => {
            price.hour < around.hours && within(price.price_ore, &limits::PRICE_ORE)
        }
        Record::Reading(reading) => reading.party < around.parties,
        // "the end count may be any 4 bytes"
        Record::End(_) => true,
    }
}

impl HourFlows {
    /// "With status 0 a figure other than 0 is refused with 4".
    fn has_no_figure(&self) -> bool {
        self.net_supply_wh == 0
            && self.production_wh == 0
            && self.hourly_wh == 0
            && self.flex_wh == 0
    }
}

fn within(value: impl Into<i128>, range: &Range) -> bool {
    range.contains(&value.into())
}

/// The record at the start of these bytes and the bytes after it: "2, then 1". No byte at all is 1.
pub fn first_record(bytes: &[u8]) -> Result<(Record<'_>, &[u8]), Number> {
    let (&kind, after_kind) = bytes.split_first().ok_or(Number::BrokenFile)?;
    let length = body_length(kind).ok_or(Number::UnknownKind)?;
    let (body, after) = after_kind
        .split_at_checked(length)
        .ok_or(Number::BrokenFile)?;
    let record = Record::decode(kind, body).ok_or(Number::UnknownKind)?;
    Ok((record, after))
}

/// Reads one record alone: "by 2, 1 and then the same rules (an empty part is 1); bytes after it are not looked at".
/// Tells the record and its length in bytes. All refusals are at place 0.
pub fn read_alone(part: &[u8]) -> Result<(Record<'_>, usize), Refusal> {
    let (record, after) = first_record(part).map_err(|number| number.at(0))?;
    judge_fields(&record, &Surroundings::ALONE).map_err(|number| number.at(0))?;
    Ok((record, part.len() - after.len()))
}

/// Writes one record at the start of a lent part and tells the bytes written: 4, 5, 11, 12 and then 16, all at place 0.
pub fn write(record: &Record, lent: &mut [u8]) -> Result<usize, Refusal> {
    judge_fields(record, &Surroundings::ALONE).map_err(|number| number.at(0))?;
    let bytes = record.encode();
    let start = lent
        .get_mut(..bytes.len())
        .ok_or(Number::WrongOutputLength.at(0))?;
    start.copy_from_slice(&bytes);
    Ok(bytes.len())
}

/// The writer with the kind as a number and the fields as a list of numbers (READINGS A43): 2 first; a list of another
/// length than the kind has is 4. The GLNs stand beside the list: `gln` is looked at for a party only, `brp_gln` for one of
/// kind 12 only.
///
/// A number that its field could not hold is outside its range. It is 4 where it is negative, an end count or a weight; a
/// too large a or b stays 11 and a too large E 12, as 01 says of them.
pub fn write_plain(
    kind: u64,
    fields: &[i128],
    gln: &[u8],
    brp_gln: &[u8],
    lent: &mut [u8],
) -> Result<usize, Refusal> {
    let known = u8::try_from(kind)
        .ok()
        .filter(|&kind| body_length(kind).is_some());
    let kind = known.ok_or(Number::UnknownKind.at(0))?;
    let record = record_of_numbers(kind, fields, gln, brp_gln).ok_or(Number::OutsideRange.at(0))?;
    write(&record, lent)
}

/// The record of these numbers, each brought to the nearest one that its field can hold: so a number outside its range
/// stays outside. None where that does not help: a wrong number of fields, a negative number in an unsigned field (it
/// would become a good 0), an end count or a weight beyond its bytes (any bytes of theirs are good).
fn record_of_numbers<'a>(
    kind: u8,
    fields: &[i128],
    gln: &'a [u8],
    brp_gln: &'a [u8],
) -> Option<Record<'a>> {
    if fields
        .iter()
        .zip(0..)
        .any(|(&field, position)| field < 0 && !is_signed(kind, position))
    {
        return None;
    }
    Some(match (kind, fields) {
        (HEADING, &[area, year, month, hours, parties, carrier]) => Record::Heading(Heading {
            area: held_u16(area),
            year: held_u16(year),
            month: held_u8(month),
            hours: held_u16(hours),
            parties: held_u8(parties),
            carrier: held_u8(carrier),
        }),
        (PARTY, &[share]) => Record::Party(Party {
            gln,
            brp_gln: None,
            load_share_kwh: held_u64(share),
        }),
        (PARTY_WITH_BRP, &[share]) => Record::Party(Party {
            gln,
            brp_gln: Some(brp_gln),
            load_share_kwh: held_u64(share),
        }),
        (FIXED_HOUR, fields) => Record::Fixed(hour_flows_of_numbers(fields)?),
        (REFIXED_HOUR, fields) => Record::Refixed(hour_flows_of_numbers(fields)?),
        (PRICE, &[hour, price]) => Record::Price(Price {
            hour: held_u16(hour),
            price_ore: price.clamp(i32::MIN.into(), i32::MAX.into()) as i32,
        }),
        (READING, &[party, a, b, e]) => Record::Reading(reading_of_numbers(party, a, b, e)),
        (YEARLY_READING, &[party, a, b, e, before, whole]) => {
            let (before, whole) = (u64::try_from(before).ok()?, u64::try_from(whole).ok()?);
            Record::Reading(reading_of_numbers(party, a, b, e).weighing(before, whole))
        }
        (END, &[count]) => Record::End(u32::try_from(count).ok()?),
        _ => return None,
    })
}

fn hour_flows_of_numbers(fields: &[i128]) -> Option<HourFlows> {
    let &[hour, status, net_supply, production, hourly, flex] = fields else {
        return None;
    };
    Some(HourFlows {
        hour: held_u16(hour),
        status: held_u8(status),
        net_supply_wh: net_supply.clamp(i64::MIN.into(), i64::MAX.into()) as i64,
        production_wh: held_u64(production),
        hourly_wh: held_u64(hourly),
        flex_wh: held_u64(flex),
    })
}

fn reading_of_numbers(party: i128, a: i128, b: i128, e: i128) -> Reading {
    let e_wh = e.clamp(0, u32::MAX.into()) as u32;
    Reading::of_month(held_u8(party), held_u16(a), held_u16(b), e_wh)
}

/// "net supply and price are two's complement", all other numbers unsigned.
fn is_signed(kind: u8, position: usize) -> bool {
    matches!(
        (kind, position),
        (FIXED_HOUR | REFIXED_HOUR, 2) | (PRICE, 1)
    )
}

fn held_u8(number: i128) -> u8 {
    number.clamp(0, u8::MAX.into()) as u8
}

fn held_u16(number: i128) -> u16 {
    number.clamp(0, u16::MAX.into()) as u16
}

fn held_u64(number: i128) -> u64 {
    number.clamp(0, u64::MAX.into()) as u64
}
