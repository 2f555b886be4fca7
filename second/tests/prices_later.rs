//! W6's files without prices, READINGS A67 to A69: in the programs that need them and in the one that does not, prices that
//! break off or come late, refusals in their turn; then readers that look reasonable, each told apart by the made files.

mod common;

use common::{
    assert_accepted, assert_refused, assert_refused_as_final, assert_refused_for_amounts, month_of,
    told,
};
use second::brp::brp;
use second::draft::{measured_hour, prices_of, Draft};
use second::examples::s1;
use second::gln::with_check_digit;
use second::hours::hours;
use second::make::{files, without_prices};
use second::month::{month_sums, settle};
use second::month_file;
use second::preview::preview;
use second::record::{first_record, judge_fields, Price, Reading, Record, Surroundings};
use second::refusal::{Number, Refusal};
use second::report::Report;
use second::setting::{Prices, Setting, Stage};
use second::statement::statement;

/// Two suppliers of shares 1 and 2, two hours of 6 and 3 Wh, at 1 and 2 øre per MWh, and two readings. Record 0 is the
/// heading, 1 and 2 are the parties, 3 and 4 the fixed hours, 5 and 6 the refixed, 7 and 8 the prices, 9 and 10 the
/// readings, 11 is the end; without the prices 7 and 8 are the readings.
fn priced() -> Draft {
    let readings = [Reading::of_month(0, 0, 2, 3), Reading::of_month(1, 1, 2, 4)];
    let mut draft = month_of(&[1, 2], &[6, 3], &readings);
    draft.prices = prices_of([1, 2]);
    draft
}

/// The same without prices, after a change.
fn unpriced(change: impl FnOnce(&mut Draft)) -> Draft {
    let mut draft = without_prices(priced());
    change(&mut draft);
    draft
}

/// The file of these records with this one put in.
fn with_record(mut records: Vec<Vec<u8>>, place: usize, record: Record) -> Vec<u8> {
    records.insert(place, record.encode());
    records.concat()
}

// A file without prices.

#[test]
fn a69_only_the_hours_need_no_prices() {
    let needs = Report::ALL.map(|report| (report.word(), report.setting().prices));
    assert_eq!(
        needs,
        [
            ("statement", Prices::Needed),
            ("hours", Prices::Optional),
            ("preview", Prices::Needed),
            ("brp", Prices::Needed)
        ]
    );
}

/// A67: the place is the record that stands where the price of hour 0 is due, be it a 04, an 08 or the end, after the refixed
/// hours or, where there are none, after the fixed ones; for 02 records and for 12.
#[test]
fn a67_without_prices_is_3_where_the_first_is_due() {
    let of_readings =
        |readings: &'static [Reading]| move |draft: &mut Draft| draft.readings = readings.to_vec();
    const OF_04: Reading = Reading::of_month(0, 0, 2, 3);
    const OF_08: Reading = OF_04.weighing(0, 3_000_000);
    for readings in [
        &[OF_04][..],
        &[OF_08],
        &[OF_08, OF_04],
        &[OF_04, OF_08],
        &[],
    ] {
        let mut draft = unpriced(of_readings(readings));
        for _ in 0..2 {
            assert_refused_for_amounts(&draft.bytes(), 3, 7);
            assert!(hours(&draft.bytes()).starts_with("area 007 2016-04 hours 2 parties 2 "));
            for party in &mut draft.parties {
                *party = party.under(with_check_digit(9));
            }
        }
        draft.refixed.clear();
        let file = draft.bytes();
        assert_refused_for_amounts(&file, 3, 5);
        assert_eq!(hours(&file), "refused 17 at 0\n");
        assert!(settle(&file, Setting::PROVISIONAL.of_quantities()).is_ok());
    }
}

/// The call on a whole month gives amounts, and needs the prices in either stage.
#[test]
fn the_month_sums_need_the_prices() {
    let file = unpriced(|_| {}).bytes();
    for stage in [Stage::Final, Stage::Provisional] {
        assert_eq!(told(month_sums(&file, stage, 2)), (3, 7));
        assert!(month_sums(&priced().bytes(), stage, 2).is_ok());
    }
}

/// Prices are no part of what the hours print.
#[test]
fn the_hours_are_the_same_before_and_after_the_prices() {
    let before = hours(&unpriced(|_| {}).bytes());
    assert_eq!(
        before,
        "area 007 2016-04 hours 2 parties 2 estimated 0
0 measured measured 6 6 2000000 6 2 4
1 measured measured 3 3 1000000 3 5 -2
0000000000017 0/3 0/3
0000000000024 0/3 0/3
"
    );
    assert_eq!(hours(&priced().bytes()), before);
    assert_accepted(&priced().bytes());
}

/// A67: "goes on refusing": what a later record has does not come before the 3, and what an earlier one has does.
#[test]
fn a67_the_3_comes_in_its_turn() {
    let later: [(fn(&mut Draft), u8, usize); 7] = [
        (|draft| draft.readings[0].party = 2, 4, 7),
        (|draft| draft.readings[0].b = 3, 11, 7),
        (|draft| draft.readings[0].e_wh = 1_000_000_001, 12, 7),
        (|draft| draft.readings[1].party = 2, 4, 8),
        (|draft| draft.readings[1].e_wh = 1_000_000_001, 12, 8),
        (|draft| draft.end_count = Some(11), 15, 9),
        (
            |draft| draft.parties[1].load_share_kwh = 4_000_000_000,
            6,
            0,
        ),
    ];
    for (change, number, place) in later {
        let file = unpriced(change).bytes();
        assert_refused_for_amounts(&file, 3, 7);
        assert_eq!(hours(&file), format!("refused {number} at {place}\n"));
    }
    let good = unpriced(|_| {}).bytes();
    let after_the_end = [&good[..], &[0]].concat();
    assert_refused_for_amounts(&after_the_end, 3, 7);
    assert_eq!(hours(&after_the_end), "refused 1 at 10\n");
    let without_end = &good[..good.len() - 5];
    assert_refused_for_amounts(without_end, 3, 7);
    assert_eq!(hours(without_end), "refused 1 at 9\n");
    let earlier: [(fn(&mut Draft), u8, usize); 4] = [
        (|draft| draft.heading.area = 0, 4, 0),
        (|draft| draft.parties[1].gln[12] = b'x', 5, 2),
        (|draft| draft.refixed[1].status = 3, 4, 6),
        (|draft| draft.refixed[1].hour = 0, 3, 6),
    ];
    for (change, number, place) in earlier {
        assert_refused(&unpriced(change).bytes(), number, place);
    }
}

/// "2, then 1, 3": at the record itself.
#[test]
fn a67_an_unknown_kind_or_a_cut_in_the_place_of_the_prices_comes_before_the_3() {
    let mut records = unpriced(|_| {}).records();
    let before: usize = records[..7].iter().map(Vec::len).sum();
    for length in 0..10 {
        assert_refused(&records.concat()[..before + length], 1, 7);
    }
    records[7][0] = 9;
    assert_refused(&records.concat(), 2, 7);
}

/// An end alone where the prices are due: wrongly counted it is 15 for the hours, and 3 for the others.
#[test]
fn a67_the_count_of_an_end_in_the_place_of_the_prices() {
    let file = unpriced(|draft| {
        draft.readings.clear();
        draft.end_count = Some(9);
    });
    assert_refused_for_amounts(&file.bytes(), 3, 7);
    assert_eq!(hours(&file.bytes()), "refused 15 at 7\n");
}

// Prices that are there.

/// A68: "none or H".
#[test]
fn a68_prices_that_break_off_are_3_at_the_record_that_breaks_off() {
    for readings in [0, 2] {
        for left in 1..3 {
            let mut draft = s1();
            draft.readings.truncate(readings);
            draft.prices.truncate(left);
            assert_refused(&draft.bytes(), 3, 10 + left);
            draft.refixed.clear();
            assert_refused(&draft.bytes(), 3, 7 + left);
        }
    }
    // In the middle, and at the start.
    for gap in 0..3 {
        let mut draft = s1();
        draft.prices.remove(gap);
        assert_refused(&draft.bytes(), 3, 10 + gap);
    }
    // The data run out: there is no record that could carry a 3.
    let records = s1().records();
    for complete in 10..14 {
        assert_refused(&records[..complete].concat(), 1, complete);
    }
}

/// A69: "Prices that are there are judged as ever".
#[test]
fn a69_prices_that_are_there_are_judged_as_ever() {
    let changed = |change: &dyn Fn(&mut [Price])| {
        let mut draft = priced();
        change(&mut draft.prices);
        draft.bytes()
    };
    for hour in [1, 2, 744, 745, 65_535] {
        assert_refused(&changed(&|prices| prices[0].hour = hour), 3, 7);
    }
    for price_ore in [-5_000_001, 5_000_001, i32::MIN, i32::MAX] {
        assert_refused(&changed(&|prices| prices[0].price_ore = price_ore), 4, 7);
        assert_refused(&changed(&|prices| prices[1].price_ore = price_ore), 4, 8);
    }
    for price_ore in [-5_000_000, 5_000_000] {
        assert_accepted(&changed(&|prices| prices[1].price_ore = price_ore));
    }
    let mut draft = priced();
    draft.prices = prices_of([1, 2, 3]);
    assert_refused(&draft.bytes(), 3, 9);
    // Out of range before the record at which they break off.
    draft.prices = prices_of([5_000_001]);
    assert_refused(&draft.bytes(), 4, 7);
}

/// A69: "after a reading no 05 or 06 may come".
#[test]
fn a69_after_a_reading_a_price_or_a_refixed_hour_is_3() {
    let price = |hour| Record::Price(Price { hour, price_ore: 0 });
    let refixed = |hour| Record::Refixed(measured_hour(hour, 6));
    for after in [8, 9] {
        for hour in [0, 1, 2] {
            let file = with_record(unpriced(|_| {}).records(), after, price(hour));
            assert_refused_for_amounts(&file, 3, 7);
            assert_eq!(hours(&file), format!("refused 3 at {after}\n"));
        }
    }
    // Without 06 records the readings are 5 and 6; nothing but the reading before it keeps the 06 of hour 0 out.
    let not_refixed = unpriced(|draft| draft.refixed.clear()).records();
    for after in [6, 7] {
        let file = with_record(not_refixed.clone(), after, refixed(0));
        assert_refused_for_amounts(&file, 3, 5);
        assert_eq!(hours(&file), format!("refused 3 at {after}\n"));
    }
    // All prices after the readings.
    let mut records = priced().records();
    records[7..11].rotate_left(2);
    assert_refused_for_amounts(&records.concat(), 3, 7);
    assert_eq!(hours(&records.concat()), "refused 3 at 9\n");
    // A refixed hour after a price, and after all of them.
    let mut draft = priced();
    draft.refixed.clear();
    for after in [6, 7] {
        assert_refused(&with_record(draft.records(), after, refixed(0)), 3, after);
    }
}

/// A reading or an end where the prices begin, or the refixed hours: the hours take it, and then what follows is out of order,
/// or after the end.
#[test]
fn a69_the_hours_refuse_further_on() {
    let reading = Record::Reading(Reading::of_month(0, 0, 1, 0));
    for place in [5, 7] {
        let file = with_record(priced().records(), place, reading);
        assert_refused_for_amounts(&file, 3, place);
        assert_eq!(hours(&file), format!("refused 3 at {}\n", place + 1));
        let file = with_record(priced().records(), place, Record::End(place as u32));
        assert_refused_for_amounts(&file, 3, place);
        assert_eq!(hours(&file), format!("refused 1 at {}\n", place + 1));
        let file = with_record(priced().records(), place, Record::End(12));
        assert_refused_for_amounts(&file, 3, place);
        assert_eq!(hours(&file), format!("refused 15 at {place}\n"));
    }
    for place in [0, 1, 2, 3, 4, 6, 8] {
        for early in [reading, Record::End(place as u32)] {
            let file = with_record(priced().records(), place, early);
            assert_refused(&file, 3, place);
        }
    }
}

/// 17 comes after the reading, and so after every 3 of the prices.
#[test]
fn a67_3_comes_before_17() {
    let file = unpriced(|draft| draft.refixed.clear()).bytes();
    assert_eq!(statement(&file), "refused 3 at 5\n");
    assert_eq!(hours(&file), "refused 17 at 0\n");
    let mut draft = priced();
    draft.refixed.clear();
    assert_refused_as_final(&draft.bytes(), 17, 0);
    draft.prices.truncate(1);
    assert_refused(&draft.bytes(), 3, 6);
}

// Files of every shape and damage.

/// The kind byte of the record with this number of a file.
fn kind_at(file: &[u8], number: usize) -> Option<u8> {
    let mut rest = file;
    for _ in 0..number {
        (_, rest) = first_record(rest).ok()?;
    }
    rest.first().copied()
}

/// The three programs that need the prices say the same of them; and where the hours say something else, the statement has 3 at
/// a reading or an end before which no price stands.
#[test]
fn hours_and_statement_part_only_where_the_prices_would_begin() {
    let (mut parted, mut settled, mut refused) = (0, 0, 0);
    for made in files(94, 1_500) {
        let (of_hours, of_statement) = (hours(&made.bytes), statement(&made.bytes));
        if let Some(place) = of_statement.strip_prefix("refused 3 at ") {
            assert_eq!(preview(&made.bytes), of_statement, "{}", made.name);
            assert_eq!(brp(&made.bytes), of_statement, "{}", made.name);
            if of_hours == of_statement {
                continue;
            }
            let place: usize = place.trim().parse().unwrap();
            assert!(matches!(kind_at(&made.bytes, place), Some(4 | 7 | 8)));
            assert!((0..place).all(|number| kind_at(&made.bytes, number) != Some(5)));
            parted += 1;
            settled += u64::from(of_hours.starts_with("area "));
            refused += u64::from(of_hours.starts_with("refused 3 at "));
        } else {
            let lines = [&of_hours, &of_statement].map(|text| text.lines().next());
            assert_eq!(lines[0], lines[1], "{}", made.name);
        }
    }
    assert!(
        parted > 150 && settled > 40 && refused > 10,
        "{parted} {settled} {refused}"
    );
}

// Readers that look reasonable.

/// What a reader has read of a file whose heading and parties are good: its H, and how many of each kind.
#[derive(Clone, Copy, Debug, Default, PartialEq, Eq)]
struct Read {
    hours: usize,
    fixed: usize,
    refixed: usize,
    prices: usize,
    readings: usize,
}

impl Read {
    /// "none or H"
    fn none_or_all(&self, count: usize) -> bool {
        count == 0 || count == self.hours
    }

    fn due(&self, count: usize, hour: u16) -> bool {
        count < self.hours && usize::from(hour) == count
    }

    /// Where the prices begin, or may: after all fixed hours, and none or all refixed ones.
    fn is_after_the_hours(&self) -> bool {
        self.fixed == self.hours && self.none_or_all(self.refixed)
    }
}

/// Whether a reader takes a record after what it has read.
type Takes = fn(&Read, &Record) -> bool;

/// The order of 01 from the fixed hours on, for prices that are needed.
fn needed(read: &Read, record: &Record) -> bool {
    match record {
        Record::Reading(_) | Record::End(_) => read.prices == read.hours,
        _ => optional(read, record),
    }
}

/// The same for a file that may have none: "A file for the first alone may have no 05 records".
fn optional(read: &Read, record: &Record) -> bool {
    match record {
        Record::Heading(_) | Record::Party(_) => false,
        Record::Fixed(flows) => read.due(read.fixed, flows.hour),
        Record::Refixed(flows) => {
            let is_first = read.prices + read.readings == 0;
            read.fixed == read.hours && is_first && read.due(read.refixed, flows.hour)
        }
        Record::Price(price) => {
            let is_first = read.readings == 0;
            read.is_after_the_hours() && is_first && read.due(read.prices, price.hour)
        }
        Record::Reading(_) | Record::End(_) => {
            read.is_after_the_hours() && read.none_or_all(read.prices)
        }
    }
}

/// What a reader that takes records so says of a file; None where heading or parties are not good.
fn read_by(file: &[u8], takes: Takes) -> Option<Result<Read, Refusal>> {
    let (Record::Heading(heading), mut rest) = first_record(file).ok()? else {
        return None;
    };
    for _ in 0..heading.parties {
        (_, rest) = first_record(rest).ok()?;
    }
    let around = Surroundings {
        hours: heading.hours,
        parties: heading.parties,
        gln_before: None,
    };
    let mut read = Read {
        hours: heading.hours.into(),
        ..Read::default()
    };
    let mut number = 1 + usize::from(heading.parties);
    loop {
        let (record, after) = match first_record(rest) {
            Ok(first) => first,
            Err(refused) => return Some(Err(refused.at(number))),
        };
        if !takes(&read, &record) {
            return Some(Err(Number::OutOfOrder.at(number)));
        }
        if let Err(refused) = judge_fields(&record, &around) {
            return Some(Err(refused.at(number)));
        }
        match record {
            Record::Fixed(_) => read.fixed += 1,
            Record::Refixed(_) => read.refixed += 1,
            Record::Price(_) => read.prices += 1,
            Record::Reading(_) => read.readings += 1,
            Record::End(count) if count as usize != number => {
                return Some(Err(Number::WrongCount.at(number)));
            }
            Record::End(_) if !after.is_empty() => {
                return Some(Err(Number::BrokenFile.at(number + 1)));
            }
            _ => return Some(Ok(read)),
        }
        rest = after;
        number += 1;
    }
}

mod wrong_readers {
    use super::*;

    /// Of programs that need the prices.
    pub const NEEDING: &[(&str, Takes)] = &[
        ("a file without prices taken", optional),
        ("prices taken that break off", |read, record| match record {
            Record::Reading(_) | Record::End(_) => read.is_after_the_hours() && read.prices > 0,
            _ => needed(read, record),
        }),
        (
            "a reading taken where the prices begin",
            |read, record| match record {
                Record::Reading(_) => optional(read, record),
                _ => needed(read, record),
            },
        ),
        (
            "an end taken where the prices begin",
            |read, record| match record {
                Record::End(_) => optional(read, record),
                _ => needed(read, record),
            },
        ),
    ];

    /// Of the hours, which do not.
    pub const OPTIONAL: &[(&str, Takes)] = &[
        ("prices needed", needed),
        (
            "prices needed of a month that is refixed",
            |read, record| match read.refixed {
                0 => optional(read, record),
                _ => needed(read, record),
            },
        ),
        (
            "prices needed of a month that is not refixed",
            |read, record| match read.refixed {
                0 => needed(read, record),
                _ => optional(read, record),
            },
        ),
        ("prices taken that break off", |read, record| match record {
            Record::Reading(_) | Record::End(_) => read.is_after_the_hours(),
            _ => optional(read, record),
        }),
        (
            "no 08 taken where the prices begin",
            |read, record| match record {
                Record::Reading(reading) if reading.weights.is_some() => {
                    needed(read, record) || (read.readings > 0 && optional(read, record))
                }
                _ => optional(read, record),
            },
        ),
        (
            "no end taken where the prices begin",
            |read, record| match record {
                Record::End(_) => {
                    needed(read, record) || (read.readings > 0 && optional(read, record))
                }
                _ => optional(read, record),
            },
        ),
        (
            "a price taken after a reading",
            |read, record| match record {
                Record::Price(price) => {
                    read.is_after_the_hours() && read.due(read.prices, price.hour)
                }
                _ => optional(read, record),
            },
        ),
        (
            "a refixed hour taken after a reading",
            |read, record| match record {
                Record::Refixed(_) => {
                    let before = Read {
                        readings: 0,
                        ..*read
                    };
                    optional(&before, record)
                }
                _ => optional(read, record),
            },
        ),
        (
            "a refixed hour taken after a price",
            |read, record| match record {
                Record::Refixed(_) => {
                    let before = Read { prices: 0, ..*read };
                    optional(&before, record)
                }
                _ => optional(read, record),
            },
        ),
        (
            "hour fields of prices not looked at",
            |read, record| match record {
                Record::Price(_) => {
                    let due = read.prices as u16;
                    let price = Price {
                        hour: due,
                        price_ore: 0,
                    };
                    optional(read, &Record::Price(price))
                }
                _ => optional(read, record),
            },
        ),
        (
            "a reading taken in half a refixed series",
            |read, record| match record {
                Record::Reading(_) | Record::End(_) => {
                    read.fixed == read.hours && read.none_or_all(read.prices)
                }
                _ => optional(read, record),
            },
        ),
    ];
}

/// Programs that need the prices and miss them in another way: what the file is read as, or where the 3 is told.
mod wrong_answers {
    use super::*;

    pub type Answer = fn(&[u8]) -> Option<Refusal>;

    pub const ANSWERS: &[(&str, Answer)] = &[
        ("3 after the file is read, at its first price", |file| {
            missed(file, |read, parties| {
                Number::OutOfOrder.at(1 + parties + read.fixed + read.refixed)
            })
        }),
        ("3 after the file is read, at its end", |file| {
            missed(file, |read, parties| {
                Number::OutOfOrder.at(1 + parties + read.fixed + read.refixed + read.readings)
            })
        }),
        ("3 after the file is read, at 0", |file| {
            missed(file, |_, _| Number::OutOfOrder.at(0))
        }),
        ("the 4 of the second operation", |file| {
            missed(file, |_, _| Number::OutsideRange.at(0))
        }),
        ("17 before the 3", |file| {
            let answer = read_by(file, needed)?.err();
            let as_optional = read_by(file, optional)?;
            match as_optional {
                Ok(read) if read.refixed == 0 => Some(Number::NoRefixedSeries.at(0)),
                _ => answer,
            }
        }),
    ];

    /// The file read as if it needed none, and then refused so if it has none.
    fn missed(file: &[u8], refusal: fn(&Read, usize) -> Refusal) -> Option<Refusal> {
        let read = match read_by(file, optional)? {
            Ok(read) => read,
            Err(refused) => return Some(refused),
        };
        let (Record::Heading(heading), _) = first_record(file).ok()? else {
            return None;
        };
        (read.prices == 0).then(|| refusal(&read, heading.parties.into()))
    }
}

/// The made files whose heading and parties are good: what is refused of them comes after these.
fn files_with_good_parties(seed: u64) -> Vec<Vec<u8>> {
    let has_good_parties = |file: &Vec<u8>| {
        let Ok((Record::Heading(heading), _)) = first_record(file) else {
            return false;
        };
        let refusal = month_file::read(file, Prices::Needed).err();
        refusal.is_none_or(|refusal| refusal.place > heading.parties.into())
    };
    let made = files(seed, 1_500).map(|made| made.bytes);
    made.filter(has_good_parties).collect()
}

/// The rules here are those of the reader.
#[test]
fn the_readers_here_judge_as_the_reader_does() {
    let files = files_with_good_parties(95);
    for file in &files {
        for (prices, takes) in [
            (Prices::Needed, needed as Takes),
            (Prices::Optional, optional),
        ] {
            let refusal = month_file::read(file, prices).err();
            assert_eq!(read_by(file, takes).unwrap().err(), refusal);
        }
    }
    assert!(files.len() > 900, "{}", files.len());
}

/// Whatever the seed, 1,500 files have several that show each wrong reader and each wrong answer.
#[test]
fn made_files_tell_every_wrong_reader() {
    for seed in 96..99 {
        let files = files_with_good_parties(seed);
        for (right, wrong) in [
            (needed as Takes, wrong_readers::NEEDING),
            (optional, wrong_readers::OPTIONAL),
        ] {
            for (name, takes) in wrong {
                let differing = files
                    .iter()
                    .filter(|file| read_by(file, *takes) != read_by(file, right));
                let differing = differing.count();
                assert!(differing >= 5, "seed {seed}, {name}: {differing}");
            }
        }
        for (name, answer) in wrong_answers::ANSWERS {
            let right = |file: &[u8]| read_by(file, needed).and_then(Result::err);
            let differing = files.iter().filter(|file| answer(file) != right(file));
            let differing = differing.count();
            assert!(differing >= 5, "seed {seed}, {name}: {differing}");
        }
    }
}
