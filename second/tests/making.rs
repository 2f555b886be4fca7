//! The maker of files, and the comparison of another program.

mod common;

use std::collections::BTreeSet;
use std::fs;
use std::io::ErrorKind;
use std::os::unix::fs::PermissionsExt;
use std::path::{Path, PathBuf};
use std::process::{Command, Stdio};

use second::check::{first_difference, Check, Feed};
use second::damage::{BYTES_FAULTS, DRAFT_FAULTS, RANDOM_DAMAGES};
use second::draft::Draft;
use second::limits::FILE_BYTES_MAX;
use second::make::{file, files, month, without_prices, write_files, Aim, MadeFile, Tally, SHAPES};
use second::month::{settle, Month, PartySums};
use second::random::Random;
use second::record::{Weights, PARTY_WITH_BRP};
use second::refusal::Number;
use second::report::Report;
use second::setting::{Prices, Setting, Stage};

/// What the maker meant and what the reader says, each from its own side, in either setting.
#[test]
fn every_aim_is_met() {
    for seed in [1, 2, 77] {
        for made in files(seed, 1_200) {
            for setting in Setting::ALL {
                let answer = settle(&made.bytes, setting).map(|_| ());
                let MadeFile { number, name, .. } = made;
                let which = format!("seed {seed} file {number} {name} {}", setting.words());
                match made.aim(setting) {
                    Aim::Accepted => assert_eq!(answer, Ok(()), "{which}"),
                    Aim::Refused(refusal) => assert_eq!(answer, Err(refusal), "{which}"),
                    Aim::Anything => {}
                }
            }
        }
    }
}

/// The tally of what a report's program is to answer to the first so many files of a seed.
fn tally_of(report: Report, seed: u64, count: u64) -> Tally {
    let mut tally = Tally::new(report.setting());
    files(seed, count).for_each(|made| tally.count(&settle(&made.bytes, report.setting())));
    tally
}

#[test]
fn all_refusals_and_sizes_occur_in_300_files_for_every_report() {
    for seed in 0..5 {
        for report in Report::ALL {
            let tally = tally_of(report, seed, 300);
            assert_eq!(tally.complete(), Ok(()), "seed {seed} {}", report.word());
            assert_eq!((tally.refused[16], tally.refused[19]), (0, 0));
        }
    }
}

/// Most months are refixed, so that 17 hides little of what a final run judges after it; and enough are not.
#[test]
fn about_a_fifth_of_the_months_are_not_refixed() {
    let made: Vec<MadeFile> = files(9, 2_400).collect();
    for damaged in [true, false] {
        let months = made
            .iter()
            .filter(|made| (made.lenient_aim != Aim::Accepted) == damaged);
        let (refixed, not_refixed): (Vec<_>, Vec<_>) = months.partition(|made| made.refixed);
        let share = not_refixed.len() as f64 / (refixed.len() + not_refixed.len()) as f64;
        assert!((0.15..0.3).contains(&share), "{share}");
    }
    let as_final = tally_of(Report::Statement, 9, 2_400);
    let as_provisional = tally_of(Report::Preview, 9, 2_400);
    assert!(as_final.accepted > 400 && as_final.not_refixed == 0);
    assert!(as_provisional.not_refixed > 100);
    // Everything that comes after the reading is still told by final runs, and by provisional ones of such months.
    for number in [6, 7, 8, 9, 10, 13, 14, 18] {
        let (told, told_in_all) = (as_final.refused[number], as_provisional.refused[number]);
        assert!(told >= 8 && told_in_all > told, "{number}");
    }
}

/// Whether a file's first party is a 12 record.
fn is_of_12_records(made: &MadeFile) -> bool {
    made.bytes.get(10) == Some(&PARTY_WITH_BRP)
}

/// Most months have 02 records, as they had before W5, and enough have 12.
#[test]
fn about_a_third_of_the_months_has_12_records() {
    let made: Vec<MadeFile> = files(10, 1_500).collect();
    for damaged in [true, false] {
        let months = made
            .iter()
            .filter(|made| (made.lenient_aim != Aim::Accepted) == damaged);
        let (of_12, of_02): (Vec<_>, Vec<_>) = months.partition(|made| is_of_12_records(made));
        let share = of_12.len() as f64 / (of_12.len() + of_02.len()) as f64;
        assert!((0.25..0.45).contains(&share), "{share}");
    }
    // Everything that a final run can say is said of months of either kind.
    for of_12 in [true, false] {
        let mut tally = Tally::new(Setting::FINAL);
        for made in made.iter().filter(|made| is_of_12_records(made) == of_12) {
            tally.count(&settle(&made.bytes, Setting::FINAL));
        }
        let told = (1..=15).chain([17, 18]);
        let untold: Vec<usize> = told.filter(|&number| tally.refused[number] == 0).collect();
        assert_eq!(untold, [], "of 12 records: {of_12}");
    }
}

/// W5's damages, with what each of them is refused with.
const DAMAGES_OF_12_RECORDS: &[(&str, Number)] = &[
    ("12 cut short", Number::BrokenFile),
    ("a 12 after 02 records, cut short", Number::BrokenFile),
    ("a 02 among 12 records", Number::OutOfOrder),
    ("a 12 among 02 records", Number::OutOfOrder),
    ("12 records, then 02 records", Number::OutOfOrder),
    ("02 records, then 12 records", Number::OutOfOrder),
    (
        "a 02 after 12 records, out of range, with a bad GLN",
        Number::OutOfOrder,
    ),
    (
        "a 12 after 02 records, out of range, with bad GLNs",
        Number::OutOfOrder,
    ),
    ("a 12 too few", Number::OutOfOrder),
    ("a 12 too many", Number::OutOfOrder),
    ("a 12 after the parties", Number::OutOfOrder),
    ("load share of a 12", Number::OutsideRange),
    ("load share and BRP GLN", Number::OutsideRange),
    ("the first 12 marked as 02", Number::OutsideRange),
    ("the first 02 marked as 12", Number::OutsideRange),
    ("BRP GLN with a byte that is no digit", Number::BadGln),
    (
        "BRP GLN with a byte that is no digit, of a right sum",
        Number::BadGln,
    ),
    ("BRP GLN with a wrong check digit", Number::BadGln),
    (
        "supplier GLNs of 12 records that do not rise",
        Number::BadGln,
    ),
    ("BRP GLN, and a mixture after it", Number::BadGln),
];

/// Whatever the seed, the 1,500 files of a comparison have each of them several times.
#[test]
fn the_damages_of_12_records_are_reached_in_1_500_files() {
    for seed in [4, 11] {
        let made: Vec<MadeFile> = files(seed, 1_500).collect();
        for &(name, number) in DAMAGES_OF_12_RECORDS {
            let named = made.iter().filter(|made| made.name == name);
            let told: Vec<Number> = named
                .map(|made| settle(&made.bytes, Setting::FINAL).unwrap_err().number)
                .collect();
            assert!(told.len() >= 5, "seed {seed}, {name}: {}", told.len());
            assert!(told.iter().all(|&told| told == number), "{name}");
        }
    }
}

/// Most months have their prices, as all had before W6, so that what comes after them is still told by the programs that need
/// them; and enough have none.
#[test]
fn about_a_seventh_of_the_months_has_no_prices() {
    let made: Vec<MadeFile> = files(12, 2_400).collect();
    let valid = made.iter().filter(|made| made.lenient_aim == Aim::Accepted);
    let good_until_damaged = made
        .iter()
        .filter(|made| DRAFT_FAULTS.iter().any(|(name, _)| made.name == *name));
    for months in [valid.collect::<Vec<_>>(), good_until_damaged.collect()] {
        let without = months.iter().filter(|made| made.unpriced_at.is_some());
        let share = without.count() as f64 / months.len() as f64;
        assert!((0.1..0.2).contains(&share), "{share}");
    }
    let [of_amounts, of_quantities] =
        [Report::Statement, Report::Hours].map(|report| tally_of(report, 12, 2_400));
    assert!(of_amounts.accepted > 500, "{}", of_amounts.accepted);
    assert_eq!(of_amounts.without_prices, 0);
    assert!(of_quantities.without_prices > 60);
    for number in (1..=15).chain([17, 18]) {
        let (told, told_in_all) = (of_amounts.refused[number], of_quantities.refused[number]);
        assert!(
            told >= 8 && (told_in_all >= told || number == 3),
            "{number}"
        );
    }
}

/// W6's damages, with what a run that gives amounts refuses each of them with, and a run of quantities.
const DAMAGES_OF_PRICES: &[(&str, u8, u8)] = &[
    ("price hour field", 3, 3),
    ("first price hour field", 3, 3),
    ("price too large", 4, 4),
    ("price too low", 4, 4),
    ("a price too few", 3, 3),
    ("the first price missing", 3, 3),
    ("prices that break off", 3, 3),
    ("prices that break off, and the end", 3, 3),
    ("a price too many", 3, 3),
    ("the prices after the readings", 3, 3),
    ("no prices, but one after a reading", 3, 3),
    ("no prices, and a refixed hour after a reading", 3, 3),
    ("a refixed hour after a price", 3, 3),
    ("a reading where the prices begin", 3, 3),
    ("a reading where the refixed hours begin", 3, 3),
    ("an end where the prices begin", 3, 1),
    ("an end where the refixed hours begin", 3, 1),
    ("an end where the prices begin, with a wrong count", 3, 15),
    ("a price out of range, and prices that break off", 4, 4),
    ("prices that break off, and a party out of range", 3, 3),
    ("no prices, and an unknown kind in their place", 2, 2),
    ("no prices, and a cut in their place", 1, 1),
    ("no prices, and the first party out of range", 3, 4),
    ("no prices, and the first span", 3, 11),
    ("no prices, and the last E too large", 3, 12),
    ("no prices, and a wrong count", 3, 15),
    ("no prices, and bytes after the end", 3, 1),
    ("no prices, and W 0", 3, 6),
    ("no prices, and a missing hour", 3, 7),
    ("no prices, and too much periodised in an hour", 3, 14),
];

/// Whatever the seed, the 1,500 files of a comparison have each of them several times.
#[test]
fn the_damages_of_prices_are_reached_in_1_500_files() {
    for seed in [2, 13] {
        let made: Vec<MadeFile> = files(seed, 1_500).collect();
        for &(name, of_amounts, of_quantities) in DAMAGES_OF_PRICES {
            let named = made.iter().filter(|made| made.name == name);
            let told: Vec<[u8; 2]> = named
                .map(|made| {
                    let runs = [Setting::PROVISIONAL, Setting::PROVISIONAL.of_quantities()];
                    runs.map(|setting| settle(&made.bytes, setting).unwrap_err().number as u8)
                })
                .collect();
            assert!(told.len() >= 4, "seed {seed}, {name}: {}", told.len());
            let expected = [of_amounts, of_quantities];
            assert!(told.iter().all(|&told| told == expected), "{name}");
        }
    }
}

#[test]
fn what_did_not_occur_is_named() {
    let random = &mut Random::of_file(1, 1);
    for (setting, end) in [
        (
            Setting::FINAL,
            "; refused 15; refused 17; refused 18; accepted, small; accepted, of full size; accepted, of 02 records; accepted, of 12 records; accepted, refixed; accepted, with prices",
        ),
        (
            Setting::PROVISIONAL,
            "; refused 15; refused 18; accepted, small; accepted, of full size; accepted, of 02 records; accepted, of 12 records; accepted, refixed; accepted, not refixed; accepted, with prices",
        ),
        (
            Setting::FINAL.of_quantities(),
            "; refused 18; accepted, small; accepted, of full size; accepted, of 02 records; accepted, of 12 records; accepted, refixed; accepted, with prices; accepted, without prices",
        ),
    ] {
        let mut tally = Tally::new(setting);
        tally.count(&settle(&[], setting));
        let missing = tally.complete().unwrap_err();
        assert!(
            missing.starts_with("did not occur: refused 2; refused 3; "),
            "{missing}"
        );
        assert!(missing.ends_with(end), "{missing}");
        // Full size is 745 hours and 64 parties: either alone is small.
        for (hours, parties, of_12) in [(744, 64, true), (745, 63, false), (745, 64, true)] {
            let file = month_of_kind(random, hours, parties, true, of_12).bytes();
            tally.count(&settle(&file, setting));
        }
        assert_eq!((tally.accepted, tally.of_full_size), (3, 1));
        assert_eq!(tally.of_12_records, 2);
        let file = month_of_kind(random, 2, 2, false, false).bytes();
        tally.count(&settle(&file, setting));
        let file = without_prices(month_of_kind(random, 2, 2, true, false)).bytes();
        tally.count(&settle(&file, setting));
        let provisional = u64::from(setting.stage == Stage::Provisional);
        let of_quantities = u64::from(setting.prices == Prices::Optional);
        let mut twice = Tally::new(setting);
        twice.add(&tally);
        twice.add(&tally);
        assert_eq!(twice.accepted, 6 + 2 * provisional + 2 * of_quantities);
        assert_eq!((twice.of_full_size, twice.not_refixed), (2, 2 * provisional));
        assert_eq!(twice.without_prices, 2 * of_quantities);
        assert_eq!(twice.refused[3], 2 - 2 * of_quantities);
        assert_eq!(twice.of_12_records, 4);
        assert_eq!((twice.refused[1], twice.refused[17]), (2, 2 - 2 * provisional));
        let missing = twice.complete().unwrap_err();
        assert!(missing.ends_with("; refused 15; refused 18"), "{missing}");
    }
}

/// A month of this size and two readings, its parties as 12 records or as 02 records.
fn month_of_kind(
    random: &mut Random,
    hours: usize,
    parties: usize,
    refixed: bool,
    of_12: bool,
) -> Draft {
    let mut draft = month(random, hours, parties, refixed, 2);
    for party in &mut draft.parties {
        party.brp_gln = of_12.then_some(party.gln);
    }
    draft
}

#[test]
fn all_shapes_occur_in_144_files_and_all_damages_in_one_round() {
    let shapes: BTreeSet<&str> = files(3, 144)
        .filter(|made| made.lenient_aim == Aim::Accepted)
        .map(|made| made.name)
        .collect();
    assert_eq!(shapes.len(), SHAPES.len());
    let damages = BYTES_FAULTS.len() + DRAFT_FAULTS.len() + RANDOM_DAMAGES.len();
    let made: BTreeSet<&str> = files(3, damages as u64 * 3 / 2 + 1)
        .map(|made| made.name)
        .collect();
    let names = BYTES_FAULTS.iter().map(|(name, _)| name);
    let names = names.chain(DRAFT_FAULTS.iter().map(|(name, _)| name));
    for name in names.chain(RANDOM_DAMAGES.iter().map(|(name, _)| name)) {
        assert!(made.contains(name), "{name}");
    }
}

type Property = fn(&MadeFile, &Month) -> bool;

/// Whether the parties of a month are 12 records, and their GLNs and BRP GLNs are so.
fn brps_are(month: &Month, is_so: impl Fn(&[&[u8]], &[&[u8]]) -> bool) -> bool {
    let suppliers: Vec<&[u8]> = month.file.parties.iter().map(|party| party.gln).collect();
    let brps: Option<Vec<&[u8]>> = month.file.parties.iter().map(|p| p.brp_gln).collect();
    brps.is_some_and(|brps| is_so(&suppliers, &brps))
}

/// Whether a reading over several months is so, by its weights, its weight in this month, and its E.
fn any_08(month: &Month, is_so: fn(Weights, u64, u32) -> bool) -> bool {
    let mut readings = month.file.readings.iter();
    readings.any(|reading| {
        let span = usize::from(reading.a)..usize::from(reading.b);
        let own = month.curve[span].iter().map(|&n| u64::from(n)).sum();
        reading
            .weights
            .is_some_and(|weights| is_so(weights, own, reading.e_wh))
    })
}

/// The month sums of a month with prices; none of one without.
fn sums_of(month: &Month) -> Vec<PartySums> {
    match month.file.prices[..] {
        [] => Vec::new(),
        _ => month.party_sums(),
    }
}

/// What the names of the shapes say.
const PROPERTIES: &[(&str, Property)] = &[
    ("65,536 bytes", |made, _| made.bytes.len() == FILE_BYTES_MAX),
    ("full size", |_, month| {
        month.hours.len() == 745 && month.file.parties.len() == 64
    }),
    ("one hour, one party", |_, month| {
        month.hours.len() == 1 && month.file.parties.len() == 1
    }),
    ("W 1", |_, month| month.share_sum_kwh == 1),
    ("largest W", |_, month| month.share_sum_kwh == 4_000_000_000),
    ("largest residual", |_, month| {
        month.fixed_wh.contains(&2_000_000_000)
    }),
    ("largest curve number", |_, month| {
        month.curve.contains(&1_000_000_000)
    }),
    ("many readings", |_, month| month.file.readings.len() > 500),
    ("no reading", |_, month| month.file.readings.is_empty()),
    ("estimated hours", |_, month| month.estimated_hours() > 2),
    ("largest E", |_, month| {
        let mut readings = month.file.readings.iter();
        readings.any(|reading| reading.e_wh == 1_000_000_000)
    }),
    ("most periodised in an hour", |_, month| {
        let mut hours = month.hours.iter();
        hours.any(|hour| hour.periodised_wh.iter().sum::<i64>() == 2_000_000_000)
    }),
    ("lowest net supply", |_, month| {
        let mut fixed = month.file.fixed.iter();
        fixed.any(|flows| flows.net_supply_wh == -8_000_000_000)
    }),
    ("negative prices", |_, month| {
        let prices = &month.file.prices;
        !prices.is_empty() && prices.iter().all(|price| price.price_ore < 0)
    }),
    ("negative losses", |_, month| {
        month.hours.iter().all(|hour| hour.loss_wh < 0)
    }),
    ("no consumption", |_, month| {
        month.fixed_wh.iter().all(|&residual| residual == 0)
    }),
    ("a reading without weight", |_, month| {
        let mut readings = month.file.readings.iter();
        readings.any(|reading| {
            let span = usize::from(reading.a)..usize::from(reading.b);
            month.curve[span].iter().all(|&number| number == 0)
                && month.curve.iter().any(|&n| n > 0)
        })
    }),
    ("a 04 after an 08", |_, month| {
        let readings = &month.file.readings;
        let first_08 = readings.iter().position(|r| r.weights.is_some());
        first_08.is_some_and(|first| readings[first..].iter().any(|r| r.weights.is_none()))
    }),
    ("many 08 records", |_, month| {
        let readings = month.file.readings.iter();
        readings.filter(|reading| reading.weights.is_some()).count() > 1_000
    }),
    (
        "weight before, and here the last of the whole",
        |_, month| {
            any_08(month, |weights, own, e_wh| {
                weights.before > 0 && weights.before + own == weights.whole && own > 0 && e_wh > 0
            })
        },
    ),
    ("weight before and after", |_, month| {
        any_08(month, |weights, own, e_wh| {
            weights.before > 0 && weights.before + own < weights.whole && own > 0 && e_wh > 0
        })
    }),
    ("E, and no weight here", |_, month| {
        any_08(month, |weights, own, e_wh| {
            weights.whole > 0 && own == 0 && e_wh > 0
        })
    }),
    ("an 08 without any weight", |_, month| {
        any_08(month, |weights, _, _| weights.whole == 0)
    }),
    ("largest whole weight", |_, month| {
        any_08(month, |weights, own, _| {
            weights.whole == 8_784_000_000_000 && weights.before + own == weights.whole
        })
    }),
    (
        "E of an 08 that does not divide before this month",
        |_, month| {
            any_08(month, |weights, own, e_wh| {
                let whole = u128::from(weights.whole);
                let rest = |weight: u64| u128::from(e_wh) * u128::from(weight) % whole.max(1);
                own > 0 && rest(weights.before) > 0 && rest(weights.before + own) > 0
            })
        },
    ),
    ("a figure of -1", |_, month| {
        let mut hours = month.hours.iter();
        hours.any(|hour| hour.distributed_wh.contains(&-1))
    }),
    ("half an øre", |_, month| {
        let mut sums = sums_of(month).into_iter();
        sums.any(|sums| sums.amount_millionths % 1_000_000 == 500_000)
    }),
    ("a tie for a missing øre", |_, month| {
        let sums = sums_of(month);
        let rounded = |sums: &PartySums| {
            let (amount, ore) = (sums.amount_millionths, 1_000_000);
            let is_up = sums.invoice_ore > amount.div_euclid(ore);
            (amount.rem_euclid(ore), is_up)
        };
        let up = sums.iter().map(rounded).filter(|&(_, is_up)| is_up);
        let remainders_up: Vec<i64> = up.map(|(remainder, _)| remainder).collect();
        let mut all = sums.iter().map(rounded);
        all.any(|(remainder, is_up)| !is_up && remainders_up.contains(&remainder))
    }),
    ("12 records, of full size", |_, month| {
        month.hours.len() == 745 && brps_are(month, |suppliers, _| suppliers.len() == 64)
    }),
    ("12 records, of one party", |_, month| {
        brps_are(month, |suppliers, _| suppliers.len() == 1)
    }),
    ("12 records, in 65,536 bytes", |made, month| {
        made.bytes.len() == FILE_BYTES_MAX && brps_are(month, |_, _| true)
    }),
    ("one BRP for all", |_, month| {
        brps_are(month, |_, brps| {
            brps.len() > 1 && brps.iter().all(|brp| brp == &brps[0])
        })
    }),
    ("12 records, each its own BRP", |_, month| {
        brps_are(month, |suppliers, brps| brps.len() > 1 && brps == suppliers)
    }),
    ("BRP GLNs that fall", |_, month| {
        brps_are(month, |_, brps| {
            brps.windows(2).filter(|two| two[0] > two[1]).count() > 2
        })
    }),
    (
        "a BRP with suppliers of another between its own",
        |_, month| {
            brps_are(month, |_, brps| {
                brps.windows(3)
                    .any(|three| three[0] == three[2] && three[0] != three[1])
            })
        },
    ),
    ("a BRP that is another supplier", |_, month| {
        brps_are(month, |suppliers, brps| {
            let mut both = brps.iter().zip(suppliers);
            both.any(|(brp, supplier)| brp != supplier && suppliers.contains(brp))
        })
    }),
    ("the lowest and the highest GLN as BRPs", |_, month| {
        brps_are(month, |_, brps| {
            brps.contains(&&b"0000000000000"[..]) && brps.contains(&&b"9999999999994"[..])
        })
    }),
    ("the carrier under a BRP of some, not of all", |_, month| {
        let carrier = usize::from(month.file.heading.carrier);
        brps_are(month, |_, brps| {
            let same = brps.iter().filter(|&brp| brp == &brps[carrier]).count();
            1 < same && same < brps.len()
        })
    }),
    ("largest amount", |_, month| {
        let mut sums = sums_of(month).into_iter();
        sums.any(|sums| sums.amount_millionths.abs() == 7_450_000_000_000_000_000)
    }),
    ("no prices, and readings", |_, month| {
        month.file.prices.is_empty() && month.file.readings.len() > 2
    }),
    ("no prices and no readings", |_, month| {
        month.file.prices.is_empty() && month.file.readings.is_empty()
    }),
    ("a 04 where the prices would begin", |_, month| {
        let first = month.file.readings.first();
        month.file.prices.is_empty() && first.is_some_and(|reading| reading.weights.is_none())
    }),
    ("an 08 where the prices would begin", |_, month| {
        let first = month.file.readings.first();
        month.file.prices.is_empty() && first.is_some_and(|reading| reading.weights.is_some())
    }),
    ("no prices, 02 records", |_, month| {
        month.file.prices.is_empty() && month.file.parties[0].brp_gln.is_none()
    }),
    ("no prices, 12 records", |_, month| {
        month.file.prices.is_empty() && brps_are(month, |_, _| true)
    }),
    ("no prices, one hour", |_, month| {
        month.file.prices.is_empty() && month.hours.len() == 1
    }),
    ("no prices, full size", |_, month| {
        let is_full = month.hours.len() == 745 && month.file.parties.len() == 64;
        month.file.prices.is_empty() && is_full
    }),
    ("no prices, 65,536 bytes", |made, month| {
        month.file.prices.is_empty() && made.bytes.len() == FILE_BYTES_MAX
    }),
];

/// The shapes have what their names say, refixed, which a final run accepts, and not.
#[test]
fn valid_files_reach_the_limits() {
    let mut reached = BTreeSet::new();
    for made in files(5, 2_400).filter(|made| made.lenient_aim == Aim::Accepted) {
        let month = settle(&made.bytes, Setting::PROVISIONAL.of_quantities()).unwrap();
        assert_eq!(month.refixed_wh.is_empty(), !made.refixed);
        assert_eq!(month.file.prices.is_empty(), made.unpriced_at.is_some());
        for (name, property) in PROPERTIES {
            if !reached.contains(&(made.refixed, name)) && property(&made, &month) {
                reached.insert((made.refixed, name));
            }
        }
    }
    for (name, _) in PROPERTIES {
        assert!(reached.contains(&(true, name)), "{name}");
        assert!(reached.contains(&(false, name)), "{name}, not refixed");
    }
}

#[test]
fn seed_and_number_decide_a_file() {
    for number in [0, 1, 50, 171] {
        assert_eq!(file(9, number).bytes, file(9, number).bytes);
    }
    assert_ne!(file(9, 0).bytes, file(10, 0).bytes);
    // One cycle of shapes later the shape is the same, its details are not.
    let cycle = 3 * SHAPES.len() as u64;
    assert_eq!(file(9, 0).name, file(9, cycle).name);
    assert_ne!(file(9, 0).bytes, file(9, cycle).bytes);
}

/// The numbers of the generator, so that a seed means the same everywhere: splitmix64's published first numbers of the
/// seed 1234567.
#[test]
fn the_generator_is_splitmix64() {
    let first = Random::of_file(1_234_567, 0).bits();
    // The stream of file 0 starts from the seed's first number.
    let mut state = 6_457_827_717_110_365_317u64;
    state = state.wrapping_add(0x9E37_79B9_7F4A_7C15);
    let mut mixed = state;
    mixed = (mixed ^ (mixed >> 30)).wrapping_mul(0xBF58_476D_1CE4_E5B9);
    mixed = (mixed ^ (mixed >> 27)).wrapping_mul(0x94D0_49BB_1331_11EB);
    assert_eq!(first, mixed ^ (mixed >> 31));
}

fn temporary(name: &str) -> PathBuf {
    let path = std::env::temp_dir().join(format!("second-test-{}-{name}", std::process::id()));
    fs::create_dir_all(&path).unwrap();
    path
}

#[test]
fn files_are_written_beside_their_expected_outputs() {
    let directory = temporary("make");
    let tallies = write_files(8, 30, &directory).unwrap();
    assert_eq!(tallies.each_ref().map(|tally| tally.setting), Setting::ALL);
    for tally in tallies {
        assert_eq!(tally.accepted + tally.refused.iter().sum::<u64>(), 30);
    }
    for made in files(8, 30) {
        let path = directory.join(format!("{:07}.month", made.number));
        assert_eq!(fs::read(&path).unwrap(), made.bytes);
        for report in Report::ALL {
            let expected = fs::read_to_string(path.with_extension(report.word())).unwrap();
            assert_eq!(expected, report.of(&made.bytes));
        }
    }
    fs::remove_dir_all(directory).unwrap();
}

/// A program that is a shell script of this text. It is run once: another test's child can have the file open for writing
/// until it has started its own program, and while it has, this one does not start.
fn script(directory: &Path, text: &str) -> PathBuf {
    let path = directory.join("program");
    fs::write(&path, format!("#!/bin/sh\n{text}\n")).unwrap();
    fs::set_permissions(&path, fs::Permissions::from_mode(0o755)).unwrap();
    let run = || Command::new(&path).stdin(Stdio::null()).output();
    while run().is_err_and(|error| error.kind() == ErrorKind::ExecutableFileBusy) {}
    path
}

const BOTH: &[Feed] = &[Feed::Whole, Feed::Pieces];

/// This program itself, with the report of this name.
fn itself(directory: &Path, report: &str) -> PathBuf {
    let second = env!("CARGO_BIN_EXE_second");
    script(directory, &format!("exec '{second}' {report}"))
}

/// The check of a statement program.
fn check(
    program: &Path,
    seed: u64,
    count: u64,
    feeds: &[Feed],
    threads: u64,
) -> Result<Tally, String> {
    let check = Check {
        program,
        report: Report::Statement,
        seed,
        count,
        feeds,
        threads,
    };
    check.run()
}

/// The check of a program of this report, on files in one piece.
fn check_report(report: Report, program: &Path, seed: u64, count: u64) -> Result<Tally, String> {
    let check = Check {
        program,
        report,
        seed,
        count,
        feeds: &BOTH[..1],
        threads: 1,
    };
    check.run()
}

#[test]
fn check_accepts_this_program_itself() {
    let directory = temporary("itself");
    let program = itself(&directory, "statement");
    let tally = check(&program, 6, 300, BOTH, 1).unwrap();
    assert_eq!(tally.complete(), Ok(()));
    assert_eq!(
        tally.to_string(),
        tally_of(Report::Statement, 6, 300).to_string()
    );
    // The same files on three threads.
    let threaded = check(&program, 6, 300, BOTH, 3).unwrap();
    assert_eq!(threaded.to_string(), tally.to_string());
    let tally = check_report(Report::Preview, &itself(&directory, "preview"), 6, 300).unwrap();
    assert_eq!(tally.complete(), Ok(()));
    assert_eq!(
        tally.to_string(),
        tally_of(Report::Preview, 6, 300).to_string()
    );
    fs::remove_dir_all(directory).unwrap();
}

/// The file of which a message tells a difference, which is left where it says; then removed with its directory.
fn left_file(message: &str, seed: u64) -> MadeFile {
    let number = message.split("file ").nth(1).unwrap();
    let number = number.split(' ').next().unwrap().parse().unwrap();
    let made = file(seed, number);
    assert_left(message, &made);
    made
}

/// The wrong programs of W1: a final one in the preview's place and the reverse, the word never, always, or on a refusal,
/// and 17 told before 15 or after 6.
#[test]
fn check_finds_wrong_previews_and_wrong_final_programs() {
    let directory = temporary("wrong-setting");
    let second = env!("CARGO_BIN_EXE_second");
    let with = |report: &str, edit: &str| {
        script(&directory, &format!("'{second}' {report} | sed '{edit}'"))
    };
    let wrong_preview = |program: &Path| {
        let message = check_report(Report::Preview, program, 19, 60)
            .err()
            .unwrap();
        (left_file(&message, 19), message)
    };
    let (made, message) = wrong_preview(&itself(&directory, "statement"));
    assert!(!made.refixed);
    assert!(
        message.ends_with("but was printed as \"refused 17 at 0\\n\""),
        "{message}"
    );
    let (made, message) = wrong_preview(&with("preview", "1s/ provisional$//"));
    assert!(
        !made.refixed && message.contains(" provisional\\n\"\n"),
        "{message}"
    );
    let (made, message) = wrong_preview(&with("preview", "/^area/s/[0-9]$/& provisional/"));
    assert!(
        made.refixed && message.ends_with(" provisional\\n\""),
        "{message}"
    );
    let (_, message) = wrong_preview(&with("preview", "/^refused/s/$/ provisional/"));
    assert!(message.contains("line 1 is to be \"refused "), "{message}");
    assert!(message.ends_with(" provisional\\n\""), "{message}");
    let wrong_statement = |program: &Path| {
        let message = check(program, 19, 300, &BOTH[..1], 1).err().unwrap();
        (left_file(&message, 19), message)
    };
    let (made, message) = wrong_statement(&itself(&directory, "preview"));
    assert!(!made.refixed, "{message}");
    assert!(
        message.contains("line 1 is to be \"refused 17 at 0\\n\""),
        "{message}"
    );
    // 17 told after 6, and before 15, where the file seems to have no 06 record of hour 0.
    let other = |answer: &str| {
        let text = format!(
            "file=$(mktemp) && cat > $file && preview=$('{second}' preview < $file)
             case $preview in {answer} ;; *) '{second}' statement < $file ;; esac
             rm $file"
        );
        wrong_statement(&script(&directory, &text))
    };
    let (made, message) = other("'refused 6 at 0') echo $preview");
    assert!(!made.refixed, "{}", made.name);
    assert!(
        message.ends_with("but was printed as \"refused 6 at 0\\n\""),
        "{message}"
    );
    let (made, message) = other(
        "'refused 15 at '*) if od -An -v -tx1 $file | tr -d ' \\n' | grep -q 060000; then echo $preview; else echo refused 17 at 0; fi",
    );
    assert!(!made.refixed, "{}", made.name);
    assert!(
        message.contains("line 1 is to be \"refused 15 at "),
        "{message}"
    );
    fs::remove_dir_all(&directory).unwrap();
}

/// The wrong programs of W5: the statement in the BRP program's place, the lines in file order, the last one left out.
#[test]
fn check_finds_wrong_brp_programs() {
    let directory = temporary("wrong-brp");
    let second = env!("CARGO_BIN_EXE_second");
    for (number, wrong) in [
        format!("'{second}' statement"),
        format!("'{second}' brp | sort -r"),
        format!("'{second}' brp | sed 'N;$!P;$!D;$d'"),
    ]
    .into_iter()
    .enumerate()
    {
        let program = script(&directory, &wrong);
        let message = check_report(Report::Brp, &program, 20, 60).err().unwrap();
        let made = left_file(&message, 20);
        assert!(number > 0 || is_of_12_records(&made), "{message}");
    }
    fs::remove_dir_all(&directory).unwrap();
}

/// The wrong programs of W6: the hours that need the prices, a statement that takes a month without them, and one that tells
/// what comes later in the file before it misses them.
#[test]
fn check_finds_programs_that_mind_the_prices_wrongly() {
    let directory = temporary("wrong-prices");
    let second = env!("CARGO_BIN_EXE_second");
    let program = |report: &str, instead: &str| {
        let text = format!(
            "file=$(mktemp) && cat > $file && hours=$('{second}' hours < $file)
             statement=$('{second}' statement < $file)
             case $statement in 'refused 3 at '*) {instead} ;; *) '{second}' {report} < $file ;; esac
             rm $file"
        );
        script(&directory, &text)
    };
    for (report, instead) in [
        (Report::Hours, "echo \"$statement\""),
        (Report::Statement, "echo \"$hours\""),
        (
            Report::Statement,
            "case $hours in refused*) echo \"$hours\" ;; *) echo \"$statement\" ;; esac",
        ),
    ] {
        let program = program(report.word(), instead);
        let message = check_report(report, &program, 21, 300).err().unwrap();
        let made = left_file(&message, 21);
        assert!(made.unpriced_at.is_some(), "{message}");
    }
    fs::remove_dir_all(&directory).unwrap();
}

/// The file that a message says is left, which is this one; then removed with its directory.
fn assert_left(message: &str, made: &MadeFile) {
    let left = message.split("left at ").nth(1).unwrap();
    let left = Path::new(left.split(":\n").next().unwrap());
    assert_eq!(fs::read(left).unwrap(), made.bytes);
    fs::remove_dir_all(left.parent().unwrap()).unwrap();
}

#[test]
fn check_tells_the_first_difference_and_leaves_the_file() {
    let directory = temporary("liar");
    let program = script(&directory, "cat > /dev/null; echo refused 1 at 0");
    for (feeds, words, threads) in [
        (BOTH, "in one piece", 1),
        (&BOTH[1..], "in pieces", 1),
        (BOTH, "in one piece", 4),
    ] {
        let message = check(&program, 7, 200, feeds, threads).err().unwrap();
        assert!(
            message.starts_with(&format!("seed 7, file 0 (small), {words}, left at ")),
            "{message}"
        );
        assert!(message.contains("line 1 is to be \"area "), "{message}");
        assert!(
            message.ends_with("but was printed as \"refused 1 at 0\\n\""),
            "{message}"
        );
        assert_left(&message, &file(7, 0));
    }
    fs::remove_dir_all(directory).unwrap();
}

/// The two reports have their first line in common and no more.
#[test]
fn check_tells_one_report_from_the_other() {
    let directory = temporary("other-report");
    for (printed, report, words) in [
        ("statement", Report::Hours, "line 2 is to be \"0 measured "),
        (
            "hours",
            Report::Statement,
            "but was printed as \"0 measured ",
        ),
    ] {
        let check = Check {
            program: &itself(&directory, printed),
            report,
            seed: 17,
            count: 10,
            feeds: BOTH,
            threads: 1,
        };
        let message = check.run().err().unwrap();
        assert!(message.contains(words), "{message}");
        assert_left(&message, &file(17, 0));
    }
    fs::remove_dir_all(directory).unwrap();
}

/// A program that reads once, as much as it may, and takes that for everything: right on a file in one piece only.
#[test]
fn check_finds_a_program_that_takes_the_first_piece_for_the_file() {
    let directory = temporary("hasty");
    let second = env!("CARGO_BIN_EXE_second");
    let program = script(
        &directory,
        &format!("dd bs=200000 count=1 2>/dev/null | '{second}' statement"),
    );
    assert!(check(&program, 11, 60, &BOTH[..1], 1).is_ok());
    let message = check(&program, 11, 60, BOTH, 2).err().unwrap();
    assert!(message.contains("in pieces"), "{message}");
    left_file(&message, 11);
    fs::remove_dir_all(directory).unwrap();
}

/// A program may stop reading a file that is too long, and a failed write is not a failure of the check.
#[test]
fn check_lets_a_program_stop_reading() {
    let directory = temporary("early");
    let second = env!("CARGO_BIN_EXE_second");
    let program = script(&directory, &format!("head -c 65537 | '{second}' statement"));
    check(&program, 12, 60, BOTH, 1).unwrap();
    fs::remove_dir_all(directory).unwrap();
}

#[test]
fn check_minds_how_the_program_ends() {
    let directory = temporary("ends");
    let second = env!("CARGO_BIN_EXE_second");
    let program = script(&directory, &format!("'{second}' statement; exit 3"));
    let message = check(&program, 13, 10, BOTH, 1).err().unwrap();
    assert!(
        message.ends_with("the program ended with exit status: 3"),
        "{message}"
    );
    assert_left(&message, &file(13, 0));
    let program = script(&directory, &format!("'{second}' statement; kill -9 $$"));
    let message = check(&program, 14, 10, BOTH, 1).err().unwrap();
    assert!(message.contains("signal: 9"), "{message}");
    assert_left(&message, &file(14, 0));
    let message = check(&directory.join("none"), 15, 10, BOTH, 1)
        .err()
        .unwrap();
    assert!(message.contains("none: No such file"), "{message}");
    assert_left(&message, &file(15, 0));
    fs::remove_dir_all(directory).unwrap();
}

#[test]
fn the_check_command_fails_where_something_did_not_occur() {
    let directory = temporary("command");
    let program = itself(&directory, "statement");
    let command = |seed: &str, count: &str, more: &[&str]| {
        Command::new(env!("CARGO_BIN_EXE_second"))
            .args(["check", "--seed", seed, "--count", count, "--program"])
            .arg(&program)
            .args(more)
            .output()
            .unwrap()
    };
    let all = command("16", "300", &["--threads", "2"]);
    let text = String::from_utf8(all.stdout).unwrap();
    assert!(
        text.contains("seed 16: 300 files, none differs (statement, both, "),
        "{text}"
    );
    assert!(all.status.success());
    let few = command("16", "3", &["--feed", "whole"]);
    let message = String::from_utf8(few.stderr).unwrap();
    assert!(message.starts_with("did not occur: refused "), "{message}");
    assert_eq!(few.status.code(), Some(1));
    for more in [
        ["--feed", "half"],
        ["--threads", "many"],
        ["--report", "both"],
    ] {
        let refused = command("16", "3", &more);
        let message = String::from_utf8(refused.stderr).unwrap();
        assert!(
            message.starts_with("usage: ") || message.ends_with(" is not a whole number\n"),
            "{message}"
        );
        assert_eq!(refused.status.code(), Some(1));
    }
    fs::remove_dir_all(directory).unwrap();
}

#[test]
fn the_check_command_takes_the_report_by_name() {
    let directory = temporary("report");
    for report in ["hours", "preview", "brp"] {
        let program = itself(&directory, report);
        let checked = Command::new(env!("CARGO_BIN_EXE_second"))
            .args(["check", "--seed", "22", "--count", "300", "--program"])
            .arg(&program)
            .args(["--threads", "2", "--report", report])
            .output()
            .unwrap();
        let text = String::from_utf8(checked.stdout).unwrap();
        let end = format!("seed 22: 300 files, none differs ({report}, both, ");
        assert!(text.contains(&end), "{text}");
        assert!(checked.status.success());
    }
    fs::remove_dir_all(directory).unwrap();
}

#[test]
fn differences_are_told_by_line() {
    assert_eq!(
        first_difference(b"a\nb\n", b"a\nb"),
        "line 2 is to be \"b\\n\"\nbut was printed as \"b\""
    );
    assert_eq!(
        first_difference(b"a\n", b"a\nb\n"),
        "line 2 is to be no line\nbut was printed as \"b\\n\""
    );
}
