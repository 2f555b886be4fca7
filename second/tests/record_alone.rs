//! One record alone, READINGS A41 to A45, the record 08 of W3 and the record 12 of W5: writing, reading, and the way there
//! and back.

mod common;

use common::told;
use second::gln::with_check_digit;
use second::random::Random;
use second::record::{
    body_length, read_alone, write, write_plain, Heading, HourFlows, Party, Price, Reading, Record,
};

const HEADING: Heading = Heading {
    area: 7,
    year: 2016,
    month: 4,
    hours: 3,
    parties: 3,
    carrier: 2,
};
const HOUR: HourFlows = HourFlows {
    hour: 744,
    status: 1,
    net_supply_wh: -5,
    production_wh: 105,
    hourly_wh: 40,
    flex_wh: 20,
};
const READING: Reading = Reading::of_month(63, 744, 745, 1_000_000_000);
const PARTY: Party = Party {
    gln: b"5790001330552",
    brp_gln: None,
    load_share_kwh: 4_000_000_000,
};
const PARTY_WITH_BRP: Party = Party {
    brp_gln: Some(b"0000000000017"),
    ..PARTY
};

fn written(record: Record) -> Result<usize, second::refusal::Refusal> {
    write(&record, &mut [0; 36])
}

/// That a record is refused alike by the writer, by the reader of its bytes and by the plain entry point.
#[track_caller]
fn assert_refused(record: Record, number: u8) {
    assert_eq!(told(written(record)), (number, 0));
    assert_eq!(told(read_alone(&record.encode())), (number, 0));
    assert_eq!(told(written_plain(record)), (number, 0));
}

/// What the plain entry point says of a record, its GLNs beside its numbers.
fn written_plain(record: Record) -> Result<usize, second::refusal::Refusal> {
    let (gln, brp_gln) = match record {
        Record::Party(party) => (party.gln, party.brp_gln.unwrap_or_default()),
        _ => (&b""[..], &b""[..]),
    };
    let kind = record.kind().into();
    write_plain(kind, &record.fields(), gln, brp_gln, &mut [0; 36])
}

#[test]
fn the_bytes_of_a_record_are_kind_and_big_endian_fields() {
    let mut lent = [0xEE; 40];
    assert_eq!(write(&Record::Heading(HEADING), &mut lent), Ok(10));
    assert_eq!(lent[..10], [1, 0, 7, 0x07, 0xE0, 4, 0, 3, 3, 2]);
    assert_eq!(write(&Record::Fixed(HOUR), &mut lent), Ok(36));
    assert_eq!(lent[..4], [3, 0x02, 0xE8, 1]);
    assert_eq!(
        lent[4..12],
        [0xFF, 0xFF, 0xFF, 0xFF, 0xFF, 0xFF, 0xFF, 0xFB]
    );
    assert_eq!(lent[12..20], [0, 0, 0, 0, 0, 0, 0, 105]);
    let price = Price {
        hour: 1,
        price_ore: -2,
    };
    assert_eq!(write(&Record::Price(price), &mut lent), Ok(7));
    assert_eq!(lent[..7], [5, 0, 1, 0xFF, 0xFF, 0xFF, 0xFE]);
    assert_eq!(write(&Record::Reading(READING), &mut lent), Ok(10));
    assert_eq!(
        lent[..10],
        [4, 63, 0x02, 0xE8, 0x02, 0xE9, 0x3B, 0x9A, 0xCA, 0]
    );
    let part = READING.weighing(0x0102_0304_0506_0708, 8_784_000_000_000);
    assert_eq!(write(&Record::Reading(part), &mut lent), Ok(26));
    assert_eq!(
        lent[..10],
        [8, 63, 0x02, 0xE8, 0x02, 0xE9, 0x3B, 0x9A, 0xCA, 0]
    );
    assert_eq!(lent[10..18], [1, 2, 3, 4, 5, 6, 7, 8]);
    assert_eq!(lent[18..26], [0, 0, 0x07, 0xFD, 0x2F, 0x33, 0x20, 0]);
    assert_eq!(write(&Record::Party(PARTY), &mut lent), Ok(22));
    assert_eq!(&lent[..14], b"\x025790001330552");
    assert_eq!(lent[14..22], [0, 0, 0, 0, 0xEE, 0x6B, 0x28, 0]);
    assert_eq!(write(&Record::Party(PARTY_WITH_BRP), &mut lent), Ok(35));
    assert_eq!(&lent[..27], b"\x1257900013305520000000000017");
    assert_eq!(lent[27..35], [0, 0, 0, 0, 0xEE, 0x6B, 0x28, 0]);
    assert_eq!(write(&Record::End(0x0102_0304), &mut lent), Ok(5));
    assert_eq!(lent[..5], [7, 1, 2, 3, 4]);
}

#[test]
fn a41_the_writer_touches_nothing_further_on() {
    let mut lent = [0xEE; 12];
    assert_eq!(write(&Record::Heading(HEADING), &mut lent), Ok(10));
    assert_eq!(lent[10..], [0xEE, 0xEE]);
    let mut exact = [0; 10];
    assert_eq!(write(&Record::Heading(HEADING), &mut exact), Ok(10));
    assert_eq!(exact, lent[..10]);
}

#[test]
fn a41_too_short_is_16_and_nothing_is_written() {
    for length in 0..10 {
        let mut lent = vec![0xEE; length];
        assert_eq!(told(write(&Record::Heading(HEADING), &mut lent)), (16, 0));
        assert_eq!(lent, vec![0xEE; length]);
    }
    // 16 comes last.
    let bad = Heading { area: 0, ..HEADING };
    assert_eq!(told(write(&Record::Heading(bad), &mut [])), (4, 0));
}

#[test]
fn a42_the_heading() {
    for (change, good) in [
        (Heading { area: 0, ..HEADING }, false),
        (Heading { area: 1, ..HEADING }, true),
        (
            Heading {
                area: 999,
                ..HEADING
            },
            true,
        ),
        (
            Heading {
                area: 1_000,
                ..HEADING
            },
            false,
        ),
        (
            Heading {
                year: 1_999,
                ..HEADING
            },
            false,
        ),
        (
            Heading {
                year: 2_000,
                ..HEADING
            },
            true,
        ),
        (
            Heading {
                year: 2_099,
                ..HEADING
            },
            true,
        ),
        (
            Heading {
                year: 2_100,
                ..HEADING
            },
            false,
        ),
        (
            Heading {
                month: 0,
                ..HEADING
            },
            false,
        ),
        (
            Heading {
                month: 1,
                ..HEADING
            },
            true,
        ),
        (
            Heading {
                month: 12,
                ..HEADING
            },
            true,
        ),
        (
            Heading {
                month: 13,
                ..HEADING
            },
            false,
        ),
        (
            Heading {
                hours: 0,
                ..HEADING
            },
            false,
        ),
        (
            Heading {
                hours: 1,
                ..HEADING
            },
            true,
        ),
        (
            Heading {
                hours: 745,
                ..HEADING
            },
            true,
        ),
        (
            Heading {
                hours: 746,
                ..HEADING
            },
            false,
        ),
        (
            Heading {
                parties: 64,
                ..HEADING
            },
            true,
        ),
        (
            Heading {
                parties: 65,
                ..HEADING
            },
            false,
        ),
        (
            Heading {
                parties: 2,
                ..HEADING
            },
            false,
        ), // the carrier is 2
        (
            Heading {
                carrier: 3,
                ..HEADING
            },
            false,
        ),
        (
            Heading {
                carrier: 0,
                ..HEADING
            },
            true,
        ),
    ] {
        if good {
            assert_eq!(written(Record::Heading(change)), Ok(10), "{change:?}");
        } else {
            assert_refused(Record::Heading(change), 4);
        }
    }
}

#[test]
fn a42_a_party_is_4_then_5() {
    let party = |gln, load_share_kwh| {
        Record::Party(Party {
            gln,
            brp_gln: None,
            load_share_kwh,
        })
    };
    assert_refused(party(b"579000133055X", 4_000_000_001), 4);
    assert_refused(party(b"579000133055X", 4_000_000_000), 5);
    assert_refused(party(b"5790001330553", 0), 5);
    // A GLN of another length has no bytes of its own to be read.
    for gln in [&b""[..], b"579000133055", b"57900013305520"] {
        assert_eq!(told(written(party(gln, 0))), (5, 0));
        assert_eq!(told(written(party(gln, u64::MAX))), (4, 0));
    }
}

/// "a bad BRP GLN is 5" (02, W5): for itself, and the supplier's for itself; the load share comes before both.
#[test]
fn w5_a_party_with_brp_is_4_then_5() {
    let party = |gln, brp_gln, load_share_kwh| {
        Record::Party(Party {
            gln,
            brp_gln: Some(brp_gln),
            load_share_kwh,
        })
    };
    let good: &[u8] = b"5790001330552";
    // "BRP GLNs need not rise and may repeat": nor need they differ from the supplier's, or come after it.
    for brp in [good, b"0000000000000", b"9999999999994"] {
        let record = party(good, brp, 4_000_000_000);
        assert_eq!(written(record), Ok(35));
        assert_eq!(written_plain(record), Ok(35));
        assert_eq!(read_alone(&record.encode()), Ok((record, 35)));
    }
    for bad in [b"579000133055X", b"5790001330553", b"57900:1330552"] {
        assert_refused(party(good, bad, 0), 5);
        assert_refused(party(bad, good, 0), 5);
        assert_refused(party(bad, bad, 4_000_000_000), 5);
        assert_refused(party(good, bad, 4_000_000_001), 4);
        assert_refused(party(bad, good, u64::MAX), 4);
    }
    // A GLN of another length has no bytes of its own to be read, nor have two that are of 26 together.
    for other in [&b""[..], b"579000133055", b"57900013305520"] {
        for (gln, brp_gln) in [(good, other), (other, good), (other, other)] {
            assert_eq!(told(written(party(gln, brp_gln, 0))), (5, 0));
            assert_eq!(told(written_plain(party(gln, brp_gln, 0))), (5, 0));
            assert_eq!(told(written(party(gln, brp_gln, u64::MAX))), (4, 0));
        }
    }
    assert_refused_lengths(
        party(b"579000133055", b"20000000000017", 0),
        party(good, b"0000000000017", 0),
    );
}

/// Two parties of the same bytes, of which the first has them divided wrongly between its GLNs.
fn assert_refused_lengths(wrong: Record, right: Record) {
    assert_eq!(wrong.encode(), right.encode());
    assert_eq!(told(written(wrong)), (5, 0));
    assert_eq!(written(right), Ok(35));
}

/// 16 comes last, and then nothing is written.
#[test]
fn w5_a_part_shorter_than_a_12_is_16() {
    for length in 0..35 {
        let mut lent = vec![0xEE; length];
        let record = Record::Party(PARTY_WITH_BRP);
        assert_eq!(told(write(&record, &mut lent)), (16, 0));
        assert_eq!(lent, vec![0xEE; length]);
        let bad = Party {
            brp_gln: Some(b"0000000000018"),
            ..PARTY_WITH_BRP
        };
        assert_eq!(told(write(&Record::Party(bad), &mut lent)), (5, 0));
    }
    let mut longer = [0xEE; 36];
    assert_eq!(write(&Record::Party(PARTY_WITH_BRP), &mut longer), Ok(35));
    assert_eq!(longer[35], 0xEE);
}

#[test]
fn a42_an_hour() {
    for fixed in [true, false] {
        let record = |flows| {
            if fixed {
                Record::Fixed(flows)
            } else {
                Record::Refixed(flows)
            }
        };
        assert_eq!(written(record(HOUR)), Ok(36));
        assert_refused(record(HourFlows { hour: 745, ..HOUR }), 4);
        assert_refused(record(HourFlows { status: 3, ..HOUR }), 4);
        assert_refused(record(HourFlows { status: 0, ..HOUR }), 4);
        let net = |net_supply_wh| {
            record(HourFlows {
                net_supply_wh,
                ..HOUR
            })
        };
        assert_refused(net(8_000_000_001), 4);
        assert_refused(net(-8_000_000_001), 4);
        assert_eq!(written(net(8_000_000_000)), Ok(36));
        assert_eq!(written(net(-8_000_000_000)), Ok(36));
        let too_large = 8_000_000_001;
        assert_refused(
            record(HourFlows {
                production_wh: too_large,
                ..HOUR
            }),
            4,
        );
        assert_refused(
            record(HourFlows {
                hourly_wh: too_large,
                ..HOUR
            }),
            4,
        );
        assert_refused(
            record(HourFlows {
                flex_wh: too_large,
                ..HOUR
            }),
            4,
        );
        // A missing hour is a good record, and so is one whose residual is none.
        let missing = HourFlows {
            hour: 0,
            status: 0,
            net_supply_wh: 0,
            production_wh: 0,
            hourly_wh: 0,
            flex_wh: 0,
        };
        assert_eq!(written(record(missing)), Ok(36));
        assert_refused(
            record(HourFlows {
                flex_wh: 1,
                ..missing
            }),
            4,
        );
    }
}

#[test]
fn a42_a_price() {
    let price = |hour, price_ore| Record::Price(Price { hour, price_ore });
    assert_eq!(written(price(744, 5_000_000)), Ok(7));
    assert_eq!(written(price(0, -5_000_000)), Ok(7));
    assert_refused(price(745, 0), 4);
    assert_refused(price(0, 5_000_001), 4);
    assert_refused(price(0, -5_000_001), 4);
}

#[test]
fn a42_a_reading_is_4_then_11_then_12() {
    assert_eq!(written(Record::Reading(READING)), Ok(10));
    assert_refused_readings(Record::Reading);
}

/// The field rules of a reading, whatever record it becomes.
fn assert_refused_readings(record: fn(Reading) -> Record<'static>) {
    let reading = |party, a, b, e_wh| record(Reading::of_month(party, a, b, e_wh));
    assert_refused(reading(64, 5, 5, u32::MAX), 4);
    assert_refused(reading(63, 5, 5, u32::MAX), 11);
    assert_refused(reading(63, 6, 5, 0), 11);
    assert_refused(reading(63, 0, 746, 0), 11);
    assert_refused(reading(63, 65_535, 65_535, 0), 11);
    assert_refused(reading(63, 0, 745, 1_000_000_001), 12);
}

/// "The record writer takes any weights." (02, W3)
#[test]
fn w3_an_08_takes_any_weights_and_is_4_then_11_then_12() {
    for before in [0, 1, 8_784_000_000_001, u64::MAX] {
        for whole in [0, 1, 8_784_000_000_001, u64::MAX] {
            let record = Record::Reading(READING.weighing(before, whole));
            assert_eq!(written(record), Ok(26));
            assert_eq!(read_alone(&record.encode()), Ok((record, 26)));
        }
    }
    assert_refused_readings(|reading| Record::Reading(reading.weighing(0, 0)));
    assert_refused_readings(|reading| Record::Reading(reading.weighing(u64::MAX, 1)));
}

#[test]
fn a42_the_end_count_is_any() {
    for count in [0, 1, u32::MAX] {
        assert_eq!(written(Record::End(count)), Ok(5));
    }
}

#[test]
fn a43_the_plain_writer_tests_the_kind_first() {
    for kind in [0, 9, 10, 12, 17, 19, 255, 256 + 8, 256 + 18, u64::MAX] {
        let refused = write_plain(kind, &[i128::MIN; 9], b"", b"", &mut []);
        assert_eq!(told(refused), (2, 0));
    }
}

#[test]
fn a43_the_plain_writer_wants_the_fields_of_the_kind() {
    let kinds = [
        (1, 6),
        (2, 1),
        (3, 6),
        (4, 4),
        (5, 2),
        (6, 6),
        (7, 1),
        (8, 6),
        (18, 1),
    ];
    let gln = b"5790001330552";
    for (kind, fields) in kinds {
        for other in (0..9).filter(|&length| length != fields) {
            let refused = write_plain(kind, &vec![1; other], gln, gln, &mut [0; 40]);
            assert_eq!(told(refused), (4, 0));
        }
    }
}

#[test]
fn a43_numbers_that_no_field_holds() {
    let gln = b"5790001330552";
    let plain = |kind, fields: &[i128]| told(write_plain(kind, fields, gln, gln, &mut [0; 40]));
    // Beyond the field's bytes it is outside the range, and is not cut to something good.
    assert_eq!(plain(1, &[65_536 + 7, 2016, 4, 3, 3, 2]), (4, 0));
    assert_eq!(plain(1, &[7, 2016, 4, 3, 256 + 3, 2]), (4, 0));
    assert_eq!(plain(1, &[7, 2016, 4, 3, 3, 256 + 2]), (4, 0));
    assert_eq!(plain(2, &[(1 << 64) + 5]), (4, 0));
    assert_eq!(plain(2, &[-1]), (4, 0));
    assert_eq!(plain(18, &[(1 << 64) + 5]), (4, 0));
    assert_eq!(plain(18, &[-1]), (4, 0));
    assert_eq!(plain(3, &[0, 1, 1 << 64, 0, 0, 0]), (4, 0));
    assert_eq!(plain(3, &[0, 257, 0, 0, 0, 0]), (4, 0));
    assert_eq!(plain(5, &[0, 1 << 32]), (4, 0));
    assert_eq!(plain(5, &[-1, 0]), (4, 0));
    assert_eq!(plain(7, &[1 << 32]), (4, 0));
    assert_eq!(plain(7, &[-1]), (4, 0));
    // A reading's a and b stay 11 and its E 12; none of them can be negative.
    assert_eq!(plain(4, &[0, 65_536, 1, 0]), (11, 0));
    assert_eq!(plain(4, &[0, 0, 65_537, 0]), (11, 0));
    assert_eq!(plain(4, &[0, 0, 1, 1 << 32]), (12, 0));
    assert_eq!(plain(4, &[256, 0, 1, 0]), (4, 0));
    assert_eq!(plain(4, &[0, -1, 1, 0]), (4, 0));
    assert_eq!(plain(4, &[0, 0, 1, -1]), (4, 0));
    // So of an 08, whose weights are 4 beyond their eight bytes, before its 11 and 12.
    assert_eq!(plain(8, &[0, 65_536, 1, 0, 0, 0]), (11, 0));
    assert_eq!(plain(8, &[0, 0, 1, 1 << 32, 0, 0]), (12, 0));
    assert_eq!(plain(8, &[256, 0, 1, 0, 0, 0]), (4, 0));
    assert_eq!(plain(8, &[0, 1, 1, 1 << 32, 1 << 64, 0]), (4, 0));
    assert_eq!(plain(8, &[0, 1, 1, 1 << 32, 0, 1 << 64]), (4, 0));
    assert_eq!(plain(8, &[0, 0, 1, 0, -1, 0]), (4, 0));
    assert_eq!(plain(8, &[0, 0, 1, 0, 0, -1]), (4, 0));
}

#[test]
fn a44_a_record_alone_is_1_2_1_then_its_fields() {
    assert_eq!(told(read_alone(&[])), (1, 0));
    for kind in [0x00, 0x09, 0x0A, 0x11, 0x13, 0xFF] {
        assert_eq!(told(read_alone(&[kind])), (2, 0));
        assert_eq!(told(read_alone(&[kind; 64])), (2, 0));
    }
    for kind in (1..=8).chain([0x12]) {
        let length = body_length(kind).unwrap();
        for cut in 0..length {
            let mut part = vec![0xFF; 1 + cut];
            part[0] = kind;
            assert_eq!(told(read_alone(&part)), (1, 0), "{kind} {cut}");
        }
    }
    // The end needs nothing before it, an hour field no order.
    assert_eq!(read_alone(&[7, 0, 0, 0, 9]), Ok((Record::End(9), 5)));
    let late_hour = Record::Refixed(HOUR).encode();
    assert_eq!(read_alone(&late_hour), Ok((Record::Refixed(HOUR), 36)));
}

#[test]
fn a45_bytes_after_a_record_alone_are_not_looked_at() {
    let mut part = Record::Heading(HEADING).encode();
    part.resize(70_000, 0xFF);
    assert_eq!(read_alone(&part), Ok((Record::Heading(HEADING), 10)));
}

/// A record of random good fields, with these GLNs if it is a party.
fn random_record<'a>(random: &mut Random, [gln, brp_gln]: &'a [[u8; 13]; 2]) -> Record<'a> {
    let hour = random.below(745) as u16;
    let flows = HourFlows {
        hour,
        status: 1 + random.below(2) as u8,
        net_supply_wh: random.between(-8_000_000_000, 8_000_000_000),
        production_wh: random.any_size(8_000_000_000),
        hourly_wh: random.any_size(8_000_000_000),
        flex_wh: random.any_size(8_000_000_000),
    };
    let b = random.between(i64::from(hour) + 1, 745) as u16;
    let e_wh = random.any_size(1_000_000_000) as u32;
    let reading = Reading::of_month(random.below(64) as u8, hour, b, e_wh);
    match random.below(9) {
        0 => {
            let parties = 1 + random.below(64);
            Record::Heading(Heading {
                area: random.between(1, 999) as u16,
                year: random.between(2000, 2099) as u16,
                month: random.between(1, 12) as u8,
                hours: random.between(1, 745) as u16,
                parties: parties as u8,
                carrier: random.below(parties) as u8,
            })
        }
        1 => Record::Party(Party {
            gln,
            brp_gln: None,
            load_share_kwh: random.any_size(4_000_000_000),
        }),
        2 => Record::Fixed(flows),
        3 => Record::Refixed(flows),
        4 => Record::Price(Price {
            hour,
            price_ore: random.between(-5_000_000, 5_000_000) as i32,
        }),
        5 => Record::Reading(reading),
        6 => {
            let (before, whole) = (random.any_size(u64::MAX), random.any_size(u64::MAX));
            Record::Reading(reading.weighing(before, whole))
        }
        7 => Record::Party(Party {
            gln,
            brp_gln: Some(brp_gln),
            load_share_kwh: random.any_size(4_000_000_000),
        }),
        _ => Record::End(random.bits() as u32),
    }
}

/// Two GLNs, in any order.
fn random_glns(random: &mut Random) -> [[u8; 13]; 2] {
    [(); 2].map(|()| with_check_digit(random.below(1_000_000_000_000) as u64))
}

/// "A record written is read back the same".
#[test]
fn written_records_are_read_back() {
    let random = &mut Random::of_file(44, 0);
    for _ in 0..5_000 {
        let glns = random_glns(random);
        let record = random_record(random, &glns);
        let mut lent = [0xEE; 50];
        let length = write(&record, &mut lent).unwrap();
        assert_eq!(length, 1 + body_length(record.kind()).unwrap());
        assert_eq!(read_alone(&lent), Ok((record, length)));
        assert_eq!(read_alone(&lent[..length]), Ok((record, length)));
        assert!(lent[length..].iter().all(|&byte| byte == 0xEE));
        // The plain entry point writes the same bytes.
        let mut plain = [0xEE; 50];
        let kind = u64::from(record.kind());
        assert_eq!(
            write_plain(kind, &record.fields(), &glns[0], &glns[1], &mut plain),
            Ok(length)
        );
        assert_eq!(plain, lent);
    }
}

/// "a record read is written back as the same bytes": of any bytes, whether the record is good or not.
#[test]
fn read_records_are_written_back() {
    let random = &mut Random::of_file(45, 0);
    let mut accepted = 0;
    for _ in 0..20_000 {
        let glns = random_glns(random);
        let mut bytes = random_record(random, &glns).encode();
        let flipped = random.below(bytes.len());
        bytes[flipped] ^= 1 << random.below(8);
        let Ok((record, length)) = read_alone(&bytes) else {
            continue;
        };
        accepted += 1;
        let mut lent = vec![0; length];
        assert_eq!(write(&record, &mut lent), Ok(length));
        assert_eq!(lent, bytes[..length]);
    }
    assert!(accepted > 5_000, "{accepted}");
}
