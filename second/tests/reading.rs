//! The reading of a month file, READINGS A1 to A24, each by its number. All files are S1 with something changed: record 0
//! is the heading, 1 to 3 the parties, 4 to 6 the fixed hours, 7 to 9 the refixed, 10 to 12 the prices, 13 to 21 the
//! readings, 22 the end.

mod common;

use common::{
    assert_accepted, assert_accepted_as_provisional, assert_refused, assert_refused_for_amounts,
};
use second::draft::Draft;
use second::examples::s1;
use second::hours::hours;
use second::record::{Record, END, FIXED_HOUR};

/// S1 after a change of its fields.
fn changed(change: impl FnOnce(&mut Draft)) -> Vec<u8> {
    let mut draft = s1();
    change(&mut draft);
    draft.bytes()
}

/// S1 after a change of its list of records.
fn records_changed(change: impl FnOnce(&mut Vec<Vec<u8>>)) -> Vec<u8> {
    let mut records = s1().records();
    change(&mut records);
    records.concat()
}

#[test]
fn a1_an_earlier_record_is_judged_before_a_later_one() {
    let mut draft = s1();
    draft.parties[0].load_share_kwh = u64::MAX;
    let mut records = draft.records();
    records[9][0] = 0xFF;
    assert_refused(&records.concat(), 4, 1);
}

#[test]
fn a2_empty_or_too_long_is_1_at_0_before_all() {
    assert_refused(&[], 1, 0);
    assert_refused(&[0xFF; 65_537], 1, 0);
    let mut file = s1().bytes();
    file.resize(65_537, 0);
    assert_refused(&file, 1, 0);
    // 65,536 bytes are looked at.
    assert_refused(&[0xFF; 65_536], 2, 0);
    file.truncate(65_536);
    assert_refused(&file, 1, 23);
}

#[test]
fn a3_a_cut_body_is_1_at_its_record() {
    let file = s1().bytes();
    assert_refused(&file[..9], 1, 0);
    assert_refused(&file[..file.len() - 1], 1, 22);
    let before_fixed = 10 + 3 * 22;
    assert_refused(&file[..before_fixed + 36 + 35], 1, 5);
}

#[test]
fn a4_a_lone_kind_byte_is_1_if_known_and_2_if_not() {
    assert_refused(&[0x01], 1, 0);
    assert_refused(&[0x08], 1, 0);
    assert_refused(&[0x12], 1, 0);
    assert_refused(&[0x09], 2, 0);
    assert_refused(&[0x11], 2, 0);
    let mut file = s1().bytes();
    file.truncate(10 + 22);
    file.push(0x02);
    assert_refused(&file, 1, 2);
    file[32] = 0x00;
    assert_refused(&file, 2, 2);
}

#[test]
fn a5_cut_and_out_of_order_is_1() {
    assert_refused(&[FIXED_HOUR], 1, 0);
    assert_refused(&[END, 0, 0, 0], 1, 0);
    assert_refused(&[END, 0, 0, 0, 0], 3, 0);
}

#[test]
fn a6_an_end_of_the_data_between_records_is_1() {
    for complete in 1..23 {
        let file = records_changed(|records| records.truncate(complete));
        assert_refused(&file, 1, complete);
    }
}

#[test]
fn a7_bytes_after_the_end_are_1_after_the_end_record() {
    for after in [
        &[0xFF][..],
        &[0x00; 20],
        &[END],
        &[END, 0, 0, 0, 23],
        &s1().bytes(),
    ] {
        let file = records_changed(|records| records.push(after.to_vec()));
        assert_refused(&file, 1, 23);
    }
}

#[test]
fn a8_wrong_count_and_bytes_after_is_15() {
    let mut file = changed(|draft| draft.end_count = Some(23));
    assert_refused(&file, 15, 22);
    file.push(0xFF);
    assert_refused(&file, 15, 22);
}

/// That a reading or an end at this place is 3. Where the refixed hours or the prices begin the hours program takes it, since
/// a file of quantities alone may have neither (02, W6).
#[track_caller]
fn assert_early(file: &[u8], place: usize) {
    assert_refused_for_amounts(file, 3, place);
    let is_taken = hours(file) != format!("refused 3 at {place}\n");
    assert_eq!(is_taken, [7, 10].contains(&place));
}

#[test]
fn a9_an_early_end_is_3_whatever_its_count() {
    for place in 0..13 {
        for count in [place as u32, 99] {
            let file = records_changed(|records| {
                records.insert(place, Record::End(count).encode());
            });
            assert_early(&file, place);
            let file = records_changed(|records| {
                records.truncate(place);
                records.push(Record::End(count).encode());
            });
            assert_early(&file, place);
        }
    }
    // After the last price an end is in order, with no reading or with some.
    let file = records_changed(|records| {
        records.truncate(13);
        records.push(Record::End(13).encode());
    });
    assert_accepted(&file);
}

#[test]
fn a10_a_second_heading_is_3() {
    for place in 1..23 {
        let file = records_changed(|records| records.insert(place, records[0].clone()));
        assert_refused(&file, 3, place);
    }
}

#[test]
fn a10_a_record_too_many_or_too_few_is_3() {
    // Too many: the last party, fixed hour, refixed hour and price again.
    for last in [3, 6, 9, 12] {
        let file = records_changed(|records| records.insert(last + 1, records[last].clone()));
        assert_refused(&file, 3, last + 1);
    }
    // Too few: the record after a gap in the hours stands at the gap; a missing party shows at the first fixed hour.
    for gap in 4..13 {
        let file = records_changed(|records| {
            records.remove(gap);
        });
        assert_refused(&file, 3, gap);
    }
    for party in 1..4 {
        let file = records_changed(|records| {
            records.remove(party);
        });
        assert_refused(&file, 3, 3);
    }
    let file = records_changed(|records| {
        records.remove(0);
    });
    assert_refused(&file, 3, 0);
}

#[test]
fn a10_a_reading_among_the_hours_is_3() {
    for place in 1..13 {
        let file = records_changed(|records| records.insert(place, records[13].clone()));
        assert_early(&file, place);
    }
}

#[test]
fn a11_half_a_refixed_series_is_3_and_none_is_read() {
    for refixed in 1..3 {
        let file = changed(|draft| draft.refixed.truncate(refixed));
        assert_refused(&file, 3, 7 + refixed);
    }
    assert_accepted_as_provisional(&changed(|draft| draft.refixed.clear()));
}

#[test]
fn a11_refixed_hours_after_the_prices_are_3() {
    let file = records_changed(|records| {
        let refixed: Vec<_> = records.drain(7..10).collect();
        records.splice(10..10, refixed);
    });
    assert_refused(&file, 3, 10);
}

#[test]
fn a12_an_hour_field_beyond_the_range_is_3_in_a_file() {
    for hour in [0, 2, 744, 745, 746, 65_535] {
        assert_refused(&changed(|draft| draft.fixed[1].hour = hour), 3, 5);
        assert_refused(&changed(|draft| draft.refixed[1].hour = hour), 3, 8);
        assert_refused(&changed(|draft| draft.prices[1].hour = hour), 3, 11);
    }
}

#[test]
fn a13_an_hour_field_is_judged_before_the_other_fields() {
    let file = changed(|draft| {
        draft.fixed[1].hour = 2;
        draft.fixed[1].status = 9;
    });
    assert_refused(&file, 3, 5);
    let file = changed(|draft| {
        draft.prices[2].hour = 1;
        draft.prices[2].price_ore = i32::MAX;
    });
    assert_refused(&file, 3, 12);
}

#[test]
fn a14_a_status_above_2_is_4() {
    for status in [3, 255] {
        assert_refused(&changed(|draft| draft.fixed[2].status = status), 4, 6);
        assert_refused(&changed(|draft| draft.refixed[2].status = status), 4, 9);
    }
}

#[test]
fn a15_a_figure_with_status_0_is_4_before_6_and_7() {
    let silent = |draft: &mut Draft| {
        draft.fixed[1].status = 0;
        draft.fixed[1].net_supply_wh = 0;
    };
    assert_refused(&changed(silent), 7, 1);
    let file = changed(|draft| {
        silent(draft);
        draft.fixed[1].net_supply_wh = -1;
    });
    assert_refused(&file, 4, 5);
    let file = changed(|draft| {
        silent(draft);
        draft.fixed[1].production_wh = 1;
    });
    assert_refused(&file, 4, 5);
    let file = changed(|draft| {
        silent(draft);
        draft.fixed[1].hourly_wh = 1;
    });
    assert_refused(&file, 4, 5);
    let file = changed(|draft| {
        silent(draft);
        draft.fixed[0].status = 0;
        draft.fixed[0].net_supply_wh = 0;
        draft.parties.iter_mut().for_each(|p| p.load_share_kwh = 0);
        draft.refixed[2].status = 0;
        draft.refixed[2].net_supply_wh = 0;
        draft.refixed[2].flex_wh = 1 << 40;
    });
    assert_refused(&file, 4, 9);
}

#[test]
fn a16_a_carrier_not_below_p_is_4() {
    for carrier in [3, 64, 255] {
        assert_refused(&changed(|draft| draft.heading.carrier = carrier), 4, 0);
    }
    for carrier in 0..3 {
        assert_accepted(&changed(|draft| draft.heading.carrier = carrier));
    }
    let file = changed(|draft| {
        draft.heading.parties = 0;
        draft.heading.carrier = 0;
    });
    assert_refused(&file, 4, 0);
}

#[test]
fn a17_each_field_of_the_heading_has_its_range() {
    for area in [0, 1_000, 65_535] {
        assert_refused(&changed(|draft| draft.heading.area = area), 4, 0);
    }
    for year in [1_999, 2_100] {
        assert_refused(&changed(|draft| draft.heading.year = year), 4, 0);
    }
    for month in [0, 13] {
        assert_refused(&changed(|draft| draft.heading.month = month), 4, 0);
    }
    for hours in [0, 746, 65_535] {
        assert_refused(&changed(|draft| draft.heading.hours = hours), 4, 0);
    }
    for parties in [0, 65, 255] {
        assert_refused(&changed(|draft| draft.heading.parties = parties), 4, 0);
    }
    for (area, year, month) in [(1, 2000, 1), (999, 2099, 12)] {
        let file = changed(|draft| {
            draft.heading.area = area;
            draft.heading.year = year;
            draft.heading.month = month;
        });
        assert_accepted(&file);
    }
}

#[test]
fn a17_flows_and_prices_have_their_ranges() {
    for net in [-8_000_000_001, 8_000_000_001, i64::MIN, i64::MAX] {
        assert_refused(&changed(|draft| draft.fixed[0].net_supply_wh = net), 4, 4);
        assert_refused(&changed(|draft| draft.refixed[0].net_supply_wh = net), 4, 7);
    }
    for flow in [8_000_000_001, u64::MAX] {
        assert_refused(&changed(|draft| draft.fixed[0].production_wh = flow), 4, 4);
        assert_refused(&changed(|draft| draft.fixed[1].hourly_wh = flow), 4, 5);
        assert_refused(&changed(|draft| draft.refixed[2].flex_wh = flow), 4, 9);
    }
    for price in [-5_000_001, 5_000_001, i32::MIN, i32::MAX] {
        assert_refused(&changed(|draft| draft.prices[1].price_ore = price), 4, 11);
    }
    let file = changed(|draft| {
        draft.prices[0].price_ore = -5_000_000;
        draft.prices[1].price_ore = 5_000_000;
        draft.refixed[0].net_supply_wh = -8_000_000_000;
        draft.refixed[0].production_wh = 8_000_000_000;
        draft.refixed[1].net_supply_wh = 8_000_000_000;
        draft.refixed[1].production_wh = 8_000_000_000;
        draft.refixed[1].hourly_wh = 8_000_000_000;
        draft.refixed[1].flex_wh = 8_000_000_000;
    });
    assert_accepted(&file);
}

#[test]
fn a18_a_load_share_is_judged_before_the_gln() {
    let file = changed(|draft| {
        draft.parties[1].load_share_kwh = 4_000_000_001;
        draft.parties[1].gln[3] = b'x';
    });
    assert_refused(&file, 4, 2);
    assert_refused(&changed(|draft| draft.parties[1].gln[3] = b'x'), 5, 2);
}

#[test]
fn a19_glns_rise_strictly() {
    // Equal, and falling.
    assert_refused(
        &changed(|draft| draft.parties[1].gln = *b"0000000000017"),
        5,
        2,
    );
    assert_refused(
        &changed(|draft| draft.parties[2].gln = *b"0000000000017"),
        5,
        3,
    );
    // A wrong check digit in the first, too.
    assert_refused(
        &changed(|draft| draft.parties[0].gln = *b"0000000000016"),
        5,
        1,
    );
    // Nothing stands before the first: all zeros are a GLN.
    assert_accepted(&changed(|draft| draft.parties[0].gln = [b'0'; 13]));
}

#[test]
fn a20_a_reading_is_4_then_11_then_12() {
    let faulty = |party: u8, a: u16, b: u16, e_wh: u32| {
        changed(|draft| {
            draft.readings[2].party = party;
            draft.readings[2].a = a;
            draft.readings[2].b = b;
            draft.readings[2].e_wh = e_wh;
        })
    };
    assert_refused(&faulty(3, 1, 1, u32::MAX), 4, 15);
    assert_refused(&faulty(255, 0, 1, 1), 4, 15);
    assert_refused(&faulty(2, 1, 1, u32::MAX), 11, 15);
    assert_refused(&faulty(2, 2, 1, 0), 11, 15);
    assert_refused(&faulty(2, 0, 4, 0), 11, 15);
    assert_refused(&faulty(2, 0, 65_535, 0), 11, 15);
    assert_refused(&faulty(2, 65_535, 65_535, 0), 11, 15);
    assert_refused(&faulty(2, 0, 3, u32::MAX), 12, 15);
    assert_accepted(&faulty(2, 0, 3, 1_000_000_000));
}

#[test]
fn a21_e_too_large_is_12() {
    assert_refused(
        &changed(|draft| draft.readings[8].e_wh = 1_000_000_001),
        12,
        21,
    );
}

#[test]
fn a22_w_is_judged_after_the_whole_file() {
    let no_shares = |draft: &mut Draft| {
        draft.parties.iter_mut().for_each(|p| p.load_share_kwh = 0);
    };
    let mut file = changed(no_shares);
    assert_refused(&file, 6, 0);
    file.push(0);
    assert_refused(&file, 1, 23);
    let file = changed(|draft| {
        no_shares(draft);
        draft.end_count = Some(0);
    });
    assert_refused(&file, 15, 22);
    // A single share above the limit is 4 at its record.
    assert_refused(
        &changed(|draft| draft.parties[2].load_share_kwh = 4_000_000_001),
        4,
        3,
    );
}

#[test]
fn a23_w_is_the_true_sum() {
    let with_shares = |shares: [u64; 3]| {
        changed(|draft| {
            for (party, share) in draft.parties.iter_mut().zip(shares) {
                party.load_share_kwh = share;
            }
        })
    };
    assert_accepted(&with_shares([4_000_000_000, 0, 0]));
    assert_refused(&with_shares([4_000_000_000, 0, 1]), 6, 0);
    // 2^32 + 1,000,000 would be a good W in 32 bits.
    assert_refused(&with_shares([4_000_000_000, 294_967_296, 1_000_000]), 6, 0);
    assert_refused(&with_shares([4_000_000_000; 3]), 6, 0);
}

#[test]
fn a24_month_and_hours_are_not_compared() {
    assert_accepted(&changed(|draft| draft.heading.month = 2));
}

#[test]
fn a100_kinds_that_have_not_landed_are_2() {
    for kind in [0x00, 0x09, 0x0A, 0x0B, 0x11, 0x13, 0xFF] {
        for place in 0..23 {
            let file = records_changed(|records| records[place][0] = kind);
            assert_refused(&file, 2, place);
        }
    }
}
