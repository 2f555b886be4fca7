//! 02's W1, final and provisional runs, READINGS A51 to A53. The files are S1 with something changed, the examples, and those
//! of the maker.

mod common;

use common::{
    assert_accepted, assert_accepted_as_provisional, assert_refused, assert_refused_as_final,
    assert_refused_as_provisional, told,
};
use second::draft::{measured_hour, Draft};
use second::examples::{after, before, d3, example, s1, NAMES};
use second::hours::hours;
use second::make::files;
use second::month::{month_sums, settle};
use second::month_file;
use second::preview::{self, preview};
use second::record::Reading;
use second::report::Report;
use second::setting::{Prices, Setting, Stage};
use second::statement::{self, statement};

/// S1 without its refixed series, so that record 10 is the first reading and 19 the end, and with something changed.
fn not_refixed(change: impl FnOnce(&mut Draft)) -> Vec<u8> {
    let mut draft = s1();
    draft.refixed.clear();
    change(&mut draft);
    draft.bytes()
}

#[test]
fn only_the_preview_is_provisional() {
    let settings = Report::ALL.map(|report| (report.word(), report.setting()));
    assert_eq!(
        settings,
        [
            ("statement", Setting::FINAL),
            ("hours", Setting::FINAL.of_quantities()),
            ("preview", Setting::PROVISIONAL),
            ("brp", Setting::FINAL)
        ]
    );
    for report in Report::ALL {
        assert_eq!(Report::named(report.word()), Some(report));
    }
    assert_eq!(Report::named("provisional"), None);
}

#[test]
fn a_file_without_06_is_17_in_a_final_run() {
    let file = not_refixed(|_| {});
    assert_accepted_as_provisional(&file);
    assert_eq!(told(settle(&file, Setting::FINAL)), (17, 0));
    assert!(settle(&file, Setting::PROVISIONAL).is_ok());
    assert_accepted(&s1().bytes());
}

/// The two examples, by hand. Before refixation the figures are D3's. After it hour 1 has the residual -1+8-4-1 = 2, so that R
/// is 12 and the exact shares 72/14, 72/14 and 24/14: running sums 5, 5, 1 and the Wh left over to party 2, whose remainder
/// 10 is the largest. The distances are 70-72 = -2, -2 and 28-24 = 4; curve and readings stay; the loss of hour 1 is 2-3 = -1.
/// Differences (1,1,-2) at 2 øre and (0,-2,2) at -1.5 øre per Wh: 2, 5 and -7 øre.
#[test]
fn the_examples_before_and_after_by_hand() {
    assert_eq!(statement(&before().bytes()), "refused 17 at 0\n");
    assert_eq!(hours(&before().bytes()), "refused 17 at 0\n");
    let expected_preview = "area 004 2016-07 hours 2 parties 3 estimated 1 provisional
0000000000017 5 6 0 1 2
0000000000024 5 0 3 -2 7
0000000000031 1 2 0 1 -9
total 11 8 3 0 0
";
    assert_eq!(preview(&before().bytes()), expected_preview);
    let file = after().bytes();
    let expected_hours = "area 004 2016-07 hours 2 parties 3 estimated 0
0 measured measured 10 10 714285 10 5 5
1 estimated measured 1 2 71428 2 3 -1
0000000000017 -4/14 -2/14
0000000000024 -4/14 -2/14
0000000000031 4/14 8/14
";
    assert_eq!(hours(&file), expected_hours);
    let expected_statement = "area 004 2016-07 hours 2 parties 3 estimated 0
0000000000017 5 6 0 1 2
0000000000024 5 0 4 -1 5
0000000000031 2 2 0 0 -7
total 12 8 4 0 0
";
    assert_eq!(statement(&file), expected_statement);
    assert_eq!(preview(&file), expected_statement);
}

/// The two are one month: 06 records put in and the count raised is all.
#[test]
fn before_and_after_differ_in_the_06_records_alone() {
    let (mut before, after) = (before().records(), after().records());
    let (end, refixed) = (before.pop().unwrap(), 6..8);
    assert!(after[refixed.clone()].iter().all(|record| record[0] == 6));
    assert_eq!(before[..6], after[..6]);
    assert_eq!(before[6..], after[refixed.end..after.len() - 1]);
    assert_eq!(end, [7, 0, 0, 0, 10]);
    assert_eq!(after[12], [7, 0, 0, 0, 12]);
}

/// "after the file is read": whatever is found in reading it comes before 17.
#[test]
fn a53_every_refusal_of_the_reading_comes_before_17() {
    assert_refused(&not_refixed(|draft| draft.end_count = Some(18)), 15, 19);
    assert_refused(&not_refixed(|draft| draft.end_count = Some(22)), 15, 19);
    let good = not_refixed(|_| {});
    let after_the_end = [&good[..], &[0]].concat();
    assert_refused(&after_the_end, 1, 20);
    let after_the_end = [&good[..], &[0xFF]].concat();
    assert_refused(&after_the_end, 1, 20);
    assert_refused(&good[..good.len() - 1], 1, 19);
    assert_refused(&good[..good.len() - 5], 1, 19);
    let mut unknown = good.clone();
    unknown[good.len() - 5] = 9;
    assert_refused(&unknown, 2, 19);
    assert_refused(&not_refixed(|draft| draft.prices[2].hour = 1), 3, 9);
    assert_refused(&not_refixed(|draft| draft.readings[8].party = 3), 4, 18);
    assert_refused(&not_refixed(|draft| draft.parties[2].gln[12] = b'2'), 5, 3);
    assert_refused(&not_refixed(|draft| draft.readings[8].b = 4), 11, 18);
    let too_large = not_refixed(|draft| draft.readings[8].e_wh = 1_000_000_001);
    assert_refused(&too_large, 12, 18);
    // A series that breaks off is not read, and so never taken for none.
    assert_refused(
        &not_refixed(|draft| draft.refixed = vec![draft.fixed[0]]),
        3,
        8,
    );
}

/// "before 6": a final run says 17 where a provisional one says this.
#[track_caller]
fn assert_hidden_by_17(file: &[u8], number: u8, place: usize) {
    assert_refused_as_final(file, 17, 0);
    assert_refused_as_provisional(file, number, place);
}

#[test]
fn a53_17_comes_before_every_refusal_after_the_reading() {
    let shares = |draft: &mut Draft, share: u64| {
        for party in &mut draft.parties {
            party.load_share_kwh = share;
        }
    };
    assert_hidden_by_17(&not_refixed(|draft| shares(draft, 0)), 6, 0);
    assert_hidden_by_17(&not_refixed(|draft| shares(draft, 4_000_000_000)), 6, 0);
    let missing = not_refixed(|draft| {
        draft.fixed[2] = measured_hour(2, 0);
        draft.fixed[2].status = 0;
    });
    assert_hidden_by_17(&missing, 7, 2);
    assert_hidden_by_17(
        &not_refixed(|draft| draft.fixed[1] = measured_hour(1, -1)),
        8,
        1,
    );
    let too_large = not_refixed(|draft| draft.fixed[0] = measured_hour(0, 2_000_000_001));
    assert_hidden_by_17(&too_large, 9, 0);
    assert_hidden_by_17(&not_refixed(|draft| shares(draft, 1)), 10, 0);
    let weightless = not_refixed(|draft| draft.fixed[1] = measured_hour(1, 0));
    assert_hidden_by_17(&weightless, 13, 1);
    let too_heavy = not_refixed(|draft| draft.readings[2] = draft.readings[2].weighing(1, 0));
    assert_hidden_by_17(&too_heavy, 18, 2);
    let crowded = not_refixed(|draft| {
        let reading = Reading::of_month(0, 1, 2, 1_000_000_000);
        draft.readings.extend([reading; 2]);
    });
    assert_hidden_by_17(&crowded, 14, 1);
}

/// 16 stays last: a final call without 06 is 17 whatever is lent.
#[test]
fn a53_17_is_of_the_call_on_a_whole_month_too() {
    let file = not_refixed(|_| {});
    for lent in [0, 2, 3, 4] {
        assert_eq!(told(month_sums(&file, Stage::Final, lent)), (17, 0));
    }
    assert_eq!(told(month_sums(&file, Stage::Provisional, 2)), (16, 0));
    let sums = month_sums(&file, Stage::Provisional, 3).unwrap();
    // 130 MWh of fixed figures, of which the first has 15 per cent.
    assert_eq!(sums[0].distributed_wh, 19_500_000);
    let refixed = s1().bytes();
    assert_eq!(
        month_sums(&refixed, Stage::Provisional, 3),
        month_sums(&refixed, Stage::Final, 3)
    );
}

/// A51: with 06 records the preview is the statement, although it asks for a provisional run.
#[test]
fn a51_with_06_the_preview_is_the_statement() {
    for draft in [s1(), d3(), after()] {
        assert_accepted(&draft.bytes());
        assert_eq!(preview(&draft.bytes()), statement(&draft.bytes()));
    }
    // Also where refixation changed no figure, and where it left every hour estimated.
    let mut draft = s1();
    draft.refixed = draft.fixed.clone();
    assert_eq!(preview(&draft.bytes()), statement(&draft.bytes()));
    for flows in &mut draft.refixed {
        flows.status = 2;
    }
    let text = preview(&draft.bytes());
    assert!(text.starts_with("area 007 2016-04 hours 3 parties 3 estimated 3\n"));
    assert_eq!(text, statement(&draft.bytes()));
}

/// "ends its heading line with a space and `provisional`": nothing else differs from the statement of the same figures.
#[test]
fn the_word_ends_the_heading_line_and_stands_nowhere_else() {
    let file = not_refixed(|_| {});
    let text = preview(&file);
    let (heading, rest) = text.split_once('\n').unwrap();
    assert_eq!(
        heading,
        "area 007 2016-04 hours 3 parties 3 estimated 0 provisional"
    );
    assert!(!rest.contains("provisional"));
    // The same figures as refixed ones: the statement has the same lines below its heading.
    let mut draft = s1();
    draft.refixed = draft.fixed.clone();
    let statement = statement(&draft.bytes());
    let (final_heading, final_rest) = statement.split_once('\n').unwrap();
    assert_eq!(format!("{final_heading} provisional"), heading);
    assert_eq!(rest, final_rest);
}

#[test]
fn a_refused_month_has_no_word() {
    assert_eq!(preview(&[]), "refused 1 at 0\n");
    let missing = not_refixed(|draft| {
        draft.fixed[1] = measured_hour(1, 0);
        draft.fixed[1].status = 0;
    });
    assert_eq!(preview(&missing), "refused 7 at 1\n");
}

#[test]
fn the_examples_that_are_refixed_have_no_word() {
    for name in NAMES {
        let file = example(name).unwrap();
        let has_word = preview(&file).contains("provisional");
        assert_eq!(has_word, name == "before", "{name}");
        assert_eq!(
            preview(&file) == statement(&file),
            name != "before",
            "{name}"
        );
    }
}

/// All of it at once, for files of every shape and damage: what is found in reading a file is told by all programs; then 17
/// and nothing else parts a final run from a provisional one, and the word a provisional text from the statement's.
#[test]
fn final_and_provisional_differ_in_nothing_else() {
    let (mut unread, mut refixed, mut hidden, mut with_word) = (0, 0, 0, 0);
    for made in files(51, 1_500) {
        let [as_final, as_provisional] =
            [Setting::FINAL, Setting::PROVISIONAL].map(|setting| settle(&made.bytes, setting));
        let (statement, preview) = (statement(&made.bytes), preview(&made.bytes));
        let name = made.name;
        let Ok(file) = month_file::read(&made.bytes, Prices::Needed) else {
            assert_eq!(as_final.err(), as_provisional.err(), "{name}");
            assert_eq!(statement, preview, "{name}");
            unread += 1;
            continue;
        };
        if !file.refixed.is_empty() {
            assert_eq!(as_final.err(), as_provisional.err(), "{name}");
            assert_eq!(statement, preview, "{name}");
            assert!(!preview.contains("provisional"), "{name}");
            refixed += 1;
            continue;
        }
        assert_refused_as_final(&made.bytes, 17, 0);
        match as_provisional {
            Err(refusal) => {
                assert_eq!(preview, format!("{refusal}\n"), "{name}");
                hidden += 1;
            }
            Ok(month) => {
                assert_eq!(preview, preview::text(&month), "{name}");
                let expected = statement::text(&month).replacen('\n', " provisional\n", 1);
                assert_eq!(preview, expected, "{name}");
                with_word += 1;
            }
        }
    }
    assert!(unread > 500 && refixed > 300 && hidden > 30 && with_word > 80);
}
