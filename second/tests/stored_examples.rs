//! The stored examples are what `second example` makes and what each report's program prints for them; and the program
//! itself.

use std::fs::{self, File};
use std::path::PathBuf;
use std::process::{Command, Output, Stdio};

use second::brp::brp;
use second::examples::{self, example, full, ore, NAMES};
use second::invoice::invoice;
use second::month::settle;
use second::reconciliation::amounts;
use second::report::Report;
use second::setting::Setting;
use second::statement::statement;

fn stored(name: &str) -> PathBuf {
    let directory = PathBuf::from(env!("CARGO_MANIFEST_DIR")).join("../examples");
    directory.join(name)
}

fn second(arguments: &[&str], input: Stdio) -> Output {
    Command::new(env!("CARGO_BIN_EXE_second"))
        .args(arguments)
        .stdin(input)
        .output()
        .unwrap()
}

#[test]
fn stored_examples_are_up_to_date() {
    for name in NAMES {
        let file = fs::read(stored(&format!("{name}.month"))).unwrap();
        assert_eq!(file, example(name).unwrap(), "{name}");
        for report in Report::ALL {
            let text = fs::read_to_string(stored(&format!("{name}.{}", report.word()))).unwrap();
            assert_eq!(text, report.of(&file), "{name}");
        }
    }
}

#[test]
fn the_silent_month_is_refused_at_its_hour() {
    assert_eq!(statement(&example("silent").unwrap()), "refused 7 at 417\n");
}

#[test]
fn the_full_month_is_a_full_month() {
    let bytes = full().bytes();
    let month = settle(&bytes, Setting::FINAL).unwrap();
    assert_eq!((month.hours.len(), month.file.parties.len()), (744, 40));
    assert!(month.file.readings.len() >= 300);
    assert!(!month.refixed_wh.is_empty() && month.refixed_wh != month.fixed_wh);
    assert!(month.estimated_hours() > 0);
    assert!(month.file.prices.iter().any(|price| price.price_ore < 0));
}

/// The figures of examples/README.md.
#[test]
fn the_ore_month_has_a_tie_and_three_missing_ore() {
    let bytes = ore().bytes();
    let sums = settle(&bytes, Setting::FINAL).unwrap().party_sums();
    let amounts: Vec<i64> = sums.iter().map(|sums| sums.amount_millionths).collect();
    assert_eq!(amounts, [750_000, 500_000, -500_000, -1_250_000, 500_000]);
    let invoices: Vec<i64> = sums.iter().map(|sums| sums.invoice_ore).collect();
    assert_eq!(invoices, [1, 1, -1, -1, 0]);
}

/// The figures of examples/README.md: what the suppliers' whole øre come to, and what those of the BRPs' exact amounts would.
#[test]
fn the_brp_month_shows_when_the_whole_ore_are_made() {
    let bytes = examples::brp().bytes();
    let sums = settle(&bytes, Setting::FINAL).unwrap().party_sums();
    let invoices: Vec<i64> = sums.iter().map(|sums| sums.invoice_ore).collect();
    assert_eq!(invoices, [1, 1, -2]);
    let text = brp(&bytes);
    let ends = text.lines().skip(1).map(|line| line.rsplit(' ').next());
    assert_eq!(ends.collect::<Vec<_>>(), ["1", "-1", "0"].map(Some));
    let amounts: Vec<i64> = sums.iter().map(|sums| sums.amount_millionths).collect();
    let of_brps = [amounts[1], amounts[0] + amounts[2]];
    assert_eq!(invoice(&of_brps, 2), Ok(vec![0, 0]));
    // Its BRP report alone differs from the statement.
    for name in NAMES {
        let file = example(name).unwrap();
        assert_eq!(brp(&file) == statement(&file), name != "brp", "{name}");
    }
}

/// The figures of examples/README.md: quantities on day 1, which the prices of day 5 do not change, and amounts then.
#[test]
fn the_volumes_month_gets_its_prices_later() {
    let (volumes, priced) = (examples::volumes(), examples::priced());
    let expected_hours = "area 009 2017-02 hours 2 parties 2 estimated 0
0 measured measured 8 9 2000000 9 5 4
1 measured measured 4 6 1000000 6 4 2
0000000000017 -1/4 1/4
0000000000024 -1/4 1/4
";
    assert_eq!(Report::Hours.of(&volumes.bytes()), expected_hours);
    assert_eq!(Report::Hours.of(&priced.bytes()), expected_hours);
    let expected_statement = "area 009 2017-02 hours 2 parties 2 estimated 0
0000000000017 11 8 0 -3 -2
0000000000024 4 1 6 3 2
total 15 9 6 0 0
";
    for report in [Report::Statement, Report::Preview, Report::Brp] {
        assert_eq!(report.of(&volumes.bytes()), "refused 3 at 7\n");
        assert_eq!(report.of(&priced.bytes()), expected_statement);
    }
    let file = volumes.bytes();
    let first = settle(&file, Setting::FINAL.of_quantities()).unwrap();
    let differences = first.hours.iter().flat_map(|hour| &hour.differences_wh);
    let differences: Vec<i64> = differences.copied().collect();
    assert_eq!(differences, [-2, 2, -1, 1]);
    assert_eq!(
        amounts(&differences, 2, &[500_000, 1_200_000], 4),
        Ok(vec![-1_000_000, 1_000_000, -1_200_000, 1_200_000])
    );
}

/// The two are one month: 05 records put in and the count raised is all.
#[test]
fn volumes_and_priced_differ_in_the_05_records_alone() {
    let (volumes, priced) = (examples::volumes().records(), examples::priced().records());
    assert!(priced[7..9].iter().all(|record| record[0] == 5));
    assert_eq!(volumes[..7], priced[..7]);
    assert_eq!(volumes[7..9], priced[9..11]);
    assert_eq!(volumes[9], [7, 0, 0, 0, 9]);
    assert_eq!(priced[11], [7, 0, 0, 0, 11]);
    assert_eq!((volumes.len(), priced.len()), (10, 12));
}

#[test]
fn the_program_prints_reports_and_examples() {
    for name in NAMES {
        for report in Report::ALL.map(Report::word) {
            let input = File::open(stored(&format!("{name}.month"))).unwrap();
            let printed = second(&[report], input.into());
            let expected = fs::read(stored(&format!("{name}.{report}"))).unwrap();
            assert_eq!(printed.stdout, expected);
            assert!(printed.status.success());
        }
        let made = second(&["example", name], Stdio::null());
        assert_eq!(made.stdout, example(name).unwrap());
    }
    for report in Report::ALL.map(Report::word) {
        let empty = second(&[report], Stdio::null());
        assert_eq!(empty.stdout, b"refused 1 at 0\n");
    }
}

/// A directory can be opened and not be read.
#[test]
fn a_read_error_prints_nothing_and_fails() {
    for report in Report::ALL.map(Report::word) {
        let directory = File::open(stored("")).unwrap();
        let printed = second(&[report], directory.into());
        assert_eq!(printed.stdout, b"");
        assert!(!printed.stderr.is_empty());
        assert_eq!(printed.status.code(), Some(1));
    }
}

#[test]
fn unknown_commands_fail() {
    for arguments in [&[][..], &["statements"], &["example", "none"], &["make"]] {
        let printed = second(arguments, Stdio::null());
        assert!(printed.stdout.is_empty());
        assert_eq!(printed.status.code(), Some(1));
    }
}
