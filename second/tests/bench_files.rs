//! The files that instructions are counted on are of the size asked for, and judged as meant.

mod common;

use std::process::{Command, Output};

use common::{assert_accepted, assert_accepted_as_provisional, assert_refused};
use second::bench::{bench_file, Fault, Readings, Size};
use second::brp::brp;
use second::limits::FILE_BYTES_MAX;
use second::month::settle;
use second::setting::Setting;
use second::statement::statement;

fn size(hours: usize, parties: usize, refixed: bool, readings: Readings, span: usize) -> Size {
    Size {
        hours,
        parties,
        brps: None,
        refixed,
        readings,
        span,
    }
}

#[test]
fn a_file_is_of_its_size() {
    for (hours, parties, refixed, readings, span) in [
        (1, 1, false, 0, 1),
        (93, 32, true, 10, 5),
        (744, 64, true, 500, 24),
        (745, 64, false, 1_500, 745),
    ] {
        let size = size(hours, parties, refixed, Readings::Count(readings), span);
        let file = bench_file(&size, None);
        if refixed {
            assert_accepted(&file);
        } else {
            assert_accepted_as_provisional(&file);
        }
        let month = settle(&file, Setting::PROVISIONAL).unwrap();
        assert_eq!(
            (month.hours.len(), month.file.parties.len()),
            (hours, parties)
        );
        assert_eq!(month.refixed_wh.is_empty(), !refixed);
        assert_eq!(month.file.readings.len(), readings);
        for reading in &month.file.readings {
            assert_eq!(usize::from(reading.b - reading.a), span);
            assert!(reading.e_wh > 0);
        }
        assert_eq!(file, bench_file(&size, None));
    }
}

#[test]
fn the_most_readings_leave_no_room_for_another() {
    for (hours, parties, refixed, readings) in [
        (745, 1, false, 3_346),
        (1, 1, false, 6_545),
        (1, 4, false, 6_539),
        (412, 1, true, 3_295),
        (1, 1, true, 6_542),
        (1, 6, true, 6_531),
    ] {
        let size = size(hours, parties, refixed, Readings::Most, hours);
        let file = bench_file(&size, None);
        assert!((FILE_BYTES_MAX - 9..=FILE_BYTES_MAX).contains(&file.len()));
        let month = settle(&file, Setting::PROVISIONAL).unwrap();
        assert_eq!(month.refixed_wh.is_empty(), !refixed);
        assert_eq!(month.file.readings.len(), readings);
    }
}

/// Which number of hours lets a file of one party ask for the most hours of readings, each of the whole month.
#[test]
fn the_most_hours_of_readings() {
    let most = |refixed: bool| {
        let asked = |hours: usize| {
            let hour = if refixed { 36 + 36 + 7 } else { 36 + 7 };
            hours * ((FILE_BYTES_MAX - 10 - 22 - 5 - hours * hour) / 10)
        };
        let hours = (1..=745).max_by_key(|&hours| asked(hours)).unwrap();
        (hours, asked(hours))
    };
    assert_eq!(most(true), (412, 412 * 3_295));
    assert_eq!(most(false), (745, 745 * 3_346));
}

#[test]
fn a_fault_shows_at_the_last_byte_only() {
    let size = size(744, 64, true, Readings::Count(500), 24);
    let good = bench_file(&size, None);
    let end = 1 + 64 + 3 * 744 + 500;
    let after = bench_file(&size, Some(Fault::ByteAfter));
    assert_eq!(after[..good.len()], good);
    assert_refused(&after, 1, end + 1);
    let counted = bench_file(&size, Some(Fault::Count));
    let last = good.len() - 1;
    assert_eq!(counted[..last], good[..last]);
    assert_refused(&counted, 15, end);
}

/// 64 suppliers of 12 records under so many BRPs, in turn, whose GLNs fall.
#[test]
fn the_parties_of_a_file_are_under_so_many_brps() {
    for brps in [1, 2, 16, 64] {
        let size = Size {
            brps: Some(brps),
            ..size(744, 64, true, Readings::Count(400), 24)
        };
        let file = bench_file(&size, None);
        assert_accepted(&file);
        assert_eq!(brp(&file).lines().count(), brps + 2);
        let month = settle(&file, Setting::FINAL).unwrap();
        let glns: Vec<_> = month.file.parties.iter().map(|p| p.brp_gln).collect();
        assert!(glns.iter().all(Option::is_some));
        assert!(glns[..brps].windows(2).all(|two| two[0] > two[1]));
        assert!((brps..64).all(|party| glns[party] == glns[party - brps]));
        // Nothing else differs from the month of 02 records.
        let of_02 = Size { brps: None, ..size };
        assert_eq!(statement(&bench_file(&of_02, None)), statement(&file));
    }
}

fn command(line: &str) -> Output {
    Command::new(env!("CARGO_BIN_EXE_second"))
        .args(line.split(' '))
        .output()
        .unwrap()
}

#[test]
fn the_command_writes_the_file() {
    let line = "bench-file --hours 3 --parties 2 --series refixed --readings 4 --span 2";
    let size = size(3, 2, true, Readings::Count(4), 2);
    assert_eq!(command(line).stdout, bench_file(&size, None));
    for (word, fault) in [("byte", Fault::ByteAfter), ("count", Fault::Count)] {
        let printed = command(&format!("{line} --fault {word}"));
        assert_eq!(printed.stdout, bench_file(&size, Some(fault)));
    }
    let printed = command(&format!("{line} --brps 2"));
    let of_12 = Size {
        brps: Some(2),
        ..size
    };
    assert_eq!(printed.stdout, bench_file(&of_12, None));
    for longest in [
        "bench-file --hours 1 --parties 4 --series fixed --readings most --span 1",
        "bench-file --hours 1 --parties 6 --series refixed --readings most --span 1",
        "bench-file --hours 4 --parties 5 --brps 2 --series refixed --readings most --span 1",
    ] {
        assert_eq!(command(longest).stdout.len(), FILE_BYTES_MAX);
    }
}

#[test]
fn sizes_that_no_file_has_are_not_made() {
    for line in [
        "bench-file --hours 0 --parties 2 --series fixed --readings 4 --span 1",
        "bench-file --hours 746 --parties 2 --series fixed --readings 4 --span 1",
        "bench-file --hours 3 --parties 65 --series fixed --readings 4 --span 1",
        "bench-file --hours 3 --parties 2 --series both --readings 4 --span 1",
        "bench-file --hours 3 --parties 2 --series fixed --readings some --span 1",
        "bench-file --hours 3 --parties 2 --series fixed --readings 4 --span 4",
        "bench-file --hours 3 --parties 2 --series fixed --readings 6600 --span 1",
        "bench-file --hours 3 --parties 2 --series fixed --readings 4 --span 1 --fault none",
        "bench-file --hours 3 --parties 2 --series fixed --readings 4 --span 1 --brps 0",
        "bench-file --hours 3 --parties 2 --series fixed --readings 4 --span 1 --brps 3",
    ] {
        let printed = command(line);
        assert!(printed.stdout.is_empty(), "{line}");
        assert!(!printed.stderr.is_empty(), "{line}");
        assert_eq!(printed.status.code(), Some(1), "{line}");
    }
}
