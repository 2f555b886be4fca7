//! The compiled planner (02, W3): by hand, at its bounds, over thirteen months beside the compiled periodisation, and the
//! call of examples/README.md.

use std::fs;
use std::path::PathBuf;

use second::periodisation::periodised_wh;
use second::random::Random;
use second::record::{Reading, Record, Weights};

use crate::compiled::{periodisation, plan, Plan, Told, Year};

/// The plan with lists of the needed length.
fn planned(year: &Year) -> Told<Plan> {
    plan(year, [year.hours.len(); 4])
}

/// A year of these months, every curve number this, read whole by party 0.
fn even(e: u64, hours: &[u16], number: u32) -> Year {
    let all_hours = hours.iter().map(|&hours| usize::from(hours)).sum();
    Year {
        e,
        a: 0,
        b: hours[hours.len() - 1],
        parties: vec![0; hours.len()],
        hours: hours.to_vec(),
        curves: vec![number; all_hours],
    }
}

#[test]
fn three_months_by_hand() {
    let mut year = Year {
        e: 7,
        a: 1,
        b: 2,
        parties: vec![0, 2, 1],
        hours: vec![2, 2, 3],
        curves: vec![5, 1, 1, 1, 1, 1, 9],
    };
    let (a, b) = (vec![1, 0, 0], vec![2, 2, 2]);
    assert_eq!(planned(&year), Ok((a, b, vec![0, 1, 3], vec![5, 5, 5])));
    (year.e, year.b) = (2_000_000_000, 0);
    assert_eq!(planned(&year), Err((11, 0)));
    year.parties[0] = 64;
    assert_eq!(planned(&year), Err((4, 0)));
    assert_eq!(plan(&year, [3, 3, 2, 3]), Err((16, 0)));
    (year.parties[0], year.b, year.curves[6]) = (63, 2, 2_000_000_000);
    assert_eq!(planned(&year), Err((12, 0)));
    year.e = 1_000_000_000;
    assert_eq!(planned(&year), Err((10, 0)));
    year.curves = vec![5, 0, 0, 0, 0, 0, 9];
    assert_eq!(planned(&year), Err((13, 0)));
    year.e = 0;
    assert_eq!(planned(&year).unwrap().3, [0, 0, 0]);
}

#[test]
fn the_bounds_are_accepted_and_one_more_is_refused() {
    let mut twelve = even(1, &[745; 12], 1);
    twelve.b = 589;
    assert!(planned(&twelve).is_ok());
    twelve.b = 590;
    assert_eq!(planned(&twelve), Err((11, 0)));
    assert!(planned(&even(1, &[1; 13], 1)).is_ok());
    assert_eq!(planned(&even(1, &[1; 14], 1)), Err((4, 0)));
    assert!(planned(&even(1_000_000_000, &[745], 1_000_000_000)).is_ok());
    assert_eq!(planned(&even(1, &[746], 1)), Err((4, 0)));
    let nothing = Year {
        parties: vec![],
        hours: vec![],
        curves: vec![],
        ..even(1, &[1], 1)
    };
    assert_eq!(planned(&nothing), Err((4, 0)));
    let long = Year {
        parties: vec![255; 1_000_000],
        hours: vec![u16::MAX; 1_000_000],
        curves: vec![u32::MAX; 1_000_000],
        ..even(u64::MAX, &[1], 1)
    };
    assert_eq!(planned(&long), Err((4, 0)));
    assert_eq!(plan(&long, [13; 4]), Err((16, 0)));
}

/// The hours of thirteen months, 9,221 in all, of which a reading has 8,784.
const THIRTEEN: [u16; 13] = [
    745, 743, 744, 720, 744, 720, 745, 672, 744, 720, 744, 720, 460,
];

/// "the month parts of a reading add up to E, and each hour equals the figure of one long periodisation over the joined
/// curve of at most 8,784 hours": the compiled planner's weights, this program's month parts, the compiled periodisation.
#[test]
fn thirteen_months_of_8_784_hours_are_one_long_periodisation() {
    let outside = THIRTEEN.iter().sum::<u16>() - 8_784;
    for number in 0..60 {
        let random = &mut Random::of_file(48, number);
        let highest = *random.pick(&[1, 3, 1_000_000, 1_000_000_000]);
        let mut year = even(1 + random.any_size(999_999_999), &THIRTEEN, 0);
        for number in &mut year.curves {
            *number = random.any_size(highest) as u32;
        }
        year.a = random.below(usize::from(outside) + 1) as u16;
        year.b = THIRTEEN[12] - (outside - year.a);
        let (a, b, before, whole) = planned(&year).unwrap();
        let (mut parts, mut rest) = (Vec::new(), &year.curves[..]);
        for month in 0..13 {
            let (curve, later) = rest.split_at(year.hours[month].into());
            let weights = Weights {
                before: before[month],
                whole: whole[month],
            };
            let own = &curve[usize::from(a[month])..usize::from(b[month])];
            parts.extend(periodised_wh(year.e, Some(weights), own).unwrap());
            rest = later;
        }
        assert_eq!(parts.iter().sum::<u64>(), year.e);
        let joined = &year.curves[usize::from(year.a)..][..8_784];
        let long = periodisation(year.e, joined, 8_784).unwrap();
        assert!(parts.iter().copied().eq(long.into_iter().map(u64::from)));
    }
}

/// The compiled planner with the arguments of examples/README.md makes the records that stand in the three files.
#[test]
fn the_yearly_examples_have_the_planned_records() {
    let year = Year {
        e: 100,
        a: 2,
        b: 2,
        parties: vec![0, 1, 1],
        hours: vec![4, 4, 4],
        curves: vec![
            400_000, 500_000, 300_000, 200_000, 200_000, 400_000, 100_000, 500_000, 300_000,
            100_000, 600_000, 400_000,
        ],
    };
    let (a, b, before, whole) = planned(&year).unwrap();
    assert_eq!((&a[..], &b[..]), (&[2, 0, 0][..], &[4, 4, 2][..]));
    assert_eq!(before, [0, 500_000, 1_700_000]);
    assert_eq!(whole, [2_100_000; 3]);
    for month in 0..3 {
        let reading = Reading::of_month(year.parties[month], a[month], b[month], 100);
        let record = Record::Reading(reading.weighing(before[month], whole[month])).encode();
        let name = format!("../examples/yearly{}.month", month + 1);
        let file = fs::read(PathBuf::from(env!("CARGO_MANIFEST_DIR")).join(name)).unwrap();
        assert!(file.windows(record.len()).any(|part| part == record));
    }
}
