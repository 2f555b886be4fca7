//! W3's planner: by hand, its refusals and their order; on random readings the month parts add up to E and each hour is the
//! figure of one long periodisation over the joined curve; planned records pass in month files of these curves. Planners by
//! rules that look reasonable break it.

mod common;

use common::{month_of, told};
use second::examples::example;
use second::month::settle;
use second::periodisation::{periodisation, periodised_wh};
use second::plan::{plan, plan_lent};
use second::random::Random;
use second::record::{read_alone, write, Reading, Record};
use second::refusal::Refusal;
use second::setting::Setting;

/// What the planner is given, the curves month by month.
#[derive(Clone, Debug)]
struct Year {
    e_wh: u64,
    a: u16,
    b: u16,
    parties: Vec<u8>,
    curves: Vec<Vec<u32>>,
}

impl Year {
    fn hours(&self) -> Vec<u16> {
        self.curves.iter().map(|curve| curve.len() as u16).collect()
    }

    fn plan(&self) -> Result<Vec<Reading>, Refusal> {
        let (hours, curves) = (self.hours(), self.curves.concat());
        plan(self.e_wh, self.a, self.b, &self.parties, &hours, &curves)
    }

    /// The joined curve from the reading's first hour to its last.
    fn joined(&self) -> Vec<u32> {
        let curves = self.curves.concat();
        let after = self.curves[self.curves.len() - 1].len() - usize::from(self.b);
        curves[usize::from(self.a)..curves.len() - after].to_vec()
    }

    /// A year of so many months of these hours, every curve number this, read whole by party 0.
    fn even(e_wh: u64, hours: &[usize], number: u32) -> Year {
        Year {
            e_wh,
            a: 0,
            b: hours[hours.len() - 1] as u16,
            parties: vec![0; hours.len()],
            curves: hours.iter().map(|&hours| vec![number; hours]).collect(),
        }
    }
}

/// E 7 over the weights 1 | 1 1 | 1 1.
fn by_hand() -> Year {
    Year {
        e_wh: 7,
        a: 1,
        b: 2,
        parties: vec![0, 2, 1],
        curves: vec![vec![5, 1], vec![1, 1], vec![1, 1, 9]],
    }
}

/// The figures of a planned reading, month by month.
fn month_parts(year: &Year, planned: &[Reading]) -> Vec<Vec<u64>> {
    let months = planned.iter().zip(&year.curves);
    months
        .map(|(reading, curve)| {
            let own = &curve[usize::from(reading.a)..usize::from(reading.b)];
            periodised_wh(u64::from(reading.e_wh), reading.weights, own).unwrap()
        })
        .collect()
}

#[test]
fn w3_three_months_by_hand() {
    let planned = by_hand().plan().unwrap();
    assert_eq!(
        planned,
        [
            Reading::of_month(0, 1, 2, 7).weighing(0, 5),
            Reading::of_month(2, 0, 2, 7).weighing(1, 5),
            Reading::of_month(1, 0, 2, 7).weighing(3, 5),
        ]
    );
    let parts = month_parts(&by_hand(), &planned);
    assert_eq!(parts, [vec![1], vec![1, 2], vec![1, 2]]);
}

/// A reading within one month is the 08 of its own weight, and E 0 needs no weight.
#[test]
fn w3_one_month_and_no_weight() {
    let mut year = by_hand();
    year.parties.truncate(1);
    year.curves.truncate(1);
    let whole = Reading::of_month(0, 1, 2, 7).weighing(0, 1);
    assert_eq!(year.plan(), Ok(vec![whole]));
    year.curves[0] = vec![5, 0];
    assert_eq!(told(year.plan()), (13, 0));
    year.e_wh = 0;
    let nothing = Reading::of_month(0, 1, 2, 0).weighing(0, 0);
    assert_eq!(year.plan(), Ok(vec![nothing]));
}

/// That the change of the reading by hand is refused with this number, at place 0.
#[track_caller]
fn assert_refused(number: u8, change: impl FnOnce(&mut Year)) {
    let mut year = by_hand();
    change(&mut year);
    assert_eq!(told(year.plan()), (number, 0), "{year:?}");
}

#[test]
fn w3_the_months_are_4() {
    assert_refused(4, |year| year.parties.truncate(2));
    assert_refused(4, |year| year.parties.push(0));
    assert_refused(4, |year| {
        year.parties.clear();
        year.curves = vec![];
    });
    assert_refused(4, |year| year.curves[1].clear());
    assert_refused(4, |year| year.curves[1] = vec![1; 746]);
    for party in [64, 255] {
        for month in 0..3 {
            assert_refused(4, |year| year.parties[month] = party);
        }
    }
    let fourteen = Year::even(7, &[1; 14], 1);
    assert_eq!(told(fourteen.plan()), (4, 0));
    assert!(Year::even(7, &[1; 13], 1).plan().is_ok());
    assert!(Year::even(7, &[745], 1).plan().is_ok());
    // Hours that do not add up to the curve list's length.
    for hours in [&[2, 2, 2][..], &[2, 2, 4], &[2, 2, 65_535]] {
        let refused = plan(7, 1, 2, &[0, 2, 1], hours, &[5, 1, 1, 1, 1, 1, 9]);
        assert_eq!(told(refused), (4, 0));
    }
    assert_eq!(told(plan(7, 0, 1, &[], &[], &[])), (4, 0));
    assert_eq!(told(plan(7, 0, 1, &[0], &[1], &[])), (4, 0));
    assert_eq!(told(plan(7, 0, 0, &[0], &[0], &[])), (4, 0));
}

#[test]
fn w3_the_span_is_11() {
    for a in [2, 3, u16::MAX] {
        assert_refused(11, |year| year.a = a);
    }
    for b in [0, 4, u16::MAX] {
        assert_refused(11, |year| year.b = b);
    }
    // In one month a must be below b.
    for (a, b) in [(0, 0), (1, 1), (2, 1), (2, 2), (0, 3)] {
        assert_refused(11, |year| {
            year.parties.truncate(1);
            year.curves.truncate(1);
            (year.a, year.b) = (a, b);
        });
    }
    // In two it need not.
    let mut year = Year::even(1, &[3, 3], 1);
    (year.a, year.b) = (2, 1);
    assert!(year.plan().is_ok());
}

/// "a reading over 8,784 hours": twelve months of 745 hours are 8,940.
#[test]
fn w3_8_784_hours_are_accepted_and_one_more_is_11() {
    let months = |a, b| {
        let mut year = Year::even(1_000_000_000, &[745; 12], 1);
        (year.a, year.b) = (a, b);
        year
    };
    assert!(months(0, 589).plan().is_ok());
    assert_eq!(told(months(0, 590).plan()), (11, 0));
    assert!(months(1, 590).plan().is_ok());
    assert!(months(156, 745).plan().is_ok());
    assert_eq!(told(months(155, 745).plan()), (11, 0));
    assert_eq!(told(Year::even(1, &[745; 13], 1).plan()), (11, 0));
    // Thirteen months, and the largest whole weight that there is.
    let hours = [
        671, 745, 720, 744, 720, 744, 744, 720, 745, 720, 744, 744, 23,
    ];
    assert_eq!(hours.iter().sum::<usize>(), 8_784);
    let largest = Year::even(1_000_000_000, &hours, 1_000_000_000);
    let weights = largest.plan().unwrap()[12].weights.unwrap();
    assert_eq!(weights.whole, 8_784_000_000_000);
    assert_eq!(weights.before, 8_761_000_000_000);
    assert_eq!(breach(&largest, &largest.plan().unwrap()), None);
}

#[test]
fn w3_e_is_12_a_curve_number_10_and_no_weight_13() {
    assert_refused(12, |year| year.e_wh = 1_000_000_001);
    assert_refused(12, |year| year.e_wh = (1 << 32) + 7);
    assert_refused(12, |year| year.e_wh = u64::MAX);
    // Any number of the list, also outside a..b.
    for (month, hour) in [(0, 0), (0, 1), (1, 0), (2, 1), (2, 2)] {
        assert_refused(10, |year| year.curves[month][hour] = 1_000_000_001);
    }
    assert_refused(13, |year| {
        year.curves = vec![vec![5, 0], vec![0, 0], vec![0, 0, 9]]
    });
    let mut year = by_hand();
    year.e_wh = 1_000_000_000;
    year.curves[1][0] = 1_000_000_000;
    assert!(year.plan().is_ok());
}

/// Each fault with every one that comes after it.
#[test]
fn w3_the_planner_refuses_with_4_11_12_10_13() {
    type Fault = fn(&mut Year);
    let faults: [(u8, Fault); 5] = [
        (4, |year| year.parties[2] = 64),
        (11, |year| year.b = 0),
        (12, |year| year.e_wh = 2_000_000_000),
        (10, |year| year.curves[2][2] = 2_000_000_000),
        (13, |year| {
            year.curves[0][1] = 0;
            year.curves[1].fill(0);
            year.curves[2][..2].fill(0);
        }),
    ];
    for first in 0..faults.len() {
        for later in &faults[first..] {
            assert_refused(faults[first].0, |year| {
                faults[first].1(year);
                later.1(year);
            });
        }
        assert_refused(faults[first].0, |year| {
            faults[first..].iter().for_each(|(_, fault)| fault(year));
        });
    }
}

/// Through C the records are lent field by field: "16 first, for another length than the number of months".
#[test]
fn a62_lent_lists_are_16_first() {
    let year = by_hand();
    let (hours, curves) = (year.hours(), year.curves.concat());
    let lent = |parties: &[u8], lengths| plan_lent(7, 1, 2, parties, &hours, &curves, lengths);
    assert_eq!(lent(&year.parties, [3; 4]), year.plan());
    for list in 0..4 {
        for length in [0, 2, 4, 13] {
            let mut lengths = [3; 4];
            lengths[list] = length;
            assert_eq!(told(lent(&year.parties, lengths)), (16, 0));
            assert_eq!(told(lent(&[], lengths)), (16, 0));
        }
    }
    assert_eq!(told(lent(&[], [3; 4])), (4, 0));
}

/// A random reading over 1 to 13 months of a few hours: weights of one size, of any, and many zeros.
fn random_year(random: &mut Random) -> Year {
    let months = 1 + random.below(13);
    let most_hours = *random.pick(&[1, 4, 30]);
    let highest = *random.pick(&[1, 9, 1_000_000_000]);
    let zeros = random.below(3);
    let number = |random: &mut Random| match random.below(4) < zeros {
        true => 0,
        false => random.any_size(highest) as u32,
    };
    let curves: Vec<Vec<u32>> = (0..months)
        .map(|_| {
            let hours = 1 + random.below(most_hours);
            (0..hours).map(|_| number(random)).collect()
        })
        .collect();
    let a = random.below(curves[0].len());
    let from = if months == 1 { a + 1 } else { 1 };
    let b = random.between(from as i64, curves[months - 1].len() as i64);
    Year {
        e_wh: random.any_size(1_000_000_000),
        a: a as u16,
        b: b as u16,
        parties: (0..months).map(|_| random.below(64) as u8).collect(),
        curves,
    }
}

/// The first promise of W3 that the records of a reading do not meet.
fn breach(year: &Year, planned: &[Reading]) -> Option<&'static str> {
    if planned.len() != year.curves.len() {
        return Some("a record for each month");
    }
    let parties = planned.iter().map(|reading| reading.party);
    if !parties.eq(year.parties.iter().copied()) {
        return Some("the party of each month");
    }
    let mut joined_wh: Vec<u64> = Vec::new();
    for (reading, curve) in planned.iter().zip(&year.curves) {
        let span = usize::from(reading.a)..usize::from(reading.b);
        let Some(own) = curve.get(span) else {
            return Some("the hours of each month");
        };
        let Ok(figures) = periodised_wh(reading.e_wh.into(), reading.weights, own) else {
            return Some("good weights");
        };
        joined_wh.extend(figures);
    }
    if joined_wh.iter().sum::<u64>() != year.e_wh {
        return Some("the month parts add up to E");
    }
    let joined = year.joined();
    let long = periodisation(year.e_wh, &joined, joined.len());
    (Ok(joined_wh) != long).then_some("each hour is that of one long periodisation")
}

#[test]
fn w3_the_months_are_one_long_periodisation() {
    let (mut planned_years, mut rounded_months) = (0, 0);
    for number in 0..50_000 {
        let year = random_year(&mut Random::of_file(81, number));
        let planned = match year.plan() {
            Ok(planned) => planned,
            Err(refusal) => {
                let weightless = year.joined().iter().all(|&weight| weight == 0);
                assert!(year.e_wh > 0 && weightless, "{refusal} {year:?}");
                continue;
            }
        };
        assert_eq!(breach(&year, &planned), None, "{year:?}");
        planned_years += 1;
        let rounds = |reading: &&Reading| {
            let weights = reading.weights.unwrap();
            u128::from(year.e_wh) * u128::from(weights.before) % u128::from(weights.whole.max(1))
                > 0
        };
        rounded_months += planned.iter().filter(rounds).count();
    }
    assert!(
        planned_years > 40_000 && rounded_months > 100_000,
        "{planned_years} {rounded_months}"
    );
}

/// As long as a reading may be.
#[test]
fn w3_thirteen_months_of_8_784_hours() {
    for number in 0..40 {
        let random = &mut Random::of_file(82, number);
        let highest = *random.pick(&[3, 1_000_000, 1_000_000_000]);
        let hours = [
            745, 743, 744, 720, 744, 720, 745, 672, 744, 720, 744, 720, 500,
        ];
        let mut year = Year::even(1 + random.any_size(999_999_999), &hours, 0);
        for number in year.curves.iter_mut().flatten() {
            *number = random.any_size(highest) as u32;
        }
        let all: usize = hours.iter().sum();
        year.a = random.below(all - 8_784 + 1) as u16;
        year.b = (500 - (all - 8_784 - usize::from(year.a))) as u16;
        year.curves[0][744] = 1;
        assert_eq!(year.joined().len(), 8_784);
        assert_eq!(breach(&year, &year.plan().unwrap()), None);
    }
}

/// A month file whose curve is this, of 64 parties: W is 1,000,000, so that each residual is its curve number.
fn month_with(curve: &[u32], reading: Reading) -> Vec<u8> {
    let mut shares_kwh = [0; 64];
    shares_kwh[3] = 1_000_000;
    let residuals_wh: Vec<i64> = curve.iter().map(|&number| number.into()).collect();
    month_of(&shares_kwh, &residuals_wh, &[reading]).bytes()
}

/// A105: in a month file with that curve a planned record meets none of 4, 11, 12, 13 and 18; over the files the periodised
/// column of the party comes to E. It is a good record alone, too.
#[test]
fn a105_planned_records_pass_in_month_files() {
    let mut years = 0;
    for number in 0..400 {
        let year = random_year(&mut Random::of_file(83, number));
        let Ok(planned) = year.plan() else { continue };
        let mut read_wh = 0;
        for (&reading, curve) in planned.iter().zip(&year.curves) {
            let file = month_with(curve, reading);
            let month = settle(&file, Setting::FINAL).unwrap();
            assert_eq!(month.curve, *curve);
            read_wh += month.party_sums()[usize::from(reading.party)].periodised_wh;
            let mut record = [0; 26];
            assert_eq!(write(&Record::Reading(reading), &mut record), Ok(26));
            assert_eq!(read_alone(&record), Ok((Record::Reading(reading), 26)));
        }
        assert_eq!(read_wh, year.e_wh as i64, "{year:?}");
        years += 1;
    }
    assert!(years > 300, "{years}");
}

/// Planners that look reasonable.
mod wrong {
    use super::{Reading, Year};

    pub type Planner = fn(&Year) -> Vec<Reading>;

    pub const PLANNERS: &[(&str, Planner)] = &[
        ("the weight before one month late", |year| {
            weighing(year, |own, month| {
                (sum(&own[..month.saturating_sub(1)]), sum(own))
            })
        }),
        ("the weight before with this month's", |year| {
            weighing(year, |own, month| (sum(&own[..=month]), sum(own)))
        }),
        ("the weight of the month before alone", |year| {
            let before = |own: &[u64], month: usize| month.checked_sub(1).map_or(0, |m| own[m]);
            weighing(year, |own, month| (before(own, month), sum(own)))
        }),
        ("no weight before", |year| {
            weighing(year, |own, _| (0, sum(own)))
        }),
        ("the whole of this month alone", |year| {
            weighing(year, |own, month| (0, own[month]))
        }),
        ("the whole up to this month", |year| {
            weighing(year, |own, month| (sum(&own[..month]), sum(&own[..=month])))
        }),
        ("the months in reverse", |year| {
            weighing(year, |own, month| (sum(&own[month + 1..]), sum(own)))
        }),
        ("before and whole swapped", |year| {
            weighing(year, |own, month| (sum(own), sum(&own[..month])))
        }),
        ("the whole of all hours of the months", |year| {
            let all = sum(&all_weights(year));
            weighing(year, |own, month| (sum(&own[..month]), all))
        }),
        ("the first month's weight from its hour 0", |year| {
            let first = all_weights(year)[0];
            weighing(year, |own, month| {
                let more = first - own[0];
                (
                    sum(&own[..month]) + if month > 0 { more } else { 0 },
                    sum(own) + more,
                )
            })
        }),
        ("a in every month", |year| {
            let mut planned = year.plan().unwrap();
            planned.iter_mut().for_each(|reading| reading.a = year.a);
            planned
        }),
        ("b in every month", |year| {
            let mut planned = year.plan().unwrap();
            planned.iter_mut().for_each(|reading| reading.b = year.b);
            planned
        }),
        ("the first party in every month", |year| {
            let mut planned = year.plan().unwrap();
            planned
                .iter_mut()
                .for_each(|reading| reading.party = year.parties[0]);
            planned
        }),
        ("E divided among the months", |year| {
            let mut planned = year.plan().unwrap();
            let own = own_weights(year);
            let whole = u128::from(sum(&own)).max(1);
            for (reading, &own) in planned.iter_mut().zip(&own) {
                reading.e_wh = (u128::from(year.e_wh) * u128::from(own) / whole) as u32;
                *reading = reading.weighing(0, own);
            }
            planned
        }),
    ];

    fn sum(weights: &[u64]) -> u64 {
        weights.iter().sum()
    }

    fn all_weights(year: &Year) -> Vec<u64> {
        let weight = |curve: &Vec<u32>| curve.iter().map(|&number| u64::from(number)).sum();
        year.curves.iter().map(weight).collect()
    }

    fn own_weights(year: &Year) -> Vec<u64> {
        let planned = year.plan().unwrap();
        let months = planned.iter().zip(&year.curves);
        months
            .map(|(reading, curve)| {
                let span = usize::from(reading.a)..usize::from(reading.b);
                curve[span].iter().map(|&number| u64::from(number)).sum()
            })
            .collect()
    }

    /// The records with other weights, from the own weights of all months and the month's number.
    fn weighing(year: &Year, weights: impl Fn(&[u64], usize) -> (u64, u64)) -> Vec<Reading> {
        let own = own_weights(year);
        let planned = year.plan().unwrap().into_iter().enumerate();
        planned
            .map(|(month, reading)| {
                let (before, whole) = weights(&own, month);
                reading.weighing(before, whole)
            })
            .collect()
    }
}

/// The tests above can fail: each wrong planner gives records that are a breach on many readings.
#[test]
fn wrong_planners_are_breaches() {
    for (name, planner) in wrong::PLANNERS {
        let years = (0..2_000).map(|number| random_year(&mut Random::of_file(84, number)));
        let years = years.filter(|year| year.plan().is_ok());
        let breaches = years.filter(|year| breach(year, &planner(year)).is_some());
        let breaches = breaches.count();
        assert!(breaches > 400, "{name}: {breaches}");
    }
}

/// The arguments of examples/README.md give the records that stand in the three example months, and the party's periodised
/// column comes to E over their statements.
#[test]
fn the_yearly_examples_have_the_planned_records() {
    let mut year = Year::even(100, &[4; 3], 0);
    (year.a, year.b) = (2, 2);
    year.parties = vec![0, 1, 1];
    year.curves = vec![
        vec![400_000, 500_000, 300_000, 200_000],
        vec![200_000, 400_000, 100_000, 500_000],
        vec![300_000, 100_000, 600_000, 400_000],
    ];
    let planned = year.plan().unwrap();
    assert_eq!(
        planned,
        [
            Reading::of_month(0, 2, 4, 100).weighing(0, 2_100_000),
            Reading::of_month(1, 0, 4, 100).weighing(500_000, 2_100_000),
            Reading::of_month(1, 0, 2, 100).weighing(1_700_000, 2_100_000),
        ]
    );
    let parts = [&[14, 9][..], &[10, 19, 5, 23], &[15, 5]];
    assert_eq!(month_parts(&year, &planned), parts);
    for (month, &reading) in planned.iter().enumerate() {
        let file = example(&format!("yearly{}", month + 1)).unwrap();
        let settled = settle(&file, Setting::FINAL).unwrap();
        assert_eq!(settled.curve, year.curves[month]);
        assert!(settled.file.readings.contains(&reading));
        let party = usize::from(reading.party);
        assert_eq!(settled.file.parties[party].gln, b"0000000000024");
        let periodised_wh = settled.party_sums()[party].periodised_wh;
        assert_eq!(periodised_wh, [23, 57, 20][month]);
    }
}
