//! Each compiled service against this program's own on random inputs: good ones, and ones with one or two faults. A fault
//! sets values at, one below and one above a limit, lengths that differ, and the extremes of the machine types. Which
//! refusal each fault led to is counted, and every one that is named must have been reached.

use std::collections::{BTreeMap, BTreeSet};

use second::random::Random;
use second::refusal::Refusal;

use crate::compiled::{self, Told, Year};
use crate::inputs::{balance, faults, near, other_length, size};
use crate::priced_hours::PricedHours;

const INPUTS: u64 = 100_000;

/// How often a fault led to a refusal: by the fault's number in its service, and the refusal's.
#[derive(Default)]
struct Reached(BTreeMap<(usize, u8), usize>);

impl Reached {
    fn count<T>(&mut self, faults: &[usize], told: &Told<T>) {
        let number = match told {
            Ok(_) => 0,
            Err((number, _)) => *number,
        };
        if let [fault] = faults {
            *self.0.entry((*fault, number)).or_default() += 1;
        }
        if faults.is_empty() {
            *self.0.entry((usize::MAX, number)).or_default() += 1;
        }
    }

    /// That each fault alone led to these refusals (0 being acceptance), and good inputs were accepted.
    #[track_caller]
    fn assert_all(&self, service: &str, expected: &[(usize, &[u8])]) {
        let times = |key| self.0.get(&key).copied().unwrap_or(0);
        assert!(times((usize::MAX, 0)) > 10_000, "{service}: {:?}", self.0);
        for &(fault, numbers) in expected {
            for &number in numbers {
                let reached = times((fault, number));
                assert!(reached >= 20, "{service}: {fault} {number} {reached}");
            }
        }
    }
}

fn of_second<T>(answer: Result<T, Refusal>) -> Told<T> {
    answer.map_err(|refusal| (refusal.number as u8, refusal.place))
}

fn near_or(random: &mut Random, limit: i64, extreme: u64) -> u64 {
    if random.once_in(4) {
        return extreme;
    }
    near(random, limit) as u64
}

const FLOW: u64 = 8_000_000_000;
const RESIDUAL: u64 = 2_000_000_000;
const SHARE_SUM: u64 = 4_000_000_000;
const WEIGHT: u64 = 1_000_000_000;

struct Flows {
    statuses: Vec<u8>,
    nets: Vec<i64>,
    productions: Vec<u64>,
    hourlies: Vec<u64>,
    flexes: Vec<u64>,
    lent: usize,
}

impl Flows {
    fn good(random: &mut Random, hours: usize) -> Flows {
        let mut flows = Flows {
            statuses: vec![],
            nets: vec![],
            productions: vec![],
            hourlies: vec![],
            flexes: vec![],
            lent: hours,
        };
        for _ in 0..hours {
            let [production, hourly, flex] = [0; 3].map(|_| random.any_size(FLOW / 2));
            let wh = random.any_size(RESIDUAL) as i64;
            let net = wh - production as i64 + (hourly + flex) as i64;
            let net = net.clamp(-(FLOW as i64), FLOW as i64);
            let rest = wh - net - production as i64;
            flows.statuses.push(1 + random.below(2) as u8);
            flows.nets.push(net);
            flows.productions.push(production);
            flows.hourlies.push((-rest) as u64 - flex.min(-rest as u64));
            flows.flexes.push(flex.min(-rest as u64));
        }
        flows
    }

    /// The residual of an hour set to a figure, from flows that are within their limits.
    fn set_residual(&mut self, hour: usize, wh: i64) {
        self.productions[hour] = 10;
        self.hourlies[hour] = 4;
        self.flexes[hour] = 5;
        self.nets[hour] = wh - 1;
    }

    fn resize(&mut self, hours: usize) {
        self.statuses.resize(hours, 1);
        self.nets.resize(hours, 1);
        self.productions.resize(hours, 0);
        self.hourlies.resize(hours, 0);
        self.flexes.resize(hours, 0);
        self.lent = hours;
    }

    fn damage(&mut self, random: &mut Random, fault: usize) {
        let Some(last) = self.statuses.len().checked_sub(1) else {
            return;
        };
        let hour = random.below(last + 1);
        let shorter = hour.min(last);
        let all = self
            .statuses
            .len()
            .min(self.nets.len())
            .min(self.flexes.len());
        let all = all.min(self.productions.len()).min(self.hourlies.len());
        if hour >= all {
            return;
        }
        let value = near_or(random, FLOW as i64, u64::MAX);
        match fault {
            0 => self.lent = other_length(random, self.lent),
            1 => match random.below(4) {
                0 => self.nets.truncate(shorter),
                1 => self.productions.push(0),
                2 => self.hourlies.truncate(shorter),
                _ => self.flexes.push(0),
            },
            2 => {
                let hours = *random.pick(&[0, 744, 745, 746]);
                self.resize(hours);
            }
            3 => self.statuses[hour] = *random.pick(&[2, 3, 255]),
            4 => {
                let net = near_or(random, FLOW as i64, i64::MAX as u64) as i64;
                self.nets[hour] = *random.pick(&[net, -net, i64::MIN]);
            }
            5 => self.productions[hour] = value,
            6 => self.hourlies[hour] = value,
            7 => self.flexes[hour] = value,
            8 => {
                self.statuses[hour] = 0;
                let figures = [0; 4].map(|_| random.below(2) as u64);
                self.nets[hour] = -(figures[0] as i64);
                self.productions[hour] = figures[1];
                self.hourlies[hour] = figures[2];
                self.flexes[hour] = figures[3];
            }
            9 => {
                self.statuses[hour] = 0;
                self.nets[hour] = 0;
                self.productions[hour] = 0;
                self.hourlies[hour] = 0;
                self.flexes[hour] = 0;
            }
            10 => {
                let wh = near(random, 0);
                self.set_residual(hour, wh);
            }
            _ => {
                let wh = near(random, RESIDUAL as i64);
                self.set_residual(hour, wh);
            }
        }
    }
}

#[test]
fn residual() {
    let mut reached = Reached::default();
    for number in 0..INPUTS {
        let mut random = Random::of_file(41, number);
        let hours = size(&mut random, 745, 500);
        let mut flows = Flows::good(&mut random, hours);
        let faults = faults(&mut random, 12);
        for &fault in &faults {
            flows.damage(&mut random, fault);
        }
        let expected = of_second(second::residual::residual(
            &flows.statuses,
            &flows.nets,
            &flows.productions,
            &flows.hourlies,
            &flows.flexes,
            flows.lent,
        ));
        let told = compiled::residual(
            &flows.statuses,
            &flows.nets,
            &flows.productions,
            &flows.hourlies,
            &flows.flexes,
            flows.lent,
        );
        assert_eq!(told, expected, "input {number}");
        reached.count(&faults, &told);
    }
    let expected: &[(usize, &[u8])] = &[
        (0, &[16]),
        (1, &[4]),
        (2, &[0, 4]),
        (3, &[0, 4]),
        (4, &[4]),
        (5, &[4]),
        (6, &[4]),
        (7, &[4]),
        (8, &[4, 7]),
        (9, &[7]),
        (10, &[0, 8]),
        (11, &[0, 9]),
    ];
    reached.assert_all("residual", expected);
}

#[test]
fn curve() {
    let mut reached = Reached::default();
    for number in 0..INPUTS {
        let mut random = Random::of_file(42, number);
        let mut w = 1 + random.any_size(SHARE_SUM - 1);
        let most = (w * 1_000).min(RESIDUAL);
        let hours = size(&mut random, 745, 500);
        let mut residuals: Vec<u32> = (0..hours).map(|_| random.any_size(most) as u32).collect();
        let mut lent = hours;
        let faults = faults(&mut random, 5);
        for &fault in &faults {
            let hour = random.below(residuals.len().max(1));
            match fault {
                0 => lent = other_length(&mut random, lent),
                1 => {
                    let hours = *random.pick(&[0, 744, 745, 746]);
                    residuals.resize(hours, 0);
                    lent = hours;
                }
                2 => {
                    let w_near = near_or(&mut random, SHARE_SUM as i64, u64::MAX);
                    w = *random.pick(&[0, 1, w_near]);
                }
                3 if !residuals.is_empty() => {
                    w = SHARE_SUM;
                    let value = near_or(&mut random, RESIDUAL as i64, u32::MAX.into());
                    residuals[hour] = value as u32;
                }
                4 if !residuals.is_empty() => {
                    w = w.min(1_000_000);
                    residuals.iter_mut().for_each(|wh| *wh %= 1_000);
                    residuals[hour] = near(&mut random, w as i64 * 1_000) as u32;
                }
                _ => {}
            }
        }
        let expected = of_second(second::residual::curve(&residuals, w, lent));
        let told = compiled::curve(&residuals, w, lent);
        assert_eq!(told, expected, "input {number}");
        reached.count(&faults, &told);
    }
    let expected: &[(usize, &[u8])] = &[
        (0, &[16]),
        (1, &[0, 4]),
        (2, &[0, 6, 10]),
        (3, &[0, 9]),
        (4, &[0, 10]),
    ];
    reached.assert_all("curve", expected);
}

#[test]
fn distribution() {
    let mut reached = Reached::default();
    for number in 0..INPUTS {
        let mut random = Random::of_file(43, number);
        let parties = size(&mut random, 64, 100);
        let hours = size(&mut random, 745, 500);
        let most = SHARE_SUM / parties as u64;
        let even = random.once_in(4);
        let mut shares: Vec<u64> = (0..parties)
            .map(|_| if even { 3 } else { random.any_size(most) })
            .collect();
        shares[0] = shares[0].max(1);
        let mut residuals: Vec<u32> = (0..hours)
            .map(|_| random.any_size(RESIDUAL) as u32)
            .collect();
        let faults = faults(&mut random, 7);
        let mut wrong_lent = false;
        for &fault in &faults {
            let hour = random.below(residuals.len().max(1));
            let party = random.below(shares.len().max(1));
            match fault {
                0 => wrong_lent = true,
                1 => residuals.resize(*random.pick(&[0, 744, 745, 746]), 1),
                2 => shares.resize(*random.pick(&[0, 63, 64, 65]), 0),
                3 if !shares.is_empty() => {
                    shares.fill(0);
                    shares[party] = near_or(&mut random, SHARE_SUM as i64, u64::MAX);
                }
                4 => shares.fill(0),
                5 if !shares.is_empty() => {
                    let sum = near(&mut random, SHARE_SUM as i64) as u64;
                    let others = random.below(1_000) as u64;
                    shares.fill(0);
                    shares[0] = sum - others;
                    shares[party] += others;
                }
                6 if !residuals.is_empty() => {
                    let value = near_or(&mut random, RESIDUAL as i64, u32::MAX.into());
                    residuals[hour] = value as u32;
                }
                _ => {}
            }
        }
        let mut lent = shares.len() * residuals.len();
        if wrong_lent {
            lent = other_length(&mut random, lent);
        }
        let expected = of_second(second::distribution::distribution(
            &shares, &residuals, lent,
        ));
        let told = compiled::distribution(&shares, &residuals, lent);
        assert!(told == expected, "input {number}");
        reached.count(&faults, &told);
    }
    let expected: &[(usize, &[u8])] = &[
        (0, &[16]),
        (1, &[0, 4]),
        (2, &[0, 4]),
        (3, &[0, 4]),
        (4, &[6]),
        (5, &[0, 6]),
        (6, &[0, 9]),
    ];
    reached.assert_all("distribution", expected);
}

#[test]
fn periodisation() {
    let mut reached = Reached::default();
    for number in 0..INPUTS {
        let mut random = Random::of_file(44, number);
        let hours = size(&mut random, 8_784, 1_000);
        let mut e = random.any_size(WEIGHT);
        let mut weights: Vec<u32> = (0..hours).map(|_| random.any_size(WEIGHT) as u32).collect();
        weights[0] = weights[0].max(1);
        let mut lent = hours;
        let faults = faults(&mut random, 5);
        for &fault in &faults {
            let hour = random.below(weights.len().max(1));
            match fault {
                0 => lent = other_length(&mut random, lent),
                1 => {
                    let rare = random.once_in(20);
                    let hours = if rare { near(&mut random, 8_784) } else { 0 };
                    weights.resize(hours as usize, 1);
                    lent = weights.len();
                }
                2 => e = near_or(&mut random, WEIGHT as i64, u64::MAX),
                3 if !weights.is_empty() => {
                    let value = near_or(&mut random, WEIGHT as i64, u32::MAX.into());
                    weights[hour] = value as u32;
                }
                4 => {
                    weights.fill(0);
                    e = *random.pick(&[0, 1, WEIGHT]);
                }
                _ => {}
            }
        }
        let figures = second::periodisation::periodisation(e, &weights, lent);
        let expected = of_second(figures).map(|figures| {
            let narrow = figures.iter().map(|&figure| u32::try_from(figure).unwrap());
            narrow.collect::<Vec<u32>>()
        });
        let told = compiled::periodisation(e, &weights, lent);
        assert!(told == expected, "input {number}");
        reached.count(&faults, &told);
    }
    let expected: &[(usize, &[u8])] = &[
        (0, &[16]),
        (1, &[0, 11]),
        (2, &[0, 12]),
        (3, &[0, 10]),
        (4, &[0, 13]),
    ];
    reached.assert_all("periodisation", expected);
}

/// A year of 1 to 13 months of a few hours each, at times of many, with a reading that has weight.
fn good_year(random: &mut Random) -> Year {
    let months = 1 + random.below(13);
    let hours: Vec<u16> = (0..months).map(|_| size(random, 745, 500) as u16).collect();
    let mut year = Year {
        e: random.any_size(WEIGHT),
        a: random.below(hours[0].into()) as u16,
        b: 1 + random.below(hours[months - 1].into()) as u16,
        parties: (0..months).map(|_| random.below(64) as u8).collect(),
        hours,
        curves: vec![],
    };
    if months == 1 && year.a >= year.b {
        (year.a, year.b) = (year.b - 1, year.a + 1);
    }
    let highest = *random.pick(&[9, WEIGHT]);
    fit_curves(&mut year, |_| random.any_size(highest) as u32);
    let first = usize::from(year.a);
    year.curves[first] = year.curves[first].max(1);
    year
}

/// As many curve numbers as the hours ask for.
fn fit_curves(year: &mut Year, number: impl FnMut(usize) -> u32) {
    let hours = year.hours.iter().map(|&hours| usize::from(hours)).sum();
    year.curves = (0..hours).map(number).collect();
}

/// Other arguments of the planner. Fault 0 is of the lent lists alone.
fn damage_year(random: &mut Random, year: &mut Year, fault: usize) {
    let months = year.hours.len().min(year.parties.len());
    if months == 0 || year.curves.is_empty() {
        return;
    }
    let month = random.below(months);
    let (first, last) = (year.hours[0], year.hours[year.hours.len() - 1]);
    match fault {
        0 => {}
        1 => match random.below(2) {
            0 => year.parties.truncate(month),
            _ => year.parties.resize(months + 1 + random.below(3), 0),
        },
        2 => {
            let months = *random.pick(&[0, 1, 12, 13, 14]);
            year.parties.resize(months, 0);
            year.hours = vec![2; months];
            (year.a, year.b) = (0, 1);
            fit_curves(year, |_| 1);
        }
        3 => {
            year.hours[month] = *random.pick(&[0, 744, 745, 746, 1_490, 65_535]);
            fit_curves(year, |_| 1);
        }
        4 => match random.below(3) {
            0 => year.curves.push(1),
            1 => year.curves.truncate(year.curves.len() - 1),
            _ => year.hours[month] = year.hours[month].wrapping_add(1),
        },
        5 => year.parties[month] = *random.pick(&[63, 64, 65, 128, 255]),
        6 => year.a = *random.pick(&[first - first.min(1), first, first + 1, u16::MAX]),
        7 => year.b = *random.pick(&[0, 1, last, last + 1, u16::MAX]),
        // One month, with a below, at or above b.
        8 => {
            year.parties.truncate(1);
            year.hours = vec![9];
            fit_curves(year, |_| 1);
            year.b = 1 + random.below(9) as u16;
            year.a = near(random, year.b.into()).max(0) as u16;
        }
        // About 8,784 hours, of 8,940; rarely, since it takes long.
        9 if random.once_in(10) => {
            year.parties.resize(12, 0);
            year.hours = vec![745; 12];
            fit_curves(year, |hour| hour as u32 % 7);
            year.a = random.below(9) as u16;
            year.b = near(random, 589 + i64::from(year.a)) as u16;
        }
        10 => {
            let extreme = *random.pick(&[(1 << 32) + 7, u64::MAX]);
            year.e = near_or(random, WEIGHT as i64, extreme);
        }
        11 => {
            let hour = random.below(year.curves.len());
            year.curves[hour] = near_or(random, WEIGHT as i64, u32::MAX.into()) as u32;
        }
        // No weight, or none but outside the reading.
        12 => {
            year.curves.fill(0);
            year.e = *random.pick(&[0, 1, WEIGHT]);
        }
        13 => {
            year.curves.fill(0);
            if year.a > 0 {
                year.curves[0] = 5;
            }
            if year.b < last {
                let hour = year.curves.len() - 1;
                year.curves[hour] = 5;
            }
            year.e = *random.pick(&[0, 1, WEIGHT]);
        }
        _ => {}
    }
}

#[test]
fn plan() {
    let mut reached = Reached::default();
    let mut lengths = BTreeSet::new();
    for number in 0..INPUTS {
        let mut random = Random::of_file(47, number);
        let mut year = good_year(&mut random);
        let faults = faults(&mut random, 14);
        for &fault in &faults {
            damage_year(&mut random, &mut year, fault);
        }
        let mut lent = [year.hours.len(); 4];
        if faults.contains(&0) {
            let list = random.below(4);
            lent[list] = other_length(&mut random, lent[list]);
        }
        let planned = second::plan::plan_lent(
            year.e,
            year.a,
            year.b,
            &year.parties,
            &year.hours,
            &year.curves,
            lent,
        );
        let expected = of_second(planned).map(|planned| {
            let weights = planned.iter().map(|reading| reading.weights.unwrap());
            let (before, whole) = weights.map(|w| (w.before, w.whole)).unzip();
            let (a, b) = planned.iter().map(|r| (r.a, r.b)).unzip();
            (a, b, before, whole)
        });
        let told = compiled::plan(&year, lent);
        assert!(
            told == expected,
            "input {number}: {told:?}, not {expected:?}"
        );
        reached.count(&faults, &told);
        lengths.insert(year.hours.len());
    }
    assert!(lengths.iter().copied().eq(0..=14), "{lengths:?}");
    let expected: &[(usize, &[u8])] = &[
        (0, &[16]),
        (1, &[4]),
        (2, &[0, 4]),
        (3, &[0, 4]),
        (4, &[4]),
        (5, &[0, 4]),
        (6, &[0, 11]),
        (7, &[0, 11]),
        (8, &[0, 11]),
        (9, &[0, 11]),
        (10, &[0, 12]),
        (11, &[0, 10]),
        (12, &[0, 13]),
        (13, &[0, 13]),
    ];
    reached.assert_all("plan", expected);
}

struct Hour {
    residual: u32,
    distributed: Vec<i64>,
    periodised: Vec<u32>,
    carrier: usize,
    price: i64,
    lent_differences: usize,
    lent_amounts: usize,
}

impl Hour {
    fn good(random: &mut Random, parties: usize) -> Hour {
        let residual = random.any_size(RESIDUAL) as u32;
        let most = residual / parties as u32;
        let mut distributed: Vec<i64> = (0..parties)
            .map(|_| random.any_size(most.into()) as i64)
            .collect();
        if parties > 1 && random.once_in(3) {
            distributed[1] = -1;
        }
        distributed[0] += i64::from(residual) - distributed.iter().sum::<i64>();
        let most = RESIDUAL / parties as u64;
        let price = random.any_size(5_000_000) as i64;
        Hour {
            residual,
            distributed,
            periodised: (0..parties).map(|_| random.any_size(most) as u32).collect(),
            carrier: random.below(parties),
            price: *random.pick(&[price, -price]),
            lent_differences: parties,
            lent_amounts: parties,
        }
    }

    fn resize(&mut self, parties: usize) {
        self.distributed = vec![0; parties];
        self.residual = 0;
        self.periodised = vec![7; parties];
        self.carrier = 0;
        self.lent_differences = parties;
        self.lent_amounts = parties;
    }

    fn damage(&mut self, random: &mut Random, fault: usize) {
        let parties = self.distributed.len();
        if parties == 0 || self.periodised.is_empty() {
            return;
        }
        let party = random.below(parties.min(self.periodised.len()));
        match fault {
            0 => self.lent_differences = other_length(random, parties),
            1 => self.lent_amounts = other_length(random, parties),
            2 => match random.below(2) {
                0 => self.periodised.truncate(party),
                _ => self.periodised.push(0),
            },
            3 => {
                let parties = *random.pick(&[0, 63, 64, 65]);
                self.resize(parties);
            }
            4 => self.carrier = *random.pick(&[parties - 1, parties, parties + 1, usize::MAX]),
            5 => {
                let price = near(random, 5_000_000);
                self.price = *random.pick(&[price, -price, i64::MIN, i64::MAX]);
            }
            6 => {
                let figures = [near(random, -1), near(random, 2_000_000_001)];
                self.distributed[party] =
                    *random.pick(&[figures[0], figures[1], i64::MIN, i64::MAX]);
                let others: i128 = self.distributed.iter().map(|&wh| i128::from(wh)).sum();
                self.residual = u32::try_from(others).unwrap_or(self.residual);
            }
            7 => {
                self.periodised.fill(0);
                let value = near_or(random, RESIDUAL as i64, u32::MAX.into());
                self.periodised[party] = value as u32;
            }
            8 => self.residual = near(random, i64::from(self.residual)).max(0) as u32,
            9 => {
                let wh = near(random, RESIDUAL as i64);
                self.distributed.fill(0);
                self.distributed[party] = wh;
                self.residual = wh as u32;
            }
            _ => {
                let all = near(random, RESIDUAL as i64) as u32;
                self.periodised.fill(0);
                self.periodised[0] = all / 2;
                self.periodised[party] += all - all / 2;
            }
        }
    }
}

#[test]
fn reconciliation() {
    let mut reached = Reached::default();
    for number in 0..INPUTS {
        let mut random = Random::of_file(45, number);
        let parties = size(&mut random, 64, 20);
        let mut hour = Hour::good(&mut random, parties);
        let faults = faults(&mut random, 11);
        for &fault in &faults {
            hour.damage(&mut random, fault);
        }
        let periodised: Vec<i64> = hour.periodised.iter().map(|&wh| wh.into()).collect();
        let expected = of_second(second::reconciliation::reconciliation(
            hour.residual,
            &hour.distributed,
            &periodised,
            hour.carrier as u64,
            hour.price,
            hour.lent_differences,
            hour.lent_amounts,
        ))
        .map(|hour| (hour.loss_wh, hour.differences_wh, hour.amounts_millionths));
        let told = compiled::reconciliation(
            hour.residual,
            &hour.distributed,
            &hour.periodised,
            hour.carrier,
            hour.price,
            hour.lent_differences,
            hour.lent_amounts,
        );
        assert_eq!(told, expected, "input {number}");
        reached.count(&faults, &told);
    }
    let expected: &[(usize, &[u8])] = &[
        (0, &[16]),
        (1, &[16]),
        (2, &[4]),
        (3, &[0, 4]),
        (4, &[0, 4]),
        (5, &[0, 4]),
        (6, &[0, 4, 9]),
        (7, &[0, 4]),
        (8, &[0, 4]),
        (9, &[0, 9]),
        (10, &[0, 14]),
    ];
    reached.assert_all("reconciliation", expected);
}

/// Amounts of a month: small or of any size, or a few quarters or tenths of an øre, so that many remainders are equal; and
/// one of them balances the others.
fn balanced_amounts(random: &mut Random, parties: usize) -> Vec<i64> {
    let style = random.below(5);
    let mut amounts: Vec<i64> = (0..parties)
        .map(|_| match style {
            0 => random.between(-3_000_000, 3_000_000),
            // So small that those of 64 parties add up within 64 bits.
            1 => random.bits() as i64 >> (6 + random.below(58)),
            2 => random.between(-9, 9) * 250_000,
            3 => random.between(-40, 40) * 100_000,
            _ => random.between(-9, 9) * 1_000_000 + random.between(-1, 1),
        })
        .collect();
    balance(random, &mut amounts);
    amounts
}

/// Other amounts. Fault 0 is of the lent output alone.
fn damage_amounts(random: &mut Random, amounts: &mut Vec<i64>, fault: usize) {
    if amounts.is_empty() {
        return;
    }
    let party = random.below(amounts.len());
    match fault {
        0 => {}
        1 => {
            let parties = *random.pick(&[0, 1, 63, 64, 65, 66]);
            *amounts = balanced_amounts(random, parties);
        }
        2 => amounts[party] = amounts[party].wrapping_add(*random.pick(&[1, -1])),
        3 => amounts[party] = *random.pick(&[i64::MIN, i64::MAX, 0]),
        // Their wrapped sum is 0, their true sum at times.
        4 => {
            let extremes = [i64::MIN, i64::MAX, i64::MIN + 1, 1 << 62, -(1 << 62)];
            let any = random.once_in(2);
            for amount in amounts.iter_mut() {
                let bits = random.bits() as i64;
                *amount = if any { bits } else { *random.pick(&extremes) };
            }
            balance(random, amounts);
        }
        // Large ones, then their opposites: on the way to 0 the sum passes 64 bits.
        _ => {
            let pairs = amounts.len() / 2;
            let large = i64::MAX - random.below(2_000_000) as i64;
            amounts.fill(0);
            amounts[..pairs].fill(large);
            amounts[pairs..2 * pairs].fill(-large);
        }
    }
}

#[test]
fn invoice() {
    let mut reached = Reached::default();
    for number in 0..INPUTS {
        let mut random = Random::of_file(46, number);
        let parties = size(&mut random, 64, 5);
        let mut amounts = balanced_amounts(&mut random, parties);
        let faults = faults(&mut random, 6);
        for &fault in &faults {
            damage_amounts(&mut random, &mut amounts, fault);
        }
        let mut lent = amounts.len();
        if faults.contains(&0) {
            lent = other_length(&mut random, lent);
        }
        let expected = of_second(second::invoice::invoice(&amounts, lent));
        let told = compiled::invoice(&amounts, lent);
        assert_eq!(told, expected, "input {number}: {amounts:?}");
        reached.count(&faults, &told);
    }
    let expected: &[(usize, &[u8])] = &[
        (0, &[16]),
        (1, &[0, 4]),
        (2, &[4]),
        (3, &[0, 4]),
        (4, &[0, 4]),
        (5, &[0]),
    ];
    reached.assert_all("invoice", expected);
}

#[test]
fn amounts() {
    let mut reached = Reached::default();
    for number in 0..INPUTS {
        let mut random = Random::of_file(49, number);
        let mut hours = PricedHours::good(&mut random);
        let faults = faults(&mut random, PricedHours::FAULTS);
        for &fault in &faults {
            hours.damage(&mut random, fault);
        }
        let PricedHours {
            differences,
            parties,
            prices,
            lent,
        } = hours;
        let expected = second::reconciliation::amounts(&differences, parties, &prices, lent);
        let told = compiled::amounts(&differences, parties, &prices, lent);
        assert_eq!(told, of_second(expected), "input {number}");
        reached.count(&faults, &told);
    }
    reached.assert_all("amounts", PricedHours::REFUSALS);
}
