//! The inputs, and the calls that are counted.

use std::hint::black_box;

use second::random::Random;

use crate::compiled::{self, Told, Year};
use crate::plain;

const HOURS: usize = 745;
const PARTIES: usize = 64;

/// So many calls of one of the two. Both are called once before, so that a difference shows.
fn repeat<T: PartialEq>(which: &str, times: usize, ours: impl Fn() -> T, plain: impl Fn() -> T) {
    assert!(ours() == plain(), "they differ");
    for _ in 0..times {
        match which {
            "compiled" => drop(black_box(ours())),
            _ => drop(black_box(plain())),
        }
    }
}

fn accepted<T>(told: Told<T>) -> T {
    told.expect("a good input was refused")
}

pub fn run() {
    let arguments: Vec<String> = std::env::args().collect();
    let [_, service, which, times] = &arguments[..] else {
        eprintln!("bench residual|curve|distribution|periodisation|plan|reconciliation|amounts|invoice compiled|plain TIMES");
        return;
    };
    let times: usize = times.parse().expect("TIMES is a number");
    let mut random = Random::of_file(7, 7);
    let residuals: Vec<u32> = (0..HOURS)
        .map(|_| random.below(100_000_000) as u32)
        .collect();
    let shares: Vec<u64> = (0..PARTIES)
        .map(|_| random.below(60_000_000) as u64)
        .collect();
    match service.as_str() {
        "residual" => {
            let statuses = vec![1; HOURS];
            let nets: Vec<i64> = residuals.iter().map(|&wh| i64::from(wh) + 25).collect();
            let (productions, hourlies, flexes) =
                (vec![5; HOURS], vec![10; HOURS], vec![20; HOURS]);
            let lists = || {
                black_box((
                    &statuses[..],
                    &nets[..],
                    &productions[..],
                    &hourlies[..],
                    &flexes[..],
                ))
            };
            let ours = || {
                let (s, n, p, h, f) = lists();
                accepted(compiled::residual(s, n, p, h, f, HOURS))
            };
            let theirs = || {
                let (s, n, p, h, f) = lists();
                accepted(plain::residual(s, n, p, h, f, HOURS))
            };
            repeat(which, times, ours, theirs);
        }
        "curve" => {
            let w = 3_000_000_000;
            let ours = || accepted(compiled::curve(black_box(&residuals), w, HOURS));
            let theirs = || accepted(plain::curve(black_box(&residuals), w, HOURS));
            repeat(which, times, ours, theirs);
        }
        "distribution" => {
            let lent = HOURS * PARTIES;
            let ours = || accepted(compiled::distribution(black_box(&shares), &residuals, lent));
            let theirs = || accepted(plain::distribution(black_box(&shares), &residuals, lent));
            repeat(which, times, ours, theirs);
        }
        "periodisation" => {
            let e = 987_654_321;
            let ours = || accepted(compiled::periodisation(e, black_box(&residuals), HOURS));
            let theirs = || accepted(plain::periodisation(e, black_box(&residuals), HOURS));
            repeat(which, times, ours, theirs);
        }
        "plan" => {
            let year = Year {
                e: 987_654_321,
                a: 100,
                b: 689,
                parties: vec![5; 12],
                hours: vec![HOURS as u16; 12],
                curves: residuals.repeat(12),
            };
            let ours = || accepted(compiled::plan(black_box(&year), [12; 4]));
            let theirs = || accepted(plain::plan(black_box(&year), [12; 4]));
            repeat(which, times, ours, theirs);
        }
        "reconciliation" => {
            let periodised: Vec<u32> = residuals[..PARTIES].iter().map(|wh| wh / 8).collect();
            let distributed: Vec<i64> =
                (0..PARTIES).map(|party| 1_000_000 + party as i64).collect();
            let residual = distributed.iter().sum::<i64>() as u32;
            let ours = || {
                let figures = black_box(&distributed[..]);
                accepted(compiled::reconciliation(
                    residual,
                    figures,
                    &periodised,
                    5,
                    33_000,
                    PARTIES,
                    PARTIES,
                ))
            };
            let theirs = || {
                let figures = black_box(&distributed[..]);
                accepted(plain::reconciliation(
                    residual,
                    figures,
                    &periodised,
                    5,
                    33_000,
                    PARTIES,
                    PARTIES,
                ))
            };
            repeat(which, times, ours, theirs);
        }
        "amounts" => {
            let prices = residuals.iter().map(|&wh| i64::from(wh % 60_000));
            let prices: Vec<i64> = prices.collect();
            // Of every two parties one has what the other lacks.
            let hours = residuals.iter().map(|&wh| i64::from(wh));
            let differences: Vec<i64> =
                hours.flat_map(|wh| [wh, -wh].repeat(PARTIES / 2)).collect();
            let lent = HOURS * PARTIES;
            let ours = || {
                let differences = black_box(&differences[..]);
                accepted(compiled::amounts(differences, PARTIES, &prices, lent))
            };
            let theirs = || {
                let differences = black_box(&differences[..]);
                accepted(plain::amounts(differences, PARTIES, &prices, lent))
            };
            repeat(which, times, ours, theirs);
        }
        _ => {
            let mut amounts: Vec<i64> = (0..PARTIES)
                .map(|_| random.between(-1_000_000_000_000, 1_000_000_000_000))
                .collect();
            amounts[5] -= amounts.iter().sum::<i64>();
            let ours = || accepted(compiled::invoice(black_box(&amounts), PARTIES));
            let theirs = || accepted(plain::invoice(black_box(&amounts), PARTIES));
            repeat(which, times, ours, theirs);
        }
    }
}
