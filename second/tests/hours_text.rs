//! The hours' text: S1 whole, the distances of D1 and D3 by hand, statuses, losses, refusals; and what must hold of every
//! line of random months.

use second::draft::{measured_hour, prices_of, Draft};
use second::examples::{d3, s1, silent};
use second::hours::{hours, text as text_of};
use second::make::{files, Aim};
use second::month::settle;
use second::record::Reading;
use second::setting::Setting;
use second::statement::{self, statement};

fn changed(change: impl FnOnce(&mut Draft)) -> String {
    let mut draft = s1();
    change(&mut draft);
    hours(&draft.bytes())
}

#[test]
fn s1_prints_its_seven_lines() {
    let expected = "area 007 2016-04 hours 3 parties 3 estimated 0
0 measured measured 40000000 39000000 4000000 39000000 37900000 1100000
1 measured measured 50000000 48000000 5000000 48000000 47400000 600000
2 measured measured 40000000 39000000 4000000 39000000 37900000 1100000
0000000000017 0/10000000 0/10000000
0000000000024 0/10000000 0/10000000
0000000000031 0/10000000 0/10000000
";
    assert_eq!(hours(&s1().bytes()), expected);
}

/// S1's parties with these load shares, so many hours of these residuals, fixed and refixed alike, and no readings.
fn month_of(shares_kwh: &[u64; 3], residuals_wh: &[i64]) -> Draft {
    let mut draft = s1();
    draft.heading.hours = residuals_wh.len() as u16;
    for (party, &share) in draft.parties.iter_mut().zip(shares_kwh) {
        party.load_share_kwh = share;
    }
    let series = residuals_wh.iter().enumerate();
    draft.fixed = series.map(|(hour, &wh)| measured_hour(hour, wh)).collect();
    draft.refixed = draft.fixed.clone();
    draft.prices = prices_of(residuals_wh.iter().map(|_| 30_000));
    draft.readings.clear();
    draft
}

/// The fractions of the parties' lines, without their GLNs.
fn distances(text: &str) -> Vec<&str> {
    let lines = text.lines().filter(|line| line.contains('/'));
    lines.map(|line| line.split_once(' ').unwrap().1).collect()
}

#[test]
fn d1_distances_by_hand() {
    // W is 3 and R is 1, 2, 3. The figures are (1,0,0), (0,1,0), (0,0,1), the running sums (1,0,0), (1,1,0), (1,1,1):
    //   after hour 0: 1*3-1 =  2, 0*3-1 = -1, 0*3-1 = -1
    //   after hour 1: 1*3-2 =  1, 1*3-2 =  1, 0*3-2 = -2
    //   after hour 2: 1*3-3 =  0, 1*3-3 =  0, 1*3-3 =  0
    let text = hours(&month_of(&[1, 1, 1], &[1, 1, 1]).bytes());
    assert_eq!(distances(&text), ["0/3 2/3", "-1/3 1/3", "-2/3 0/3"]);
}

#[test]
fn d3_distances_by_hand() {
    // W is 14 and R is 10, 11. The running sums are (4,4,2), (5,5,1):
    //   after hour 0: 4*14-6*10 = -4, the same, 2*14-2*10 =  8
    //   after hour 1: 5*14-6*11 =  4, the same, 1*14-2*11 = -8
    let text = hours(&month_of(&[6, 6, 2], &[10, 1]).bytes());
    assert_eq!(distances(&text), ["-4/14 4/14", "-4/14 4/14", "-8/14 8/14"]);
}

/// The example, by hand. Residuals 16+3-6-3 = 10 and -2+8-4-1 = 1; curve 10,000,000/14 and 1,000,000/14 rounded down.
/// Party 0's reading: 6 x 714,285 / 785,713 = 5.45, so 5 and 1. Differences (1,1,-2) at 2 øre and (0,-3,3) at -1.5 øre per
/// Wh: 2, 6.5 and -8.5 øre.
#[test]
fn the_example_d3_by_hand() {
    let file = d3().bytes();
    let expected_hours = "area 003 2016-06 hours 2 parties 3 estimated 1
0 measured measured 10 10 714285 10 5 5
1 estimated estimated 1 1 71428 1 3 -2
0000000000017 -4/14 4/14
0000000000024 -4/14 4/14
0000000000031 -8/14 8/14
";
    assert_eq!(hours(&file), expected_hours);
    let expected_statement = "area 003 2016-06 hours 2 parties 3 estimated 1
0000000000017 5 6 0 1 2
0000000000024 5 0 3 -2 7
0000000000031 1 2 0 1 -9
total 11 8 3 0 0
";
    assert_eq!(statement(&file), expected_statement);
}

/// Before hour 0 every distance is 0; that is not one of the month's.
#[test]
fn the_start_is_not_among_the_distances() {
    // The first two hours of D1.
    let text = hours(&month_of(&[1, 1, 1], &[1, 1]).bytes());
    assert_eq!(distances(&text), ["1/3 2/3", "-1/3 1/3", "-2/3 -1/3"]);
    let text = hours(&month_of(&[1, 1, 1], &[1]).bytes());
    assert_eq!(distances(&text), ["2/3 2/3", "-1/3 -1/3", "-1/3 -1/3"]);
}

/// 745 hours of 2,000,000,000 Wh with W 4,000,000,000: running sum x W goes beyond 64 bits.
#[test]
fn the_largest_running_sums_have_exact_distances() {
    let text = hours(&month_of(&[3_999_999_999, 1, 0], &[2_000_000_000; 745]).bytes());
    // Party 1's exact share grows by half a Wh in an hour. At a half, both remainders are 2,000,000,000 and the Wh is party 0's.
    assert_eq!(
        distances(&text),
        [
            "0/4000000000 2000000000/4000000000",
            "-2000000000/4000000000 0/4000000000",
            "0/4000000000 0/4000000000"
        ]
    );
    assert!(text.contains(
        "\n744 measured measured 2000000000 2000000000 500000 2000000000 0 2000000000\n"
    ));
}

/// The first three words of each hour's line.
fn statuses(text: &str) -> Vec<String> {
    let lines = text.lines().skip(1).filter(|line| !line.contains('/'));
    lines
        .map(|line| line.split(' ').take(3).collect::<Vec<_>>().join(" "))
        .collect()
}

#[test]
fn fixed_and_applied_statuses_are_told_apart() {
    let estimated = |draft: &mut Draft| {
        draft.fixed[0].status = 2;
        draft.fixed[2].status = 2;
        draft.refixed[1].status = 2;
        draft.refixed[2].status = 2;
    };
    let text = changed(estimated);
    assert_eq!(
        statuses(&text),
        [
            "0 estimated measured",
            "1 measured estimated",
            "2 estimated estimated"
        ]
    );
    assert!(text.starts_with("area 007 2016-04 hours 3 parties 3 estimated 2\n"));
    // Without a refixed series the fixed one is applied, in a provisional run: the program itself is final.
    let mut draft = s1();
    estimated(&mut draft);
    draft.refixed.clear();
    let file = draft.bytes();
    let month = settle(&file, Setting::PROVISIONAL).unwrap();
    assert_eq!(
        statuses(&text_of(&month)),
        [
            "0 estimated estimated",
            "1 measured measured",
            "2 estimated estimated"
        ]
    );
    assert_eq!(hours(&file), "refused 17 at 0\n");
}

#[test]
fn a_negative_loss_is_printed() {
    let text = changed(|draft| {
        draft.readings = vec![Reading::of_month(1, 0, 3, 200_000_000)];
    });
    // Weights 4 : 5 : 4. 200,000,000 x 4/13 and x 9/13 are 61,538,461.5 and 138,461,538.5, rounded down.
    let expected = [
        "0 measured measured 40000000 39000000 4000000 39000000 61538461 -22538461",
        "1 measured measured 50000000 48000000 5000000 48000000 76923077 -28923077",
        "2 measured measured 40000000 39000000 4000000 39000000 61538462 -22538462",
    ];
    assert_eq!(text.lines().collect::<Vec<_>>()[1..4], expected);
}

#[test]
fn a_refused_file_has_its_refusal_line_alone() {
    assert_eq!(hours(&[]), "refused 1 at 0\n");
    assert_eq!(hours(&silent().bytes()), "refused 7 at 417\n");
    assert_eq!(
        changed(|draft| draft.end_count = Some(0)),
        "refused 15 at 22\n"
    );
}

/// Heading and refusals are the statement's, for files of every shape and damage. Only where the statement has 3 can the
/// hours, which need no prices, have something else.
#[test]
fn the_first_line_is_the_statements() {
    for made in files(41, 600) {
        let (hours, statement) = (hours(&made.bytes), statement(&made.bytes));
        let (first, rest) = hours.split_once('\n').unwrap();
        let (expected, _) = statement.split_once('\n').unwrap();
        if !expected.starts_with("refused 3 ") {
            assert_eq!(first, expected, "{}", made.name);
        }
        assert_eq!(rest.is_empty(), first.starts_with("refused "));
    }
}

/// A number in its one way of printing.
fn number(word: &str) -> i128 {
    let number: i128 = word.parse().unwrap();
    assert_eq!(number.to_string(), word);
    number
}

/// What a line of an hour says in numbers, after the hour and its statuses.
struct HourNumbers {
    fixed_wh: i128,
    applied_wh: i128,
    distributed_wh: i128,
    periodised_wh: i128,
    loss_wh: i128,
}

fn hour_numbers(line: &str, hour: usize) -> HourNumbers {
    let words: Vec<&str> = line.split(' ').collect();
    let [told_hour, fixed_status, applied_status, fixed, applied, curve, distributed, periodised, loss] =
        words[..]
    else {
        panic!("{line}");
    };
    assert_eq!(number(told_hour), hour as i128);
    for status in [fixed_status, applied_status] {
        assert!(["measured", "estimated"].contains(&status), "{line}");
    }
    assert!(number(curve) >= 0);
    HourNumbers {
        fixed_wh: number(fixed),
        applied_wh: number(applied),
        distributed_wh: number(distributed),
        periodised_wh: number(periodised),
        loss_wh: number(loss),
    }
}

/// The smallest and the largest numerator of a party's line, whose denominators are W.
fn numerators(line: &str, gln: &[u8], share_sum_kwh: u64) -> (i128, i128) {
    let words: Vec<&str> = line.split(' ').collect();
    let [told_gln, smallest, largest] = words[..] else {
        panic!("{line}");
    };
    assert_eq!(told_gln.as_bytes(), gln);
    let numerator = |fraction: &str| {
        let (numerator, denominator) = fraction.split_once('/').unwrap();
        assert_eq!(number(denominator), i128::from(share_sum_kwh));
        number(numerator)
    };
    (numerator(smallest), numerator(largest))
}

/// The first thing that does not hold of a text: each hour's distributed figures add up to the applied residual, periodised
/// and loss too; and every distance is strictly between -W and W.
fn breach(text: &str, hours: usize, glns: &[&[u8]], share_sum_kwh: u64) -> Option<&'static str> {
    let lines: Vec<&str> = text.lines().skip(1).collect();
    assert_eq!(lines.len(), hours + glns.len());
    for (hour, line) in lines[..hours].iter().enumerate() {
        let numbers = hour_numbers(line, hour);
        if numbers.distributed_wh != numbers.applied_wh {
            return Some("the sum of an hour");
        }
        if numbers.periodised_wh + numbers.loss_wh != numbers.applied_wh {
            return Some("the loss of an hour");
        }
    }
    let w = i128::from(share_sum_kwh);
    for (line, gln) in lines[hours..].iter().zip(glns) {
        let (smallest, largest) = numerators(line, gln, share_sum_kwh);
        assert!(smallest <= largest);
        if smallest <= -w || largest >= w {
            return Some("a whole Wh off");
        }
    }
    None
}

#[test]
fn every_line_holds_for_every_valid_shape() {
    let (mut months, mut refixed, mut negative, mut positive) = (0, 0, 0, 0);
    for seed in 42..45 {
        for made in files(seed, 144).filter(|made| made.lenient_aim == Aim::Accepted) {
            let month = settle(&made.bytes, Setting::PROVISIONAL.of_quantities()).unwrap();
            let glns: Vec<&[u8]> = month.file.parties.iter().map(|party| party.gln).collect();
            let text = text_of(&month);
            let printed = if made.refixed {
                text.as_str()
            } else {
                "refused 17 at 0\n"
            };
            assert_eq!(hours(&made.bytes), printed, "{}", made.name);
            let breach = breach(&text, month.hours.len(), &glns, month.share_sum_kwh);
            assert_eq!(breach, None, "{}", made.name);
            let lines: Vec<&str> = text.lines().skip(1).collect();
            for (hour, line) in lines[..month.hours.len()].iter().enumerate() {
                let numbers = hour_numbers(line, hour);
                refixed += u64::from(numbers.fixed_wh != numbers.applied_wh);
            }
            for (line, gln) in lines[month.hours.len()..].iter().zip(glns) {
                let (smallest, largest) = numerators(line, gln, month.share_sum_kwh);
                negative += u64::from(smallest < 0);
                positive += u64::from(largest > 0);
            }
            months += 1;
        }
    }
    // The months had something to hold: other residuals applied than fixed, and distances of either sign.
    assert_eq!(months, 144);
    assert!(refixed > 0 && negative > 0 && positive > 0);
}

/// The hours' columns add up to the statement's total line.
#[test]
fn the_hours_add_up_to_the_statement() {
    for made in files(45, 144).filter(|made| made.aim(Setting::PROVISIONAL) == Aim::Accepted) {
        let month = settle(&made.bytes, Setting::PROVISIONAL).unwrap();
        let text = text_of(&month);
        let mut sums = [0; 3];
        for (hour, line) in text.lines().skip(1).take(month.hours.len()).enumerate() {
            let numbers = hour_numbers(line, hour);
            sums[0] += numbers.distributed_wh;
            sums[1] += numbers.periodised_wh;
            sums[2] += numbers.loss_wh;
        }
        let [distributed, periodised, loss] = sums;
        let total = format!("\ntotal {distributed} {periodised} {loss} 0 ");
        let statement = statement::text(&month);
        assert!(statement.contains(&total), "{}", made.name);
    }
}

/// What the text says of three hours of this residual among equal shares whose figures are replaced by these.
fn text_of_figures(residual_wh: i64, figures: [[i64; 3]; 3]) -> String {
    let file = month_of(&[1_000_000; 3], &[residual_wh; 3]).bytes();
    let mut month = settle(&file, Setting::FINAL).unwrap();
    for (hour, figures) in month.hours.iter_mut().zip(figures) {
        hour.distributed_wh = figures.to_vec();
    }
    text_of(&month)
}

/// The report is of the figures: the wrong ones that 01 warns of are seen in it.
#[test]
fn wrong_figures_show() {
    let glns: [&[u8]; 3] = [b"0000000000017", b"0000000000024", b"0000000000031"];
    let breach_of =
        |residual_wh, figures| breach(&text_of_figures(residual_wh, figures), 3, &glns, 3_000_000);
    assert_eq!(breach_of(4, [[2, 1, 1], [1, 2, 1], [1, 1, 2]]), None);
    // Each hour rounded to nearest by itself.
    assert_eq!(breach_of(1, [[0; 3]; 3]), Some("the sum of an hour"));
    // Every leftover to the carrier: the second hour's already makes it more than a Wh.
    let leftovers = [[1, 1, 2]; 3];
    assert_eq!(breach_of(4, leftovers), Some("a whole Wh off"));
    let text = text_of_figures(4, leftovers);
    assert_eq!(
        distances(&text),
        [
            "-3000000/3000000 -1000000/3000000",
            "-3000000/3000000 -1000000/3000000",
            "2000000/3000000 6000000/3000000"
        ]
    );
}
