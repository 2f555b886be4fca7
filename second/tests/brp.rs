//! W5's record 12 in a month file and the BRP report, READINGS A63 to A66 and A112: refusals and their places, figures by
//! hand, and what is said of every month; then reports and readers that look reasonable, each told apart by the made files.

mod common;

use std::collections::{BTreeMap, BTreeSet};

use common::{assert_accepted, assert_accepted_as_provisional, assert_refused, month_of};
use second::brp::{self, brp};
use second::draft::{prices_of, Draft};
use second::examples;
use second::gln::{is_gln, with_check_digit};
use second::hours::hours;
use second::make::files;
use second::month::{settle, Month};
use second::month_file;
use second::preview::preview;
use second::record::{first_record, Party, Reading, Record};
use second::refusal::{Number, Refusal};
use second::setting::{Prices, Setting};
use second::statement::{self, statement};

/// The draft with its suppliers under BRPs, the first twelve digits of whose GLNs are these numbers.
fn under(mut draft: Draft, brps: &[u64]) -> Draft {
    for (party, &number) in draft.parties.iter_mut().zip(brps) {
        *party = party.under(with_check_digit(number));
    }
    draft
}

/// Three suppliers of 12 records, of shares 1, 2 and 3, in one hour of 6 Wh. Record 0 is the heading, 1 to 3 are the parties.
fn three_of_12(change: impl FnOnce(&mut Draft)) -> Vec<u8> {
    let mut draft = under(month_of(&[1, 2, 3], &[6], &[]), &[9, 4, 9]);
    change(&mut draft);
    draft.bytes()
}

/// The same as 02 records.
fn three_of_02(change: impl FnOnce(&mut Draft)) -> Vec<u8> {
    let mut draft = month_of(&[1, 2, 3], &[6], &[]);
    change(&mut draft);
    draft.bytes()
}

// Refusals.

#[test]
fn a63_a_mixture_is_3_at_the_first_record_of_the_other_kind() {
    assert_accepted(&three_of_12(|_| {}));
    assert_accepted(&three_of_02(|_| {}));
    for (of_02, place) in [
        (&[0][..], 2),
        (&[1], 2),
        (&[2], 3),
        (&[0, 1], 3),
        (&[0, 2], 2),
        (&[1, 2], 2),
    ] {
        let file = three_of_12(|draft| {
            for &party in of_02 {
                draft.parties[party].brp_gln = None;
            }
        });
        assert_refused(&file, 3, place);
    }
}

#[test]
fn a63_a_mixture_is_3_before_its_fields() {
    // A 02 after a 12, and a 12 after a 02.
    let bad_of_other_kind = |draft: &mut Draft| {
        let party = &mut draft.parties[1];
        let is_02 = party.brp_gln.is_none();
        party.brp_gln = is_02.then_some(*b"000000000001X");
        party.gln[12] = b'x';
        party.load_share_kwh = u64::MAX;
    };
    assert_refused(&three_of_12(bad_of_other_kind), 3, 2);
    assert_refused(&three_of_02(bad_of_other_kind), 3, 2);
    // What an earlier record has comes first.
    let file = three_of_12(|draft| {
        draft.parties[0].brp_gln = Some(*b"0000000000018");
        draft.parties[1].brp_gln = None;
    });
    assert_refused(&file, 5, 1);
}

/// "2, then 1, 3": a body cut short is told before the mixture.
#[test]
fn a63_a_12_cut_short_is_1() {
    let [file_of_12, file_of_02] = [three_of_12(|_| {}), three_of_02(|_| {})];
    for length in 1..35 {
        assert_refused(&file_of_12[..10 + length], 1, 1);
        assert_refused(&file_of_12[..10 + 35 + length], 1, 2);
        let mixed = [&file_of_02[..10 + 22], &file_of_12[10..10 + length]].concat();
        assert_refused(&mixed, 1, 2);
    }
    assert_refused(&file_of_12[..10 + 35], 1, 2);
    let mixed = [&file_of_02[..10 + 22], &file_of_12[10..10 + 35]].concat();
    assert_refused(&mixed, 3, 2);
}

#[test]
fn a_12_too_many_or_too_few_or_elsewhere_is_3() {
    let draft = under(month_of(&[1, 2, 3], &[6], &[]), &[9, 4, 9]);
    let records = draft.records();
    for place in (0..records.len()).filter(|place| !(1..=3).contains(place)) {
        let mut more = records.clone();
        more.insert(place, records[1].clone());
        assert_refused(&more.concat(), 3, place);
    }
    for party in 1..=3 {
        let mut fewer = records.clone();
        fewer.remove(party);
        assert_refused(&fewer.concat(), 3, 3);
    }
}

#[test]
fn a64_a_bad_brp_gln_is_5() {
    for party in 0..3 {
        for bad in [b"0000000000018", b"000000000001x", b"00000000000:7"] {
            let file = three_of_12(|draft| draft.parties[party].brp_gln = Some(*bad));
            assert_refused(&file, 5, 1 + party);
        }
        let file = three_of_12(|draft| draft.parties[party].gln[11] = b'9');
        assert_refused(&file, 5, 1 + party);
    }
}

#[test]
fn a64_the_load_share_is_judged_before_the_glns() {
    for party in 0..3 {
        let file = three_of_12(|draft| {
            draft.parties[party].load_share_kwh = 4_000_000_001;
            draft.parties[party].brp_gln = Some(*b"000000000001x");
            draft.parties[party].gln = *b"000000000001x";
        });
        assert_refused(&file, 4, 1 + party);
    }
}

#[test]
fn a64_supplier_glns_rise_and_brp_glns_need_not() {
    for number in 1..=2 {
        let file = three_of_12(|draft| draft.parties[2].gln = with_check_digit(number));
        assert_refused(&file, 5, 3);
    }
    // The BRP GLNs rise, and that does not help.
    let file = three_of_12(|draft| {
        for (party, number) in draft.parties.iter_mut().zip([1, 2, 3]) {
            party.brp_gln = Some(with_check_digit(number));
        }
        draft.parties[1].gln = draft.parties[0].gln;
    });
    assert_refused(&file, 5, 2);
    for brps in [
        [3, 2, 1],
        [7, 7, 7],
        [1, 1, 2],
        [2, 1, 1],
        [1, 2, 3],
        [0; 3],
    ] {
        assert_accepted(&under(month_of(&[1, 2, 3], &[6], &[]), &brps).bytes());
    }
}

#[test]
fn w_is_of_the_load_shares_of_12_records_too() {
    let with_shares = |share: u64| {
        three_of_12(|draft| {
            for party in &mut draft.parties {
                party.load_share_kwh = share;
            }
        })
    };
    assert_refused(&with_shares(0), 6, 0);
    assert_refused(&with_shares(4_000_000_000), 6, 0);
    // The shares of one BRP alone may not make up for it either.
    assert_accepted(&with_shares(1_333_333_333));
}

/// A52: the BRP program is final.
#[test]
fn a52_a_file_without_06_is_17() {
    let file = three_of_12(|draft| draft.refixed.clear());
    assert_accepted_as_provisional(&file);
    assert_eq!(brp(&file), "refused 17 at 0\n");
    assert!(!brp(&three_of_12(|_| {})).contains("provisional"));
}

// Figures by hand.

/// The figures of examples/README.md.
#[test]
fn the_example_by_hand() {
    let file = examples::brp().bytes();
    let heading = "area 008 2017-01 hours 2 parties 3 estimated 0\n";
    let suppliers = "0000000000017 4 5 0 1 1
0000000000024 7 8 0 1 1
0000000000031 4 1 1 -2 -2
total 15 14 1 0 0
";
    assert_eq!(statement(&file), format!("{heading}{suppliers}"));
    let brps = "0000000000024 7 8 0 1 1
0000000000048 8 6 1 -1 -1
total 15 14 1 0 0
";
    assert_eq!(brp(&file), format!("{heading}{brps}"));
    let sums = settle(&file, Setting::FINAL).unwrap().party_sums();
    let amounts: Vec<i64> = sums.iter().map(|sums| sums.amount_millionths).collect();
    assert_eq!(amounts, [1_300_000, 400_000, -1_700_000]);
}

/// Three suppliers of equal shares in an hour of 3 Wh at this price; the last carries the loss, and the two others have
/// read so many Wh.
fn one_hour(price_ore: i32, read_wh: [u32; 2], brps: &[u64]) -> Vec<u8> {
    let readings = read_wh.into_iter().zip(0..);
    let readings: Vec<Reading> = readings
        .map(|(e_wh, party)| Reading::of_month(party, 0, 1, e_wh))
        .collect();
    let mut draft = under(month_of(&[1, 1, 1], &[3], &readings), brps);
    draft.heading.carrier = 2;
    draft.prices = prices_of([price_ore]);
    draft.bytes()
}

/// The first and the last figure of every line but the heading.
fn lines(text: &str) -> Vec<(&str, &str)> {
    let lines = text.lines().skip(1);
    lines
        .map(|line| {
            (
                line.split_once(' ').unwrap().0,
                line.rsplit(' ').next().unwrap(),
            )
        })
        .collect()
}

/// 0.3, 0.3 and -0.6 øre: the one øre that is missing goes to the third, whose remainder is 0.4, and all are 0. Added up
/// first, the BRPs' 0.6 and -0.6 øre would be 1 and -1.
#[test]
fn whole_ore_are_made_before_they_are_added_up() {
    let file = one_hour(300_000, [2, 2], &[5, 5, 6]);
    let suppliers = [
        ("0000000000017", "0"),
        ("0000000000024", "0"),
        ("0000000000031", "0"),
    ];
    assert_eq!(lines(&statement(&file))[..3], suppliers);
    assert_eq!(
        brp(&file),
        "area 007 2016-04 hours 1 parties 3 estimated 0
0000000000055 2 4 0 2 0
0000000000062 1 0 -1 -2 0
total 3 4 -1 0 0
"
    );
    // -0.5, -0.5 and 1 øre: down to -1, -1 and 1, and the missing øre to the first; together -1, and not 0 or -2.
    let file = one_hour(-500_000, [2, 2], &[6, 6, 5]);
    let brps = [
        ("0000000000055", "1"),
        ("0000000000062", "-1"),
        ("total", "0"),
    ];
    assert_eq!(lines(&brp(&file)), brps);
}

/// One BRP for all has the line of the total.
#[test]
fn one_brp_for_all_has_the_total() {
    let file = one_hour(730_001, [2, 7], &[8, 8, 8]);
    let text = brp(&file);
    let below: Vec<&str> = text.lines().skip(1).collect();
    assert_eq!(below, ["0000000000086 3 9 -6 0 0", "total 3 9 -6 0 0"]);
}

/// A66: "A file with 02 records is still read, each party being its own BRP."
#[test]
fn a66_a_file_of_02_records_has_its_statement() {
    for name in examples::NAMES.into_iter().filter(|&name| name != "brp") {
        let file = examples::example(name).unwrap();
        assert_eq!(brp(&file), statement(&file), "{name}");
    }
    // As 12 records, each supplier its own BRP, it is the same.
    let mut draft = examples::ore();
    let text = brp(&draft.bytes());
    for party in &mut draft.parties {
        *party = party.under(party.gln);
    }
    assert_eq!(brp(&draft.bytes()), text);
}

/// A65: the lines rise, whatever the order in the file, and a BRP has one line, whatever stands between its suppliers.
#[test]
fn a65_one_line_per_brp_in_rising_order() {
    let shares = [1, 2, 4, 8, 16];
    let month = || month_of(&shares, &[31], &[]);
    let names_and_wh = |brps: &[u64]| -> Vec<(u64, u64)> {
        let text = brp(&under(month(), brps).bytes());
        let mut lines: Vec<&str> = text.lines().skip(1).collect();
        assert_eq!(lines.pop(), Some("total 31 0 31 0 0"));
        let number = |line: &str| {
            let (gln, figures) = line.split_once(' ').unwrap();
            let wh = figures.split(' ').next().unwrap();
            (gln[..12].parse().unwrap(), wh.parse().unwrap())
        };
        lines.into_iter().map(number).collect()
    };
    assert_eq!(
        names_and_wh(&[50, 40, 30, 20, 10]),
        [(10, 16), (20, 8), (30, 4), (40, 2), (50, 1)]
    );
    assert_eq!(names_and_wh(&[7, 3, 7, 3, 7]), [(3, 10), (7, 21)]);
    assert_eq!(names_and_wh(&[9, 1, 1, 9, 9]), [(1, 6), (9, 25)]);
    assert_eq!(
        names_and_wh(&[2, 1, 4, 3, 5]),
        [(1, 2), (2, 1), (3, 8), (4, 4), (5, 16)]
    );
    // A BRP that is a supplier, of which it is not the BRP.
    assert_eq!(names_and_wh(&[5, 5, 5, 5, 1]), [(1, 16), (5, 15)]);
    // The first digit counts most.
    assert_eq!(
        names_and_wh(&[100_000_000_000, 99_999_999_999, 0, 9, 100_000_000_000]),
        [(0, 4), (9, 8), (99_999_999_999, 2), (100_000_000_000, 17)]
    );
}

/// The carrier's loss is in the line of its BRP and of no other.
#[test]
fn the_loss_is_the_carriers_brps() {
    for carrier in 0..3 {
        let mut draft = under(month_of(&[1, 1, 1], &[9], &[]), &[8, 6, 8]);
        draft.heading.carrier = carrier;
        let text = brp(&draft.bytes());
        let losses = if carrier == 1 { ["9", "0"] } else { ["0", "9"] };
        for (line, loss) in text.lines().skip(1).zip(losses) {
            assert_eq!(line.split(' ').nth(3), Some(loss), "{text}");
        }
    }
}

// What is said of every month.

/// The suppliers of each BRP of a month by their numbers, the BRPs in rising order.
fn suppliers_by_brp<'a>(month: &Month<'a>) -> BTreeMap<&'a [u8], Vec<usize>> {
    let mut brps: BTreeMap<&[u8], Vec<usize>> = BTreeMap::new();
    for (number, party) in month.file.parties.iter().enumerate() {
        brps.entry(party.brp()).or_default().push(number);
    }
    brps
}

/// Heading and total are the statement's, and a BRP's line has the sums of its suppliers' lines.
#[test]
fn the_lines_of_made_months_are_the_sums_of_the_statements() {
    let (mut months, mut merged) = (0, 0);
    for made in files(81, 1_500) {
        let Ok(month) = settle(&made.bytes, Setting::FINAL) else {
            assert_eq!(brp(&made.bytes), statement(&made.bytes), "{}", made.name);
            continue;
        };
        let (text, of_suppliers) = (brp(&made.bytes), statement(&made.bytes));
        let [text, of_suppliers]: [Vec<&str>; 2] =
            [&text, &of_suppliers].map(|text| text.lines().collect());
        let brps = suppliers_by_brp(&month);
        assert_eq!(text.len(), brps.len() + 2, "{}", made.name);
        assert_eq!(text[0], of_suppliers[0]);
        assert_eq!(text.last(), of_suppliers.last());
        for (line, (gln, suppliers)) in text[1..].iter().zip(&brps) {
            let (name, figures) = line.split_once(' ').unwrap();
            assert_eq!(name.as_bytes(), *gln);
            let figures: Vec<i64> = figures.split(' ').map(|n| n.parse().unwrap()).collect();
            let mut sums = vec![0; figures.len()];
            for &supplier in suppliers {
                let of_supplier = of_suppliers[1 + supplier].split(' ').skip(1);
                for (sum, figure) in sums.iter_mut().zip(of_supplier) {
                    *sum += figure.parse::<i64>().unwrap();
                }
            }
            assert_eq!(figures, sums, "{}", made.name);
        }
        months += 1;
        merged += u64::from(brps.len() < month.file.parties.len());
    }
    assert!(months > 300 && merged > 60, "{months} {merged}");
}

/// BRPs show in the BRP report alone: of the same suppliers as 02 records the other programs print the same.
#[test]
fn other_reports_do_not_show_brps() {
    let mut compared = 0;
    for made in files(82, 900) {
        let Ok(file) = month_file::read(&made.bytes, Prices::Needed) else {
            continue;
        };
        if file.parties[0].brp_gln.is_none() {
            assert_eq!(brp(&made.bytes), statement(&made.bytes), "{}", made.name);
            continue;
        }
        let head = Record::Heading(file.heading).encode();
        let parties = file.parties.iter().map(|&party| {
            let brp_gln = None;
            Record::Party(Party { brp_gln, ..party }).encode()
        });
        let rest = made.bytes[head.len() + 35 * file.parties.len()..].to_vec();
        let of_02: Vec<u8> = [head]
            .into_iter()
            .chain(parties)
            .chain([rest])
            .flatten()
            .collect();
        for print in [statement, hours, preview] {
            assert_eq!(print(&of_02), print(&made.bytes), "{}", made.name);
        }
        compared += 1;
    }
    assert!(compared > 100, "{compared}");
}

/// A112: "the BRPs' load shares add up to W", and "the BRP sums can be off by one Wh per supplier": of n suppliers less than
/// n Wh month to date and less than 2n over any run of hours.
#[test]
fn the_sums_of_a_brp_are_less_than_one_wh_per_supplier_from_its_share() {
    let (mut brps_seen, mut over_one_wh) = (0, 0);
    for made in files(83, 600) {
        let Ok(month) = settle(&made.bytes, Setting::PROVISIONAL) else {
            continue;
        };
        let w = i128::from(month.share_sum_kwh);
        let mut all_shares = 0;
        for suppliers in suppliers_by_brp(&month).values() {
            let n = suppliers.len() as i128;
            let shares = suppliers
                .iter()
                .map(|&s| month.file.parties[s].load_share_kwh);
            let share: i128 = shares.map(i128::from).sum();
            all_shares += share;
            let distances = distances(&month, suppliers, share);
            let (least, most) = (
                distances.iter().min().unwrap(),
                distances.iter().max().unwrap(),
            );
            assert!(-n * w < *least && *most < n * w, "{}", made.name);
            // The distance over a run is one of these less another.
            assert!(most - least < 2 * n * w, "{}", made.name);
            brps_seen += 1;
            over_one_wh += u64::from(*most >= w || *least <= -w);
        }
        assert_eq!(all_shares, w, "{}", made.name);
    }
    assert!(
        brps_seen > 400 && over_one_wh > 5,
        "{brps_seen} {over_one_wh}"
    );
}

/// W times the distance of these suppliers' running sum from their exact share, before the first hour and after each.
fn distances(month: &Month, suppliers: &[usize], share_kwh: i128) -> Vec<i128> {
    let w = i128::from(month.share_sum_kwh);
    let mut distances = vec![0];
    let hours = month.hours.iter().zip(month.applied_wh());
    for (hour, &residual_wh) in hours {
        let figures = suppliers
            .iter()
            .map(|&s| i128::from(hour.distributed_wh[s]));
        let grown = figures.sum::<i128>() * w - share_kwh * i128::from(residual_wh);
        distances.push(distances[distances.len() - 1] + grown);
    }
    distances
}

// What looks reasonable.

/// A line: its name and its five figures.
type Line = (String, [i64; 5]);

/// The text of a month with these lines between heading and total.
fn text_of(month: &Month, lines: &[Line]) -> String {
    let whole = statement::text(month);
    let whole: Vec<&str> = whole.lines().collect();
    let mut text = vec![whole[0].to_string()];
    for (name, figures) in lines {
        let [a, b, c, d, e] = figures;
        text.push(format!("{name} {a} {b} {c} {d} {e}"));
    }
    text.push(whole[whole.len() - 1].to_string());
    text.join("\n") + "\n"
}

/// A line for every supplier, under the name of its BRP.
fn supplier_lines(month: &Month) -> Vec<Line> {
    let parties = month.file.parties.iter().zip(month.party_sums());
    parties
        .map(|(party, sums)| {
            let name = String::from_utf8_lossy(party.brp()).into_owned();
            let figures = [
                sums.distributed_wh,
                sums.periodised_wh,
                sums.loss_wh,
                sums.difference_wh,
                sums.invoice_ore,
            ];
            (name, figures)
        })
        .collect()
}

/// Neighbours of the same name as one line.
fn neighbours_added(lines: Vec<Line>) -> Vec<Line> {
    let mut added: Vec<Line> = Vec::new();
    for (name, figures) in lines {
        match added.last_mut() {
            Some((last, sums)) if *last == name => {
                for (sum, figure) in sums.iter_mut().zip(figures) {
                    *sum += figure;
                }
            }
            _ => added.push((name, figures)),
        }
    }
    added
}

/// The rule, made otherwise than the report: lines in order of their names, neighbours added up.
fn brp_lines(month: &Month) -> Vec<Line> {
    let mut lines = supplier_lines(month);
    lines.sort_by(|(one, _), (other, _)| one.cmp(other));
    neighbours_added(lines)
}

/// Reports that look reasonable.
mod wrong_reports {
    use second::distribution::distribution;
    use second::invoice::invoice;

    use super::*;

    pub type Report = fn(&Month) -> String;

    pub const REPORTS: &[(&str, Report)] = &[
        ("the suppliers' lines", statement::text),
        ("BRPs in file order", |month| {
            let mut lines = supplier_lines(month);
            let names: Vec<String> = lines.iter().map(|(name, _)| name.clone()).collect();
            lines.sort_by_key(|(name, _)| names.iter().position(|other| other == name));
            text_of(month, &neighbours_added(lines))
        }),
        ("BRPs in falling order", |month| {
            let mut lines = brp_lines(month);
            lines.reverse();
            text_of(month, &lines)
        }),
        ("a line for every supplier", |month| {
            let mut lines = supplier_lines(month);
            lines.sort_by(|(one, _), (other, _)| one.cmp(other));
            text_of(month, &lines)
        }),
        ("neighbours of the file added up alone", |month| {
            let mut lines = neighbours_added(supplier_lines(month));
            lines.sort_by(|(one, _), (other, _)| one.cmp(other));
            text_of(month, &lines)
        }),
        ("only the first supplier of a BRP", |month| {
            let mut seen = BTreeSet::new();
            let mut lines = supplier_lines(month);
            lines.retain(|(name, _)| seen.insert(name.clone()));
            lines.sort_by(|(one, _), (other, _)| one.cmp(other));
            text_of(month, &lines)
        }),
        ("the last supplier left out", |month| {
            let mut lines = supplier_lines(month);
            lines.pop();
            lines.sort_by(|(one, _), (other, _)| one.cmp(other));
            text_of(month, &neighbours_added(lines))
        }),
        ("whole øre of the BRPs' exact amounts", |month| {
            let amounts = amounts_by_brp(month);
            let whole_ore = invoice(&amounts, amounts.len()).unwrap();
            with_column(month, 4, &whole_ore)
        }),
        ("each BRP's exact amount rounded down", |month| {
            let amounts = amounts_by_brp(month).into_iter();
            let whole_ore: Vec<i64> = amounts.map(|amount| amount.div_euclid(1_000_000)).collect();
            with_column(month, 4, &whole_ore)
        }),
        ("distributed by the BRPs' load shares", |month| {
            let brps = suppliers_by_brp(month);
            let share = |supplier: &usize| month.file.parties[*supplier].load_share_kwh;
            let shares: Vec<u64> = brps.values().map(|s| s.iter().map(share).sum()).collect();
            let residuals = month.applied_wh();
            let length = shares.len() * residuals.len();
            let by_hour = distribution(&shares, residuals, length).unwrap();
            let sums =
                (0..shares.len()).map(|brp| by_hour[brp..].iter().step_by(shares.len()).sum());
            with_column(month, 0, &sums.collect::<Vec<i64>>())
        }),
        ("loss only where the carrier is its own BRP", |month| {
            let carrier = month.file.parties[usize::from(month.file.heading.carrier)];
            let mut losses: Vec<i64> = brp_lines(month).iter().map(|line| line.1[2]).collect();
            if carrier.brp() != carrier.gln {
                losses.fill(0);
            }
            with_column(month, 2, &losses)
        }),
        ("the BRPs counted in the heading", |month| {
            let [parties, brps] = [month.file.parties.len(), suppliers_by_brp(month).len()]
                .map(|count| format!(" parties {count} "));
            text_of(month, &brp_lines(month)).replacen(&parties, &brps, 1)
        }),
    ];

    fn amounts_by_brp(month: &Month) -> Vec<i64> {
        let sums = month.party_sums();
        let amount = |supplier: &usize| sums[*supplier].amount_millionths;
        let brps = suppliers_by_brp(month);
        brps.values().map(|s| s.iter().map(amount).sum()).collect()
    }

    fn with_column(month: &Month, column: usize, figures: &[i64]) -> String {
        let mut lines = brp_lines(month);
        for (line, figure) in lines.iter_mut().zip(figures) {
            line.1[column] = *figure;
        }
        text_of(month, &lines)
    }
}

/// Whatever the seed, 1,500 files have several months that show each wrong report, of those that a final run accepts.
#[test]
fn made_months_tell_every_wrong_report() {
    for seed in 84..87 {
        let made: Vec<_> = files(seed, 1_500).collect();
        let months: Vec<Month> = made
            .iter()
            .filter_map(|made| settle(&made.bytes, Setting::FINAL).ok())
            .collect();
        for month in &months {
            assert_eq!(text_of(month, &brp_lines(month)), brp::text(month));
        }
        for (name, report) in wrong_reports::REPORTS {
            let differing = months
                .iter()
                .filter(|&month| report(month) != brp::text(month));
            let differing = differing.count();
            assert!(differing >= 5, "seed {seed}, {name}: {differing}");
        }
    }
}

/// A test of a party record, with the parties before it, all accepted; and the number that it gives where it holds.
type Check = (fn(&[Party], &Party) -> bool, Number);

const MIXED: Check = (
    |before, party| {
        before
            .first()
            .is_some_and(|first| first.brp_gln.is_some() != party.brp_gln.is_some())
    },
    Number::OutOfOrder,
);
const SHARE: Check = (
    |_, party| party.load_share_kwh > 4_000_000_000,
    Number::OutsideRange,
);
const SUPPLIER_GLN: Check = (|_, party| !is_gln(party.gln), Number::BadGln);
const BRP_GLN: Check = (|_, party| !is_gln(party.brp()), Number::BadGln);
const SUPPLIER_NOT_RISING: Check = (
    |before, party| before.last().is_some_and(|last| last.gln >= party.gln),
    Number::BadGln,
);

/// Readers of the party records by their checks in order: the first that holds refuses.
mod wrong_readers {
    use super::*;

    pub const READERS: &[(&str, &[Check])] = &[
        (
            "a mixture accepted",
            &[SHARE, SUPPLIER_GLN, BRP_GLN, SUPPLIER_NOT_RISING],
        ),
        (
            "a mixture judged after the load share",
            &[SHARE, MIXED, SUPPLIER_GLN, BRP_GLN, SUPPLIER_NOT_RISING],
        ),
        (
            "a mixture judged after the GLNs",
            &[SUPPLIER_GLN, BRP_GLN, SUPPLIER_NOT_RISING, MIXED, SHARE],
        ),
        (
            "a 12 after 02 records accepted",
            &[
                MIXED_12_FIRST,
                SHARE,
                SUPPLIER_GLN,
                BRP_GLN,
                SUPPLIER_NOT_RISING,
            ],
        ),
        (
            "a 02 after 12 records accepted",
            &[
                MIXED_02_FIRST,
                SHARE,
                SUPPLIER_GLN,
                BRP_GLN,
                SUPPLIER_NOT_RISING,
            ],
        ),
        (
            "BRP GLNs not looked at",
            &[MIXED, SHARE, SUPPLIER_GLN, SUPPLIER_NOT_RISING],
        ),
        (
            "digits of BRP GLNs looked at, not their check digit",
            &[MIXED, SHARE, SUPPLIER_GLN, BRP_DIGITS, SUPPLIER_NOT_RISING],
        ),
        (
            "the BRP GLN before the load share",
            &[MIXED, BRP_GLN, SHARE, SUPPLIER_GLN, SUPPLIER_NOT_RISING],
        ),
        (
            "BRP GLNs asked to rise",
            &[
                MIXED,
                SHARE,
                SUPPLIER_GLN,
                BRP_GLN,
                SUPPLIER_NOT_RISING,
                BRP_FALLING,
            ],
        ),
        (
            "BRP GLNs asked to rise in place of the suppliers'",
            &[MIXED, SHARE, SUPPLIER_GLN, BRP_GLN, BRP_NOT_RISING],
        ),
        (
            "BRP GLNs asked to differ",
            &[
                MIXED,
                SHARE,
                SUPPLIER_GLN,
                BRP_GLN,
                SUPPLIER_NOT_RISING,
                BRP_REPEATED,
            ],
        ),
        (
            "a 12 whose supplier is its own BRP refused",
            &[
                MIXED,
                SHARE,
                SUPPLIER_GLN,
                BRP_GLN,
                SUPPLIER_NOT_RISING,
                ITS_OWN_BRP,
            ],
        ),
        (
            "supplier GLNs of 12 records not asked to rise",
            &[MIXED, SHARE, SUPPLIER_GLN, BRP_GLN, SUPPLIER_02_NOT_RISING],
        ),
    ];

    const MIXED_12_FIRST: Check = (
        |before, party| (MIXED.0)(before, party) && party.brp_gln.is_none(),
        Number::OutOfOrder,
    );
    const MIXED_02_FIRST: Check = (
        |before, party| (MIXED.0)(before, party) && party.brp_gln.is_some(),
        Number::OutOfOrder,
    );
    const BRP_DIGITS: Check = (
        |_, party| !party.brp().iter().all(u8::is_ascii_digit),
        Number::BadGln,
    );
    const BRP_FALLING: Check = (
        |before, party| before.last().is_some_and(|last| last.brp() > party.brp()),
        Number::BadGln,
    );
    const BRP_NOT_RISING: Check = (
        |before, party| before.last().is_some_and(|last| last.brp() >= party.brp()),
        Number::BadGln,
    );
    const BRP_REPEATED: Check = (
        |before, party| before.iter().any(|other| other.brp() == party.brp()),
        Number::BadGln,
    );
    const ITS_OWN_BRP: Check = (|_, party| party.brp_gln == Some(party.gln), Number::BadGln);
    const SUPPLIER_02_NOT_RISING: Check = (
        |before, party| party.brp_gln.is_none() && (SUPPLIER_NOT_RISING.0)(before, party),
        Number::BadGln,
    );
}

const RULE: &[Check] = &[MIXED, SHARE, SUPPLIER_GLN, BRP_GLN, SUPPLIER_NOT_RISING];

/// The first refusal that a reader with these checks gives to the party records that a file begins with; None where it
/// takes them all.
fn refused_party(file: &[u8], checks: &[Check]) -> Option<Refusal> {
    let mut parties: Vec<Party> = Vec::new();
    let (_, mut rest) = first_record(file).ok()?;
    while let Ok((Record::Party(party), after)) = first_record(rest) {
        let mut failing = checks.iter().filter(|(check, _)| check(&parties, &party));
        if let Some((_, number)) = failing.next() {
            return Some(number.at(1 + parties.len()));
        }
        parties.push(party);
        rest = after;
    }
    None
}

/// The made files whose heading is good and which have no party too many.
fn files_with_parties(seed: u64) -> Vec<Vec<u8>> {
    let refused_otherwise = |file: &[u8]| match month_file::read(file, Prices::Needed) {
        Ok(_) => false,
        Err(refusal) => refused_party(file, RULE) != Some(refusal),
    };
    let made = files(seed, 1_500).map(|made| made.bytes);
    made.filter(|file| !refused_otherwise(file)).collect()
}

/// Whatever the seed, 1,500 files have several that show each wrong reader.
#[test]
fn made_files_tell_every_wrong_reader() {
    for seed in 87..90 {
        let files = files_with_parties(seed);
        let refused = files
            .iter()
            .filter(|file| refused_party(file, RULE).is_some());
        assert!(refused.count() > 80);
        for (name, checks) in wrong_readers::READERS {
            let differing = files
                .iter()
                .filter(|file| refused_party(file, checks) != refused_party(file, RULE));
            let differing = differing.count();
            assert!(differing >= 5, "seed {seed}, {name}: {differing}");
        }
    }
}

/// A record of the file and the record that it is read as are one; its GLNs are parts of the file.
#[test]
fn a_12_of_a_file_is_read_as_it_was_written() {
    let file = examples::brp().bytes();
    let parties = month_file::read(&file, Prices::Needed).unwrap().parties;
    let glns: Vec<_> = parties
        .iter()
        .map(|p| (p.gln, p.brp(), p.load_share_kwh))
        .collect();
    assert_eq!(
        glns,
        [
            (&b"0000000000017"[..], &b"0000000000048"[..], 2),
            (b"0000000000024", b"0000000000024", 3),
            (b"0000000000031", b"0000000000048", 2),
        ]
    );
    let written: Vec<u8> = parties
        .iter()
        .flat_map(|&p| Record::Party(p).encode())
        .collect();
    assert_eq!(file[10..10 + 3 * 35], written);
    for (number, party) in parties.iter().enumerate() {
        let at = 10 + 35 * number;
        assert_eq!(party.gln.as_ptr(), file[at + 1..].as_ptr());
        assert_eq!(party.brp().as_ptr(), file[at + 14..].as_ptr());
    }
}
