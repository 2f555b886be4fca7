//! The statement's text, READINGS A46 to A50 and A54.

use second::draft::{measured_hour, prices_of, Draft};
use second::examples::s1;
use second::preview::preview;
use second::record::Reading;
use second::statement::statement;

fn changed(change: impl FnOnce(&mut Draft)) -> String {
    let mut draft = s1();
    change(&mut draft);
    statement(&draft.bytes())
}

#[test]
fn a46_every_line_ends_with_one_newline() {
    let text = statement(&s1().bytes());
    assert_eq!(text.lines().count(), 5);
    assert!(text.ends_with(" 0\n") && !text.ends_with("\n\n"));
    assert_eq!(statement(&[]), "refused 1 at 0\n");
    assert!(!text.contains("  ") && !text.contains(" \n"));
}

#[test]
fn a46_area_month_and_gln_keep_their_zeros() {
    let heading = |area: u16, year: u16, month: u8| {
        let text = changed(|draft| {
            draft.heading.area = area;
            draft.heading.year = year;
            draft.heading.month = month;
        });
        text.lines().next().unwrap().to_string()
    };
    assert_eq!(
        heading(1, 2000, 1),
        "area 001 2000-01 hours 3 parties 3 estimated 0"
    );
    assert_eq!(
        heading(999, 2099, 12),
        "area 999 2099-12 hours 3 parties 3 estimated 0"
    );
}

#[test]
fn a47_estimated_counts_the_applied_hours() {
    let estimated = |draft: &mut Draft| {
        draft.fixed[0].status = 2;
        draft.fixed[1].status = 2;
        draft.refixed[2].status = 2;
    };
    assert!(changed(estimated).contains(" estimated 1\n"));
    let mut draft = s1();
    estimated(&mut draft);
    draft.refixed.clear();
    assert!(preview(&draft.bytes()).contains(" estimated 2 provisional\n"));
}

/// S1's three parties in one hour of this residual, all of it distributed to party 2, who carries the loss, at this price
/// in øre per MWh; the two others have read so many Wh.
fn one_hour(residual_wh: i64, price_ore: i32, read_wh: [u32; 2]) -> String {
    changed(|draft| {
        draft.heading.hours = 1;
        for (party, share) in draft.parties.iter_mut().zip([0, 0, 1_000_000]) {
            party.load_share_kwh = share;
        }
        draft.fixed = vec![measured_hour(0, residual_wh)];
        draft.refixed = draft.fixed.clone();
        draft.prices = prices_of([price_ore]);
        let readings = read_wh.into_iter().zip(0..);
        draft.readings = readings
            .map(|(e_wh, party)| Reading::of_month(party, 0, 1, e_wh))
            .collect();
    })
}

/// The invoices that the parties' lines show, and that of the total.
fn invoices(text: &str) -> (Vec<i64>, i64) {
    let column = text.lines().skip(1);
    let column = column.map(|line| line.rsplit(' ').next().unwrap().parse().unwrap());
    let mut column: Vec<i64> = column.collect();
    let total = column.pop().unwrap();
    (column, total)
}

/// 02's example, 0.5, 0.5 and -1 øre.
#[test]
fn w2_the_example_has_a_total_of_0() {
    let expected = "area 007 2016-04 hours 1 parties 3 estimated 0
0000000000017 0 1 0 1 1
0000000000024 0 1 0 1 0
0000000000031 2 0 0 -2 -1
total 2 2 0 0 0
";
    assert_eq!(one_hour(2, 500_000, [1, 1]), expected);
}

#[test]
fn a54_the_column_rounds_down_also_below_zero_and_gives_ties_to_the_lower_number() {
    // -0.5, -0.5 and 1 øre: down -1, -1 and 1, and one missing.
    assert_eq!(
        invoices(&one_hour(2, -500_000, [1, 1])),
        (vec![0, -1, 1], 0)
    );
    // -0.3, 0 and 0.3 øre: the one that is missing goes to 0.7 over -1 and not to 0.3 over 0.
    assert_eq!(invoices(&one_hour(1, -300_000, [1, 0])), (vec![0, 0, 0], 0));
    // 0.6, 1.2 and -1.8 øre: 0.6, 0.2 over 1 and 0.2 over -2.
    assert_eq!(invoices(&one_hour(3, 600_000, [1, 2])), (vec![1, 1, -2], 0));
    // -0.6, -1.2 and 1.8 øre: 0.4 over -1, 0.8 over -2 and 0.8 over 1; two are missing.
    assert_eq!(
        invoices(&one_hour(3, -600_000, [1, 2])),
        (vec![-1, -1, 2], 0)
    );
}

#[test]
fn a48_the_total_of_the_invoices_is_the_sum_of_the_printed_ones_and_0() {
    for price_ore in -40..40 {
        let text = one_hour(1_000, price_ore * 100_003, [333, 128]);
        let (column, total) = invoices(&text);
        assert_eq!((column.iter().sum::<i64>(), total), (0, 0), "{text}");
    }
}

#[test]
fn a49_a_zero_after_rounding_is_never_negative() {
    let text = changed(|draft| {
        draft.prices = prices_of([-1, 0, 0]);
        draft.readings = vec![Reading::of_month(0, 0, 1, 6_349_999)];
        draft.heading.carrier = 2;
    });
    // Party 0: 6,349,999 - 5,850,000 in hour 0, 499,999 Wh at -1 øre per MWh: -499,999 millionths, so 500,001 over -1, the
    // largest remainder of three.
    let line = text.lines().nth(1).unwrap();
    assert_eq!(line, "0000000000017 18900000 6349999 0 -12550001 0");
    assert!(!text.contains(" -0"));
}

#[test]
fn a50_the_loss_is_in_the_carriers_difference_and_not_in_its_periodised() {
    let text = changed(|draft| draft.heading.carrier = 0);
    let expected = "0000000000017 18900000 27600000 2800000 11500000 ";
    assert!(text.lines().nth(1).unwrap().starts_with(expected));
    let other = "0000000000031 31500000 32500000 0 1000000 ";
    assert!(text.lines().nth(3).unwrap().starts_with(other));
}

#[test]
fn a50_a_negative_loss_is_printed() {
    let text = changed(|draft| {
        draft.readings = vec![Reading::of_month(1, 0, 3, 200_000_000)];
    });
    let total = "total 126000000 200000000 -74000000 0 ";
    assert!(text.lines().nth(4).unwrap().starts_with(total));
}

#[test]
fn the_curve_comes_from_the_fixed_series() {
    // E over hours 0 and 1: by the fixed series 40 : 50, by the refixed 39 : 48.
    let text = changed(|draft| {
        draft.prices = prices_of([1_000_000, 0, 0]);
        draft.heading.carrier = 2;
        draft.readings = vec![Reading::of_month(0, 0, 2, 90_000_000)];
    });
    // Hour 0: 40,000,000 - 5,850,000 Wh at 1 øre per Wh.
    assert!(text.lines().nth(1).unwrap().ends_with(" 34150000"));
}
