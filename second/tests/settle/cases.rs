//! 01's "Figures to check against", with W2's in the place of M1, and its bounds, through the compiled services.

use second::setting::Setting;

use crate::compiled::{
    amounts, curve, distribution, invoice, periodisation, reconciliation, residual,
};

fn residual_of_one(status: u8, flows: (i64, u64, u64, u64)) -> Result<Vec<u32>, (u8, usize)> {
    let (net, production, hourly, flex) = flows;
    residual(&[status], &[net], &[production], &[hourly], &[flex], 1)
}

#[test]
fn r1_r2_r3() {
    assert_eq!(residual_of_one(1, (-5, 105, 40, 20)), Ok(vec![40]));
    assert_eq!(residual_of_one(1, (10, 0, 6, 5)), Err((8, 0)));
    assert_eq!(residual_of_one(1, (0, 0, 0, 0)), Ok(vec![0]));
    assert_eq!(residual_of_one(0, (0, 0, 0, 0)), Err((7, 0)));
}

#[test]
fn c1_c2_c3() {
    assert_eq!(curve(&[40_000_000], 10_000_000, 1), Ok(vec![4_000_000]));
    assert_eq!(curve(&[1], 3, 1), Ok(vec![333_333]));
    assert_eq!(curve(&[1_000], 1, 1), Ok(vec![1_000_000_000]));
    assert_eq!(curve(&[1_001], 1, 1), Err((10, 0)));
}

#[test]
fn d1_d2_d3() {
    let turns = vec![1, 0, 0, 0, 1, 0, 0, 0, 1];
    assert_eq!(distribution(&[1, 1, 1], &[1, 1, 1], 9), Ok(turns));
    let silent = distribution(&[0, 5], &[7, 0, 2_000_000_000], 6);
    assert_eq!(silent, Ok(vec![0, 7, 0, 0, 0, 2_000_000_000]));
    let below = vec![4, 4, 2, 1, 1, -1];
    assert_eq!(distribution(&[6, 6, 2], &[10, 1], 6), Ok(below));
}

#[test]
fn p1_p2_p3() {
    assert_eq!(periodisation(10, &[1, 1, 1], 3), Ok(vec![3, 3, 4]));
    assert_eq!(periodisation(1, &[0, 5, 5], 3), Ok(vec![0, 0, 1]));
    assert_eq!(periodisation(7, &[0, 0], 2), Err((13, 0)));
    assert_eq!(periodisation(0, &[0, 0], 2), Ok(vec![0, 0]));
}

/// "The example becomes 1, 0, -1. Case M1 is replaced by this one" (02, W2), and others by hand.
#[test]
fn w2() {
    let ore = |amounts: &[i64]| invoice(amounts, amounts.len());
    assert_eq!(ore(&[500_000, 500_000, -1_000_000]), Ok(vec![1, 0, -1]));
    assert_eq!(ore(&[-500_000, -500_000, 1_000_000]), Ok(vec![0, -1, 1]));
    assert_eq!(ore(&[-300_000, 300_000]), Ok(vec![0, 0]));
    assert_eq!(
        ore(&[250_000, 250_000, 250_000, -750_000]),
        Ok(vec![1, 0, 0, -1])
    );
    assert_eq!(
        ore(&[750_000, 500_000, -500_000, -1_250_000, 500_000]),
        Ok(vec![1, 1, -1, -1, 0])
    );
    assert_eq!(ore(&[0]), Ok(vec![0]));
    assert_eq!(ore(&[1]), Err((4, 0)));
    assert_eq!(
        ore(&[i64::MIN, i64::MAX, 1]),
        Ok(vec![-9_223_372_036_855, 9_223_372_036_855, 0])
    );
    // Sums of 64 bits would come to 0.
    assert_eq!(ore(&[1 << 62; 4]), Err((4, 0)));
    assert_eq!(ore(&[i64::MIN; 2]), Err((4, 0)));
    assert_eq!(invoice(&[1], 2), Err((16, 0)));
    assert_eq!(invoice(&[], 1), Err((16, 0)));
}

/// The call of examples/README.md, and W6's refusals by hand.
#[test]
fn w6() {
    let (differences, prices) = ([-2, 2, -1, 1], [500_000, 1_200_000]);
    assert_eq!(
        amounts(&differences, 2, &prices, 4),
        Ok(vec![-1_000_000, 1_000_000, -1_200_000, 1_200_000])
    );
    assert_eq!(amounts(&differences, 2, &prices, 3), Err((16, 0)));
    for parties in [0, 1, 3, 4, 1 << 63, usize::MAX] {
        assert_eq!(amounts(&differences, parties, &prices, 4), Err((4, 0)));
    }
    assert_eq!(amounts(&differences, 2, &[0, 5_000_001], 4), Err((4, 1)));
    assert_eq!(amounts(&[-2, 2, -1, 2], 2, &prices, 4), Err((4, 1)));
    // A sum of 64 bits would be 0.
    assert_eq!(amounts(&[i64::MIN; 4], 2, &prices, 4), Err((4, 0)));
    let limit = 2_000_000_001;
    assert_eq!(
        amounts(&[limit, -limit], 2, &[-5_000_000], 2),
        Ok(vec![-10_000_000_005_000_000, 10_000_000_005_000_000])
    );
    let beyond = [limit + 1, -limit, -1];
    assert_eq!(amounts(&beyond, 3, &[0], 3), Err((19, 0)));
    assert_eq!(amounts(&beyond.map(|wh| -wh), 3, &[0], 3), Err((19, 0)));
    assert_eq!(
        amounts(&[limit + 1, -limit - 1, 0, 1], 2, &prices, 4),
        Err((4, 1))
    );
}

/// S1 (H2 6.3) service by service: the curve, the distributed figures, each hour reconciled at its price, the same amounts of
/// all differences and prices at once, the invoices.
#[test]
fn s1() {
    let file = second::examples::s1().bytes();
    let month = second::month::settle(&file, Setting::FINAL).unwrap();
    let applied = &month.refixed_wh;
    assert_eq!(
        curve(&month.fixed_wh, 10_000_000, 3),
        Ok(vec![4_000_000, 5_000_000, 4_000_000])
    );
    let figures = distribution(&[1_500_000, 6_000_000, 2_500_000], applied, 9).unwrap();
    let amounts_dkk = [
        [565.5, -957.0, 391.5],
        [858.0, -1221.0, 363.0],
        [1245.0, -1650.0, 405.0],
    ];
    let prices = [29_000, 33_000, 30_000];
    let (mut all_differences, mut all_amounts) = (Vec::new(), Vec::new());
    for (hour, settled) in month.hours.iter().enumerate() {
        let distributed = &figures[3 * hour..3 * hour + 3];
        assert_eq!(distributed, settled.distributed_wh);
        let periodised: Vec<u32> = settled.periodised_wh.iter().map(|&wh| wh as u32).collect();
        let price = prices[hour];
        let reconciled = reconciliation(applied[hour], distributed, &periodised, 2, price, 3, 3);
        let (loss, differences, amounts) = reconciled.unwrap();
        assert_eq!(loss, [1_100_000, 600_000, 1_100_000][hour]);
        assert_eq!(differences, settled.differences_wh);
        assert_eq!(
            amounts,
            amounts_dkk[hour].map(|dkk: f64| (dkk * 1e8) as i64)
        );
        all_differences.extend(differences);
        all_amounts.extend(amounts);
    }
    assert_eq!(amounts(&all_differences, 3, &prices, 9), Ok(all_amounts));
    let sums = month.party_sums();
    let amounts: Vec<i64> = sums.iter().map(|sums| sums.amount_millionths).collect();
    assert_eq!(invoice(&amounts, 3), Ok(vec![266_850, -382_800, 115_950]));
}

#[test]
fn the_bounds_are_accepted_and_one_more_is_refused() {
    assert!(curve(&[1; 745], 1, 745).is_ok());
    assert_eq!(curve(&[1; 746], 1, 746), Err((4, 0)));
    assert!(distribution(&[1; 64], &[1; 745], 64 * 745).is_ok());
    assert_eq!(distribution(&[1; 65], &[1], 65), Err((4, 0)));
    assert_eq!(distribution(&[1], &[1; 746], 746), Err((4, 0)));
    assert!(reconciliation(0, &[0; 64], &[0; 64], 63, 0, 64, 64).is_ok());
    assert!(reconciliation(0, &[0; 65], &[0; 65], 0, 0, 65, 65) == Err((4, 0)));
    let all_hours = 64 * 745;
    assert!(amounts(&vec![0; all_hours], 64, &[1; 745], all_hours).is_ok());
    assert_eq!(amounts(&[0; 65], 65, &[1], 65), Err((4, 0)));
    assert_eq!(amounts(&[0; 746], 1, &[1; 746], 746), Err((4, 0)));
    assert_eq!(invoice(&[0; 64], 64), Ok(vec![0; 64]));
    assert_eq!(invoice(&[0; 65], 65), Err((4, 0)));
    assert!(periodisation(1, &[1; 8_784], 8_784).is_ok());
    assert_eq!(periodisation(1, &[1; 8_785], 8_785), Err((11, 0)));
    assert!(periodisation(1_000_000_000, &[5], 1).is_ok());
    assert_eq!(periodisation(1_000_000_001, &[5], 1), Err((12, 0)));
}

/// Lists far above every limit, and empty ones.
#[test]
fn far_too_long_and_empty() {
    let long = 1_000_000;
    let (bytes, small, large) = (vec![9; long], vec![u32::MAX; long], vec![u64::MAX; long]);
    let nets = vec![i64::MIN; long];
    let too_long = residual(&bytes, &nets, &large, &large, &large, long);
    assert_eq!(too_long, Err((4, 0)));
    assert_eq!(residual(&[], &[], &[], &[], &[], 0), Err((4, 0)));
    assert_eq!(curve(&small, 0, long), Err((4, 0)));
    assert_eq!(curve(&[], 0, 0), Err((4, 0)));
    assert_eq!(distribution(&large, &small, long), Err((16, 0)));
    assert_eq!(distribution(&large, &[1], long), Err((4, 0)));
    assert_eq!(distribution(&large, &[], 0), Err((4, 0)));
    assert_eq!(distribution(&[], &[], 0), Err((4, 0)));
    assert_eq!(periodisation(u64::MAX, &small, long), Err((11, 0)));
    assert_eq!(periodisation(0, &[], 0), Err((11, 0)));
    let too_many = reconciliation(7, &nets, &small, usize::MAX, i64::MIN, long, long);
    assert_eq!(too_many, Err((4, 0)));
    assert_eq!(reconciliation(0, &[], &[], 0, 0, 0, 0), Err((4, 0)));
    assert_eq!(amounts(&nets, 1, &nets, long), Err((4, 0)));
    assert_eq!(amounts(&nets, usize::MAX, &nets, long), Err((4, 0)));
    assert_eq!(amounts(&[], usize::MAX, &[], 0), Err((4, 0)));
    assert_eq!(amounts(&[], 0, &[1], 0), Err((4, 0)));
    assert_eq!(invoice(&nets, long), Err((4, 0)));
    assert_eq!(invoice(&[], 0), Err((4, 0)));
}
