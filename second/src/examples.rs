//! The stored examples: S1 of 01, a full month with realistic figures, a month with a silent hour, the case D3 of 01 as a
//! month that can be worked out by hand, another such month before and after its refixation, one for the whole øre, three that
//! one reading crosses, one of suppliers under balance responsible parties, and one before and after its prices have come.

use crate::draft::{measured_hour, prices_of, Draft, DraftParty};
use crate::gln::with_check_digit;
use crate::limits::{STATUS_ESTIMATED, STATUS_MEASURED, STATUS_MISSING};
use crate::make::{curve, without_prices};
use crate::plan::plan;
use crate::random::Random;
use crate::record::{Heading, HourFlows, Reading};

/// The names of the examples.
pub const NAMES: [&str; 13] = [
    "s1", "full", "silent", "d3", "before", "after", "ore", "yearly1", "yearly2", "yearly3", "brp",
    "volumes", "priced",
];

/// The month file of an example; None for an unknown name.
pub fn example(name: &str) -> Option<Vec<u8>> {
    match name {
        "s1" => Some(s1().bytes()),
        "full" => Some(full().bytes()),
        "silent" => Some(silent().bytes()),
        "d3" => Some(d3().bytes()),
        "before" => Some(before().bytes()),
        "after" => Some(after().bytes()),
        "ore" => Some(ore().bytes()),
        "yearly1" => Some(yearly()[0].bytes()),
        "yearly2" => Some(yearly()[1].bytes()),
        "yearly3" => Some(yearly()[2].bytes()),
        "brp" => Some(brp().bytes()),
        "volumes" => Some(volumes().bytes()),
        "priced" => Some(priced().bytes()),
        _ => None,
    }
}

/// "Input S1, the example of H2 6.3". The GLNs are those of its output.
pub fn s1() -> Draft {
    let shares_kwh = [1_500_000, 6_000_000, 2_500_000];
    let fixed_wh = [40_000_000, 50_000_000, 40_000_000];
    let refixed_wh = [39_000_000, 48_000_000, 39_000_000];
    let readings_wh = [
        [7_800_000, 9_800_000, 10_000_000],
        [20_100_000, 25_100_000, 17_900_000],
        [10_000_000, 12_500_000, 10_000_000],
    ];
    let series = |residuals: [i64; 3]| (0..3).map(|h| measured_hour(h, residuals[h])).collect();
    let one_hour_reading = |party: usize, hour: usize| {
        let (a, e_wh) = (hour as u16, readings_wh[party][hour]);
        Reading::of_month(party as u8, a, a + 1, e_wh)
    };
    Draft {
        heading: Heading {
            area: 7,
            year: 2016,
            month: 4,
            hours: 3,
            parties: 3,
            carrier: 2,
        },
        parties: numbered_parties(shares_kwh),
        fixed: series(fixed_wh),
        refixed: series(refixed_wh),
        prices: prices_of([29_000, 33_000, 30_000]),
        readings: (0..9).map(|n| one_hour_reading(n / 3, n % 3)).collect(),
        end_count: None,
    }
}

/// "D3 P: shares 6, 6, 2, residuals 10, 1", with flows, prices and readings of a few Wh. Hour 1 is estimated, refixation
/// changed nothing, and more is read in hour 1 than was supplied.
pub fn d3() -> Draft {
    let mut draft = fixed_d3(3, 6);
    draft.refixed = draft.fixed.clone();
    draft
}

/// The figures of D3 in another area and month, before refixation.
pub fn before() -> Draft {
    fixed_d3(4, 7)
}

/// The same month refixed: hour 1, which had been estimated, was measured, and had one Wh more.
pub fn after() -> Draft {
    let mut draft = before();
    draft.refixed = draft.fixed.clone();
    draft.refixed[1].status = STATUS_MEASURED;
    draft.refixed[1].net_supply_wh += 1;
    draft
}

/// The figures of D3 in this area and month of 2016, with the fixed series alone.
fn fixed_d3(area: u16, month: u8) -> Draft {
    Draft {
        heading: Heading {
            area,
            year: 2016,
            month,
            hours: 2,
            parties: 3,
            carrier: 1,
        },
        parties: numbered_parties([6, 6, 2]),
        fixed: vec![
            HourFlows {
                hour: 0,
                status: STATUS_MEASURED,
                net_supply_wh: 16,
                production_wh: 3,
                hourly_wh: 6,
                flex_wh: 3,
            },
            HourFlows {
                hour: 1,
                status: STATUS_ESTIMATED,
                net_supply_wh: -2,
                production_wh: 8,
                hourly_wh: 4,
                flex_wh: 1,
            },
        ],
        refixed: Vec::new(),
        // 2 and -1.5 øre per Wh: two of the amounts end on half an øre.
        prices: prices_of([2_000_000, -1_500_000]),
        readings: vec![Reading::of_month(0, 0, 2, 6), Reading::of_month(2, 1, 2, 2)],
        end_count: None,
    }
}

/// Five equal shares, two hours at 0.25 and -0.5 øre per Wh, and amounts that are whole for nobody: 0.75, 0.5, -0.5, -1.25
/// and 0.5 øre, of which three øre are missing when they are rounded down, one of them by a tie. Refixation changed nothing.
pub fn ore() -> Draft {
    let series: Vec<HourFlows> = vec![measured_hour(0, 10), measured_hour(1, 5)];
    let one_hour_reading = |(party, hour, e_wh)| Reading::of_month(party, hour, hour + 1, e_wh);
    let readings = [
        (0, 0, 3),
        (1, 0, 4),
        (1, 1, 1),
        (2, 0, 2),
        (2, 1, 2),
        (4, 0, 2),
    ];
    Draft {
        heading: Heading {
            area: 5,
            year: 2016,
            month: 8,
            hours: 2,
            parties: 5,
            carrier: 3,
        },
        parties: numbered_parties([1; 5]),
        fixed: series.clone(),
        refixed: series,
        prices: prices_of([250_000, -500_000]),
        readings: readings.map(one_hour_reading).to_vec(),
        end_count: None,
    }
}

/// October to December 2016 in area 6, and a meter that is read from the middle of the first month to the middle of the
/// last: 100 Wh over weights of 21 parts, 5, 12 and 4 of them in the months. Its supplier is the first of two in October;
/// in November one of a lower GLN comes before it. The last supplier carries the loss.
pub fn yearly() -> [Draft; 3] {
    let mut months = [
        month_of_wh(10, [40, 50, 30, 20]),
        month_of_wh(11, [20, 40, 10, 50]),
        month_of_wh(12, [30, 10, 60, 40]),
    ];
    months[0].parties = numbered_parties([0, 60, 40])[1..].to_vec();
    months[0].heading.parties = 2;
    months[0].heading.carrier = 1;
    let curves = months.each_ref().map(curve).concat();
    let planned = plan(100, 2, 2, &[0, 1, 1], &[4, 4, 4], &curves).expect("a good reading");
    let whole_month = |party, e_wh| Reading::of_month(party, 0, 4, e_wh);
    months[0].readings = vec![planned[0], whole_month(1, 56)];
    months[1].readings = vec![whole_month(0, 12), planned[1], whole_month(2, 36)];
    months[2].readings = vec![whole_month(0, 14), whole_month(2, 42), planned[2]];
    months
}

/// A month of 2016 in area 6 with these residuals, which refixation did not change, at 1 øre per Wh, and without readings:
/// three suppliers with a tenth, a half and two fifths of W, which is 100.
fn month_of_wh(month: u8, residuals_wh: [i64; 4]) -> Draft {
    let hours = residuals_wh.into_iter().enumerate();
    let series: Vec<HourFlows> = hours.map(|(hour, wh)| measured_hour(hour, wh)).collect();
    Draft {
        heading: Heading {
            area: 6,
            year: 2016,
            month,
            hours: 4,
            parties: 3,
            carrier: 2,
        },
        parties: numbered_parties([10, 50, 40]),
        fixed: series.clone(),
        refixed: series,
        prices: prices_of([1_000_000; 4]),
        readings: Vec::new(),
        end_count: None,
    }
}

/// Three suppliers: the first and the last, who carries the loss, under one BRP, and the second its own, whose GLN is the
/// lower one. Both a Wh and an øre fall otherwise than they would among the two BRPs. Refixation changed nothing.
pub fn brp() -> Draft {
    let series: Vec<HourFlows> = vec![measured_hour(0, 9), measured_hour(1, 6)];
    let suppliers = numbered_parties([2, 3, 2]);
    let brps = [4, 2, 4].map(with_check_digit);
    let one_hour_reading = |(party, hour, e_wh)| Reading::of_month(party, hour, hour + 1, e_wh);
    let readings = [(0, 0, 3), (0, 1, 2), (1, 0, 5), (1, 1, 3), (2, 1, 1)];
    Draft {
        heading: Heading {
            area: 8,
            year: 2017,
            month: 1,
            hours: 2,
            parties: 3,
            carrier: 2,
        },
        parties: suppliers
            .into_iter()
            .zip(brps)
            .map(|(supplier, brp)| supplier.under(brp))
            .collect(),
        fixed: series.clone(),
        refixed: series,
        prices: prices_of([400_000, 1_300_000]),
        readings: readings.map(one_hour_reading).to_vec(),
        end_count: None,
    }
}

/// February 2017 in area 9 on day 1, refixed and without prices: two suppliers with three quarters and a quarter of W, two
/// readings, and the second supplier carrying the loss.
pub fn volumes() -> Draft {
    without_prices(priced())
}

/// The same month on day 5, when its prices have come: 0.5 and 1.2 øre per Wh.
pub fn priced() -> Draft {
    Draft {
        heading: Heading {
            area: 9,
            year: 2017,
            month: 2,
            hours: 2,
            parties: 2,
            carrier: 1,
        },
        parties: numbered_parties([3, 1]),
        fixed: vec![measured_hour(0, 8), measured_hour(1, 4)],
        refixed: vec![measured_hour(0, 9), measured_hour(1, 6)],
        prices: prices_of([500_000, 1_200_000]),
        readings: vec![Reading::of_month(0, 0, 2, 8), Reading::of_month(1, 1, 2, 1)],
        end_count: None,
    }
}

/// Parties of these load shares. The first twelve digits of their GLNs are 1, 2, 3 and so on.
fn numbered_parties<const PARTIES: usize>(shares_kwh: [u64; PARTIES]) -> Vec<DraftParty> {
    let parties = shares_kwh.into_iter().zip(1..);
    parties
        .map(|(load_share_kwh, number)| DraftParty::of_02(with_check_digit(number), load_share_kwh))
        .collect()
}

/// May 2016 in a made-up grid area: 744 hours, 40 parties.
pub fn full() -> Draft {
    realistic_month(5, 744, 40)
}

/// September 2016 in the same area, 12 parties; the exchange meters were silent in hour 417, at fixation and after.
pub fn silent() -> Draft {
    let mut month = realistic_month(9, 720, 12);
    let silent_hour = HourFlows {
        status: STATUS_MISSING,
        ..measured_hour(417, 0)
    };
    month.fixed[417] = silent_hour;
    month.refixed[417] = silent_hour;
    month
}

/// The residual over a day, in thousandths of the mean.
const DAILY_PROFILE: [i64; 24] = [
    720, 680, 660, 650, 670, 740, 900, 1060, 1080, 1050, 1020, 1010, 1040, 1000, 980, 990, 1080,
    1290, 1380, 1330, 1240, 1140, 980, 830,
];

/// Load shares for the whole area, kWh per year.
const AREA_KWH: i64 = 1_500_000_000;

/// A month of 2016 in area 900: shares of very different sizes (one 0, two equal), a daily profile, wind that turns the
/// net supply negative, estimated hours, prices with a few negative hours, a refixed series slightly off the fixed one,
/// and readings over spans of days that come to some 97 per cent of the residual.
fn realistic_month(month: u8, hours: usize, parties: usize) -> Draft {
    let random = &mut Random::of_file(2016, u64::from(month));
    let carrier = 4;
    let mut draft = Draft {
        heading: Heading {
            area: 900,
            year: 2016,
            month,
            hours: hours as u16,
            parties: parties as u8,
            carrier: carrier as u8,
        },
        parties: realistic_parties(random, parties),
        fixed: Vec::new(),
        refixed: Vec::new(),
        prices: Vec::new(),
        readings: Vec::new(),
        end_count: None,
    };
    let mut prices_ore = Vec::new();
    let mut residuals_wh = Vec::new();
    let mean_wh = draft.share_sum_kwh() as i64 * 1000 / 8760;
    for hour in 0..hours {
        let weekend = if hour / 24 % 7 >= 5 { 920 } else { 1000 };
        let noise = random.between(970, 1030);
        let residual_wh = mean_wh / 1000 * DAILY_PROFILE[hour % 24] / 1000 * weekend / 1000 * noise;
        let windy = hour / 24 % 5 == 3;
        let production_wh = if windy {
            random.between(300_000_000, 420_000_000)
        } else {
            random.between(20_000_000, 110_000_000)
        };
        let fixed = realistic_hour(random, hour, residual_wh, production_wh);
        let correction_wh = if random.once_in(6) {
            residual_wh * random.between(-12, 8) / 1000
        } else {
            0
        };
        let refixed_status = if fixed.status == STATUS_ESTIMATED && random.once_in(3) {
            STATUS_ESTIMATED
        } else {
            STATUS_MEASURED
        };
        draft.fixed.push(fixed);
        draft.refixed.push(HourFlows {
            status: refixed_status,
            net_supply_wh: fixed.net_supply_wh + correction_wh,
            ..fixed
        });
        residuals_wh.push(residual_wh + correction_wh);
        prices_ore.push(realistic_price(random, hour, windy));
    }
    draft.prices = prices_of(prices_ore);
    draft.readings = realistic_readings(random, &draft.parties, carrier, &residuals_wh);
    draft
}

/// Made-up suppliers: the first twelve digits of their GLNs are 579000000001 and on.
fn realistic_parties(random: &mut Random, parties: usize) -> Vec<DraftParty> {
    let weights: Vec<i64> = (0..parties)
        .map(|party| random.between(80, 120) * 100 / (3 + party as i64))
        .collect();
    let all_weights: i64 = weights.iter().sum();
    let mut drafted: Vec<DraftParty> = (0..parties)
        .map(|party| {
            let gln = with_check_digit(579_000_000_001 + party as u64);
            DraftParty::of_02(gln, (AREA_KWH / all_weights * weights[party]) as u64)
        })
        .collect();
    drafted[7].load_share_kwh = drafted[6].load_share_kwh;
    drafted[parties - 1].load_share_kwh = 0;
    drafted
}

fn realistic_hour(
    random: &mut Random,
    hour: usize,
    residual_wh: i64,
    production_wh: i64,
) -> HourFlows {
    let hourly_wh = random.between(110_000_000, 150_000_000);
    let flex_wh = random.between(4_000_000, 9_000_000);
    HourFlows {
        hour: hour as u16,
        status: if random.once_in(40) {
            STATUS_ESTIMATED
        } else {
            STATUS_MEASURED
        },
        net_supply_wh: residual_wh - production_wh + hourly_wh + flex_wh,
        production_wh: production_wh as u64,
        hourly_wh: hourly_wh as u64,
        flex_wh: flex_wh as u64,
    }
}

/// Øre per MWh: some 200 to 600 DKK, following the profile; below zero in a few windy nights.
fn realistic_price(random: &mut Random, hour: usize, windy: bool) -> i32 {
    if windy && hour % 24 < 5 && random.once_in(3) {
        return random.between(-4_500, -100) as i32;
    }
    let profile = DAILY_PROFILE[hour % 24] as i32;
    let level = if windy { 23_000 } else { 34_000 };
    level * profile / 1000 + random.between(-2_500, 9_000) as i32
}

/// Each party's metering points, in as many groups as keep a group's E below its limit. A group is read at the borders
/// of a span of hours, and has somewhat more or less than the party's share of the residual there.
fn realistic_readings(
    random: &mut Random,
    parties: &[DraftParty],
    carrier: usize,
    residuals_wh: &[i64],
) -> Vec<Reading> {
    let hours = residuals_wh.len();
    let share_sum: i128 = parties.iter().map(|p| i128::from(p.load_share_kwh)).sum();
    let part_wh = |party: usize, a: usize, b: usize| {
        let span_wh: i128 = residuals_wh[a..b].iter().map(|&wh| i128::from(wh)).sum();
        span_wh * i128::from(parties[party].load_share_kwh) / share_sum
    };
    let mut readings = Vec::new();
    for party in 0..parties.len() {
        // The carrier's share is in good part the grid loss itself, which nobody reads.
        let read_per_mille = if party == carrier {
            560
        } else {
            random.between(960, 1035)
        };
        let spans = 4 + random.below(5) + (part_wh(party, 0, hours) / 700_000_000) as usize;
        for span in 0..spans {
            let (a, b) = (span * hours / spans, (span + 1) * hours / spans);
            let drift = i128::from(random.between(-15, 15) + read_per_mille);
            let e_wh = (part_wh(party, a, b) * drift / 1000) as u32;
            readings.push(Reading::of_month(party as u8, a as u16, b as u16, e_wh));
        }
    }
    readings
}
