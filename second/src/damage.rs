//! The damages: months with a fault for each refusal 1 to 15 and for 18, in each way that its row of the table names; two
//! faults at once, so that their order shows; and random damage. A month that is not refixed is good, in a provisional run,
//! and 17 in a final one where nothing comes before it. One without prices is good, in a run of quantities, and 3 in one that
//! gives amounts. What is told here is what a provisional run of quantities is to say, and the draft is left as it reads it.
//!
//! A fault of a draft changes fields and tells the refusal that it alone must give. A fault of the bytes works on the
//! records of a good draft and tells its aim. Neither is asked what the reader says: the tests compare the two.

use crate::draft::{measured_hour, prices_of, Draft};
use crate::gln::{with_check_digit, Gln};
use crate::limits::{FILE_BYTES_MAX, STATUS_MISSING, WHOLE_WEIGHT_MAX};
use crate::make::{
    add_readings, curve, give_any_brps, is_refixed, month, most_residual_wh, own_weight,
    random_hour, random_weights, without_prices, Aim, MadeFile,
};
use crate::random::Random;
use crate::record::{
    Heading, HourFlows, Party, Price, Reading, Record, Weights, FIXED_HOUR, PARTY, PARTY_WITH_BRP,
    READING, REFIXED_HOUR,
};
use crate::refusal::{Number, Refusal};

type DraftFault = fn(&mut Draft, &mut Random) -> Refusal;
type BytesFault = fn(&mut Draft, &mut Random) -> (Vec<u8>, Aim);

/// The file of this number with the damage whose turn it is: all in turn.
pub fn damaged(number: u64, turn: usize, random: &mut Random) -> MadeFile {
    let mut draft = good_month(random);
    let (name, bytes, lenient_aim) = damage_of_turn(turn, &mut draft, random);
    MadeFile::new(number, name, &draft, bytes, lenient_aim)
}

fn damage_of_turn(
    turn: usize,
    draft: &mut Draft,
    random: &mut Random,
) -> (&'static str, Vec<u8>, Aim) {
    let turn = turn % (BYTES_FAULTS.len() + DRAFT_FAULTS.len() + RANDOM_DAMAGES.len());
    if let Some((name, fault)) = BYTES_FAULTS.get(turn) {
        let (bytes, aim) = fault(draft, random);
        return (name, bytes, aim);
    }
    let turn = turn - BYTES_FAULTS.len();
    if let Some((name, fault)) = DRAFT_FAULTS.get(turn) {
        let refusal = fault(draft, random);
        return (name, draft.bytes(), Aim::Refused(refusal));
    }
    let (name, damage) = RANDOM_DAMAGES[turn - DRAFT_FAULTS.len()];
    (name, damage(draft, random), Aim::Anything)
}

/// A month to damage, once in seven times without prices.
fn good_month(random: &mut Random) -> Draft {
    let priced = priced_month(random);
    if random.once_in(7) {
        return without_prices(priced);
    }
    priced
}

/// A month with prices: mostly small, now and then of full size; at least two hours, parties and readings.
fn priced_month(random: &mut Random) -> Draft {
    let refixed = is_refixed(random);
    if random.once_in(16) {
        let readings = 20 + random.below(300);
        return month(random, 745, 64, refixed, readings);
    }
    let (hours, parties, readings) = (
        2 + random.below(5),
        2 + random.below(4),
        2 + random.below(5),
    );
    month(random, hours, parties, refixed, readings)
}

// Faults of the fields.

/// Faults that stay within the order of the records.
pub const DRAFT_FAULTS: &[(&str, DraftFault)] = &[
    // 3: hour fields
    ("fixed hour field", |draft, random| {
        let hour = random.below(draft.fixed.len());
        draft.fixed[hour].hour = other_hour(random, hour);
        Number::OutOfOrder.at(draft.at_fixed(hour))
    }),
    ("refixed hour field", |draft, random| {
        have_refixed(draft);
        let hour = random.below(draft.refixed.len());
        draft.refixed[hour].hour = other_hour(random, hour);
        Number::OutOfOrder.at(draft.at_refixed(hour))
    }),
    ("price hour field", |draft, random| {
        have_prices(draft, random);
        let hour = random.below(draft.prices.len());
        draft.prices[hour].hour = other_hour(random, hour);
        Number::OutOfOrder.at(draft.at_price(hour))
    }),
    ("first price hour field", |draft, random| {
        have_prices(draft, random);
        draft.prices[0].hour = other_hour(random, 0);
        Number::OutOfOrder.at(draft.at_price(0))
    }),
    // 3: a mixture of parties
    ("a 02 among 12 records", |draft, random| {
        have_brps(draft, random);
        let party = random.below(draft.parties.len());
        draft.parties[party].brp_gln = None;
        Number::OutOfOrder.at(place_of_mixture(draft, party))
    }),
    ("a 12 among 02 records", |draft, random| {
        have_no_brps(draft);
        let party = random.below(draft.parties.len());
        draft.parties[party].brp_gln = Some(draft.parties[party].gln);
        Number::OutOfOrder.at(place_of_mixture(draft, party))
    }),
    ("12 records, then 02 records", |draft, random| {
        have_brps(draft, random);
        let first_02 = 1 + random.below(draft.parties.len() - 1);
        for party in &mut draft.parties[first_02..] {
            party.brp_gln = None;
        }
        Number::OutOfOrder.at(draft.at_party(first_02))
    }),
    ("02 records, then 12 records", |draft, random| {
        have_no_brps(draft);
        let first_12 = 1 + random.below(draft.parties.len() - 1);
        give_any_brps(random, &mut draft.parties[first_12..]);
        Number::OutOfOrder.at(draft.at_party(first_12))
    }),
    // 4: the heading
    ("area 0", |draft, _| {
        draft.heading.area = 0;
        Number::OutsideRange.at(0)
    }),
    ("area 1000", |draft, random| {
        draft.heading.area = outside(random, 1_000, &[1_024, 65_535]);
        Number::OutsideRange.at(0)
    }),
    ("year 1999", |draft, random| {
        draft.heading.year = outside(random, 1_999, &[16, 0]);
        Number::OutsideRange.at(0)
    }),
    ("year 2100", |draft, random| {
        draft.heading.year = outside(random, 2_100, &[65_535]);
        Number::OutsideRange.at(0)
    }),
    ("month 0", |draft, _| {
        draft.heading.month = 0;
        Number::OutsideRange.at(0)
    }),
    ("month 13", |draft, random| {
        draft.heading.month = outside(random, 13, &[255]);
        Number::OutsideRange.at(0)
    }),
    ("H 0", |draft, _| {
        draft.heading.hours = 0;
        Number::OutsideRange.at(0)
    }),
    ("H 746", |draft, random| {
        draft.heading.hours = outside(random, 746, &[65_535]);
        Number::OutsideRange.at(0)
    }),
    ("P 0", |draft, _| {
        draft.heading.parties = 0;
        draft.heading.carrier = 0;
        Number::OutsideRange.at(0)
    }),
    ("P 65", |draft, random| {
        draft.heading.parties = outside(random, 65, &[255]);
        Number::OutsideRange.at(0)
    }),
    ("carrier P", |draft, random| {
        draft.heading.carrier = outside(random, draft.heading.parties, &[255]);
        Number::OutsideRange.at(0)
    }),
    // 4: party, hours, price, reading
    ("load share", |draft, random| {
        let party = random.below(draft.parties.len());
        draft.parties[party].load_share_kwh = outside(random, 4_000_000_001, &[1 << 63, u64::MAX]);
        Number::OutsideRange.at(draft.at_party(party))
    }),
    ("load share of a 12", |draft, random| {
        have_brps(draft, random);
        let party = random.below(draft.parties.len());
        draft.parties[party].load_share_kwh = outside(random, 4_000_000_001, &[1 << 63, u64::MAX]);
        Number::OutsideRange.at(draft.at_party(party))
    }),
    ("status", |draft, random| {
        flow_fault(draft, random, |flows, random| {
            flows.status = outside(random, 3, &[4, 128, 255]);
        })
    }),
    ("net supply too large", |draft, random| {
        flow_fault(draft, random, |flows, random| {
            flows.net_supply_wh = outside(random, 8_000_000_001, &[i64::MAX]);
        })
    }),
    ("net supply too low", |draft, random| {
        flow_fault(draft, random, |flows, random| {
            flows.net_supply_wh = outside(random, -8_000_000_001, &[i64::MIN]);
        })
    }),
    ("production", |draft, random| {
        flow_fault(draft, random, |flows, random| {
            flows.production_wh = too_large_flow(random);
        })
    }),
    ("hourly", |draft, random| {
        flow_fault(draft, random, |flows, random| {
            flows.hourly_wh = too_large_flow(random);
        })
    }),
    ("flex", |draft, random| {
        flow_fault(draft, random, |flows, random| {
            flows.flex_wh = too_large_flow(random);
        })
    }),
    ("net supply with status 0", |draft, random| {
        missing_with(draft, random, |flows, figure| flows.net_supply_wh = figure)
    }),
    ("production with status 0", |draft, random| {
        missing_with(draft, random, |flows, figure| {
            flows.production_wh = figure.unsigned_abs();
        })
    }),
    ("hourly with status 0", |draft, random| {
        missing_with(draft, random, |flows, figure| {
            flows.hourly_wh = figure.unsigned_abs();
        })
    }),
    ("flex with status 0", |draft, random| {
        missing_with(draft, random, |flows, figure| {
            flows.flex_wh = figure.unsigned_abs();
        })
    }),
    ("price too large", |draft, random| {
        have_prices(draft, random);
        let hour = random.below(draft.prices.len());
        draft.prices[hour].price_ore = outside(random, 5_000_001, &[i32::MAX]);
        Number::OutsideRange.at(draft.at_price(hour))
    }),
    ("price too low", |draft, random| {
        have_prices(draft, random);
        let hour = random.below(draft.prices.len());
        draft.prices[hour].price_ore = outside(random, -5_000_001, &[i32::MIN]);
        Number::OutsideRange.at(draft.at_price(hour))
    }),
    ("party of a reading", |draft, random| {
        let reading = random.below(draft.readings.len());
        draft.readings[reading].party = outside(random, draft.parties.len() as u8, &[64, 255]);
        Number::OutsideRange.at(draft.at_reading(reading))
    }),
    ("party of an 08", |draft, random| {
        let reading = of_any_weights(draft, random);
        draft.readings[reading].party = outside(random, draft.parties.len() as u8, &[64, 255]);
        Number::OutsideRange.at(draft.at_reading(reading))
    }),
    // 5
    ("GLN with a byte that is no digit", |draft, random| {
        gln_fault(draft, random, with_no_digit)
    }),
    (
        "GLN with a byte that is no digit, of a right sum",
        |draft, random| gln_fault(draft, random, with_no_digit_of_right_sum),
    ),
    ("GLN with a wrong check digit", |draft, random| {
        gln_fault(draft, random, with_wrong_check_digit)
    }),
    ("BRP GLN with a byte that is no digit", |draft, random| {
        brp_gln_fault(draft, random, with_no_digit)
    }),
    (
        "BRP GLN with a byte that is no digit, of a right sum",
        |draft, random| brp_gln_fault(draft, random, with_no_digit_of_right_sum),
    ),
    ("BRP GLN with a wrong check digit", |draft, random| {
        brp_gln_fault(draft, random, with_wrong_check_digit)
    }),
    ("GLN equal to the one before", |draft, random| {
        let party = 1 + random.below(draft.parties.len() - 1);
        draft.parties[party].gln = draft.parties[party - 1].gln;
        Number::BadGln.at(draft.at_party(party))
    }),
    ("GLN below the one before", |draft, random| {
        let party = 1 + random.below(draft.parties.len() - 1);
        let gln = draft.parties[party].gln;
        draft.parties[party].gln = draft.parties[party - 1].gln;
        draft.parties[party - 1].gln = gln;
        Number::BadGln.at(draft.at_party(party))
    }),
    (
        "supplier GLNs of 12 records that do not rise",
        |draft, random| {
            // The BRP GLNs do: they are the suppliers' as these were.
            let suppliers: Vec<Gln> = draft.parties.iter().map(|party| party.gln).collect();
            for (party, supplier) in draft.parties.iter_mut().zip(suppliers) {
                party.brp_gln = Some(supplier);
            }
            let party = 1 + random.below(draft.parties.len() - 1);
            draft.parties[party].gln = draft.parties[random.below(party)].gln;
            Number::BadGln.at(draft.at_party(party))
        },
    ),
    // 6
    ("W 0", |draft, _| {
        set_shares(draft, 0, 0);
        Number::BadShareSum.at(0)
    }),
    ("W one too large", |draft, _| {
        set_shares(draft, 4_000_000_000, 1);
        Number::BadShareSum.at(0)
    }),
    ("W beyond 32 bits", |draft, random| {
        // 2^32 and a little: what is left of it in 32 bits would be a good W.
        set_shares(
            draft,
            4_000_000_000,
            294_967_296 + random.any_size(1_000_000),
        );
        Number::BadShareSum.at(0)
    }),
    // 7, 8, 9
    ("fixed hour missing", |draft, random| {
        let hour = random.below(draft.fixed.len());
        draft.fixed[hour] = missing_hour(hour);
        Number::MissingHour.at(hour)
    }),
    ("refixed hour missing", |draft, random| {
        have_refixed(draft);
        let hour = random.below(draft.refixed.len());
        draft.refixed[hour] = missing_hour(hour);
        Number::MissingHour.at(hour)
    }),
    ("fixed residual negative", |draft, random| {
        let hour = random.below(draft.fixed.len());
        draft.fixed[hour] = negative_hour(random, hour);
        Number::NegativeResidual.at(hour)
    }),
    ("refixed residual negative", |draft, random| {
        have_refixed(draft);
        let hour = random.below(draft.refixed.len());
        draft.refixed[hour] = negative_hour(random, hour);
        Number::NegativeResidual.at(hour)
    }),
    ("fixed residual too large", |draft, random| {
        let hour = random.below(draft.fixed.len());
        draft.fixed[hour] = too_large_hour(random, hour);
        Number::ResidualTooLarge.at(hour)
    }),
    ("refixed residual too large", |draft, random| {
        have_refixed(draft);
        let hour = random.below(draft.refixed.len());
        draft.refixed[hour] = too_large_hour(random, hour);
        Number::ResidualTooLarge.at(hour)
    }),
    // 10
    ("curve number too large", |draft, random| {
        let hour = random.below(draft.fixed.len());
        steep_curve(draft, random, hour);
        Number::CurveNumberTooLarge.at(hour)
    }),
    // 11
    ("a = b", |draft, random| {
        span_fault(draft, random, |hours, random| {
            let hour = random.below(hours + 1);
            (hour, hour)
        })
    }),
    ("a > b", |draft, random| {
        span_fault(draft, random, |hours, random| {
            let b = random.below(hours);
            (b + 1 + random.below(hours - b), b)
        })
    }),
    ("b above H", |draft, random| {
        span_fault(draft, random, |hours, random| {
            let b = *random.pick(&[hours + 1, hours + 2, 65_535]);
            (random.below(hours + 1), b)
        })
    }),
    ("span of an 08", |draft, random| {
        let reading = of_any_weights(draft, random);
        let hours = draft.fixed.len() as u16;
        let hour = random.below(draft.fixed.len()) as u16;
        let spans = [
            (hour, hour),
            (hour + 1, hour),
            (hour, hours + 1),
            (0, u16::MAX),
        ];
        (draft.readings[reading].a, draft.readings[reading].b) = *random.pick(&spans);
        Number::BadSpan.at(draft.at_reading(reading))
    }),
    // 12
    ("E too large", |draft, random| {
        let reading = random.below(draft.readings.len());
        draft.readings[reading].e_wh = outside(random, 1_000_000_001, &[1 << 31, u32::MAX]);
        Number::ReadingTooLarge.at(draft.at_reading(reading))
    }),
    ("E of an 08 too large", |draft, random| {
        let reading = of_any_weights(draft, random);
        draft.readings[reading].e_wh = outside(random, 1_000_000_001, &[1 << 31, u32::MAX]);
        Number::ReadingTooLarge.at(draft.at_reading(reading))
    }),
    // 13
    ("E over real zeros", |draft, random| {
        let reading = weightless_reading(draft, random);
        let span = usize::from(reading.a)..usize::from(reading.b);
        for hour in span {
            draft.fixed[hour] = random_hour(random, hour, 0);
        }
        Number::NoWeight.at(draft.readings.len() - 1)
    }),
    ("E over curve numbers rounded to 0", |draft, random| {
        set_shares(draft, 4_000_000_000, 0);
        let reading = weightless_reading(draft, random);
        let span = usize::from(reading.a)..usize::from(reading.b);
        for hour in span {
            let residual = random.between(1, 3_999);
            draft.fixed[hour] = random_hour(random, hour, residual);
        }
        Number::NoWeight.at(draft.readings.len() - 1)
    }),
    ("E of an 08 over no weight at all", |draft, random| {
        let reading = weightless_reading(draft, random);
        let span = usize::from(reading.a)..usize::from(reading.b);
        for hour in span {
            draft.fixed[hour] = random_hour(random, hour, 0);
        }
        let last = draft.readings.len() - 1;
        draft.readings[last] = reading.weighing(0, 0);
        Number::NoWeight.at(last)
    }),
    // 18
    ("before and own one above the whole", |draft, random| {
        weights_fault(draft, random, |random, own| {
            let before = 1 + random.any_size(WHOLE_WEIGHT_MAX as u64 - own);
            (before, before + own - 1)
        })
    }),
    ("before alone above the whole", |draft, random| {
        weights_fault(draft, random, |random, _| {
            let whole = random.any_size(WHOLE_WEIGHT_MAX as u64);
            (1 + random.any_size(u64::MAX - 1).max(whole), whole)
        })
    }),
    ("before and own beyond 64 bits", |draft, random| {
        // What is left of the sum in 64 bits is below the whole.
        weights_fault(draft, random, |random, own| {
            let before = u64::MAX - random.any_size(own - 1);
            (before, WHOLE_WEIGHT_MAX as u64)
        })
    }),
    ("the whole one above its limit", |draft, random| {
        weights_fault(draft, random, |random, own| {
            let whole = outside(random, WHOLE_WEIGHT_MAX as u64 + 1, &[1 << 63, u64::MAX]);
            (random.any_size(WHOLE_WEIGHT_MAX as u64 - own), whole)
        })
    }),
    ("own weight, and the whole 0", |draft, random| {
        // E is positive: 18 comes before 13 of the same reading.
        let refusal = weights_fault(draft, random, |_, _| (0, 0));
        draft.readings[refusal.place].e_wh = 1 + random.any_size(999_999_999) as u32;
        refusal
    }),
    ("too much weight with E 0", |draft, random| {
        let refusal = weights_fault(draft, random, |random, own| {
            let before = random.any_size(u64::MAX);
            *random.pick(&[(0, own - 1), (before, own - 1), (0, u64::MAX)])
        });
        draft.readings[refusal.place].e_wh = 0;
        refusal
    }),
    // 14
    ("one Wh too much periodised in an hour", |draft, random| {
        let hour = random.below(draft.fixed.len());
        crowded_hour(draft, random, hour);
        Number::TooMuchPeriodised.at(hour)
    }),
    ("too much periodised over several hours", |draft, random| {
        // Two hours of equal weight: 5 readings of 1,000,000,000 put 2,500,000,000 into each.
        let hour = random.below(draft.fixed.len() - 1);
        crowded_hour(draft, random, hour);
        draft.fixed[hour + 1] = HourFlows {
            hour: hour as u16 + 1,
            ..draft.fixed[hour]
        };
        draft.readings = vec![reading_of(draft, random, hour, hour + 2, 1_000_000_000); 5];
        Number::TooMuchPeriodised.at(hour)
    }),
    // 15
    ("count one too large", |draft, _| {
        let records = draft.at_end();
        draft.end_count = Some(records as u32 + 1);
        Number::WrongCount.at(records)
    }),
    ("count one too small", |draft, _| {
        let records = draft.at_end();
        draft.end_count = Some(records as u32 - 1);
        Number::WrongCount.at(records)
    }),
    ("count far off", |draft, random| {
        // Right in its lowest byte, or in its lowest two, is not right.
        let records = draft.at_end();
        let right = records as u32;
        draft.end_count = Some(*random.pick(&[right + 256, right + 65_536, !right, right << 16]));
        Number::WrongCount.at(records)
    }),
];

/// A value outside its range: the one just outside, every other time, or one farther out.
fn outside<T: Copy>(random: &mut Random, just: T, farther: &[T]) -> T {
    if random.once_in(2) {
        just
    } else {
        *random.pick(farther)
    }
}

/// An hour field that is not the due one: a neighbour, beyond the range, or at random.
fn other_hour(random: &mut Random, due: usize) -> u16 {
    let due = due as u16;
    let any = random.below(65_536) as u16;
    let others = [due.wrapping_sub(1), due + 1, 745, 65_535, due + 256, any];
    let others: Vec<u16> = others.into_iter().filter(|&hour| hour != due).collect();
    *random.pick(&others)
}

/// Gives the draft a refixed series, equal to the fixed one, if it has none.
fn have_refixed(draft: &mut Draft) {
    if draft.refixed.is_empty() {
        draft.refixed = draft.fixed.clone();
    }
}

/// Gives the draft prices, if it has none.
fn have_prices(draft: &mut Draft, random: &mut Random) {
    if draft.prices.is_empty() {
        let hours = draft.fixed.iter();
        draft.prices = prices_of(hours.map(|_| random.between(-5_000_000, 5_000_000) as i32));
    }
}

/// Makes all parties 12 records, if one is a 02.
fn have_brps(draft: &mut Draft, random: &mut Random) {
    if draft.parties.iter().any(|party| party.brp_gln.is_none()) {
        give_any_brps(random, &mut draft.parties);
    }
}

/// Makes all parties 02 records.
fn have_no_brps(draft: &mut Draft) {
    for party in &mut draft.parties {
        party.brp_gln = None;
    }
}

/// Where it shows that one party is of another kind than all others: there, or at the second if it is the first.
fn place_of_mixture(draft: &Draft, party: usize) -> usize {
    draft.at_party(party.max(1))
}

/// Spoils the GLN of one party, of either kind of record.
fn gln_fault(draft: &mut Draft, random: &mut Random, spoil: fn(&mut Gln, &mut Random)) -> Refusal {
    let party = random.below(draft.parties.len());
    spoil(&mut draft.parties[party].gln, random);
    Number::BadGln.at(draft.at_party(party))
}

/// Spoils the BRP GLN of one party, all being 12 records.
fn brp_gln_fault(
    draft: &mut Draft,
    random: &mut Random,
    spoil: fn(&mut Gln, &mut Random),
) -> Refusal {
    have_brps(draft, random);
    let party = random.below(draft.parties.len());
    draft.parties[party].brp_gln = draft.parties[party].brp_gln.map(|mut brp_gln| {
        spoil(&mut brp_gln, random);
        brp_gln
    });
    Number::BadGln.at(draft.at_party(party))
}

fn with_no_digit(gln: &mut Gln, random: &mut Random) {
    gln[random.below(13)] = *random.pick(b"/: A\0\xB0\xFF");
}

/// Ten more than the digit's own value changes no weighted sum modulo 10.
fn with_no_digit_of_right_sum(gln: &mut Gln, random: &mut Random) {
    let byte = &mut gln[random.below(13)];
    *byte = byte.wrapping_add(10);
}

fn with_wrong_check_digit(gln: &mut Gln, random: &mut Random) {
    let check_digit = &mut gln[12];
    *check_digit = b'0' + (check_digit.wrapping_sub(b'0') % 10 + 1 + random.below(9) as u8) % 10;
}

/// Changes a field of one hour, fixed or refixed, so that it is outside its range.
fn flow_fault(
    draft: &mut Draft,
    random: &mut Random,
    change: fn(&mut HourFlows, &mut Random),
) -> Refusal {
    let hour = random.below(draft.fixed.len());
    if draft.refixed.is_empty() || random.once_in(2) {
        change(&mut draft.fixed[hour], random);
        Number::OutsideRange.at(draft.at_fixed(hour))
    } else {
        change(&mut draft.refixed[hour], random);
        Number::OutsideRange.at(draft.at_refixed(hour))
    }
}

fn too_large_flow(random: &mut Random) -> u64 {
    outside(random, 8_000_000_001, &[1 << 63, u64::MAX])
}

/// "With status 0 a figure other than 0 is refused with 4": one figure in an hour that is otherwise a missing one.
fn missing_with(
    draft: &mut Draft,
    random: &mut Random,
    set_figure: fn(&mut HourFlows, i64),
) -> Refusal {
    let figure = *random.pick(&[1, 256, 1 << 32, -1]);
    let hour = random.below(draft.fixed.len());
    let mut flows = missing_hour(hour);
    set_figure(&mut flows, figure);
    if draft.refixed.is_empty() || random.once_in(2) {
        draft.fixed[hour] = flows;
        Number::OutsideRange.at(draft.at_fixed(hour))
    } else {
        draft.refixed[hour] = flows;
        Number::OutsideRange.at(draft.at_refixed(hour))
    }
}

fn missing_hour(hour: usize) -> HourFlows {
    HourFlows {
        status: STATUS_MISSING,
        ..measured_hour(hour, 0)
    }
}

/// An hour whose flows are in their ranges and whose residual is below 0.
fn negative_hour(random: &mut Random, hour: usize) -> HourFlows {
    match random.below(4) {
        0 => HourFlows {
            hourly_wh: 8_000_000_000,
            flex_wh: 8_000_000_000,
            ..measured_hour(hour, -8_000_000_000)
        },
        1 => random_hour(random, hour, -1),
        _ => {
            let residual = -1 - random.any_size(1_999_999_999) as i64;
            random_hour(random, hour, residual)
        }
    }
}

/// An hour whose flows are in their ranges and whose residual is above its limit.
fn too_large_hour(random: &mut Random, hour: usize) -> HourFlows {
    // 2^32 and a little: what is left of it in 32 bits would be a good residual.
    let net_supply_wh = outside(random, 2_000_000_001, &[(1 << 32) + 5, 8_000_000_000]);
    let production_wh = *random.pick(&[0, 0, 8_000_000_000]);
    HourFlows {
        production_wh,
        ..measured_hour(hour, net_supply_wh)
    }
}

/// Load share of the first party and of the last; all others 0.
fn set_shares(draft: &mut Draft, first_kwh: u64, last_kwh: u64) {
    for party in &mut draft.parties {
        party.load_share_kwh = 0;
    }
    let last = draft.parties.len() - 1;
    draft.parties[last].load_share_kwh = last_kwh;
    draft.parties[0].load_share_kwh = first_kwh;
}

/// A W so small that the curve number of this hour, and of no earlier one, is too large; its residual is within its limit.
fn steep_curve(draft: &mut Draft, random: &mut Random, hour: usize) {
    let share_sum = 1 + random.any_size(1_999_997);
    set_shares(draft, share_sum, 0);
    let most_wh = most_residual_wh(share_sum);
    for earlier in 0..draft.fixed.len() {
        let residual = random.between(0, most_wh);
        draft.fixed[earlier] = random_hour(random, earlier, residual);
    }
    let above_wh = random.between(most_wh + 1, 2_000_000_000);
    let residual = *random.pick(&[most_wh + 1, above_wh]);
    draft.fixed[hour] = random_hour(random, hour, residual);
}

/// Gives one reading a span that is none; the function gets H and tells a and b.
fn span_fault(
    draft: &mut Draft,
    random: &mut Random,
    span: fn(usize, &mut Random) -> (usize, usize),
) -> Refusal {
    let reading = random.below(draft.readings.len());
    let (a, b) = span(draft.fixed.len(), random);
    draft.readings[reading].a = a as u16;
    draft.readings[reading].b = b as u16;
    Number::BadSpan.at(draft.at_reading(reading))
}

fn reading_of(draft: &Draft, random: &mut Random, a: usize, b: usize, e_wh: u32) -> Reading {
    let party = random.below(draft.parties.len()) as u8;
    Reading::of_month(party, a as u16, b as u16, e_wh)
}

/// Makes one reading, whose number is told, an 08 with any weights: the reading of the file takes them all.
fn of_any_weights(draft: &mut Draft, random: &mut Random) -> usize {
    let reading = random.below(draft.readings.len());
    let (before, whole) = (random.any_size(u64::MAX), random.any_size(u64::MAX));
    draft.readings[reading] = draft.readings[reading].weighing(before, whole);
    reading
}

/// Puts a reading over several months somewhere among the others, over hours of which one has weight; the function gets
/// the weight of these hours, which is positive, and tells the weight before and of the whole, which is too much.
fn weights_fault(
    draft: &mut Draft,
    random: &mut Random,
    weights: fn(&mut Random, u64) -> (u64, u64),
) -> Refusal {
    let (a, b) = span_with_weight(draft, random);
    let own = own_weight(&curve(draft)[a..b]);
    let (before, whole) = weights(random, own);
    let e_wh = random.any_size(1_000_000_000) as u32;
    let reading = reading_of(draft, random, a, b, e_wh).weighing(before, whole);
    let place = random.below(draft.readings.len() + 1);
    draft.readings.insert(place, reading);
    Number::TooMuchWeight.at(place)
}

/// Random hours, one of which is given weight, and readings that any weight is good for.
fn span_with_weight(draft: &mut Draft, random: &mut Random) -> (usize, usize) {
    empty_readings(draft);
    let a = random.below(draft.fixed.len());
    let b = a + 1 + random.below(draft.fixed.len() - a);
    let most_wh = most_residual_wh(draft.share_sum_kwh().clamp(1, 4_000_000_000) as u64);
    draft.fixed[a] = random_hour(random, a, most_wh);
    (a, b)
}

/// Makes all readings readings of 0, which need no weight; the whole of those over several months is the largest there is,
/// so that they cannot have too much.
fn empty_readings(draft: &mut Draft) {
    let largest = Weights {
        before: 0,
        whole: WHOLE_WEIGHT_MAX as u64,
    };
    for reading in &mut draft.readings {
        reading.e_wh = 0;
        reading.weights = reading.weights.map(|_| largest);
    }
}

/// Adds a last reading with a positive E over a random span, and makes all before it good for any weight.
fn weightless_reading(draft: &mut Draft, random: &mut Random) -> Reading {
    empty_readings(draft);
    let a = random.below(draft.fixed.len());
    let b = a + 1 + random.below(draft.fixed.len() - a);
    let e_wh = 1 + random.any_size(999_999_999) as u32;
    let reading = reading_of(draft, random, a, b, e_wh);
    draft.readings.push(reading);
    reading
}

/// Makes the hours of a random span real zeros, and tells a reading of them of a positive E.
fn no_weight_reading(draft: &mut Draft, random: &mut Random) -> Reading {
    let a = random.below(draft.fixed.len());
    let b = a + 1 + random.below(draft.fixed.len() - a);
    for hour in a..b {
        draft.fixed[hour] = random_hour(random, hour, 0);
    }
    let e_wh = 1 + random.any_size(999_999_999) as u32;
    reading_of(draft, random, a, b, e_wh)
}

/// One hour with readings of 2,000,000,001 Wh in all, and the weight that they need.
fn crowded_hour(draft: &mut Draft, random: &mut Random, hour: usize) {
    let most_wh = most_residual_wh(draft.share_sum_kwh().clamp(1, 4_000_000_000) as u64);
    draft.fixed[hour] = random_hour(random, hour, most_wh);
    draft.readings.clear();
    for e_wh in [1_000_000_000, 1, 1_000_000_000] {
        let reading = reading_of(draft, random, hour, hour + 1, e_wh);
        draft.readings.push(reading);
    }
}

// Faults of the bytes.

fn refused(records: Vec<Vec<u8>>, number: Number, place: usize) -> (Vec<u8>, Aim) {
    (records.concat(), Aim::Refused(number.at(place)))
}

/// Faults of the file's length and order, and pairs of faults of which the first is known.
pub const BYTES_FAULTS: &[(&str, BytesFault)] = &[
    // 1
    ("empty file", |_, _| refused(vec![], Number::BrokenFile, 0)),
    ("65,537 bytes", |draft, random| {
        let mut bytes = draft.bytes();
        bytes.resize(FILE_BYTES_MAX + 1, random.bits() as u8);
        refused(vec![bytes], Number::BrokenFile, 0)
    }),
    ("a good month, but too long", |draft, random| {
        while draft.bytes().len() <= FILE_BYTES_MAX {
            let readings = (FILE_BYTES_MAX - draft.bytes().len()) / 10 + 1;
            let nothing = reading_of(draft, random, 0, 1, 0);
            draft.readings.extend(vec![nothing; readings]);
        }
        refused(draft.records(), Number::BrokenFile, 0)
    }),
    ("far too long", |_, random| {
        let length = random.between(FILE_BYTES_MAX as i64 + 1, 150_000) as usize;
        refused(
            vec![vec![random.bits() as u8; length]],
            Number::BrokenFile,
            0,
        )
    }),
    ("body cut short", |draft, random| {
        let mut records = draft.records();
        let cut = random.below(records.len());
        records.truncate(cut + 1);
        let body = records[cut].len() - 1;
        records[cut].truncate(1 + random.below(body));
        refused(records, Number::BrokenFile, cut)
    }),
    ("08 cut short", |draft, random| {
        // As long as a 04, or anywhere.
        let cut = of_any_weights(draft, random);
        let place = draft.at_reading(cut);
        let mut records = draft.records();
        records.truncate(place + 1);
        let any = 1 + random.below(25);
        records[place].truncate(*random.pick(&[10, 18, 25, any]));
        refused(records, Number::BrokenFile, place)
    }),
    ("12 cut short", |draft, random| {
        // As long as a 02, after either GLN, or anywhere.
        have_brps(draft, random);
        let place = draft.at_party(random.below(draft.parties.len()));
        let mut records = draft.records();
        records.truncate(place + 1);
        let any = 1 + random.below(34);
        records[place].truncate(*random.pick(&[14, 22, 27, 34, any]));
        refused(records, Number::BrokenFile, place)
    }),
    ("cut after a kind", |draft, random| {
        let mut records = draft.records();
        let cut = random.below(records.len());
        records.truncate(cut + 1);
        records[cut].truncate(1);
        refused(records, Number::BrokenFile, cut)
    }),
    ("cut between two records", |draft, random| {
        let mut records = draft.records();
        let complete = 1 + random.below(records.len() - 1);
        records.truncate(complete);
        refused(records, Number::BrokenFile, complete)
    }),
    ("no end record", |draft, _| {
        let mut records = draft.records();
        records.pop();
        refused(records, Number::BrokenFile, draft.at_end())
    }),
    ("a byte after the end", |draft, random| {
        let mut records = draft.records();
        records.push(vec![*random.pick(&[0, 1, 4, 7, b'\n', 0xFF])]);
        refused(records, Number::BrokenFile, draft.at_end() + 1)
    }),
    ("a record after the end", |draft, random| {
        let mut records = draft.records();
        let again = random.pick(&records).clone();
        records.push(again);
        refused(records, Number::BrokenFile, draft.at_end() + 1)
    }),
    ("a second end", |draft, _| {
        let mut records = draft.records();
        records.push(Record::End(draft.at_end() as u32 + 1).encode());
        refused(records, Number::BrokenFile, draft.at_end() + 1)
    }),
    // 2
    ("unknown kind", |draft, random| {
        let mut records = draft.records();
        let place = random.below(records.len());
        records[place][0] = unknown_kind(random);
        refused(records, Number::UnknownKind, place)
    }),
    ("unknown kind at the file's end", |draft, random| {
        let mut records = draft.records();
        let place = random.below(records.len());
        records.truncate(place);
        records.push(vec![unknown_kind(random)]);
        refused(records, Number::UnknownKind, place)
    }),
    ("unknown record put in", |draft, random| {
        let mut records = draft.records();
        let place = random.below(records.len());
        let (kind, length) = *random.pick(&[(0x09, 11), (0x0A, 3)]);
        let mut unknown = vec![0; 1 + length];
        unknown[0] = kind;
        records.insert(place, unknown);
        refused(records, Number::UnknownKind, place)
    }),
    ("08 marked as 04", |draft, random| {
        // Its weights are then the next record, of kind 0.
        let reading = random.below(draft.readings.len());
        let whole = random.any_size(WHOLE_WEIGHT_MAX as u64);
        draft.readings[reading] = draft.readings[reading].weighing(0, whole);
        let mut records = draft.records();
        records[draft.at_reading(reading)][0] = READING;
        refused(records, Number::UnknownKind, draft.at_reading(reading) + 1)
    }),
    // 3
    ("no heading", |draft, _| {
        let mut records = draft.records();
        records.remove(0);
        refused(records, Number::OutOfOrder, 0)
    }),
    ("a second heading", |draft, random| {
        let mut records = draft.records();
        let place = 1 + random.below(records.len() - 1);
        records.insert(place, records[0].clone());
        refused(records, Number::OutOfOrder, place)
    }),
    ("a party too few", a_party_too_few),
    ("a 12 too few", |draft, random| {
        have_brps(draft, random);
        a_party_too_few(draft, random)
    }),
    ("a party too many", a_party_too_many),
    ("a 12 too many", |draft, random| {
        have_brps(draft, random);
        a_party_too_many(draft, random)
    }),
    ("a 12 after the parties", |draft, random| {
        have_brps(draft, random);
        let mut records = draft.records();
        let place = random.between(draft.at_fixed(0) as i64, draft.at_end() as i64) as usize;
        records.insert(place, records[draft.at_party(0)].clone());
        refused(records, Number::OutOfOrder, place)
    }),
    ("a fixed hour too few", |draft, random| {
        let hour = random.below(draft.fixed.len());
        draft.fixed.remove(hour);
        refused(draft.records(), Number::OutOfOrder, draft.at_fixed(hour))
    }),
    ("a fixed hour too many", |draft, random| {
        let hour = draft.fixed.len();
        draft.fixed.push(random_hour(random, hour, 0));
        refused(draft.records(), Number::OutOfOrder, draft.at_fixed(hour))
    }),
    ("a refixed hour too few", |draft, random| {
        have_refixed(draft);
        let hour = random.below(draft.refixed.len());
        draft.refixed.remove(hour);
        refused(draft.records(), Number::OutOfOrder, draft.at_refixed(hour))
    }),
    ("a refixed hour too many", |draft, random| {
        have_refixed(draft);
        let hour = draft.refixed.len();
        draft.refixed.push(random_hour(random, hour, 0));
        refused(draft.records(), Number::OutOfOrder, draft.at_refixed(hour))
    }),
    ("half a refixed series", |draft, random| {
        have_refixed(draft);
        let hour = 1 + random.below(draft.refixed.len() - 1);
        draft.refixed.truncate(hour);
        refused(draft.records(), Number::OutOfOrder, draft.at_refixed(hour))
    }),
    ("a price too few", |draft, random| {
        have_prices(draft, random);
        let hour = random.below(draft.prices.len());
        draft.prices.remove(hour);
        refused(draft.records(), Number::OutOfOrder, draft.at_price(hour))
    }),
    ("the first price missing", |draft, random| {
        have_prices(draft, random);
        draft.prices.remove(0);
        refused(draft.records(), Number::OutOfOrder, draft.at_price(0))
    }),
    ("prices that break off", |draft, random| {
        let hour = break_off_prices(draft, random);
        refused(draft.records(), Number::OutOfOrder, draft.at_price(hour))
    }),
    ("prices that break off, and the end", |draft, random| {
        draft.readings.clear();
        let hour = break_off_prices(draft, random);
        refused(draft.records(), Number::OutOfOrder, draft.at_price(hour))
    }),
    ("a price too many", |draft, random| {
        have_prices(draft, random);
        let hour = draft.prices.len();
        let mut another = draft.prices[0];
        another.hour = hour as u16;
        draft.prices.push(another);
        refused(draft.records(), Number::OutOfOrder, draft.at_price(hour))
    }),
    ("the prices after the readings", |draft, random| {
        have_prices(draft, random);
        let prices = std::mem::take(&mut draft.prices);
        let mut records = draft.records();
        let place = draft.at_end();
        let late = prices.into_iter().map(|p| Record::Price(p).encode());
        records.splice(place..place, late);
        refused(records, Number::OutOfOrder, place)
    }),
    ("no prices, but one after a reading", |draft, random| {
        draft.prices.clear();
        let price_ore = random.between(-5_000_000, 5_000_000) as i32;
        let price = Price { hour: 0, price_ore };
        put_after_a_reading(draft, random, Record::Price(price))
    }),
    (
        "no prices, and a refixed hour after a reading",
        |draft, random| {
            draft.prices.clear();
            draft.refixed.clear();
            let late = random_hour(random, 0, 0);
            put_after_a_reading(draft, random, Record::Refixed(late))
        },
    ),
    ("a refixed hour after a price", |draft, random| {
        have_prices(draft, random);
        draft.refixed.clear();
        let mut records = draft.records();
        let place = draft.at_price(1 + random.below(draft.prices.len() - 1));
        records.insert(place, Record::Refixed(draft.fixed[0]).encode());
        refused(records, Number::OutOfOrder, place)
    }),
    ("refixed hours after the prices", |draft, random| {
        have_prices(draft, random);
        draft.refixed.clear();
        let mut records = draft.records();
        let place = draft.at_reading(0);
        let late = Record::Refixed(draft.fixed[0]).encode();
        records.insert(place, late);
        refused(records, Number::OutOfOrder, place)
    }),
    ("a fixed hour marked as refixed", |draft, random| {
        let mut records = draft.records();
        let place = draft.at_fixed(random.below(draft.fixed.len()));
        records[place][0] = REFIXED_HOUR;
        refused(records, Number::OutOfOrder, place)
    }),
    ("a refixed hour marked as fixed", |draft, random| {
        have_refixed(draft);
        let mut records = draft.records();
        let place = draft.at_refixed(random.below(draft.refixed.len()));
        records[place][0] = FIXED_HOUR;
        refused(records, Number::OutOfOrder, place)
    }),
    ("an early end", |draft, random| {
        let mut records = draft.records();
        let place = place_of_no_end(draft, random);
        records.insert(place, Record::End(place as u32).encode());
        refused(records, Number::OutOfOrder, place)
    }),
    ("an early end, and nothing after it", |draft, random| {
        let mut records = draft.records();
        let place = place_of_no_end(draft, random);
        records.truncate(place);
        records.push(Record::End(place as u32).encode());
        refused(records, Number::OutOfOrder, place)
    }),
    ("an early reading", |draft, random| {
        let mut records = draft.records();
        let place = place_of_no_end(draft, random);
        records.insert(place, records[draft.at_reading(0)].clone());
        refused(records, Number::OutOfOrder, place)
    }),
    ("an early 08", |draft, random| {
        let mut records = draft.records();
        let place = place_of_no_end(draft, random);
        let early = reading_of(draft, random, 0, 1, 0).weighing(0, 0);
        records.insert(place, Record::Reading(early).encode());
        refused(records, Number::OutOfOrder, place)
    }),
    // A run of quantities takes these, and refuses what comes after them.
    ("a reading where the prices begin", |draft, random| {
        have_prices(draft, random);
        let place = draft.at_price(0);
        let early = reading_of(draft, random, 0, 1, 0);
        let records = put_early(draft, place, Record::Reading(early));
        refused(records, Number::OutOfOrder, place + 1)
    }),
    (
        "a reading where the refixed hours begin",
        |draft, random| {
            have_refixed(draft);
            let place = draft.at_refixed(0);
            let early = reading_of(draft, random, 0, 1, 0);
            let records = put_early(draft, place, Record::Reading(early));
            refused(records, Number::OutOfOrder, place + 1)
        },
    ),
    ("an end where the prices begin", |draft, random| {
        have_prices(draft, random);
        let place = draft.at_price(0);
        let records = put_early(draft, place, Record::End(place as u32));
        refused(records, Number::BrokenFile, place + 1)
    }),
    ("an end where the refixed hours begin", |draft, _| {
        have_refixed(draft);
        let place = draft.at_refixed(0);
        let records = put_early(draft, place, Record::End(place as u32));
        refused(records, Number::BrokenFile, place + 1)
    }),
    (
        "an end where the prices begin, with a wrong count",
        |draft, random| {
            have_prices(draft, random);
            let place = draft.at_price(0);
            let records = put_early(draft, place, Record::End(place as u32 + 1));
            refused(records, Number::WrongCount, place)
        },
    ),
    // 4: a party that is read as of the other kind, its load share from the digits of a GLN.
    ("the first 12 marked as 02", |draft, random| {
        have_brps(draft, random);
        let mut records = draft.records();
        records[draft.at_party(0)][0] = PARTY;
        refused(records, Number::OutsideRange, draft.at_party(0))
    }),
    ("the first 02 marked as 12", |draft, _| {
        have_no_brps(draft);
        let mut records = draft.records();
        records[draft.at_party(0)][0] = PARTY_WITH_BRP;
        refused(records, Number::OutsideRange, draft.at_party(0))
    }),
    // Two faults in one record.
    ("cut and out of order", |draft, random| {
        let mut records = draft.records();
        let place = 1 + random.below(records.len() - 1);
        let mut heading = records[0].clone();
        heading.truncate(1 + random.below(9));
        records.truncate(place);
        records.push(heading);
        refused(records, Number::BrokenFile, place)
    }),
    ("heading out of order and out of range", |draft, random| {
        let mut records = draft.records();
        let place = 1 + random.below(records.len() - 1);
        let heading = Heading {
            area: 0,
            ..draft.heading
        };
        records.insert(place, Record::Heading(heading).encode());
        refused(records, Number::OutOfOrder, place)
    }),
    ("hour field and status", |draft, random| {
        let hour = random.below(draft.fixed.len());
        draft.fixed[hour].hour = other_hour(random, hour);
        draft.fixed[hour].status = 3;
        refused(draft.records(), Number::OutOfOrder, draft.at_fixed(hour))
    }),
    ("hour field and price", |draft, random| {
        have_prices(draft, random);
        let hour = random.below(draft.prices.len());
        draft.prices[hour].hour = other_hour(random, hour);
        draft.prices[hour].price_ore = i32::MAX;
        refused(draft.records(), Number::OutOfOrder, draft.at_price(hour))
    }),
    (
        "a party too many, out of range, with a bad GLN",
        |draft, random| {
            let mut records = draft.records();
            let another = *random.pick(&[BAD_02, BAD_12]);
            records.insert(draft.at_fixed(0), Record::Party(another).encode());
            refused(records, Number::OutOfOrder, draft.at_fixed(0))
        },
    ),
    (
        "a 02 after 12 records, out of range, with a bad GLN",
        |draft, random| {
            have_brps(draft, random);
            a_bad_party_after_the_first(draft, random, BAD_02)
        },
    ),
    (
        "a 12 after 02 records, out of range, with bad GLNs",
        |draft, random| {
            have_no_brps(draft);
            a_bad_party_after_the_first(draft, random, BAD_12)
        },
    ),
    ("a 12 after 02 records, cut short", |draft, random| {
        have_no_brps(draft);
        let mut records = draft.records();
        let place = draft.at_party(1 + random.below(draft.parties.len() - 1));
        records.truncate(place);
        let mut cut = Record::Party(BAD_12).encode();
        cut.truncate(1 + random.below(34));
        records.push(cut);
        refused(records, Number::BrokenFile, place)
    }),
    ("load share and GLN", |draft, random| {
        let party = random.below(draft.parties.len());
        draft.parties[party].load_share_kwh = 4_000_000_001;
        draft.parties[party].gln[random.below(13)] = b'x';
        refused(draft.records(), Number::OutsideRange, draft.at_party(party))
    }),
    ("load share and BRP GLN", |draft, random| {
        let Refusal { place, .. } = brp_gln_fault(draft, random, with_no_digit);
        let party = place - draft.at_party(0);
        draft.parties[party].load_share_kwh = outside(random, 4_000_000_001, &[1 << 63, u64::MAX]);
        refused(draft.records(), Number::OutsideRange, place)
    }),
    ("BRP GLN, and a mixture after it", |draft, random| {
        have_brps(draft, random);
        let mixed = 1 + random.below(draft.parties.len() - 1);
        let bad = random.below(mixed);
        draft.parties[bad].brp_gln = Some(*b"579000000000X");
        draft.parties[mixed].brp_gln = None;
        refused(draft.records(), Number::BadGln, draft.at_party(bad))
    }),
    ("party, span and E", |draft, random| {
        let reading = random.below(draft.readings.len());
        let party = draft.parties.len() as u8;
        draft.readings[reading] = Reading::of_month(party, 1, 1, 1_000_000_001);
        refused(
            draft.records(),
            Number::OutsideRange,
            draft.at_reading(reading),
        )
    }),
    ("span and E", |draft, random| {
        let reading = random.below(draft.readings.len());
        let hours = draft.fixed.len();
        draft.readings[reading] = reading_of(draft, random, 0, hours + 1, u32::MAX);
        refused(draft.records(), Number::BadSpan, draft.at_reading(reading))
    }),
    ("party, span, E and weights of an 08", |draft, random| {
        let reading = random.below(draft.readings.len());
        let party = draft.parties.len() as u8;
        draft.readings[reading] = Reading::of_month(party, 1, 1, u32::MAX).weighing(u64::MAX, 0);
        let place = draft.at_reading(reading);
        refused(draft.records(), Number::OutsideRange, place)
    }),
    ("wrong count and bytes after", |draft, random| {
        let place = draft.at_end();
        draft.end_count = Some(place as u32 + 1);
        let mut records = draft.records();
        records.push(vec![random.bits() as u8; 1 + random.below(40)]);
        refused(records, Number::WrongCount, place)
    }),
    (
        "a price out of range, and prices that break off",
        |draft, random| {
            let hour = break_off_prices(draft, random);
            let outside = random.below(hour);
            draft.prices[outside].price_ore = 5_000_001;
            let place = draft.at_price(outside);
            refused(draft.records(), Number::OutsideRange, place)
        },
    ),
    (
        "prices that break off, and a party out of range",
        |draft, random| {
            let hour = break_off_prices(draft, random);
            draft.readings[0].party = u8::MAX;
            refused(draft.records(), Number::OutOfOrder, draft.at_price(hour))
        },
    ),
    ("an early end with a wrong count", |draft, random| {
        let mut records = draft.records();
        let place = place_of_no_end(draft, random);
        records.truncate(place);
        records.push(Record::End(place as u32 + 1).encode());
        records.push(vec![0xFF]);
        refused(records, Number::OutOfOrder, place)
    }),
    // A fault of the file and one found after it, or two found after it.
    ("W 0 and bytes after the end", |draft, random| {
        set_shares(draft, 0, 0);
        let mut records = draft.records();
        records.push(vec![random.bits() as u8]);
        refused(records, Number::BrokenFile, draft.at_end() + 1)
    }),
    ("W too large and wrong count", |draft, _| {
        set_shares(draft, 4_000_000_000, 1);
        draft.end_count = Some(0);
        refused(draft.records(), Number::WrongCount, draft.at_end())
    }),
    ("W 0 and a figure with status 0", |draft, random| {
        set_shares(draft, 0, 0);
        let refusal = missing_with(draft, random, |flows, f| flows.net_supply_wh = f);
        refused(draft.records(), refusal.number, refusal.place)
    }),
    ("W 0 and a missing hour", |draft, random| {
        set_shares(draft, 0, 0);
        let hour = random.below(draft.fixed.len());
        draft.fixed[hour] = missing_hour(hour);
        refused(draft.records(), Number::BadShareSum, 0)
    }),
    (
        "fixed too large late, refixed missing early",
        |draft, random| {
            have_refixed(draft);
            let last = draft.fixed.len() - 1;
            draft.refixed[0] = missing_hour(0);
            draft.fixed[last] = too_large_hour(random, last);
            refused(draft.records(), Number::ResidualTooLarge, last)
        },
    ),
    ("negative early, missing late", |draft, random| {
        let last = draft.fixed.len() - 1;
        draft.fixed[last] = missing_hour(last);
        draft.fixed[last - 1] = negative_hour(random, last - 1);
        refused(draft.records(), Number::NegativeResidual, last - 1)
    }),
    ("curve number and a later refixed hour", |draft, random| {
        have_refixed(draft);
        let last = draft.fixed.len() - 1;
        steep_curve(draft, random, 0);
        draft.refixed[last] = negative_hour(random, last);
        refused(draft.records(), Number::NegativeResidual, last)
    }),
    (
        "curve number and a reading without weight",
        |draft, random| {
            let last = draft.fixed.len() - 1;
            draft.readings.clear();
            steep_curve(draft, random, last);
            draft.fixed[0] = random_hour(random, 0, 0);
            draft.readings = vec![reading_of(draft, random, 0, 1, 5)];
            refused(draft.records(), Number::CurveNumberTooLarge, last)
        },
    ),
    (
        "too much periodised and a reading without weight",
        |draft, random| {
            let last = draft.fixed.len() - 1;
            crowded_hour(draft, random, 0);
            draft.fixed[last] = random_hour(random, last, 0);
            let reading = reading_of(draft, random, last, last + 1, 1);
            draft.readings.push(reading);
            refused(draft.records(), Number::NoWeight, 3)
        },
    ),
    // 18 among what is found after the file is read.
    ("too much weight, and a curve number", |draft, random| {
        let hour = random.below(draft.fixed.len());
        steep_curve(draft, random, hour);
        let reading = reading_of(draft, random, 0, 1, 5).weighing(1, 0);
        draft.readings.insert(0, reading);
        refused(draft.records(), Number::CurveNumberTooLarge, hour)
    }),
    ("too much weight, then no weight", |draft, random| {
        let no_weight = no_weight_reading(draft, random);
        draft.readings = vec![
            no_weight.weighing(1, 0),
            no_weight,
            no_weight.weighing(0, 0),
        ];
        refused(draft.records(), Number::TooMuchWeight, 0)
    }),
    ("no weight, then too much weight", |draft, random| {
        let no_weight = no_weight_reading(draft, random);
        let first = *random.pick(&[no_weight, no_weight.weighing(0, 0)]);
        let later = *random.pick(&[(1, 0), (u64::MAX, 0), (0, u64::MAX)]);
        draft.readings = vec![first, no_weight.weighing(later.0, later.1)];
        refused(draft.records(), Number::NoWeight, 0)
    }),
    ("08 and 04 before no weight", |draft, random| {
        // Both count for the place.
        let no_weight = no_weight_reading(draft, random);
        let before = random.any_size(1_000);
        let [mut empty, mut empty_part] = [no_weight, no_weight.weighing(before, 1_000)];
        (empty.e_wh, empty_part.e_wh) = (0, 7);
        draft.readings = vec![empty_part, empty, empty_part, no_weight];
        refused(draft.records(), Number::NoWeight, 3)
    }),
    (
        "too much weight and too much periodised",
        |draft, random| {
            let hour = random.below(draft.fixed.len());
            crowded_hour(draft, random, hour);
            let reading = reading_of(draft, random, hour, hour + 1, 0).weighing(u64::MAX, 0);
            draft.readings.push(reading);
            refused(draft.records(), Number::TooMuchWeight, 3)
        },
    ),
    ("too much periodised in an hour by 08", |draft, random| {
        // All of each reading falls into this hour.
        let hour = random.below(draft.fixed.len());
        crowded_hour(draft, random, hour);
        let own = own_weight(&curve(draft)[hour..hour + 1]);
        for reading in &mut draft.readings {
            *reading = reading.weighing(0, own);
        }
        let Weights { before, .. } = random_weights(random, own);
        let nothing = reading_of(draft, random, hour, hour + 1, 0).weighing(before, before + own);
        draft.readings.insert(1, nothing);
        refused(draft.records(), Number::TooMuchPeriodised, hour)
    }),
    // Not refixed, and another fault. One of the file comes before 17, one found after it gives 17 in a final run.
    ("not refixed, and a wrong count", |draft, random| {
        draft.refixed.clear();
        let records = draft.at_end();
        // With the refixed hours, as if they were there, or another.
        let with_refixed = records + draft.fixed.len();
        draft.end_count = Some(*random.pick(&[with_refixed, records + 1, 0]) as u32);
        refused(draft.records(), Number::WrongCount, records)
    }),
    ("not refixed, and bytes after the end", |draft, random| {
        draft.refixed.clear();
        let mut records = draft.records();
        records.push(vec![random.bits() as u8; 1 + random.below(40)]);
        refused(records, Number::BrokenFile, draft.at_end() + 1)
    }),
    ("not refixed, and the last E too large", |draft, _| {
        draft.refixed.clear();
        let last = draft.readings.len() - 1;
        draft.readings[last].e_wh = 1_000_000_001;
        refused(
            draft.records(),
            Number::ReadingTooLarge,
            draft.at_reading(last),
        )
    }),
    ("not refixed, and the last byte missing", |draft, _| {
        draft.refixed.clear();
        let mut bytes = draft.bytes();
        bytes.pop();
        refused(vec![bytes], Number::BrokenFile, draft.at_end())
    }),
    ("not refixed, and W 0", |draft, _| {
        draft.refixed.clear();
        set_shares(draft, 0, 0);
        refused(draft.records(), Number::BadShareSum, 0)
    }),
    ("not refixed, and W too large", |draft, _| {
        draft.refixed.clear();
        set_shares(draft, 4_000_000_000, 1);
        refused(draft.records(), Number::BadShareSum, 0)
    }),
    ("not refixed, and a missing hour", |draft, random| {
        draft.refixed.clear();
        let hour = random.below(draft.fixed.len());
        draft.fixed[hour] = missing_hour(hour);
        refused(draft.records(), Number::MissingHour, hour)
    }),
    ("not refixed, and too much weight", |draft, random| {
        draft.refixed.clear();
        let refusal = weights_fault(draft, random, |_, own| (1, own));
        refused(draft.records(), refusal.number, refusal.place)
    }),
    (
        "not refixed, and too much periodised in an hour",
        |draft, random| {
            draft.refixed.clear();
            let hour = random.below(draft.fixed.len());
            crowded_hour(draft, random, hour);
            refused(draft.records(), Number::TooMuchPeriodised, hour)
        },
    ),
    // No prices, and another fault. Where they would begin only 2 and 1 come before the 3 of a run that gives amounts.
    (
        "no prices, and an unknown kind in their place",
        |draft, random| {
            draft.prices.clear();
            let mut records = draft.records();
            let place = draft.at_price(0);
            records[place][0] = unknown_kind(random);
            refused(records, Number::UnknownKind, place)
        },
    ),
    ("no prices, and a cut in their place", |draft, random| {
        draft.prices.clear();
        let mut records = draft.records();
        let place = draft.at_price(0);
        records.truncate(place + 1);
        records[place].truncate(random.below(10));
        refused(records, Number::BrokenFile, place)
    }),
    (
        "no prices, and the first party out of range",
        |draft, random| {
            draft.prices.clear();
            draft.readings[0].party = outside(random, draft.parties.len() as u8, &[64, 255]);
            refused(draft.records(), Number::OutsideRange, draft.at_reading(0))
        },
    ),
    ("no prices, and the first span", |draft, _| {
        draft.prices.clear();
        draft.readings[0].b = draft.heading.hours + 1;
        refused(draft.records(), Number::BadSpan, draft.at_reading(0))
    }),
    ("no prices, and the last E too large", |draft, _| {
        draft.prices.clear();
        let last = draft.readings.len() - 1;
        draft.readings[last].e_wh = 1_000_000_001;
        let place = draft.at_reading(last);
        refused(draft.records(), Number::ReadingTooLarge, place)
    }),
    ("no prices, and a wrong count", |draft, random| {
        // With the prices, as if they were there, or another; after the readings or without any.
        draft.prices.clear();
        if random.once_in(2) {
            draft.readings.clear();
        }
        let records = draft.at_end();
        let with_prices = records + draft.fixed.len();
        draft.end_count = Some(*random.pick(&[with_prices, records + 1, 0]) as u32);
        refused(draft.records(), Number::WrongCount, records)
    }),
    ("no prices, and bytes after the end", |draft, random| {
        draft.prices.clear();
        let mut records = draft.records();
        records.push(vec![random.bits() as u8; 1 + random.below(40)]);
        refused(records, Number::BrokenFile, draft.at_end() + 1)
    }),
    ("no prices, and W 0", |draft, _| {
        draft.prices.clear();
        set_shares(draft, 0, 0);
        refused(draft.records(), Number::BadShareSum, 0)
    }),
    ("no prices, and a missing hour", |draft, random| {
        draft.prices.clear();
        let hour = random.below(draft.fixed.len());
        draft.fixed[hour] = missing_hour(hour);
        refused(draft.records(), Number::MissingHour, hour)
    }),
    (
        "no prices, and too much periodised in an hour",
        |draft, random| {
            draft.prices.clear();
            let hour = random.below(draft.fixed.len());
            crowded_hour(draft, random, hour);
            refused(draft.records(), Number::TooMuchPeriodised, hour)
        },
    ),
];

/// Leaves the first few prices, at least one and not all, and tells how many.
fn break_off_prices(draft: &mut Draft, random: &mut Random) -> usize {
    have_prices(draft, random);
    let left = 1 + random.below(draft.prices.len() - 1);
    draft.prices.truncate(left);
    left
}

/// Puts a record, which may not stand there, behind one of the readings.
fn put_after_a_reading(draft: &mut Draft, random: &mut Random, late: Record) -> (Vec<u8>, Aim) {
    let mut records = draft.records();
    let place = draft.at_reading(1 + random.below(draft.readings.len()));
    records.insert(place, late.encode());
    refused(records, Number::OutOfOrder, place)
}

/// The records with a reading or an end put in where the refixed hours or the prices begin. The draft is left as a run of
/// quantities reads the file, which then has none of these.
fn put_early(draft: &mut Draft, place: usize, early: Record) -> Vec<Vec<u8>> {
    let mut records = draft.records();
    records.insert(place, early.encode());
    if place == draft.at_refixed(0) {
        draft.refixed.clear();
    }
    draft.prices.clear();
    records
}

/// A place before the readings at which no run takes a reading or an end.
fn place_of_no_end(draft: &Draft, random: &mut Random) -> usize {
    let begins = [draft.at_refixed(0), draft.at_price(0)];
    let places = 0..draft.at_price(draft.prices.len());
    let places: Vec<usize> = places.filter(|place| !begins.contains(place)).collect();
    *random.pick(&places)
}

fn a_party_too_few(draft: &mut Draft, random: &mut Random) -> (Vec<u8>, Aim) {
    let party = random.below(draft.parties.len());
    draft.parties.remove(party);
    refused(draft.records(), Number::OutOfOrder, draft.at_fixed(0))
}

fn a_party_too_many(draft: &mut Draft, _: &mut Random) -> (Vec<u8>, Aim) {
    let place = draft.at_fixed(0);
    let mut another = draft.parties[0];
    another.gln = with_check_digit(999_999_999_999);
    draft.parties.push(another);
    refused(draft.records(), Number::OutOfOrder, place)
}

/// Parties whose every field is bad, so that whatever is judged before the fields shows.
const BAD_02: Party = Party {
    gln: b"579000000000X",
    brp_gln: None,
    load_share_kwh: u64::MAX,
};
const BAD_12: Party = Party {
    brp_gln: Some(b"X790000000009"),
    ..BAD_02
};

/// Puts this party, which is of the other kind, in the place of one that is not the first.
fn a_bad_party_after_the_first(
    draft: &mut Draft,
    random: &mut Random,
    bad: Party,
) -> (Vec<u8>, Aim) {
    let mut records = draft.records();
    let place = draft.at_party(1 + random.below(draft.parties.len() - 1));
    records[place] = Record::Party(bad).encode();
    refused(records, Number::OutOfOrder, place)
}

fn unknown_kind(random: &mut Random) -> u8 {
    *random.pick(&[0x00, 0x09, 0x0A, 0x0B, 0x11, 0x13, 0x80, 0x81, 0x92, 0xFF])
}

// Random damage, and two or three faults at random.

type RandomDamage = fn(&mut Draft, &mut Random) -> Vec<u8>;

/// Damages whose answer only the reader knows. The common ones stand here several times.
pub const RANDOM_DAMAGES: &[(&str, RandomDamage)] = &[
    ("two faults", two_faults),
    ("flipped bytes", flipped_bytes),
    ("two faults", two_faults),
    ("two records swapped", swapped_records),
    ("two faults", two_faults),
    ("flipped bytes", flipped_bytes),
    ("two faults", two_faults),
    ("two neighbours swapped", swapped_neighbours),
    ("two faults", two_faults),
    ("fault of fields and of bytes", fields_and_bytes),
    ("two faults", two_faults),
    ("cut at random", |draft, random| {
        let mut bytes = draft.bytes();
        bytes.truncate(random.below(bytes.len()));
        bytes
    }),
    ("two faults", two_faults),
    ("lengthened", |draft, random| {
        let mut bytes = draft.bytes();
        let more = 1 + random.below(60);
        bytes.extend((0..more).map(|_| random.below(10) as u8));
        bytes
    }),
    ("two faults", two_faults),
    ("lengthened inside", |draft, random| {
        let mut bytes = draft.bytes();
        bytes.insert(random.below(bytes.len()), random.bits() as u8);
        bytes
    }),
    ("two faults", two_faults),
    ("shortened inside", |draft, random| {
        let mut bytes = draft.bytes();
        bytes.remove(random.below(bytes.len()));
        bytes
    }),
    ("fault of fields and of bytes", fields_and_bytes),
    ("flipped bytes", flipped_bytes),
    ("a record dropped, the count right", |draft, random| {
        let mut records = draft.records();
        records.remove(random.below(records.len() - 1));
        recounted(records)
    }),
    ("a record doubled, the count right", |draft, random| {
        let mut records = draft.records();
        let place = random.below(records.len() - 1);
        records.insert(place, records[place].clone());
        recounted(records)
    }),
    ("a kind changed", |draft, random| {
        let mut records = draft.records();
        let place = random.below(records.len());
        records[place][0] = *random.pick(&[0, 1, 2, 3, 4, 5, 6, 7, 8, PARTY_WITH_BRP]);
        records.concat()
    }),
    ("a body of random bytes", |draft, random| {
        let mut records = draft.records();
        let place = random.below(records.len());
        for byte in &mut records[place][1..] {
            *byte = random.bits() as u8;
        }
        records.concat()
    }),
    ("random bytes", |_, random| {
        let length = random.below(200);
        (0..length).map(|_| random.below(12) as u8).collect()
    }),
    ("random bytes after a heading", |draft, random| {
        let mut bytes = Record::Heading(draft.heading).encode();
        bytes.extend((0..random.below(200)).map(|_| random.below(8) as u8));
        bytes
    }),
    ("readings at random", |draft, random| {
        // Large readings over short spans: some months take them, some give 13 or 14.
        for _ in 0..6 {
            let a = random.below(draft.fixed.len());
            let e_wh = random.any_size(1_000_000_000) as u32;
            let reading = reading_of(draft, random, a, a + 1, e_wh);
            draft.readings.push(reading);
        }
        draft.bytes()
    }),
    (
        "refixed hours, prices and readings mixed",
        |draft, random| {
            let mut records = draft.records();
            random.shuffle(&mut records[draft.at_refixed(0)..draft.at_end()]);
            records.concat()
        },
    ),
    ("readings added, the count left", |draft, random| {
        draft.end_count = Some(draft.at_end() as u32);
        let readings = random.below(2);
        add_readings(random, draft, readings);
        draft.bytes()
    }),
];

/// Two faults of the fields, in one record or in two, of one stage or of two.
fn two_faults(draft: &mut Draft, random: &mut Random) -> Vec<u8> {
    for _ in 0..2 {
        let (_, fault) = random.pick(DRAFT_FAULTS);
        fault(draft, random);
    }
    draft.bytes()
}

fn fields_and_bytes(draft: &mut Draft, random: &mut Random) -> Vec<u8> {
    let (_, fault) = random.pick(DRAFT_FAULTS);
    fault(draft, random);
    let (_, fault) = random.pick(BYTES_FAULTS);
    fault(draft, random).0
}

fn swapped_records(draft: &mut Draft, random: &mut Random) -> Vec<u8> {
    let mut records = draft.records();
    let (one, other) = (random.below(records.len()), random.below(records.len()));
    records.swap(one, other);
    records.concat()
}

fn swapped_neighbours(draft: &mut Draft, random: &mut Random) -> Vec<u8> {
    let mut records = draft.records();
    let place = random.below(records.len() - 1);
    records.swap(place, place + 1);
    records.concat()
}

/// One to three bits changed, anywhere.
fn flipped_bytes(draft: &mut Draft, random: &mut Random) -> Vec<u8> {
    let mut bytes = draft.bytes();
    for _ in 0..1 + random.below(3) {
        let place = random.below(bytes.len());
        bytes[place] ^= 1 << random.below(8);
    }
    bytes
}

/// The records with the last of them, the end, counting those before it.
fn recounted(mut records: Vec<Vec<u8>>) -> Vec<u8> {
    records.pop();
    records.push(Record::End(records.len() as u32).encode());
    records.concat()
}
