//! Random inputs for the second operation (02, W6), good ones and ones with a fault: the compiled service is held against this
//! program's on them, and they tell wrong operations from the right one.

use second::random::Random;

use crate::inputs::{balance, near, other_length, size};

/// "a difference beyond 2,000,000,001 Wh of either sign"
const DIFFERENCE: i64 = 2_000_000_001;
const PRICE: i64 = 5_000_000;

/// Differences and prices as the operation is given them, and the length of the output that it is lent.
#[derive(Clone, Debug)]
pub struct PricedHours {
    pub differences: Vec<i64>,
    pub parties: usize,
    pub prices: Vec<i64>,
    pub lent: usize,
}

impl PricedHours {
    /// How many faults there are.
    pub const FAULTS: usize = 12;

    /// What each fault alone leads to, 0 being acceptance.
    pub const REFUSALS: &[(usize, &[u8])] = &[
        (0, &[16]),
        (1, &[4]),
        (2, &[4]),
        (3, &[0, 4]),
        (4, &[0, 4]),
        (5, &[0, 4]),
        (6, &[4]),
        (7, &[4]),
        (8, &[0, 19]),
        (9, &[0, 19]),
        (10, &[0, 4, 19]),
        (11, &[0, 19]),
    ];

    /// Hours whose differences add up to 0 and are within their limit: mostly few, and now and then a whole month.
    pub fn good(random: &mut Random) -> PricedHours {
        let hours = size(random, 745, 200);
        let parties = size(random, 64, 20);
        PricedHours::of_size(random, hours, parties)
    }

    fn of_size(random: &mut Random, hours: usize, parties: usize) -> PricedHours {
        let mut differences = Vec::new();
        let mut prices = Vec::new();
        for _ in 0..hours {
            differences.extend(balanced_hour(random, parties));
            let price = random.any_size(PRICE as u64) as i64;
            prices.push(*random.pick(&[price, -price]));
        }
        PricedHours {
            lent: differences.len(),
            differences,
            parties,
            prices,
        }
    }

    /// The differences of one of the hours; None where the lists do not have it.
    fn any_hour(&mut self, random: &mut Random) -> Option<&mut [i64]> {
        let hours = self.differences.chunks_mut(self.parties.clamp(1, 1_000));
        let mut hours: Vec<_> = hours.collect();
        let hour = random.below(hours.len().max(1));
        (hour < hours.len()).then(|| hours.swap_remove(hour))
    }

    pub fn damage(&mut self, random: &mut Random, fault: usize) {
        match fault {
            0 => self.lent = other_length(random, self.differences.len()),
            1 => {
                match random.below(3) {
                    0 => self.differences.truncate(self.differences.len() / 2),
                    1 => self.differences.push(0),
                    _ => self.prices.push(0),
                }
                self.lent = self.differences.len();
            }
            2 => {
                let [less, more] = [self.parties.wrapping_sub(1), self.parties + 1];
                let others = [less, more, 0, 65, 1 << 63, usize::MAX];
                self.parties = *random.pick(&others);
            }
            3 => {
                let hours = *random.pick(&[0, 1, 744, 745, 746, 747]);
                let parties = 1 + random.below(2);
                *self = PricedHours::of_size(random, hours, parties);
            }
            4 => {
                let parties = *random.pick(&[0, 1, 63, 64, 65, 66]);
                let hours = 1 + random.below(3);
                *self = PricedHours::of_size(random, hours, parties);
            }
            5 => {
                let at_limit = near(random, PRICE);
                let hour = random.below(self.prices.len().max(1));
                if let Some(price) = self.prices.get_mut(hour) {
                    *price = *random.pick(&[at_limit, -at_limit, i64::MIN, i64::MAX]);
                }
            }
            // An hour that does not add up, and too large differences in it, before it or after it.
            6 => {
                self.damage(random, 9);
                self.damage(random, 7);
            }
            _ => {
                if let Some(hour) = self.any_hour(random) {
                    damage_hour(random, hour, fault);
                }
            }
        }
    }
}

/// Differences that add up to 0: small, of any size within the limit, or at it.
fn balanced_hour(random: &mut Random, parties: usize) -> Vec<i64> {
    let most = DIFFERENCE as u64 / parties.max(2) as u64;
    let most = *random.pick(&[3, 1_000, most]);
    let mut hour: Vec<i64> = (0..parties)
        .map(|_| {
            let wh = random.any_size(most) as i64;
            *random.pick(&[wh, -wh])
        })
        .collect();
    balance(random, &mut hour);
    if random.once_in(30) {
        at_limit(random, &mut hour, DIFFERENCE);
    }
    hour
}

/// This difference for one party and its opposite for another, or for two; nothing for the others. One party alone has none.
fn at_limit(random: &mut Random, hour: &mut [i64], wh: i64) {
    if hour.len() < 2 {
        return;
    }
    hour.fill(0);
    let party = random.below(hour.len() - 1);
    let wh = *random.pick(&[wh, -wh]);
    hour[party] = wh;
    hour[party + 1] = -wh;
    if let Some(third) = hour.get_mut(party + 2) {
        // One of the two is then within its limit.
        let some = random.any_size(3) as i64 * wh.signum();
        *third = -some;
        hour[party + 1] += some;
    }
}

fn damage_hour(random: &mut Random, hour: &mut [i64], fault: usize) {
    let party = random.below(hour.len());
    match fault {
        7 => hour[party] = hour[party].wrapping_add(*random.pick(&[1, -1])),
        8 => {
            let wh = near(random, DIFFERENCE);
            at_limit(random, hour, wh);
        }
        9 => {
            let wh = *random.pick(&[DIFFERENCE + 1, 1 << 31, 1 << 32, i64::MAX]);
            at_limit(random, hour, wh);
        }
        // Their wrapped sum is 0, their true sum at times.
        10 => {
            let extremes = [i64::MIN, i64::MAX, i64::MIN + 1, 1 << 62, -(1 << 62)];
            for wh in hour.iter_mut() {
                *wh = *random.pick(&extremes);
            }
            balance(random, hour);
        }
        // Large ones, then their opposites: on the way to 0 the sum passes 64 bits.
        _ => {
            let pairs = hour.len() / 2;
            hour.fill(0);
            hour[..pairs].fill(i64::MAX);
            hour[pairs..2 * pairs].fill(-i64::MAX);
        }
    }
}
