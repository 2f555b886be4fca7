//! What the makers of random inputs for services share.

use second::random::Random;

/// No fault, one or two, of so many.
pub fn faults(random: &mut Random, kinds: usize) -> Vec<usize> {
    let count = [0, 1, 1, 2][random.below(4)];
    (0..count).map(|_| random.below(kinds)).collect()
}

/// A count from 1 to most: mostly few, at times any.
pub fn size(random: &mut Random, most: usize, any_once_in: u64) -> usize {
    if random.once_in(any_once_in) {
        return 1 + random.below(most);
    }
    1 + random.below(most.min(9))
}

/// At, one below or one above a limit.
pub fn near(random: &mut Random, limit: i64) -> i64 {
    limit + random.between(-1, 1)
}

/// Another length than this: one less, one more, none, or far more.
pub fn other_length(random: &mut Random, length: usize) -> usize {
    *random.pick(&[length.saturating_sub(1), length + 1, 0, length + 5_000])
}

/// Sets one of the figures so that all add up to 0, as 64 bits count.
pub fn balance(random: &mut Random, figures: &mut [i64]) {
    if figures.is_empty() {
        return;
    }
    let balancing = random.below(figures.len());
    figures[balancing] = 0;
    let sum = figures.iter().fold(0i64, |sum, &f| sum.wrapping_add(f));
    figures[balancing] = sum.wrapping_neg();
}
