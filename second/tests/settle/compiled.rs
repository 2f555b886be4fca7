//! The compiled services of include/sayarimu.h, called as C calls them: every lent output is filled with a pattern first,
//! and a refusal must leave it.

#[link(name = "settle_c", kind = "static")]
extern "C" {
    fn settle_residual(
        statuses: *const u8,
        statuses_len: usize,
        nets: *const i64,
        nets_len: usize,
        productions: *const u64,
        productions_len: usize,
        hourlies: *const u64,
        hourlies_len: usize,
        flexes: *const u64,
        flexes_len: usize,
        out: *mut u32,
        out_len: usize,
    ) -> u64;
    fn settle_curve(
        residuals: *const u32,
        residuals_len: usize,
        w: u64,
        out: *mut u32,
        out_len: usize,
    ) -> u64;
    fn settle_distribution(
        shares: *const u64,
        shares_len: usize,
        residuals: *const u32,
        residuals_len: usize,
        out: *mut i64,
        out_len: usize,
    ) -> u64;
    fn settle_periodisation(
        e: u64,
        weights: *const u32,
        weights_len: usize,
        out: *mut u32,
        out_len: usize,
    ) -> u64;
    fn settle_plan(
        e: u64,
        a: u16,
        b: u16,
        parties: *const u8,
        parties_len: usize,
        hours: *const u16,
        hours_len: usize,
        curves: *const u32,
        curves_len: usize,
        out_a: *mut u16,
        out_a_len: usize,
        out_b: *mut u16,
        out_b_len: usize,
        out_before: *mut u64,
        out_before_len: usize,
        out_whole: *mut u64,
        out_whole_len: usize,
    ) -> u64;
    fn settle_reconciliation(
        residual: u32,
        distributed: *const i64,
        distributed_len: usize,
        periodised: *const u32,
        periodised_len: usize,
        carrier: usize,
        price: i64,
        differences: *mut i64,
        differences_len: usize,
        amounts: *mut i64,
        amounts_len: usize,
        loss: *mut i64,
    ) -> u64;
    fn settle_amounts(
        differences: *const i64,
        differences_len: usize,
        parties: usize,
        prices: *const i64,
        prices_len: usize,
        amounts: *mut i64,
        amounts_len: usize,
    ) -> u64;
    fn settle_invoice(
        amounts: *const i64,
        amounts_len: usize,
        out: *mut i64,
        out_len: usize,
    ) -> u64;
}

/// What stands in a lent output before a call.
const PATTERN: u32 = 0xA5C3_5A3C;

/// The figures of an accepted call, or number and place of a refused one.
pub type Told<T> = Result<T, (u8, usize)>;

/// The answer taken apart; a refused call must have left what it was lent.
fn told<T>(answer: u64, figures: T, unchanged: bool) -> Told<T> {
    if answer == 0 {
        return Ok(figures);
    }
    assert!(unchanged, "refused with {answer} and written");
    Err(((answer % 256) as u8, (answer / 256) as usize))
}

pub fn residual(
    statuses: &[u8],
    nets: &[i64],
    productions: &[u64],
    hourlies: &[u64],
    flexes: &[u64],
    lent: usize,
) -> Told<Vec<u32>> {
    let mut out = vec![PATTERN; lent];
    // SAFETY: each pointer and length is of one live list, and the output is lent to this call alone.
    let answer = unsafe {
        settle_residual(
            statuses.as_ptr(),
            statuses.len(),
            nets.as_ptr(),
            nets.len(),
            productions.as_ptr(),
            productions.len(),
            hourlies.as_ptr(),
            hourlies.len(),
            flexes.as_ptr(),
            flexes.len(),
            out.as_mut_ptr(),
            out.len(),
        )
    };
    let unchanged = out.iter().all(|&figure| figure == PATTERN);
    told(answer, out, unchanged)
}

pub fn curve(residuals: &[u32], w: u64, lent: usize) -> Told<Vec<u32>> {
    let mut out = vec![PATTERN; lent];
    // SAFETY: as above.
    let answer = unsafe {
        settle_curve(
            residuals.as_ptr(),
            residuals.len(),
            w,
            out.as_mut_ptr(),
            out.len(),
        )
    };
    let unchanged = out.iter().all(|&figure| figure == PATTERN);
    told(answer, out, unchanged)
}

pub fn distribution(shares: &[u64], residuals: &[u32], lent: usize) -> Told<Vec<i64>> {
    let mut out = vec![i64::from(PATTERN); lent];
    // SAFETY: as above.
    let answer = unsafe {
        settle_distribution(
            shares.as_ptr(),
            shares.len(),
            residuals.as_ptr(),
            residuals.len(),
            out.as_mut_ptr(),
            out.len(),
        )
    };
    let unchanged = out.iter().all(|&figure| figure == i64::from(PATTERN));
    told(answer, out, unchanged)
}

pub fn periodisation(e: u64, weights: &[u32], lent: usize) -> Told<Vec<u32>> {
    let mut out = vec![PATTERN; lent];
    // SAFETY: as above.
    let answer = unsafe {
        settle_periodisation(
            e,
            weights.as_ptr(),
            weights.len(),
            out.as_mut_ptr(),
            out.len(),
        )
    };
    let unchanged = out.iter().all(|&figure| figure == PATTERN);
    told(answer, out, unchanged)
}

/// A reading over several months, as the planner is given it.
#[derive(Clone, Debug)]
pub struct Year {
    pub e: u64,
    pub a: u16,
    pub b: u16,
    pub parties: Vec<u8>,
    pub hours: Vec<u16>,
    pub curves: Vec<u32>,
}

/// The a, the b, the weight before and the weight of the whole reading of each month's record.
pub type Plan = (Vec<u16>, Vec<u16>, Vec<u64>, Vec<u64>);

pub fn plan(year: &Year, lent: [usize; 4]) -> Told<Plan> {
    let (narrow, wide) = (PATTERN as u16, u64::from(PATTERN));
    let mut spans = [lent[0], lent[1]].map(|length| vec![narrow; length]);
    let mut weights = [lent[2], lent[3]].map(|length| vec![wide; length]);
    let [a, b] = &mut spans;
    let [before, whole] = &mut weights;
    // SAFETY: as above.
    let answer = unsafe {
        settle_plan(
            year.e,
            year.a,
            year.b,
            year.parties.as_ptr(),
            year.parties.len(),
            year.hours.as_ptr(),
            year.hours.len(),
            year.curves.as_ptr(),
            year.curves.len(),
            a.as_mut_ptr(),
            a.len(),
            b.as_mut_ptr(),
            b.len(),
            before.as_mut_ptr(),
            before.len(),
            whole.as_mut_ptr(),
            whole.len(),
        )
    };
    let unchanged = spans.iter().flatten().all(|&hour| hour == narrow)
        && weights.iter().flatten().all(|&weight| weight == wide);
    let ([a, b], [before, whole]) = (spans, weights);
    told(answer, (a, b, before, whole), unchanged)
}

/// The loss, the differences and the amounts of an hour.
pub type Hour = (i64, Vec<i64>, Vec<i64>);

pub fn reconciliation(
    residual: u32,
    distributed: &[i64],
    periodised: &[u32],
    carrier: usize,
    price: i64,
    lent_differences: usize,
    lent_amounts: usize,
) -> Told<Hour> {
    let pattern = i64::from(PATTERN);
    let mut differences = vec![pattern; lent_differences];
    let mut amounts = vec![pattern; lent_amounts];
    let mut loss = pattern;
    // SAFETY: as above, and the loss is a live number lent to this call alone.
    let answer = unsafe {
        settle_reconciliation(
            residual,
            distributed.as_ptr(),
            distributed.len(),
            periodised.as_ptr(),
            periodised.len(),
            carrier,
            price,
            differences.as_mut_ptr(),
            differences.len(),
            amounts.as_mut_ptr(),
            amounts.len(),
            &mut loss,
        )
    };
    let lent = differences.iter().chain(&amounts).chain([&loss]);
    let unchanged = lent.into_iter().all(|&figure| figure == pattern);
    told(answer, (loss, differences, amounts), unchanged)
}

pub fn amounts(differences: &[i64], parties: usize, prices: &[i64], lent: usize) -> Told<Vec<i64>> {
    let mut out = vec![i64::from(PATTERN); lent];
    // SAFETY: as above.
    let answer = unsafe {
        settle_amounts(
            differences.as_ptr(),
            differences.len(),
            parties,
            prices.as_ptr(),
            prices.len(),
            out.as_mut_ptr(),
            out.len(),
        )
    };
    let unchanged = out.iter().all(|&figure| figure == i64::from(PATTERN));
    told(answer, out, unchanged)
}

pub fn invoice(amounts: &[i64], lent: usize) -> Told<Vec<i64>> {
    let mut out = vec![i64::from(PATTERN); lent];
    // SAFETY: as above.
    let answer =
        unsafe { settle_invoice(amounts.as_ptr(), amounts.len(), out.as_mut_ptr(), out.len()) };
    let unchanged = out.iter().all(|&figure| figure == i64::from(PATTERN));
    told(answer, out, unchanged)
}
