//! The GLN of a party: thirteen ASCII digits, the last of which is GS1's check digit.
//!
//! "The GLN's last digit makes the sum of all digits, weighted 1, 3, 1, 3 .. from the right, a multiple of 10."
//! (01, The month file)

use crate::limits::GLN_DIGITS;

/// A GLN as it stands in the file.
pub type Gln = [u8; GLN_DIGITS];

/// The sum of all digits, weighted 1, 3, 1, 3 .. from the right. GS1 counts the positions from the right, from 1: an odd one
/// weighs 1, an even one 3.
fn weighted_sum(digits: &[u8]) -> u64 {
    let weight = |position: u64| if position.is_multiple_of(2) { 3 } else { 1 };
    (1..)
        .zip(digits.iter().rev())
        .map(|(position, digit)| weight(position) * u64::from(digit - b'0'))
        .sum()
}

/// Whether these bytes are a GLN: thirteen digits with the right check digit.
pub fn is_gln(bytes: &[u8]) -> bool {
    bytes.len() == GLN_DIGITS
        && bytes.iter().all(u8::is_ascii_digit)
        && weighted_sum(bytes).is_multiple_of(10)
}

/// The GLN whose first twelve digits are this number (its lowest twelve digits).
pub fn with_check_digit(first_twelve: u64) -> Gln {
    let mut gln = [b'0'; GLN_DIGITS];
    let mut rest = first_twelve;
    for digit in gln[..GLN_DIGITS - 1].iter_mut().rev() {
        *digit = b'0' + (rest % 10) as u8;
        rest /= 10;
    }
    // The check digit itself has weight 1, so it is what the sum lacks to the next multiple of 10.
    let lacking = (10 - weighted_sum(&gln) % 10) % 10;
    gln[GLN_DIGITS - 1] = b'0' + lacking as u8;
    gln
}
