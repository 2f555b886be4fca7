//! The check digit against GS1's worked example and GLNs in public use.

use second::gln::{is_gln, with_check_digit};

/// GS1's worked example of the check digit: 629104150021 has 3.
#[test]
fn gs1_worked_example() {
    assert_eq!(&with_check_digit(629_104_150_021), b"6291041500213");
    assert!(is_gln(b"6291041500213"));
}

/// GS1's published examples: of the ten last digits each has its own alone. The compiled programs read the same (tests/gln).
#[test]
fn gs1_published_examples() {
    for gln in [
        b"6291041500213",
        b"4006381333931",
        b"5412345000013",
        b"4012345000009",
        b"0614141000012",
    ] {
        for digit in b'0'..=b'9' {
            let mut other = *gln;
            other[12] = digit;
            assert_eq!(is_gln(&other), digit == gln[12], "{other:?}");
        }
    }
}

/// Energinet's and the Danish DataHub's GLNs, and those of published message examples (OIOUBL, Peppol).
#[test]
fn glns_in_public_use() {
    for gln in [
        b"5790001330552",
        b"5790000432752",
        b"5798009811578",
        b"7300010000001",
    ] {
        assert!(is_gln(gln), "{gln:?}");
    }
}

#[test]
fn glns_of_s1() {
    for gln in [b"0000000000017", b"0000000000024", b"0000000000031"] {
        assert!(is_gln(gln));
    }
}

/// One wrong digit anywhere changes the weighted sum modulo 10: the weights 1 and 3 have no common factor with 10.
#[test]
fn every_single_wrong_digit_shows() {
    let good = *b"5790001330552";
    for position in 0..13 {
        for digit in b'0'..=b'9' {
            let mut other = good;
            other[position] = digit;
            assert_eq!(is_gln(&other), digit == good[position]);
        }
    }
}

#[test]
fn only_thirteen_digits_are_a_gln() {
    assert!(is_gln(b"0000000000000"));
    assert!(!is_gln(b""));
    assert!(!is_gln(b"000000000000"));
    assert!(!is_gln(b"00000000000000"));
    // Bytes that are no digits, though their values would give a right sum.
    assert!(!is_gln(b"000000000000:"));
    assert!(!is_gln(&[0; 13]));
    assert!(!is_gln(b"000000000000 "));
}

#[test]
fn the_check_digit_keeps_the_first_twelve() {
    assert_eq!(&with_check_digit(0), b"0000000000000");
    assert_eq!(&with_check_digit(999_999_999_999), b"9999999999994");
}
