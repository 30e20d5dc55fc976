//! The readings of number.rs, kind and value, on the edge examples and on values spelled out and
//! read back. The very byte is for tests/very_byte.rs.

use second::dice::Dice;
use second::examples::{Example, INTEGERS, POINTLESS_REALS, REALS};
use second::number;
use second::texts::FAMILIES;

fn integer(field: &[u8]) -> (u32, i64) {
    number::integer(field).kind_and_value()
}

fn real(field: &[u8]) -> (u32, i64) {
    number::real(field).kind_and_value()
}

fn check(examples: &[Example], reading: fn(&[u8]) -> (u32, i64)) {
    for &(text, kind, value) in examples {
        assert_eq!(
            reading(text),
            (kind, value),
            "text {:?}",
            text.escape_ascii().to_string()
        );
    }
}

#[test]
fn integer_examples() {
    check(INTEGERS, integer);
}

#[test]
fn real_examples() {
    check(REALS, real);
    check(POINTLESS_REALS, real);
}

#[test]
fn every_length_is_judged_before_form() {
    for length in 0..300 {
        let short = |longest: usize, inside: u32| {
            if length == 0 || length > longest {
                1
            } else {
                inside
            }
        };
        for filler in [b' ', b'x', b'\t', 0, 160] {
            let text = vec![filler; length];
            assert_eq!(integer(&text), (short(6, 6), 0));
            assert_eq!(real(&text), (short(24, 6), 0));
        }
        let zeros = vec![b'0'; length];
        assert_eq!(integer(&zeros), (short(6, 0), 0));
        assert_eq!(real(&zeros), (short(24, 0), 0));
    }
}

#[test]
fn every_integer_of_six_bytes_reads_back() {
    for value in -99_999..=999_999_i64 {
        assert_eq!(integer(format!("{value:6}").as_bytes()), (0, value));
        if value >= 0 {
            assert_eq!(integer(format!("{value:06}").as_bytes()), (0, value));
        }
    }
}

#[test]
fn blanks_may_stand_on_both_sides_of_a_real_only() {
    for left in 0..=21 {
        for right in 0..=21 - left {
            let text = format!("{}-.5{}", " ".repeat(left), " ".repeat(right));
            assert_eq!(real(text.as_bytes()), (0, -500_000_000));
        }
    }
    for left in 0..=4 {
        for right in 0..=4 - left {
            let text = format!("{}-5{}", " ".repeat(left), " ".repeat(right));
            let expected = if right == 0 { (0, -5) } else { (6, 0) };
            assert_eq!(integer(text.as_bytes()), expected);
        }
    }
}

#[test]
fn one_digit_under_every_exponent() {
    for exponent in -99_i32..=99 {
        for letter in ["D", "E"] {
            let expected = match exponent {
                9.. => (7, 0),
                -9..=8 => (0, 7 * 10_i64.pow((exponent + 9) as u32)),
                _ => (8, 0),
            };
            assert_eq!(real(format!("7.{letter}{exponent}").as_bytes()), expected);
            assert_eq!(
                real(format!("7.0{letter}{exponent:+03}").as_bytes()),
                expected
            );
            assert_eq!(real(format!("-0{letter}{exponent:+}").as_bytes()), (0, 0));
        }
    }
}

/// Kind and value of `digits` × ten to the `power`, by arithmetic on the number instead of on its
/// digits as they are written.
fn judged(negative: bool, digits: &[u8], power: i32) -> (u32, i64) {
    let text = std::str::from_utf8(digits).expect("digits");
    let mut number: u128 = text.parse().expect("24 digits at most");
    if number == 0 {
        return (0, 0);
    }
    let mut places = power + 9;
    let mut size = 0;
    while number.is_multiple_of(10) {
        number /= 10;
        places += 1;
    }
    while number / 10_u128.pow(size) > 0 {
        size += 1;
    }
    // Billionths have `size` + `places` digits.
    if size as i32 + places > 18 {
        return (7, 0);
    }
    if places < 0 || size > 15 {
        return (8, 0);
    }
    let value = number as i64 * 10_i64.pow(places as u32);
    (0, if negative { -value } else { value })
}

/// Sign, digits and exponent of a real without a point; None for any other text.
fn parts_without_point(field: &[u8]) -> Option<(bool, Vec<u8>, i32)> {
    if !(1..=24).contains(&field.len()) || ![0, 7, 8].contains(&real(field).0) {
        return None;
    }
    let text = std::str::from_utf8(field).ok()?.trim_matches(' ');
    if text.contains('.') {
        return None;
    }
    let (mantissa, exponent) = text.split_once(['D', 'E']).unwrap_or((text, "0"));
    let digits = mantissa.trim_start_matches(['+', '-']);
    Some((
        mantissa.starts_with('-'),
        digits.as_bytes().to_vec(),
        exponent.parse().expect("of right form"),
    ))
}

/// Every length, every count of digits that fits, every exponent, at both ends of the field.
#[test]
fn reals_without_a_point_of_every_length() {
    let mut dice = Dice::new(9);
    let mut texts = 0;
    for length in 1..=24_usize {
        let decimals = [15, 4, 6][usize::from(length == 7) + 2 * usize::from(length == 12)];
        for exponent in -100_i32..=99 {
            // -100 stands for none.
            let (tail, exponent) = match exponent {
                -100 => (String::new(), 0),
                _ => (format!("{}{exponent}", dice.pick(&["D", "E"])), exponent),
            };
            for count in 1..=length.saturating_sub(tail.len()) {
                let mut digits = dice.digits(count);
                let zeros = dice.size(0, count - 1);
                digits[count - zeros..].fill(b'0');
                let number = [&digits[..], tail.as_bytes()].concat();
                let room = length - number.len();
                let left = *dice.pick(&[0, room]);
                let field = [vec![b' '; left], number, vec![b' '; room - left]].concat();
                let expected = judged(false, &digits, exponent - decimals);
                assert_eq!(real(&field), expected, "\"{}\"", field.escape_ascii());
                texts += 1;
            }
        }
    }
    assert!(texts > 40_000);
}

/// A way to get the number of decimals, or the exponent, wrong: how far the point is moved, from
/// the field, its digits and its exponent.
type Slip = (&'static str, fn(&[u8], &[u8], i32) -> i32);

fn decimals(length: usize) -> i32 {
    match length {
        12 => 6,
        7 => 4,
        _ => 15,
    }
}

const SLIPS: [Slip; 10] = [
    ("none put in, as before request 4", |_, _, e| e),
    ("15 in 12 bytes", |f, _, e| {
        e - if f.len() == 7 { 4 } else { 15 }
    }),
    ("15 in 7 bytes", |f, _, e| {
        e - if f.len() == 12 { 6 } else { 15 }
    }),
    ("6 in all but 24 and 7 bytes", |f, _, e| {
        e - match f.len() {
            24 => 15,
            7 => 4,
            _ => 6,
        }
    }),
    ("by the digits, not the field", |_, d, e| {
        e - decimals(d.len())
    }),
    ("by the field without its blanks", |f, _, e| {
        e - decimals(f.trim_ascii().len())
    }),
    ("only where no exponent stands", |f, _, e| {
        match f.iter().any(|byte| b"DE".contains(byte)) {
            true => e,
            false => -decimals(f.len()),
        }
    }),
    ("not before an exponent below zero", |f, _, e| match e < 0 {
        true => e,
        false => e - decimals(f.len()),
    }),
    ("before all digits there are", |_, d, e| e - d.len() as i32),
    ("only where the digits are that many", |f, d, e| {
        e - decimals(f.len()).min(d.len() as i32)
    }),
];

/// The texts compared tell each slip from the rule, in every sort of field that it is about.
#[test]
fn each_slip_with_a_point_put_in_shows() {
    let mut seen = [0_u32; SLIPS.len()];
    let mut dice = Dice::new(10);
    for family in FAMILIES {
        (family.make)(&mut dice, &mut |text| {
            let Some((negative, digits, exponent)) = parts_without_point(text) else {
                return;
            };
            let found = real(text);
            let right = exponent - decimals(text.len());
            assert_eq!(found, judged(negative, &digits, right), "{text:?}");
            for (times, (_, slip)) in seen.iter_mut().zip(SLIPS) {
                let power = slip(text, &digits, exponent);
                *times += u32::from(judged(negative, &digits, power) != found);
            }
        });
    }
    for (times, (name, _)) in seen.iter().zip(SLIPS) {
        assert!(*times > 1_000, "{name}: {times}");
    }
}

/// Kind and value that a number of billionths must get, from its size and its digits.
fn expected(billionths: i64) -> (u32, i64) {
    if billionths.unsigned_abs() >= 1_000_000_000_000_000_000 {
        return (7, 0);
    }
    let digits = billionths.unsigned_abs().to_string();
    let significant = digits.trim_end_matches('0').len();
    if significant > 15 {
        (8, 0)
    } else {
        (0, billionths)
    }
}

#[test]
fn values_spelled_in_several_ways_read_back() {
    let mut dice = Dice::new(7);
    for _ in 0..200_000 {
        let size = dice.size(1, 18) as u32;
        let cut = 10_i64.pow(dice.size(0, 6) as u32);
        let magnitude = dice.between(0, 10_i64.pow(size) - 1) / cut * cut;
        let value = if dice.one_in(2) {
            -magnitude
        } else {
            magnitude
        };
        let sign = if value < 0 { "-" } else { "" };
        let plain = format!(
            "{sign}{}.{:09}",
            magnitude / 1_000_000_000,
            magnitude % 1_000_000_000
        );
        assert_eq!(real(plain.as_bytes()), expected(value), "{plain}");
        // Without a point the exponent makes up for the decimals of each width.
        let wide = format!("{value}D6");
        assert_eq!(real(format!("{wide:>24}").as_bytes()), expected(value));
        for (width, tail) in [(12, "D-3"), (7, "E-5")] {
            let text = format!("{value}{tail}");
            if text.len() <= width {
                let field = format!("{text:width$}");
                assert_eq!(real(field.as_bytes()), expected(value), "{field}");
            }
        }
        assert_eq!(
            real(format!("{sign}.{magnitude:018}E9").as_bytes()),
            expected(value)
        );
    }
}
