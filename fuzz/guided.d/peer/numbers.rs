//! The texts of floating-point numbers, decimals and intervals.

use std::fmt::Write as _;
use std::ops::RangeInclusive;

/// The single that equals the half with these bits.
fn half(bits: u16) -> f32 {
    let (exponent, fraction) = (u32::from(bits >> 10 & 31), f32::from(bits & 1023));
    let size = match exponent {
        31 if fraction > 0.0 => f32::NAN,
        31 => f32::INFINITY,
        // subnormal: the step is that of the exponent 1
        0 => fraction * f32::from_bits(103 << 23),
        _ => (1024.0 + fraction) * f32::from_bits((exponent + 102) << 23),
    };
    if bits >> 15 > 0 { -size } else { size }
}

/// The text of a floating-point number of 2, 4 or 8 bytes.
pub fn push_float(out: &mut String, bytes: &[u8]) {
    match *bytes {
        [a, b] => push_single(out, half(u16::from_le_bytes([a, b]))),
        [a, b, c, d] => push_single(out, f32::from_le_bytes([a, b, c, d])),
        _ => push_double(out, f64::from_le_bytes(bytes.try_into().unwrap())),
    }
}

fn push_single(out: &mut String, number: f32) {
    let shortest = format!("{number:e}");
    let nearest = format!("{number:.*e}", places(&shortest));
    let is_it = nearest.parse() == Ok(number);
    push_digits(out, if is_it { &nearest } else { &shortest }, -5..=13);
}

fn push_double(out: &mut String, number: f64) {
    let shortest = format!("{number:e}");
    let nearest = format!("{number:.*e}", places(&shortest));
    let is_it = nearest.parse() == Ok(number);
    push_digits(out, if is_it { &nearest } else { &shortest }, -4..=16);
}

/// How many digits are between the point and the exponent.
fn places(text: &str) -> usize {
    let point = text.find('.').map_or(text.len(), |at| at + 1);
    text[point..].find('e').unwrap_or(0)
}

/// Writes a number that has one digit before the point, and an exponent: without one if so many
/// digits are before the point then.
fn push_digits(out: &mut String, text: &str, plain: RangeInclusive<i32>) {
    let Some((digits, exponent)) = text.split_once('e') else {
        return out.push_str(text);
    };
    if let Some(rest) = digits.strip_prefix('-') {
        out.push('-');
        return push_digits(out, &format!("{rest}e{exponent}"), plain);
    }
    let mut digits = digits.replace('.', "");
    let point = exponent.parse::<i32>().unwrap() + 1;
    if plain.contains(&point) {
        while (digits.len() as i32) <= point {
            digits.push('0');
        }
        push_point(out, digits, point);
    } else {
        out.push_str(&digits[..1]);
        if digits.len() > 1 {
            let _ = write!(out, ".{}", &digits[1..]);
        }
        let _ = write!(out, "e{exponent}");
    }
}

/// Digits with a point after so many of them, and with zeros before it.
fn push_point(out: &mut String, digits: String, point: i32) {
    let zeros = usize::try_from(1 - point).unwrap_or(0);
    let digits = "0".repeat(zeros) + &digits;
    let point = point.max(1) as usize;
    let _ = write!(out, "{}.{}", &digits[..point], &digits[point..]);
}

/// The text of a decimal, whose whole number has these bytes in two's complement.
pub fn push_decimal(out: &mut String, bytes: &[u8], scale: i32) {
    let is_negative = bytes[bytes.len() - 1] >= 0x80;
    if is_negative {
        out.push('-');
    }
    let digits = digits(bytes, is_negative);
    match scale {
        0 => out.push_str(&digits),
        1.. => {
            let point = digits.len() as i32 - scale;
            push_point(out, digits, point)
        }
        _ => {
            let _ = write!(out, "{digits}e{}", -scale);
        }
    }
}

/// The decimal digits of a whole number, or of minus it: it is divided by ten until nothing is left.
fn digits(bytes: &[u8], is_negative: bool) -> String {
    let mut rest = bytes.to_vec();
    let mut carry = is_negative;
    for byte in rest.iter_mut().filter(|_| is_negative) {
        (*byte, carry) = (!*byte).overflowing_add(carry.into());
    }
    let mut digits = Vec::new();
    while digits.is_empty() || rest.iter().any(|byte| *byte > 0) {
        let mut left = 0;
        for byte in rest.iter_mut().rev() {
            let number = left << 8 | u32::from(*byte);
            (*byte, left) = ((number / 10) as u8, number % 10);
        }
        digits.push(char::from_digit(left, 10).unwrap());
    }
    digits.iter().rev().collect()
}

/// The text of an interval of months, of days and milliseconds, or of months, days and nanoseconds.
pub fn push_interval(out: &mut String, bytes: &[u8]) {
    let number = |at: usize| i32::from_le_bytes(bytes[at..at + 4].try_into().unwrap());
    let _ = match bytes.len() {
        4 => write!(out, "{}M", number(0)),
        8 => write!(out, "{}d{}ms", number(0), number(4)),
        _ => {
            let nanoseconds = i64::from_le_bytes(bytes[8..].try_into().unwrap());
            write!(out, "{}M{}d{nanoseconds}ns", number(0), number(4))
        }
    };
}
