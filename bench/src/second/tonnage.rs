//! Tonnage texts: kilograms written as tonnes.

use super::reason::Reason;
use crate::answer::{Answer, Refusal};
use std::io::Write;

/// Bytes of the longest text, that of the lowest 64-bit number.
pub const LONGEST: usize = 21;
/// Digits after the comma.
const DIGITS: usize = 3;
const KILOGRAMS_PER_TONNE: u64 = 1000;

/// Reads a text as kilograms, or refuses with 18, then 19.
pub fn read_tonnage(text: &[u8]) -> Result<i64, Refusal> {
    let (negative, whole, part) = fields(text).ok_or(Reason::TextForm.at(0))?;
    let digits = whole.iter().chain(part).map(|&byte| i64::from(byte - b'0'));
    let sum = |sum: i64, digit: i64| {
        let signed = if negative { -digit } else { digit };
        sum.checked_mul(10)?.checked_add(signed)
    };
    let mut digits = digits;
    digits.try_fold(0, sum).ok_or(Reason::FigureRange.at(0))
}

/// Sign, whole tonnes and three digits of a text of the form.
fn fields(text: &[u8]) -> Option<(bool, &[u8], &[u8])> {
    let unsigned = text.strip_prefix(b"-");
    let negative = unsigned.is_some();
    let figure = unsigned.unwrap_or(text);
    let comma = figure.iter().position(|&byte| byte == b',')?;
    let (whole, part) = (&figure[..comma], &figure[comma + 1..]);
    let all_digits = whole.iter().chain(part).all(u8::is_ascii_digit);
    let leading_zero = whole.len() > 1 && whole[0] == b'0';
    let minus_zero = negative && whole == b"0" && part == b"000";
    let good = all_digits && !whole.is_empty() && part.len() == DIGITS;
    (good && !leading_zero && !minus_zero).then_some((negative, whole, part))
}

/// Writes kilograms to the front of a buffer and gives the length, or refuses with 20.
pub fn write_tonnage(buffer: &mut [u8], kilograms: i64) -> Answer {
    let (tonnes, rest) = (
        kilograms.unsigned_abs() / KILOGRAMS_PER_TONNE,
        kilograms.unsigned_abs() % KILOGRAMS_PER_TONNE,
    );
    let sign = if kilograms < 0 { "-" } else { "" };
    let mut text = [0u8; LONGEST];
    let mut free = &mut text[..];
    write!(free, "{sign}{tonnes},{rest:03}").expect("the longest text fits");
    let length = LONGEST - free.len();
    let front = buffer.get_mut(..length).ok_or(Reason::TextRoom.at(0))?;
    front.copy_from_slice(&text[..length]);
    Ok(length as u32)
}
