//! The shapes of codes, days and names.

/// A right number: 1 to 999,999 without a 0 before it.
fn is_number(text: &str) -> bool {
    (1..=6).contains(&text.len())
        && text.bytes().all(|byte| byte.is_ascii_digit())
        && !text.starts_with('0')
}

fn are_digits(text: &[u8], count: usize) -> bool {
    text.len() == count && text.iter().all(u8::is_ascii_digit)
}

/// The code of an own object: a year, then one to three right numbers, then perhaps a letter.
pub fn is_own(text: &str) -> bool {
    let text = text
        .strip_suffix(|last: char| last.is_ascii_lowercase())
        .unwrap_or(text);
    let mut count = 0;
    for part in text.get(4..).unwrap_or("").split('.').skip(1) {
        count += 1;
        if count > 3 || !is_number(part) {
            return false;
        }
    }
    let bytes = text.as_bytes();
    count > 0 && are_digits(&bytes[..4], 4) && bytes[4] == b'.'
}

pub fn is_borrowed(text: &str) -> bool {
    text.strip_prefix('L').is_some_and(is_own)
}

pub fn is_container(text: &str) -> bool {
    text.strip_prefix('C').is_some_and(is_number)
}

pub fn is_thing(text: &str) -> bool {
    match text.as_bytes().first() {
        Some(b'C') => is_container(text),
        Some(b'L') => is_borrowed(text),
        _ => is_own(text),
    }
}

pub fn is_place(text: &str) -> bool {
    let is_segment = |segment: &str| {
        let is_right = |byte: u8| byte.is_ascii_uppercase() || byte.is_ascii_digit();
        (1..=8).contains(&segment.len()) && segment.bytes().all(is_right)
    };
    text.split('-').all(is_segment) && text.split('-').count() <= 4
}

pub fn is_loan(text: &str) -> bool {
    let Some(rest) = text.strip_prefix("LO").or(text.strip_prefix("LI")) else {
        return false;
    };
    rest.split_once('.')
        .is_some_and(|(year, number)| are_digits(year.as_bytes(), 4) && is_number(number))
}

/// A day of the calendar in the years 1 to 9999, as a number whose digits are the day's.
pub fn day(text: &str) -> Option<u32> {
    let [y0, y1, y2, y3, b'-', m0, m1, b'-', d0, d1] = *text.as_bytes() else {
        return None;
    };
    let digits = [y0, y1, y2, y3, m0, m1, d0, d1];
    if !are_digits(&digits, 8) {
        return None;
    }
    let number = digits
        .iter()
        .fold(0, |sum, byte| sum * 10 + u32::from(byte - b'0'));
    let (year, month, day) = (number / 10_000, number / 100 % 100, number % 100);
    let is_leap = year % 4 == 0 && (year % 100 != 0 || year % 400 == 0);
    let last = match month {
        2 => 28 + u32::from(is_leap),
        4 | 6 | 9 | 11 => 30,
        1..=12 => 31,
        _ => 0,
    };
    (year > 0 && (1..=last).contains(&day)).then_some(number)
}

pub fn is_name(text: &str) -> bool {
    (1..=60).contains(&text.len()) && text.bytes().all(|byte| byte >= 32 && byte != 127)
}

pub fn is_station(text: &str) -> bool {
    (1..=16).contains(&text.len())
        && text
            .bytes()
            .all(|byte| byte.is_ascii_alphanumeric() || byte == b'-')
}
