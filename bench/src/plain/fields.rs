//! Fields of records, as numbers and bytes.

/// The day number for no end: for the end date 999999, and for a body without an end date.
pub const NO_END: u16 = 65_535;

/// The number of the last day, 2059-12-31.
pub const LAST_DAY: u16 = 36_524;

/// The bytes from an index on.
pub fn at<const N: usize>(bytes: &[u8], from: usize) -> [u8; N] {
    let mut part = [0; N];
    part.copy_from_slice(&bytes[from..from + N]);
    part
}

/// The number in the two bytes from an index on.
pub fn pair(bytes: &[u8], from: usize) -> u16 {
    u16::from_be_bytes(at(bytes, from))
}

fn two(digits: &[u8]) -> u16 {
    u16::from(digits[0] - b'0') * 10 + u16::from(digits[1] - b'0')
}

const BEFORE_MONTH: [u16; 12] = [0, 31, 59, 90, 120, 151, 181, 212, 243, 273, 304, 334];

/// The day number of a year of two digits, a month and a day, which must be a date. Every fourth
/// year is a leap year, from 1960 on.
fn number(year: &[u8], month: &[u8], day: &[u8]) -> u16 {
    let years = (two(year) + 40) % 100;
    let month = usize::from(two(month)) - 1;
    let leap = u16::from(years % 4 == 0 && month > 1);
    years * 365 + (years + 3) / 4 + BEFORE_MONTH[month] + leap + two(day) - 1
}

/// The day number of a date YYMMDD.
pub fn day(field: &[u8]) -> u16 {
    number(&field[..2], &field[2..4], &field[4..6])
}

/// The day number of a date DDMMYY.
pub fn day_first(field: &[u8]) -> u16 {
    number(&field[4..6], &field[2..4], &field[..2])
}

/// The day number of an end date.
pub fn end(field: &[u8]) -> u16 {
    if &field[..6] == b"999999" {
        NO_END
    } else {
        day(field)
    }
}

/// The day number of a date YYYY-MM-DD; none if it isn't a date from 1960 to 2059.
pub fn iso_number(date: &str) -> Option<u16> {
    let bytes = date.as_bytes();
    let digits = |from: usize, to: usize| bytes.get(from..to).filter(|part| part.iter().all(u8::is_ascii_digit));
    let (century, year, month, day) = (digits(0, 2)?, digits(2, 4)?, digits(5, 7)?, digits(8, 10)?);
    let wanted = if two(year) >= 60 { b"19" } else { b"20" };
    if bytes.len() != 10
        || bytes[4] != b'-'
        || bytes[7] != b'-'
        || century != wanted
        || two(month) == 0
        || two(month) > 12
        || two(day) == 0
    {
        return None;
    }
    let number = number(year, month, day);
    (iso(number) == date).then_some(number)
}

/// A day as YYYY-MM-DD.
pub fn iso(number: u16) -> String {
    let (mut year, mut rest) = (1960, number);
    loop {
        let length = if year % 4 == 0 { 366 } else { 365 };
        if rest < length {
            break;
        }
        rest -= length;
        year += 1;
    }
    let leap = u16::from(year % 4 == 0);
    let start = |month: usize| BEFORE_MONTH[month] + if month > 1 { leap } else { 0 };
    let month = (0..12).rev().find(|&month| start(month) <= rest).unwrap_or(0);
    format!("{year}-{:02}-{:02}", month + 1, rest - start(month) + 1)
}
