//! Days as dates. The format does not say which day is day 0; where days are printed or read as dates here, it is 1 January 1970.

/// The year of day 0.
const FIRST_YEAR: u16 = 1970;

/// The date of a day, such as 2027-07-01 for day 21,000. The first is 1970-01-01 and the last 2149-06-06; dates so written are in the
/// order of their days.
pub fn date(day: u16) -> String {
    let (mut year, mut left) = (FIRST_YEAR, day);
    while left >= days_of_year(year) {
        left -= days_of_year(year);
        year += 1;
    }
    let mut month = 1;
    while left >= days_of_month(year, month) {
        left -= days_of_month(year, month);
        month += 1;
    }
    format!("{year:04}-{month:02}-{:02}", left + 1)
}

/// Has a year of the Gregorian calendar a 29 February?
fn is_leap(year: u16) -> bool {
    year.is_multiple_of(4) && !year.is_multiple_of(100) || year.is_multiple_of(400)
}

/// Days of a year.
fn days_of_year(year: u16) -> u16 {
    365 + u16::from(is_leap(year))
}

/// Days of a month, from 1.
fn days_of_month(year: u16, month: u16) -> u16 {
    match month {
        2 => 28 + u16::from(is_leap(year)),
        4 | 6 | 9 | 11 => 30,
        _ => 31,
    }
}
