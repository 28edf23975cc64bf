//! The rules of `docs/RULES.md` in plain Rust. It shares no code with the proved crates and goes other ways where it can:
//! whole numbers of 128 bits, a calendar that counts days, and text by its pieces. Nothing here is proved.

use crate::{Excess, Month, Parts};
use std::cmp::Ordering;

/// The day of a date, counted from the first of March of the year 0. A year is taken to begin in March, so that a leap day is its last.
fn day_number(year: i128, number: i128, day: i128) -> i128 {
    let (year, month) = if number > 2 {
        (year, number - 3)
    } else {
        (year - 1, number + 9)
    };
    let leap_days = year.div_euclid(4) - year.div_euclid(100) + year.div_euclid(400);
    // the five months from March on have 153 days, and so have the five from August on
    365 * year + leap_days + (153 * month + 2) / 5 + day - 1
}

/// The month in which a day lies: the inverse of `day_number`.
fn month_of(day: i128) -> Month {
    // the calendar repeats every 400 years
    let rounds = day.div_euclid(146_097);
    let day = day.rem_euclid(146_097);
    // without the leap days of every fourth year, every century and the whole round, each year has 365 days
    let years = (day - day / 1_460 + day / 36_524 - day / 146_096) / 365;
    let day = day - (365 * years + years / 4 - years / 100);
    let month = (5 * day + 2) / 153;
    let year = 400 * rounds + years;
    if month < 10 {
        Month {
            year,
            number: month + 3,
        }
    } else {
        Month {
            year: year + 1,
            number: month - 9,
        }
    }
}

/// The month, if it is one: they run from January 2000 to December 2099.
fn in_range(month: Month) -> Option<Month> {
    let named = (2000..=2099).contains(&month.year) && (1..=12).contains(&month.number);
    named.then_some(month)
}

/// The first day of a month that there is.
fn first_day(year: u16, number: u8) -> Option<i128> {
    let month = in_range(Month {
        year: year.into(),
        number: number.into(),
    })?;
    Some(day_number(month.year, month.number, 1))
}

/// How many days a month has: those before the first day of the month in which the 32nd would lie.
pub fn month_days(year: u16, number: u8) -> Option<i128> {
    let first = first_day(year, number)?;
    let after = month_of(first + 31);
    Some(day_number(after.year, after.number, 1) - first)
}

/// The month in which the day after a month's last one lies.
pub fn next_month(year: u16, number: u8) -> Option<Month> {
    let first = first_day(year, number)?;
    in_range(month_of(first + month_days(year, number)?))
}

/// The month in which the day before a month's first one lies.
pub fn previous_month(year: u16, number: u8) -> Option<Month> {
    in_range(month_of(first_day(year, number)? - 1))
}

/// The parts of an imbalance under Monthly at 3, 4 or 5 percent; there is no other tolerance.
pub fn monthly_split(percent: u8, usage: u32, imbalance: i32) -> Option<Parts> {
    if !(3..=5).contains(&percent) {
        return None;
    }
    let (percent, usage, imbalance) = (
        i128::from(percent),
        i128::from(usage),
        i128::from(imbalance),
    );
    let band = usage * percent / 100;
    let tenth = usage / 10;
    let kept = imbalance.clamp(-band, band);
    let within = imbalance.clamp(-tenth, tenth);
    Some(Parts {
        kept,
        tier_one: within - kept,
        tier_two: imbalance - within,
    })
}

/// The parts of an imbalance under Self-Balancing.
pub fn self_balancing_split(monthly_quantity: u32, imbalance: i32) -> Parts {
    let imbalance = i128::from(imbalance);
    let band = i128::from(monthly_quantity) / 100;
    let kept = imbalance.clamp(-band, band);
    Parts {
        kept,
        tier_one: 0,
        tier_two: imbalance - kept,
    }
}

/// What a day has above its limits under Self-Balancing.
pub fn self_balancing_excess(
    receipts: u32,
    usage: u32,
    order_in_effect: bool,
    monthly_quantity: u32,
    accumulated: i32,
) -> Excess {
    let usage = i128::from(usage);
    let distance = (i128::from(receipts) - usage).abs();
    let magnitude = i128::from(accumulated).abs();
    Excess {
        daily: if order_in_effect {
            0
        } else {
            (distance - usage / 10).max(0)
        },
        accumulated: (magnitude - i128::from(monthly_quantity) / 100).max(0),
    }
}

/// The nearest whole cent of an amount in ten-thousandths of a cent. What lies above the next lower cent is compared with half a cent.
fn nearest_cent(amount: i128) -> i128 {
    let lower = amount.div_euclid(10_000);
    let above = amount.rem_euclid(10_000);
    match above.cmp(&5_000) {
        Ordering::Less => lower,
        Ordering::Greater => lower + 1,
        // away from zero
        Ordering::Equal if amount < 0 => lower,
        Ordering::Equal => lower + 1,
    }
}

/// The cents billed under a kind, by its number: an excess is charged to the agent, the rest is paid to it where the quantity is positive.
pub fn billed_cents(kind: u8, quantity: i32, price: u32) -> Option<i128> {
    let product = i128::from(quantity) * i128::from(price);
    match kind {
        1 | 2 | 5 => Some(nearest_cent(-product)),
        3 | 4 => Some(nearest_cent(product)),
        _ => None,
    }
}

/// One to `most` digits and nothing else.
fn is_written_in_digits(text: &str, most: usize) -> bool {
    (1..=most).contains(&text.len()) && text.chars().all(|c| c.is_ascii_digit())
}

/// An amount in units of the last decimal: the digits before the point, and those behind it filled up with zeros, read as one number.
pub fn amount(text: &[u8], six: bool) -> Option<i128> {
    let places = if six { 6 } else { 4 };
    let text = std::str::from_utf8(text).ok()?;
    let (whole, decimals) = match text.split_once('.') {
        Some((whole, decimals)) if is_written_in_digits(decimals, places) => (whole, decimals),
        Some(_) => return None,
        None => (text, ""),
    };
    if !is_written_in_digits(whole, 12) {
        return None;
    }
    let digits = format!("{whole}{decimals:0<places$}");
    Some(digits.parse().expect("at most 18 digits are a number"))
}
