//! The proved rules, called through their C interface. Where the interface has a number that stands for "none", here is a `None`.

use crate::{Excess, Month, Parts};

#[derive(Debug, PartialEq, Eq)]
#[repr(C)]
struct SplitParts {
    kept: i32,
    tier_one: i32,
    tier_two: i32,
}

#[repr(C)]
struct DayExcess {
    daily: u32,
    accumulated: u32,
}

/// What stands where the library writes parts and excesses, before it is called.
const PARTS_BEFORE: SplitParts = SplitParts {
    kept: 71,
    tier_one: 72,
    tier_two: 73,
};

const EXCESS_BEFORE: DayExcess = DayExcess {
    daily: 71,
    accumulated: 72,
};

unsafe extern "C" {
    safe fn gbal_month_days(year: u16, number: u8) -> u8;
    safe fn gbal_next_month(year: u16, number: u8) -> u32;
    safe fn gbal_previous_month(year: u16, number: u8) -> u32;
    safe fn gbal_monthly_split(
        percent: u8,
        usage: u32,
        imbalance: i32,
        parts: &mut SplitParts,
    ) -> bool;
    safe fn gbal_self_balancing_split(
        monthly_quantity: u32,
        imbalance: i32,
        parts: &mut SplitParts,
    );
    safe fn gbal_self_balancing_excess(
        receipts: u32,
        usage: u32,
        order_in_effect: bool,
        monthly_quantity: u32,
        accumulated: i32,
        excess: &mut DayExcess,
    );
    safe fn gbal_billed_cents(kind: u8, quantity: i32, price: u32) -> i64;
    /// The text is `length` bytes from `text` on.
    fn gbal_read_amount(text: *const u8, length: usize, six: bool) -> i64;
}

pub fn month_days(year: u16, number: u8) -> Option<i128> {
    match gbal_month_days(year, number) {
        0 => None,
        days => Some(days.into()),
    }
}

/// A month from `year * 100 + number`.
fn month(code: u32) -> Option<Month> {
    match code {
        0 => None,
        _ => Some(Month {
            year: (code / 100).into(),
            number: (code % 100).into(),
        }),
    }
}

pub fn next_month(year: u16, number: u8) -> Option<Month> {
    month(gbal_next_month(year, number))
}

pub fn previous_month(year: u16, number: u8) -> Option<Month> {
    month(gbal_previous_month(year, number))
}

fn parts_from(written: SplitParts) -> Parts {
    Parts {
        kept: written.kept.into(),
        tier_one: written.tier_one.into(),
        tier_two: written.tier_two.into(),
    }
}

/// None where the tolerance is refused; nothing may then be written.
pub fn monthly_split(percent: u8, usage: u32, imbalance: i32) -> Option<Parts> {
    let mut parts = PARTS_BEFORE;
    if gbal_monthly_split(percent, usage, imbalance, &mut parts) {
        return Some(parts_from(parts));
    }
    assert_eq!(parts, PARTS_BEFORE, "{percent} percent is refused");
    None
}

pub fn self_balancing_split(monthly_quantity: u32, imbalance: i32) -> Parts {
    let mut parts = PARTS_BEFORE;
    gbal_self_balancing_split(monthly_quantity, imbalance, &mut parts);
    parts_from(parts)
}

pub fn self_balancing_excess(
    receipts: u32,
    usage: u32,
    order_in_effect: bool,
    monthly_quantity: u32,
    accumulated: i32,
) -> Excess {
    let mut excess = EXCESS_BEFORE;
    gbal_self_balancing_excess(
        receipts,
        usage,
        order_in_effect,
        monthly_quantity,
        accumulated,
        &mut excess,
    );
    Excess {
        daily: excess.daily.into(),
        accumulated: excess.accumulated.into(),
    }
}

pub fn billed_cents(kind: u8, quantity: i32, price: u32) -> Option<i128> {
    match gbal_billed_cents(kind, quantity, price) {
        i64::MIN => None,
        cents => Some(cents.into()),
    }
}

pub fn amount(text: &[u8], six: bool) -> Option<i128> {
    // SAFETY: the pointer and the length are those of a slice that outlives the call, and the library only reads it.
    match unsafe { gbal_read_amount(text.as_ptr(), text.len(), six) } {
        -1 => None,
        units => Some(units.into()),
    }
}
