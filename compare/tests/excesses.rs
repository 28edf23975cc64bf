//! What a day has above its limits under Self-Balancing.

use compare::draws::Draws;
use compare::{Excess, plain, proved};

/// Says what both give.
fn compare(
    receipts: u32,
    usage: u32,
    order_in_effect: bool,
    monthly_quantity: u32,
    accumulated: i32,
) -> Excess {
    let answer = proved::self_balancing_excess(
        receipts,
        usage,
        order_in_effect,
        monthly_quantity,
        accumulated,
    );
    assert_eq!(
        answer,
        plain::self_balancing_excess(
            receipts,
            usage,
            order_in_effect,
            monthly_quantity,
            accumulated
        ),
        "receipts {receipts}, usage {usage}, order {order_in_effect}, monthly quantity {monthly_quantity}, accumulated {accumulated}"
    );
    answer
}

#[test]
fn small_days() {
    for usage in 0..=120 {
        for receipts in 0..=160 {
            for order_in_effect in [false, true] {
                compare(receipts, usage, order_in_effect, 0, 0);
            }
        }
    }
    for monthly_quantity in 0..=1_000 {
        for accumulated in -15..=15 {
            for order_in_effect in [false, true] {
                compare(0, 0, order_in_effect, monthly_quantity, accumulated);
            }
        }
    }
}

#[test]
fn drawn_days() {
    let mut draws = Draws::seeded(21);
    // how often a day passes a limit, and stays within it
    let (mut daily, mut no_daily, mut accumulates, mut no_accumulated) = (0, 0, 0, 0);
    for _ in 0..500_000 {
        let usage = draws.quantity();
        let receipts = if draws.flag() {
            // at most two away from the limit, above or below the usage
            let limit = i128::from(usage) / 10 + i128::from(draws.below(5)) - 2;
            let signed = if draws.flag() { limit } else { -limit };
            (i128::from(usage) + signed).clamp(0, u32::MAX.into()) as u32
        } else {
            draws.quantity()
        };
        let monthly_quantity = draws.quantity();
        let accumulated = draws.imbalance(&[i128::from(monthly_quantity) / 100]);
        let day = compare(receipts, usage, false, monthly_quantity, accumulated);
        compare(receipts, usage, true, monthly_quantity, accumulated);
        daily += usize::from(day.daily != 0);
        no_daily += usize::from(day.daily == 0);
        accumulates += usize::from(day.accumulated != 0);
        no_accumulated += usize::from(day.accumulated == 0);
    }
    let least = daily.min(no_daily).min(accumulates).min(no_accumulated);
    assert!(
        least > 100_000,
        "{daily}, {no_daily}, {accumulates}, {no_accumulated}"
    );
}
