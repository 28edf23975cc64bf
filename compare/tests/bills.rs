//! Billed cents of every kind, and the rounding around half a cent.

use compare::draws::Draws;
use compare::{plain, proved};

/// Compares the kinds from 1 to 5.
fn compare_kinds(quantity: i32, price: u32) {
    for kind in 1..=5 {
        compare(kind, quantity, price);
    }
}

fn compare(kind: u8, quantity: i32, price: u32) {
    assert_eq!(
        proved::billed_cents(kind, quantity, price),
        plain::billed_cents(kind, quantity, price),
        "kind {kind}, quantity {quantity}, price {price}"
    );
}

/// Whether the amount lies on a half cent.
fn is_half_cent(quantity: i32, price: u32) -> bool {
    (i128::from(quantity) * i128::from(price)).rem_euclid(10_000) == 5_000
}

#[test]
fn every_kind() {
    let mut draws = Draws::seeded(31);
    for kind in 0..=u8::MAX {
        for _ in 0..200 {
            compare(kind, draws.imbalance(&[0]), draws.price());
        }
    }
}

/// At a price of a millionth of a dollar a quantity of 32 bits reaches 429,496 half cents: each of them, and two below and above it.
#[test]
fn every_half_cent_at_the_least_price() {
    let mut halves = 0;
    for half in (5_000..=i64::from(i32::MAX)).step_by(10_000) {
        for amount in half - 2..=half + 2 {
            for signed in [amount, -amount] {
                let quantity =
                    i32::try_from(signed).expect("no half cent lies at the end of the type");
                compare_kinds(quantity, 1);
                halves += usize::from(is_half_cent(quantity, 1));
            }
        }
    }
    assert_eq!(halves, 429_496);
}

/// The prices that divide half a cent, and those that are half a cent or a cent more than such a price.
#[test]
fn half_cents_at_other_prices() {
    let mut halves = 0;
    for divisor in (1..=5_000).filter(|price| 5_000 % price == 0) {
        for price in [divisor, divisor + 5_000, divisor + 10_000] {
            for quantity in -20_000..=20_000 {
                compare_kinds(quantity, price);
                halves += usize::from(is_half_cent(quantity, price));
            }
        }
    }
    assert!(halves > 50_000, "{halves}");
}

/// The quantities that come nearest to a half cent at a drawn price.
#[test]
fn near_half_cents_at_drawn_prices() {
    let mut draws = Draws::seeded(32);
    for _ in 0..300_000 {
        let price = draws.price().max(1);
        let most = i128::from(price) * i128::from(i32::MAX) / 10_000;
        let cents = i128::from(draws.below(most as u64 + 1));
        let nearest = (cents * 10_000 + 5_000) / i128::from(price);
        for quantity in nearest - 1..=nearest + 1 {
            for signed in [quantity, -quantity] {
                compare_kinds(signed.clamp(i32::MIN.into(), i32::MAX.into()) as i32, price);
            }
        }
    }
}

#[test]
fn drawn_bills() {
    let mut draws = Draws::seeded(33);
    for _ in 0..500_000 {
        compare_kinds(draws.imbalance(&[5_000, 10_000, 15_000]), draws.price());
    }
}
