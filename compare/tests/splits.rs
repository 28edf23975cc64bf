//! Splits of an imbalance under Monthly and under Self-Balancing.

use compare::draws::Draws;
use compare::{Parts, plain, proved};

/// Says what both give.
fn compare_monthly(percent: u8, usage: u32, imbalance: i32) -> Option<Parts> {
    let answer = proved::monthly_split(percent, usage, imbalance);
    assert_eq!(
        answer,
        plain::monthly_split(percent, usage, imbalance),
        "Monthly at {percent} percent, usage {usage}, imbalance {imbalance}"
    );
    answer
}

fn compare_self_balancing(monthly_quantity: u32, imbalance: i32) -> Parts {
    let answer = proved::self_balancing_split(monthly_quantity, imbalance);
    assert_eq!(
        answer,
        plain::self_balancing_split(monthly_quantity, imbalance),
        "Self-Balancing, monthly quantity {monthly_quantity}, imbalance {imbalance}"
    );
    answer
}

#[test]
fn every_tolerance() {
    let mut draws = Draws::seeded(11);
    for percent in 0..=u8::MAX {
        let mut accepted = 0;
        for _ in 0..200 {
            let usage = draws.quantity();
            let imbalance = draws.imbalance(&[i128::from(usage) / 10]);
            accepted += usize::from(compare_monthly(percent, usage, imbalance).is_some());
        }
        assert!(
            accepted == 0 || accepted == 200,
            "{percent} percent is accepted at times"
        );
    }
}

#[test]
fn small_statements() {
    for quantity in 0..=500 {
        for imbalance in -60..=60 {
            for percent in 3..=5 {
                compare_monthly(percent, quantity, imbalance);
            }
            compare_self_balancing(quantity, imbalance);
        }
    }
}

#[test]
fn drawn_statements_under_monthly() {
    let mut draws = Draws::seeded(12);
    // how often something is kept, and something is left for Tier I and Tier II
    let (mut kept, mut tier_one, mut tier_two) = (0, 0, 0);
    for _ in 0..500_000 {
        let percent = 3 + draws.below(3) as u8;
        let usage = draws.quantity();
        let edges = [
            i128::from(usage) * i128::from(percent) / 100,
            i128::from(usage) / 10,
        ];
        let imbalance = draws.imbalance(&edges);
        let parts = compare_monthly(percent, usage, imbalance).expect("a tolerance of the tariff");
        kept += usize::from(parts.kept != 0);
        tier_one += usize::from(parts.tier_one != 0);
        tier_two += usize::from(parts.tier_two != 0);
    }
    assert!(
        kept > 100_000 && tier_one > 100_000 && tier_two > 100_000,
        "{kept}, {tier_one}, {tier_two}"
    );
}

#[test]
fn drawn_statements_under_self_balancing() {
    let mut draws = Draws::seeded(13);
    let (mut kept, mut tier_two) = (0, 0);
    for _ in 0..500_000 {
        let monthly_quantity = draws.quantity();
        let imbalance = draws.imbalance(&[i128::from(monthly_quantity) / 100]);
        let parts = compare_self_balancing(monthly_quantity, imbalance);
        kept += usize::from(parts.kept != 0);
        tier_two += usize::from(parts.tier_two != 0);
    }
    assert!(kept > 100_000 && tier_two > 100_000, "{kept}, {tier_two}");
}
