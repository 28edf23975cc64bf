//! The rules twice: `proved` calls the proved library, and `plain` is a second implementation of the repository's
//! `docs/RULES.md`. The tests hold one against the other; every expected value comes from `plain`.

pub mod cards;
pub mod draws;
pub mod plain;
pub mod proved;

/// The parts of an imbalance (Dth).
#[derive(Clone, Copy, Debug, PartialEq, Eq)]
pub struct Parts {
    pub kept: i128,
    pub tier_one: i128,
    pub tier_two: i128,
}

/// What a day has above its daily and above its accumulated limit (Dth).
#[derive(Clone, Copy, Debug, PartialEq, Eq)]
pub struct Excess {
    pub daily: i128,
    pub accumulated: i128,
}

/// A month, by its year and its number in the year.
#[derive(Clone, Copy, Debug, PartialEq, Eq)]
pub struct Month {
    pub year: i128,
    pub number: i128,
}
