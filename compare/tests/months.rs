//! Months: their lengths, the month after and the month before.

use compare::{plain, proved};

/// Every year of 16 bits with every number of 8 bits, so all 1,200 months and all pairs that name none.
#[test]
fn every_year_and_number() {
    let mut months = 0;
    for year in 0..=u16::MAX {
        for number in 0..=u8::MAX {
            let days = proved::month_days(year, number);
            assert_eq!(
                days,
                plain::month_days(year, number),
                "days of {year}-{number}"
            );
            assert_eq!(
                proved::next_month(year, number),
                plain::next_month(year, number),
                "the month after {year}-{number}"
            );
            assert_eq!(
                proved::previous_month(year, number),
                plain::previous_month(year, number),
                "the month before {year}-{number}"
            );
            months += usize::from(days.is_some());
        }
    }
    assert_eq!(months, 1_200);
}
