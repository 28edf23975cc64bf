//! Price files through the built program `settle`, against cards computed in plain Rust: whole months with gaps of every
//! kind, rows in any order, and each refusal at its edge.

use compare::cards::{Row, SERIES, dollars, report, rows};
use compare::draws::Draws;
use compare::plain;
use std::fs;
use std::path::PathBuf;
use std::process::Command;

fn repository() -> PathBuf {
    PathBuf::from(env!("CARGO_MANIFEST_DIR")).join("..")
}

/// What the program writes to standard output and standard error, and whether it ends well, for a file of these lines.
fn settle(name: &str, lines: &[String], more: &[&str]) -> (String, String, bool) {
    let folder = repository().join("target/compare/prices");
    fs::create_dir_all(&folder).unwrap();
    let file = folder.join(name);
    fs::write(&file, format!("month,name,day,price\n{}\n", lines.join("\n"))).unwrap();
    let answer = Command::new(repository().join("crates/settle/out/settle"))
        .args(["prices", "--prices", file.to_str().unwrap()])
        .args(more)
        .output()
        .expect("the program `settle` is not built");
    let said = String::from_utf8(answer.stderr).unwrap().replace(file.to_str().unwrap(), "FILE");
    (String::from_utf8(answer.stdout).unwrap(), said, answer.status.success())
}

fn price(draws: &mut Draws) -> i128 {
    match draws.below(8) {
        0 => draws.one_of(&[0, 1, 10_000_000, 9_999_999, 10_000, 10_001]),
        1 => i128::from(draws.below(10_000_001)),
        _ => 20_000 + i128::from(draws.below(30_000)),
    }
}

/// The rows of a month's index card: a series may lack its first days, its last ones, some between, all, or none; prices
/// may all be equal.
fn index_month(draws: &mut Draws, month: (u16, u8)) -> Vec<Row> {
    let days = plain::month_days(month.0, month.1).unwrap();
    let row = |name, day: String, units, decimals| Row { month, name, day, price: dollars(units, decimals) };
    let mut rows = Vec::new();
    let level = price(draws);
    let equal = draws.below(6) == 0;
    for name in SERIES {
        rows.push(row(name, "before".into(), if equal { level } else { price(draws) }, 4));
        let (from, to) = match draws.below(5) {
            0 => (1, days),
            1 => (1 + i128::from(draws.below(9)), days),
            2 => (1, days - i128::from(draws.below(9))),
            3 => (days + 1, days),
            _ => (3, days - 3),
        };
        let gaps = draws.flag();
        for day in from..=to {
            if !gaps || draws.below(3) > 0 {
                rows.push(row(name, day.to_string(), if equal { level } else { price(draws) }, 4));
            }
        }
    }
    for name in ["bid-week", "citygate-index"] {
        rows.push(row(name, String::new(), if equal { level } else { price(draws) }, 4));
    }
    let supply = |draws: &mut Draws| i128::from(draws.one_of(&[0, 1, 3, 7, 60_000, 99_999_999, 100_000_000]));
    let malin = supply(draws);
    let topock = if malin == 0 { 1 + supply(draws) % 100_000_000 } else { supply(draws) };
    for (name, amount) in [("malin-supply", malin), ("topock-supply", topock)] {
        rows.push(Row { month, name, day: String::new(), price: amount.to_string() });
    }
    rows
}

fn fixed_month(draws: &mut Draws, month: (u16, u8)) -> Vec<Row> {
    ["tier-one-over", "tier-one-under", "tier-two-over", "tier-two-under"]
        .map(|name| {
            let units = if draws.flag() { 1_500_000_000 } else { draws.below(1_500_000_001) };
            Row { month, name, day: String::new(), price: dollars(i128::from(units), 6) }
        })
        .to_vec()
}

fn shuffle(draws: &mut Draws, rows: &mut [Row]) {
    for i in (1..rows.len()).rev() {
        rows.swap(i, draws.below(i as u64 + 1) as usize);
    }
}

#[test]
fn whole_months_in_any_order() {
    let mut draws = Draws::seeded(2_026);
    for round in 0..12 {
        let mut rows = Vec::new();
        for year in [2000, 2001, 2024, 2026, 2099] {
            for number in 1..=12 {
                let month = (year, number);
                rows.extend(if draws.below(8) == 0 { fixed_month(&mut draws, month) } else { index_month(&mut draws, month) });
            }
        }
        // some days are entered again; the later row counts
        for _ in 0..40 {
            let mut again = rows[draws.below(rows.len() as u64) as usize].clone();
            if again.day.parse::<u8>().is_ok() {
                again.price = dollars(price(&mut draws), 4);
                rows.push(again);
            }
        }
        shuffle(&mut draws, &mut rows);
        let lines: Vec<String> = rows.iter().map(Row::text).collect();
        let (table, csv) = report(&rows);
        let name = format!("random-{round}.csv");
        assert_eq!(settle(&name, &lines, &[]), (table, String::new(), true));
        assert_eq!(settle(&name, &lines, &["--format", "csv"]), (csv, String::new(), true));
    }
}

/// The stored answers for the stored sample are those of the plain computation.
#[test]
fn stored_sample() {
    let data = repository().join("tests/data");
    let read = |name| fs::read_to_string(data.join(name)).unwrap();
    let (table, csv) = report(&rows(&read("prices.csv")));
    assert_eq!((read("prices.table"), read("prices.cards.csv")), (table, csv));
}

/// One good month, for the refusals below.
fn good() -> Vec<String> {
    let mut draws = Draws::seeded(7);
    index_month(&mut draws, (2026, 2)).iter().map(Row::text).filter(|line| !line.contains("supply") && !line.contains("bid-week")).chain(
        ["2026-02,malin-supply,,100000000", "2026-02,topock-supply,,0", "2026-02,bid-week,,1000"].map(String::from),
    ).collect()
}

fn with(old: &str, new: &str) -> Vec<String> {
    let lines = good();
    assert!(lines.iter().any(|line| line == old), "no line {old}");
    lines.into_iter().map(|line| if line == old { new.to_string() } else { line }).collect()
}

fn and(new: &str) -> Vec<String> {
    let mut lines = good();
    lines.push(new.to_string());
    lines
}

#[test]
fn refusals_at_their_edges() {
    let (_, said, well) = settle("good.csv", &good(), &[]);
    assert!(well && said.is_empty(), "{said}");
    let at = good().len() + 2;
    let limit = "refusal 10 (card): a quantity or a price passes its limit";
    let field = "refusal 1 (card): a field, a tolerance or a starting month lies outside its values";
    // a refused row is named by its line, and nothing is printed
    for (line, why) in [
        ("2026-02,citygate,28,1000.0001", limit),
        ("2026-02,citygate,before,1000.0001", limit),
        ("2026-02,citygate,29,1", field),
        ("2026-02,malin-supply,,1", "'malin-supply' is given twice for its month"),
        ("2026-02,tier-one-over,,1", "2026-02 has rows of an index card and of a fixed card"),
        ("2026-02,citygate,32,1", "'32' is not a day: 'before', or 1 to 31"),
        ("2026-02,citygate,0,1", "'0' is not a day: 'before', or 1 to 31"),
        ("2026-02,citygate,,1", "'' is not a day: 'before', or 1 to 31"),
        ("2026-02,bid-week,1,1", "'1' stands where this name has no day"),
        ("2026-2,citygate,1,1", "'2026-2' is not a month from 2000-01 to 2099-12"),
        ("2100-01,citygate,1,1", "'2100-01' is not a month from 2000-01 to 2099-12"),
        ("2026-02,city,1,1", "'city' is not the name of a price"),
        ("2026-02,citygate,1,1.00001", "'1.00001' is not an amount in dollars with at most four decimals"),
        ("2026-02,malin-supply,,1.5", "'1.5' is not a whole number of Dth"),
        ("2026-02,citygate,1", "a row has four fields: month,name,day,price"),
        ("2026-02,citygate,1,1,", "a row has four fields: month,name,day,price"),
    ] {
        let (printed, said, well) = settle("bad.csv", &and(line), &[]);
        assert_eq!((printed.as_str(), said, well), ("", format!("settle: FILE:{at}: {why}\n"), false), "{line}");
    }
    for line in ["2026-02,citygate,28,1000", "2026-02,citygate,before,0"] {
        assert!(settle("edge.csv", &and(line), &[]).2, "{line}");
    }
    // a card that is refused is named with its month
    for (old, new, why) in [
        ("2026-02,malin-supply,,100000000", "2026-02,malin-supply,,100000001", limit),
        ("2026-02,topock-supply,,0", "2026-02,topock-supply,,100000001", limit),
        ("2026-02,bid-week,,1000", "2026-02,bid-week,,1000.0001", limit),
        ("2026-02,malin-supply,,100000000", "2026-02,malin-supply,,0", "refusal 15 (card): both supply amounts are zero"),
    ] {
        let (printed, said, well) = settle("card.csv", &with(old, new), &[]);
        assert_eq!((printed, said, well), (format!("2026-02: no card: {why}\n"), format!("settle: FILE: 2026-02: {why}\n"), false), "{new}");
    }
    let fixed = |under: &str| ["tier-one-over,,0", "tier-one-under,,1500", "tier-two-over,,0.000001", under].map(|rest| format!("2026-03,{rest}")).to_vec();
    assert!(settle("fixed.csv", &fixed("tier-two-under,,1500.000000"), &[]).2);
    let (_, said, well) = settle("fixed.csv", &fixed("tier-two-under,,1500.000001"), &[]);
    assert_eq!((said, well), (format!("settle: FILE: 2026-03: {limit}\n"), false));
    let (printed, said, well) = settle("fixed.csv", &fixed("tier-one-over,,1"), &[]);
    assert_eq!((printed.as_str(), said.as_str(), well), ("", "settle: FILE:5: 'tier-one-over' is given twice for its month\n", false));
    // a row that is missing
    let without = |name: &str| good().into_iter().filter(|line| !line.contains(name)).collect::<Vec<_>>();
    let (printed, said, well) = settle("missing.csv", &without("bid-week"), &[]);
    assert_eq!((printed.as_str(), said.as_str(), well), ("", "settle: FILE: 2026-02: there is no row for 'bid-week'\n", false));
    let (printed, said, well) = settle("missing.csv", &without("topock-b,before"), &[]);
    assert_eq!((printed.as_str(), said.as_str(), well), ("", "settle: FILE: 2026-02: 'topock-b' has no price before the month\n", false));
}
