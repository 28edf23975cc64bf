//! Price cards in plain Rust, written from the repository's `docs/RULES.md` and `docs/FORMATS.md` alone: rows of a price file,
//! the card of each month, and the text that the program is to print for it.

use crate::plain;
use std::collections::BTreeMap;

/// The five series of an index card.
pub const SERIES: [&str; 5] = ["malin-a", "malin-b", "topock-a", "topock-b", "citygate"];

/// A row of a price file, as it is written.
#[derive(Clone, Debug)]
pub struct Row {
    pub month: (u16, u8),
    pub name: &'static str,
    pub day: String,
    pub price: String,
}

impl Row {
    pub fn text(&self) -> String {
        format!("{:04}-{:02},{},{},{}", self.month.0, self.month.1, self.name, self.day, self.price)
    }
}

/// Every name of a price file.
const NAMES: [&str; 13] = [
    "malin-a", "malin-b", "topock-a", "topock-b", "citygate", "bid-week", "citygate-index", "malin-supply", "topock-supply", "tier-one-over",
    "tier-one-under", "tier-two-over", "tier-two-under",
];

/// The rows of a good price file.
pub fn rows(text: &str) -> Vec<Row> {
    let row = |line: &str| {
        let fields: Vec<&str> = line.split(',').collect();
        let (year, number) = fields[0].split_once('-').expect("a month");
        Row {
            month: (year.parse().expect("a year"), number.parse().expect("a number")),
            name: NAMES.iter().find(|name| **name == fields[1]).expect("a name"),
            day: fields[2].to_string(),
            price: fields[3].to_string(),
        }
    };
    text.lines().skip(1).map(row).collect()
}

/// An amount in ten-thousandths or millionths, by the number of its decimals.
fn amount(text: &str, decimals: usize) -> i128 {
    let (whole, behind) = text.split_once('.').unwrap_or((text, ""));
    let padded = format!("{whole}{behind:0<decimals$}");
    padded.parse().expect("an amount of the test itself")
}

/// Dollars with a fixed number of decimals.
pub fn dollars(units: i128, decimals: u32) -> String {
    let one = 10i128.pow(decimals);
    format!("{}.{:0width$}", units / one, units % one, width = decimals as usize)
}

/// Six prices in millionths of a dollar, and the lines of working that come before them.
pub struct Card {
    pub prices: [i128; 6],
    pub working: Vec<String>,
}

const PRICE_NAMES: [&str; 6] = ["tier-one-over", "tier-one-under", "tier-two-over", "tier-two-under", "noncompliance", "credit"];
const PRICE_TITLES: [&str; 6] = ["Tier I over", "Tier I under", "Tier II over", "Tier II under", "noncompliance", "credit"];

fn item(name: &str, text: &str) -> String {
    format!("  {name:<34}{text:>14}")
}

/// Each day's price, carried on from the day before where none was published.
fn daily(before: i128, entries: &BTreeMap<i128, i128>, days: i128) -> Vec<i128> {
    let mut price = before;
    (1..=days)
        .map(|day| {
            price = *entries.get(&day).unwrap_or(&price);
            price
        })
        .collect()
}

fn half_up(numerator: i128, denominator: i128) -> i128 {
    let rest = numerator % denominator;
    numerator / denominator + i128::from(rest * 2 >= denominator)
}

fn index_card(rows: &[&Row], days: i128) -> Card {
    let value = |name: &str| {
        let row = rows.iter().find(|row| row.name == name).expect("a row of the test itself");
        amount(&row.price, if name.ends_with("supply") { 0 } else { 4 })
    };
    let mut prices = Vec::new();
    let mut counts = Vec::new();
    for name in SERIES {
        let mut before = 0;
        let mut entries = BTreeMap::new();
        for row in rows.iter().filter(|row| row.name == name) {
            match row.day.parse::<i128>() {
                Ok(day) => drop(entries.insert(day, amount(&row.price, 4))),
                Err(_) => before = amount(&row.price, 4),
            }
        }
        counts.push(entries.len());
        prices.push(daily(before, &entries, days));
    }
    let doubles = |a: usize, b: usize| {
        let mut all: Vec<i128> = prices[a].iter().zip(&prices[b]).map(|(p, q)| p + q).collect();
        all.sort();
        all
    };
    let points = [doubles(0, 1), doubles(2, 3)];
    let low: Vec<i128> = points.iter().map(|p| p.iter().take(5).sum()).collect();
    let high: Vec<i128> = points.iter().map(|p| p.iter().rev().take(5).sum()).collect();
    let (m, n) = (value("malin-supply"), value("topock-supply"));
    let weighted = |sums: &[i128]| half_up(sums[0] * m + sums[1] * n, 10 * (m + n));
    let (weighted_low, weighted_high) = (weighted(&low), weighted(&high));
    let bid = value("bid-week");
    let smallest = points[0][0].min(points[1][0]);
    let largest = *points[0].last().unwrap().max(points[1].last().unwrap());
    let citygate = *prices[4].iter().max().unwrap().max(&value("citygate-index"));
    let whole = citygate / 10_000 + i128::from(citygate % 10_000 > 0);
    let published = |units: i128| dollars(units, 4);
    let mut working = vec![
        format!("  published days: Malin {} and {}, Topock {} and {}, Citygate {}", counts[0], counts[1], counts[2], counts[3], counts[4]),
        "  Working, dollars".to_string(),
    ];
    for (i, name) in ["Malin", "Topock"].iter().enumerate() {
        working.push(item(&format!("{name} low, five smallest doubles"), &published(low[i])));
        working.push(item(&format!("{name} high, five largest doubles"), &published(high[i])));
        working.push(item(&format!("{name} smallest double"), &published(points[i][0])));
        working.push(item(&format!("{name} largest double"), &published(*points[i].last().unwrap())));
    }
    working.push(item("Malin supply, Dth", &m.to_string()));
    working.push(item("Topock supply, Dth", &n.to_string()));
    working.push(item("weighted low", &published(weighted_low)));
    working.push(item("weighted high", &published(weighted_high)));
    working.push(item("bid-week index", &published(bid)));
    working.push(item("Citygate's highest price", &published(citygate)));
    working.push(item("Citygate in whole dollars", &whole.to_string()));
    // 75 percent of a price in ten-thousandths is 75 times it in millionths
    let prices = [75 * bid.min(weighted_low), 125 * bid.max(weighted_high), 25 * smallest, 75 * largest, 500_000 * whole, 58_100];
    Card { prices, working }
}

fn fixed_card(rows: &[&Row]) -> Card {
    let value = |name: &str| amount(&rows.iter().find(|row| row.name == name).expect("a row of the test itself").price, 6);
    let prices = [value("tier-one-over"), value("tier-one-under"), value("tier-two-over"), value("tier-two-under"), 1_000_000, 5_000];
    Card { prices, working: Vec::new() }
}

/// What the program is to print for a file, as a table and as comma-separated values.
pub fn report(file: &[Row]) -> (String, String) {
    let mut months: BTreeMap<(u16, u8), Vec<&Row>> = BTreeMap::new();
    for row in file {
        months.entry(row.month).or_default().push(row);
    }
    let (mut table, mut csv) = (String::new(), String::from("month,name,dollars\n"));
    for (month, rows) in months {
        let days = plain::month_days(month.0, month.1).expect("a month of the test itself");
        let fixed = rows[0].name.starts_with("tier");
        let card = if fixed { fixed_card(&rows) } else { index_card(&rows, days) };
        let name = format!("{:04}-{:02}", month.0, month.1);
        table += &format!("{name}: {} card\n", if fixed { "fixed" } else { "index" });
        for line in &card.working {
            table += &format!("{line}\n");
        }
        table += "  Card prices, dollars a Dth\n";
        for (i, price) in card.prices.iter().enumerate() {
            let text = dollars(*price, 6);
            table += &format!("{}\n", item(PRICE_TITLES[i], &text));
            csv += &format!("{name},{},{text}\n", PRICE_NAMES[i]);
        }
    }
    (table, csv)
}
