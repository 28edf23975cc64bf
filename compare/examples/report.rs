//! Prints what the plain computation makes of a price file: `cargo run --example report -- FILE table|csv`.

use compare::cards::{report, rows};

fn main() {
    let words: Vec<String> = std::env::args().collect();
    let text = std::fs::read_to_string(&words[1]).expect("a price file");
    let (table, csv) = report(&rows(&text));
    print!("{}", if words[2] == "csv" { csv } else { table });
}
