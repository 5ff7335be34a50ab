//! Times the proved functions beside kash-ui's in one run, and prints a table in Markdown.
//!
//! A call is timed as a call on both sides: the archive's functions cannot be inlined, and the
//! Rust's stand in functions of the C ABI that are not to be. A row is one call on either side.
//! Each figure is the least of several rounds, in which the two sides take turns, and pixman with
//! them in the rows that it has, where it is installed.
mod blocks;
mod clock;
mod copies;
mod dearest;
mod leaves;
mod panels;
mod pixman;
mod rows;
mod shapes;
mod shows;
mod sides;
mod steps;

fn main() {
    let only = std::env::args().nth(1);
    let tables: [(&str, fn()); 9] = [
        ("leaves", leaves::table),
        ("rows", rows::table),
        ("shapes", shapes::table),
        ("copies", copies::table),
        ("panels", panels::table),
        ("blocks", blocks::table),
        ("dearest", dearest::table),
        ("shows", shows::table),
        ("steps", steps::table),
    ];
    if let Some(words) = pixman::missing() {
        println!("{words}\n");
    }
    for (name, table) in tables {
        if only.as_deref().is_none_or(|only| only == name) {
            table();
            println!();
        }
    }
}
