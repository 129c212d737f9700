//! The table of refusals: the library's list, and the calls that give each, as the
//! orders have them.

use std::collections::BTreeSet;

use ventorupo::Refusal;

use crate::orders::orders;
use crate::page::{table, words};

const HEADS: [&str; 4] = ["no.", "name", "meaning", "given by"];
const HEADER: &str = include_str!("../../../../include/ventorupo.h");

#[test]
fn the_refusals_are_the_librarys() {
    let words = words();
    let rows = table(&words, &HEADS).rows;
    let told = rows.iter().map(|row| row[..3].to_vec());
    let told: Vec<Vec<String>> = told
        .map(|row| row.into_iter().map(String::from).collect())
        .collect();
    let ours = Refusal::ALL.iter().map(|refusal| {
        let name = format!("{refusal:?}");
        vec![refusal.number().to_string(), name, refusal.to_string()]
    });
    assert_eq!(told, ours.collect::<Vec<_>>());
}

/// The calls of the C header that are handed a port.
fn with_a_port() -> BTreeSet<String> {
    let declared = HEADER.split("uint32_t vr_").skip(1);
    let whole = declared.filter_map(|rest| rest.split_once(");"));
    let calls = whole.filter_map(|(start, _)| start.split_once('('));
    let handed = calls.filter(|(_, arguments)| {
        arguments.contains("uint32_t port,") || arguments.ends_with("uint32_t port")
    });
    handed.map(|(name, _)| name.to_string()).collect()
}

/// The calls that a cell says.
fn said_in(cell: &str, all: &BTreeSet<String>) -> BTreeSet<String> {
    let listed = |text: &str| text.split(", ").map(String::from).collect::<BTreeSet<_>>();
    match cell.strip_prefix("all but ") {
        Some(others) => all.difference(&listed(others)).cloned().collect(),
        None if cell == "all with a port" => with_a_port(),
        None => listed(cell),
    }
}

#[test]
fn given_by_are_the_calls_whose_orders_have_it() {
    let (words, orders) = (words(), orders());
    let refusing = orders.iter().filter(|(_, order)| !order.is_empty());
    let all: BTreeSet<String> = refusing.map(|(call, _)| call.clone()).collect();
    assert!(with_a_port().len() > 10, "the header has its calls no more");
    for row in table(&words, &HEADS).rows {
        let number = row[0].parse().unwrap();
        let giving = orders.iter().filter(|(_, order)| order.contains(&number));
        let giving: BTreeSet<String> = giving.map(|(call, _)| call.clone()).collect();
        assert_eq!(said_in(row[3], &all), giving, "{number}");
    }
}
