//! That cases are made again by their seed, and meet every answer.

use super::*;
use std::collections::HashSet;

/// What a case is about: the call's name and its refusal.
fn kind(case: &str) -> (String, String) {
    let (input, answer) = case.split_once(" = ").unwrap();
    let first = |fields: &str| fields.split(' ').next().unwrap().to_string();
    (first(input), first(answer))
}

#[test]
fn a_seed_makes_the_same_cases_and_another_others() {
    let made = |seed| Cases::new(seed).take(100).collect::<Vec<_>>();
    assert_eq!(made(1), made(1));
    assert_ne!(made(1), made(2));
}

#[test]
fn every_answer_of_every_call_is_met() {
    let met: HashSet<_> = Cases::new(1).take(50_000).map(|case| kind(&case)).collect();
    let answers = [
        ("write_text", "0 1 2"),
        ("write_column", "0 1 2"),
        ("read_text", "0 3 4 5 6 7"),
        ("read_column", "0 7 9"),
        ("column_to_text", "0 2 9"),
        ("text_to_column", "0 2 3 4 5 6"),
        ("compare", "0 3 4 5 6"),
        ("earlier", "0 1 2"),
        ("cut", "0 2 3 4 5 6 8"),
        ("start", "0 3 4 5 6"),
        ("step", "0 3 4 5 6 7 8"),
        ("stock_put", "0 1 2 11 13 15 16"),
        ("stock_take", "0 1 2 12 14 15 16"),
        ("stock_find", "0 1 2 12 16"),
        ("stock_from", "0 1 2 16"),
    ];
    let list = |name: &'static str, all: &'static str| all.split(' ').map(move |n| (name.to_string(), n.to_string()));
    let expected: HashSet<_> = answers.iter().flat_map(|(name, all)| list(name, all)).collect();
    assert_eq!(met, expected);
}
