//! Cases for the driver: a call, its input, and after the equals sign its answer, in one line.

use crate::calls::{self, Refusal, COLUMN, TEXT};
use crate::histories::{self, History};
use crate::inputs;
use crate::random::Random;
use crate::ratios;

const CALLS: [fn(&mut Random) -> String; 11] = [
    write_text,
    write_column,
    read_text,
    read_column,
    column_to_text,
    text_to_column,
    compare,
    earlier,
    cut,
    start,
    step,
];

/// Cases without end: single calls, and as often as four of them the next call of a stock table's running history.
pub struct Cases {
    random: Random,
    history: History,
}

impl Cases {
    pub fn new(seed: u64) -> Self {
        let mut random = Random::new(seed);
        let history = History::new(&mut random);
        Cases { random, history }
    }
}

impl Iterator for Cases {
    type Item = String;

    fn next(&mut self) -> Option<String> {
        match CALLS.get(self.random.below(CALLS.len() + histories::CALLS)) {
            Some(call) => Some(call(&mut self.random)),
            None => Some(self.history.case(&mut self.random)),
        }
    }
}

/// Bytes in hex; none as a dash, so that no field is empty.
pub fn hex(bytes: &[u8]) -> String {
    if bytes.is_empty() {
        return "-".to_string();
    }
    let digits = bytes.iter().flat_map(|byte| [byte >> 4, byte & 15]);
    digits.map(|digit| char::from(b"0123456789abcdef"[digit as usize])).collect()
}

/// An answer's fields: refusal 0 and the values, or the number and what a refusal leaves.
pub fn told<T>(answer: Result<T, Refusal>, refused: &str, show: impl Fn(T) -> String) -> String {
    match answer {
        Ok(values) => format!("0 {}", show(values)),
        Err(number) => format!("{number} {refused}"),
    }
}

fn told_written(answer: Result<calls::Written, Refusal>) -> String {
    told(answer, "0 0 -", |key| format!("{} {} {}", key.characters, key.quotients, hex(&key.out)))
}

fn told_text(answer: Result<String, Refusal>) -> String {
    told(answer, "0 -", |text| format!("{} {}", text.len(), hex(text.as_bytes())))
}

fn told_ratio(answer: Result<(u128, u128), Refusal>) -> String {
    told(answer, "0 0", |(p, q)| format!("{p} {q}"))
}

fn write_text(random: &mut Random) -> String {
    let ((p, q), room) = (ratios::ratio(random), inputs::room(random, TEXT));
    format!("write_text {p} {q} {room} = {}", told_written(calls::write_text(p, q, room)))
}

fn write_column(random: &mut Random) -> String {
    let ((p, q), room) = (ratios::ratio(random), inputs::room(random, COLUMN));
    format!("write_column {p} {q} {room} = {}", told_written(calls::write_column(p, q, room)))
}

fn read_text(random: &mut Random) -> String {
    let key = inputs::any_key(random);
    format!("read_text {} = {}", hex(&key), told_ratio(calls::read_text(&key)))
}

fn read_column(random: &mut Random) -> String {
    let column = inputs::column(random);
    format!("read_column {} = {}", hex(&column), told_ratio(calls::read_column(&column)))
}

fn column_to_text(random: &mut Random) -> String {
    let (column, room) = (inputs::column(random), inputs::room(random, TEXT));
    format!("column_to_text {} {room} = {}", hex(&column), told_text(calls::column_to_text(&column, room)))
}

fn text_to_column(random: &mut Random) -> String {
    let (key, room) = (inputs::any_key(random), inputs::room(random, COLUMN));
    let answer = told(calls::text_to_column(&key, room), "-", |column| hex(&column));
    format!("text_to_column {} {room} = {answer}", hex(&key))
}

fn compare(random: &mut Random) -> String {
    let (first, second) = inputs::pair(random);
    let answer = told(calls::compare(&first, &second), "0", |standing| (standing as i8 + 2).to_string());
    format!("compare {} {} = {answer}", hex(&first), hex(&second))
}

fn earlier(random: &mut Random) -> String {
    let (first, second) = inputs::pair(random);
    format!("earlier {} {} = {}", hex(&first), hex(&second), calls::earlier(&first, &second))
}

fn cut(random: &mut Random) -> String {
    let (key, width, room) = (inputs::any_key(random), inputs::width(random), inputs::room(random, TEXT));
    format!("cut {} {width} {room} = {}", hex(&key), told_text(calls::cut(&key, width, room)))
}

fn start(random: &mut Random) -> String {
    let key = inputs::any_key(random);
    let answer = told(calls::start(&key), "0 0", |place| format!("{} {}", place.used, place.turned as u8));
    format!("start {} = {answer}", hex(&key))
}

/// At the end and where it refuses, a step hands back the place that it was handed.
fn step(random: &mut Random) -> String {
    let key = inputs::any_key(random);
    let place = inputs::place(random, &key);
    let (refusal, found, quotient, after) = match calls::step(&key, place) {
        Ok(Some((quotient, next))) => (0, 1, quotient, next),
        Ok(None) => (0, 0, 0, place),
        Err(number) => (number, 0, 0, place),
    };
    let [before, after] = [place, after].map(|place| format!("{} {}", place.used, place.turned as u8));
    format!("step {} {before} = {refusal} {found} {quotient} {after}", hex(&key))
}

#[cfg(test)]
mod tests;
