//! Lines for the ratio lister, good and bad.

use crate::random::Random;
use crate::ratios;

/// Numerals at both sides of the limits of value and of length.
const NUMERALS: [&str; 13] = [
    "0",
    "00",
    "0000000000",
    "0000000001",
    "00000000001",
    "04294967295",
    "4294967294",
    "4294967295",
    "4294967296",
    "4294967300",
    "8589934593",
    "9999999999",
    "10000000000",
];

const MALFORMED: [&[u8]; 20] = [
    b"",
    b"/",
    b"//",
    b"7",
    b"/1",
    b"1/",
    b"1//2",
    b"1/2/",
    b"/1/2",
    b"1/2/3",
    b" 1/2",
    b"1 /2",
    b"1/2 ",
    b"1/2\r",
    b"1/2\t",
    b"1/2\0",
    b"-1/2",
    b"+1/2",
    b"1.5/2",
    b"\xef\xbc\x91/2",
];

/// Any byte but a newline, which would make two lines of one.
fn strange(random: &mut Random) -> u8 {
    match random.byte() {
        b'\n' => b'\r',
        byte => byte,
    }
}

fn numeral(random: &mut Random) -> String {
    match random.below(4) {
        0 => random.pick(&NUMERALS).to_string(),
        1 => (0..random.between(1, 12)).map(|_| random.pick(&['0', '1', '4', '9'])).collect(),
        2 => format!("{:0width$}", random.sized(), width = random.between(1, 11)),
        _ => ratios::wheel(random).to_string(),
    }
}

/// A line longer than the lister's buffers of 64 KiB, of digits and now and then a slash.
fn very_long(random: &mut Random) -> Vec<u8> {
    let length = random.between(60_000, 200_000);
    let mut line = vec![random.pick(b"0017/ "); length];
    line[random.below(length)] = b'/';
    line
}

pub fn line(random: &mut Random) -> Vec<u8> {
    if random.once_in(5000) {
        return very_long(random);
    }
    let (p, q) = ratios::ratio(random);
    let mut line = format!("{p}/{q}").into_bytes();
    match random.below(12) {
        0 => line = random.pick(&MALFORMED).to_vec(),
        1 => line = (0..random.below(30)).map(|_| random.pick(b"0123456789/ \r")).collect(),
        2 => {
            let at = random.below(line.len());
            line[at] = strange(random);
        }
        3 => line.insert(random.below(line.len() + 1), strange(random)),
        4..=6 => line = (numeral(random) + "/" + &numeral(random)).into_bytes(),
        _ => {}
    }
    line
}
