//! Words and keys as in the paper: strings of the characters 0 and 1, and numbers of 128 bits.

/// The word of i >= 1 (section II): the leading one of its k binary digits becomes k - 1 ones and a zero.
pub fn word(i: u128) -> String {
    let digits = format!("{i:b}");
    let rest = &digits[1..];
    "1".repeat(rest.len()) + "0" + rest
}

pub fn turned(word: &str) -> String {
    word.chars().map(|bit| if bit == '0' { '1' } else { '0' }).collect()
}

/// The continued fraction of p/q, q >= 1, in the form whose last index is even (section III).
pub fn even_ended(mut p: u128, mut q: u128) -> Vec<u128> {
    let mut list = Vec::new();
    while q != 0 {
        list.push(p / q);
        (p, q) = (q, p % q);
    }
    if list.len() % 2 == 0 {
        let last = list.pop().unwrap();
        list.extend([last - 1, 1]);
    }
    list
}

/// The quotients that a key has words for: a leading 0 has none.
pub fn written(p: u128, q: u128) -> Vec<u128> {
    even_ended(p, q).into_iter().filter(|&a| a > 0).collect()
}

/// A string without the zeros after its last 1, or the single 0.
pub fn trimmed(bits: &str) -> String {
    match bits.trim_end_matches('0') {
        "" => "0".to_string(),
        rest => rest.to_string(),
    }
}

/// The key of p/q, q >= 1.
pub fn key(p: u128, q: u128) -> String {
    let mut bits = (if p < q { "0" } else { "1" }).to_string();
    for (index, a) in even_ended(p, q).into_iter().enumerate() {
        match (a, index % 2) {
            (0, _) => {}
            (_, 0) => bits += &word(a),
            _ => bits += &turned(&word(a)),
        }
    }
    trimmed(&bits)
}

/// The quotient at a place of a zero-extended key and the characters used after it, or none at the end. The key has at
/// most 96 characters, so that the number of a word has at most 97 binary digits.
pub fn quotient_at(key: &str, used: usize, is_turned: bool) -> Option<(u128, usize)> {
    let rest = key.get(used..).unwrap_or("");
    if is_turned && !rest.contains('1') {
        return None;
    }
    let mut bits = rest.chars().chain(std::iter::repeat('0')).map(|bit| (bit == '1') != is_turned);
    let run = bits.by_ref().take_while(|&bit| bit).count();
    let quotient = bits.take(run).fold(1, |number, bit| 2 * number + u128::from(bit));
    Some((quotient, used + 2 * run + 1))
}

/// The quotients that a canonical key has words for, read from its second character on.
pub fn quotients(key: &str) -> Vec<u128> {
    let (mut used, mut is_turned) = (1, key.starts_with('0'));
    let mut list = Vec::new();
    while let Some((a, next)) = quotient_at(key, used, is_turned) {
        list.push(a);
        (used, is_turned) = (next, !is_turned);
    }
    list
}

/// The value of a canonical key of at most 96 characters, in lowest terms. A word of n characters makes numerator and
/// denominator at most 2^n times larger, and a word that added zeros complete, four times that: 128 bits are enough.
pub fn value(key: &str) -> (u128, u128) {
    let mut list = quotients(key);
    if key.starts_with('0') {
        list.insert(0, 0);
    }
    let from_the_back = list.iter().rev();
    from_the_back.fold((1, 0), |(p, q), a| (a * p + q, p))
}

#[cfg(test)]
mod tests {
    use super::*;

    #[test]
    fn words_are_those_of_table_1() {
        let table = "0 100 101 11000 11001 11010 11011 1110000 1110001 1110010 1110011 1110100 1110101 1110110 \
                     1110111 111100000 111100001 111100010 111100011 111100100";
        let made: Vec<String> = (1..=20).map(word).collect();
        assert_eq!(made.join(" "), table);
        assert_eq!(word(27), "111101011");
        assert_eq!([27, 6, 4, 13, 2].map(word).concat(), "11110101111010110001110101100");
    }

    #[test]
    fn forms_are_those_of_section_iii() {
        assert_eq!(even_ended(19, 44), [0, 2, 3, 5, 1]);
        assert_eq!(even_ended(22, 7), [3, 6, 1]);
        assert_eq!(even_ended(314, 100), [3, 7, 7]);
        assert_eq!(even_ended(333, 106), [3, 7, 15]);
        assert_eq!(quotients("001011001"), [3, 5]);
    }

    #[test]
    fn keys_are_those_of_the_scope() {
        let (most, least) = ("1".repeat(32) + "0" + &"1".repeat(31), "0".repeat(32) + "1" + &"0".repeat(30) + "1");
        let table = [
            (0, 1, "0"),
            (1, 1, "1"),
            (1, 2, "01"),
            (5, 16, "001011001"),
            (19, 44, "00111010011"),
            (26, 161, "0001011100100111"),
            (57, 31, "1011100100111"),
            (22, 7, "110100101"),
            (157, 50, "11010010011011"),
            (333, 106, "1101001001110111"),
            (4294967295, 1, &most),
            (1, 4294967295, &least),
        ];
        for (p, q, bits) in table {
            assert_eq!(key(p, q), bits, "{p}/{q}");
            assert_eq!(key(7 * p, 7 * q), bits, "{p}/{q} times 7");
            assert_eq!(value(bits), (p, q), "{bits}");
        }
    }

    #[test]
    fn longest_are_as_the_scope_says() {
        assert_eq!(written(1836311903, 2971215073).len(), 46);
        assert_eq!(key(4218363952, 3792186105).len(), 78);
        assert!(written(0, 1).is_empty());
    }

    #[test]
    fn every_short_string_is_the_key_of_one_ratio_and_in_its_order() {
        let strings: Vec<String> = (0..1 << 12).map(|i| format!("{i:012b}")).collect();
        for pair in strings.windows(2) {
            let [(p, q), (r, s)] = [0, 1].map(|i| value(&trimmed(&pair[i])));
            assert!(p * s < r * q, "{pair:?}");
            assert_eq!(key(r, s), trimmed(&pair[1]));
        }
    }
}
