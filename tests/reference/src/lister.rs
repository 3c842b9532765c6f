//! The ratio lister: what it writes for its whole input.

use crate::calls::LIMIT;
use crate::keys;
use crate::ratios;

/// The lines of an input. The last may lack its newline; after a last newline comes no line.
fn lines(input: &[u8]) -> Vec<&[u8]> {
    let mut lines: Vec<&[u8]> = input.split(|&byte| byte == b'\n').collect();
    if lines.last().is_some_and(|last| last.is_empty()) {
        lines.pop();
    }
    lines
}

/// A numeral's value, where it is one of 1 to 10 digits.
fn numeral(bytes: &[u8]) -> Option<u128> {
    if bytes.len() > 10 || !bytes.iter().all(u8::is_ascii_digit) {
        return None;
    }
    std::str::from_utf8(bytes).ok()?.parse().ok()
}

fn ratio(line: &[u8]) -> Option<(u128, u128)> {
    let slash = line.iter().position(|&byte| byte == b'/')?;
    Some((numeral(&line[..slash])?, numeral(&line[slash + 1..])?))
}

fn answer(line: &[u8]) -> String {
    let Some((p, q)) = ratio(line) else {
        return "refused 10\n".to_string();
    };
    if p.max(q) > LIMIT {
        return "refused 7\n".to_string();
    }
    if q == 0 {
        return "refused 1\n".to_string();
    }
    let (lowest_p, lowest_q) = ratios::lowest_terms(p, q);
    format!("{lowest_p}/{lowest_q} {} {}\n", keys::key(p, q), keys::written(p, q).len())
}

pub fn list(input: &[u8]) -> Vec<u8> {
    lines(input).into_iter().flat_map(|line| answer(line).into_bytes()).collect()
}

#[cfg(test)]
mod tests {
    use super::list;

    fn listed(input: &str) -> String {
        String::from_utf8(list(input.as_bytes())).unwrap()
    }

    #[test]
    fn the_scope_s_input_gives_its_output() {
        let input = "19/44\n0314/100\n0/5\n7/0\n7\n";
        let output = "19/44 00111010011 4\n157/50 11010010011011 3\n0/1 0 0\nrefused 1\nrefused 10\n";
        assert_eq!(listed(input), output);
        assert_eq!(listed(input.trim_end()), output);
    }

    #[test]
    fn ends_of_input_are_as_the_scope_says() {
        assert_eq!(listed(""), "");
        assert_eq!(listed("\n"), "refused 10\n");
        assert_eq!(listed("\n1/1"), "refused 10\n1/1 1 1\n");
        assert_eq!(listed("1/1\n\n"), "1/1 1 1\nrefused 10\n");
    }

    #[test]
    fn lines_are_refused_in_their_order() {
        assert_eq!(listed("4294967295/4294967295"), "1/1 1 1\n");
        assert_eq!(listed("0000000001/0000000001"), "1/1 1 1\n");
        for line in ["4294967296/1", "1/4294967296", "9999999999/0", "0/9999999999"] {
            assert_eq!(listed(line), "refused 7\n", "{line}");
        }
        let malformed =
            ["00000000001/1", "1/00000000001", "/", "1/", "/1", "1//1", "1/1/", "+1/1", "1/1\r", " 1/1", "1/0 "];
        for line in malformed {
            assert_eq!(listed(line), "refused 10\n", "{line}");
        }
    }
}
