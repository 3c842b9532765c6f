//! The scope's limits and orders of refusal, both sides of each.

use super::*;

fn bits(parts: &[(&str, usize)]) -> Vec<u8> {
    parts.iter().map(|(bit, times)| bit.repeat(*times)).collect::<String>().into_bytes()
}

#[test]
fn limits_of_reading_are_the_scope_s() {
    assert_eq!(read_text(&bits(&[("1", 32)])), Ok((2147483648, 1)));
    assert_eq!(read_text(&bits(&[("1", 33)])), Err(7));
    assert_eq!(read_text(&bits(&[("1", 96)])), Err(7));
    assert_eq!(read_text(&bits(&[("1", 97)])), Err(4));
    assert_eq!(read_text(&bits(&[("0", 32), ("1", 1)])), Err(7));
    assert_eq!(read_text(&bits(&[("1", 32), ("0", 1), ("1", 31)])), Ok((4294967295, 1)));
    assert_eq!(read_text(&bits(&[("0", 32), ("1", 1), ("0", 30), ("1", 1)])), Ok((1, 4294967295)));
    assert_eq!([&b""[..], b"00", b"010", b"0 0", b"0"].map(read_text), [Err(3), Err(6), Err(6), Err(5), Ok((0, 1))]);
    assert_eq!(read_column(&[0xff; 12]), Err(7));
    assert_eq!([11, 13].map(|length| read_column(&vec![0; length])), [Err(9); 2]);
}

#[test]
fn columns_are_the_scope_s() {
    let column = |p, q| write_column(p, q, 12).unwrap().out;
    assert_eq!(column(19, 44), [0x3a, 0x60, 0, 0, 0, 0, 0, 0, 0, 0, 0, 0]);
    assert_eq!(column(26, 161), [0x17, 0x27, 0, 0, 0, 0, 0, 0, 0, 0, 0, 0]);
    assert_eq!(column_to_text(&column(19, 44), 96).unwrap(), "00111010011");
    assert_eq!(text_to_column(b"00111010011", 12).unwrap(), column(19, 44));
    assert_eq!(column_to_text(&[0; 12], 96).unwrap(), "0");
}

#[test]
fn writing_refuses_in_its_order() {
    assert_eq!([95, 96].map(|room| write_text(1, 0, room)), [Err(1), Err(1)]);
    assert_eq!((write_text(1, 1, 95), write_column(1, 1, 11)), (Err(2), Err(2)));
    let whole = Written { characters: 11, quotients: 4, out: b"00111010011".to_vec() };
    assert_eq!(write_text(38, 88, 96), Ok(whole));
}

#[test]
fn cutting_is_the_scope_s() {
    let key = keys::key(26, 161);
    let cut_to = |width| cut(key.as_bytes(), width, 96);
    assert_eq!([0, 97, usize::MAX].map(cut_to), [Err(8), Err(8), Err(8)]);
    assert_eq!([1, 5, 96].map(|width| cut_to(width).unwrap()), ["0", "0001", &key]);
    assert_eq!(keys::value("0001"), (1, 8));
    let least = cut(keys::key(1, 4294967295).as_bytes(), 33, 96).unwrap();
    assert_eq!(keys::value(&least), (1, 4294967296));
    assert_eq!(read_text(least.as_bytes()), Err(7));
    assert_eq!((cut(b"1", 97, 95), cut(b"1", 96, 95), cut(b"2", 97, 95)), (Err(8), Err(2), Err(5)));
}

#[test]
fn standing_is_that_of_the_ratios() {
    let keys = ["0", "0001", "01", "1", "11010010011011", "1101001001110111", "110100101"].map(str::as_bytes);
    for (i, first) in keys.iter().enumerate() {
        for (j, second) in keys.iter().enumerate() {
            assert_eq!(compare(first, second), Ok(i.cmp(&j)));
            assert_eq!(earlier(first, second), if i <= j { 1 } else { 2 });
        }
    }
    assert_eq!((compare(b"", b"2"), compare(b"2", b""), compare(b"1", b"10")), (Err(3), Err(5), Err(6)));
    assert_eq!((earlier(b"", b"1"), earlier(b"1", b"")), (0, 0));
}

#[test]
fn stepping_gives_the_quotients_and_then_the_end() {
    let key = b"00111010011";
    let mut place = start(key).unwrap();
    assert_eq!(place, Place { used: 1, turned: true });
    for quotient in [2, 3, 5, 1] {
        let (met, next) = step(key, place).unwrap().unwrap();
        assert_eq!(met, quotient);
        place = next;
    }
    assert_eq!((place, step(key, place)), (Place { used: 13, turned: true }, Ok(None)));
    let at = |used| step(key, Place { used, turned: false });
    assert_eq!([0, 161].map(at), [Err(8), Err(8)]);
    assert_eq!(at(160), Ok(Some((1, Place { used: 161, turned: true }))));
    assert_eq!(step(&bits(&[("1", 33)]), Place { used: 1, turned: false }), Err(7));
    assert_eq!(step(&bits(&[("0", 33), ("1", 1)]), Place { used: 1, turned: true }), Err(7));
}
