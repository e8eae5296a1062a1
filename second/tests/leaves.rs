//! Cases for the parts alone: the form of lines and answers, exact.

mod common;
use common::Random;
use second::cases::{fnv1a, CasesStopped};
use second::leaves::{answer_leaf, run_leaves};

fn answer(line: &str) -> String {
    answer_leaf(line).unwrap_or_else(|| panic!("not of the form: {line}"))
}

/// Lines and their answers.
fn check(table: &[(&str, &str)]) {
    for (line, expected) in table {
        assert_eq!(answer(line), *expected, "{line}");
    }
}

fn hex(bytes: &[u8]) -> String {
    if bytes.is_empty() {
        return "-".to_string();
    }
    bytes.iter().map(|byte| format!("{byte:02x}")).collect()
}

// ---- V

/// The answer for the value at the start of these bytes.
fn value(bytes: &[u8]) -> String {
    answer(&format!("V 0 {}", hex(bytes)))
}

#[test]
fn values_as_lines() {
    check(&[
        ("V 0 -", "0 0 0"),
        ("V 0 35", "0 50000 1"),
        ("V 0 2B35", "1 50000 2"),
        ("V 0 2d35", "2 50000 2"),
        ("V 0 2D30", "2 0 2"),
        ("V 0 2B30", "1 0 2"),
        ("V 0 2B", "1 0 1"),
        ("V 0 2D", "2 0 1"),
        ("V 0 2E", "0 0 1"),
        ("V 0 2D2E", "2 0 2"),
        ("V 0 352E", "0 50000 2"),
        ("V 0 2E35", "0 5000 2"),
        // A letter, ESC, and the bytes beside the digits end it.
        ("V 0 41", "0 0 0"),
        ("V 0 1B35", "0 0 0"),
        ("V 0 2F31", "0 0 0"),
        ("V 0 313A", "0 10000 1"),
        ("V 0 31B1", "0 10000 1"),
        ("V 0 312031", "0 10000 1"),
        ("V 000 0035", "0 0 0"),
    ]);
}

#[test]
fn values_at_other_places() {
    check(&[
        // ESC & a - 5 . 2 5 C
        ("V 3 1B26612D352E323543", "2 52500 8"),
        ("V 4 1B26612D352E323543", "0 52500 8"),
        ("V 5 1B26612D352E323543", "0 2500 8"),
        ("V 8 1B26612D352E323543", "0 0 8"),
        ("V 9 1B26612D352E323543", "0 0 9"),
        ("V 1 3535", "0 50000 2"),
        // The end, and beyond it.
        ("V 1 35", "0 0 1"),
        ("V 2 35", "0 0 2"),
        ("V 1 -", "0 0 1"),
        ("V 4294967295 35", "0 0 4294967295"),
    ]);
}

#[test]
fn values_lowered_and_long() {
    assert_eq!(value(b"32767"), "0 327670000 5");
    assert_eq!(value(b"32766.9999"), "0 327669999 10");
    assert_eq!(value(b"32766.99999"), "0 327669999 11");
    assert_eq!(value(b"32767.00009"), "0 327670000 11");
    assert_eq!(value(b"32767.0001"), "0 327670000 10");
    assert_eq!(value(b"32767.5W"), "0 327670000 7");
    assert_eq!(value(b"-40000W"), "2 327670000 6");
    assert_eq!(value(b"+18446744073709551616"), "1 327670000 21");
    assert_eq!(value(b"4294967297"), "0 327670000 10");
    assert_eq!(value(b"1.23456789C"), "0 12345 10");
    assert_eq!(value(b"0.0001"), "0 1 6");
    assert_eq!(value(b"-0.00009"), "2 0 8");
    assert_eq!(value(b"1.2.3"), "0 12000 3");
    assert_eq!(value(b"--1"), "2 0 1");
    assert_eq!(value(b"+-1"), "1 0 1");
    assert_eq!(value(b"1-1"), "0 10000 1");
    assert_eq!(value(&[b'9'; 300]), "0 327670000 300");
    let zeros = "0".repeat(300);
    assert_eq!(value(format!("{zeros}7").as_bytes()), "0 70000 301");
    assert_eq!(value(format!("-.{zeros}7").as_bytes()), "2 0 303");
    assert_eq!(value(format!("7.{zeros}").as_bytes()), "0 70000 302");
    let threes = "3".repeat(300);
    assert_eq!(value(format!("1.{threes}").as_bytes()), "0 13333 302");
}

// ---- I

/// The answer for the item at the start of these bytes, no sequence open.
fn item(bytes: &[u8]) -> String {
    answer(&format!("I 0 0 0 {}", hex(bytes)))
}

/// The same with a sequence open.
fn item_in(first: u8, group: u8, bytes: &[u8]) -> String {
    answer(&format!("I {first} {group} 0 {}", hex(bytes)))
}

#[test]
fn items_of_text_and_codes() {
    check(&[
        ("I 0 0 0 41", "0 1 0 0 65"),
        ("I 0 0 1 4142", "0 2 0 0 66"),
        ("I 0 0 0 20", "0 1 0 0 32"),
        ("I 0 0 0 21", "0 1 0 0 33"),
        ("I 0 0 0 7E", "0 1 0 0 126"),
        ("I 0 0 0 80", "0 1 0 0 128"),
        ("I 0 0 0 FF", "0 1 0 0 255"),
        ("I 0 0 0 00", "1 1 0 0 0"),
        ("I 0 0 0 0A41", "1 1 0 0 10"),
        ("I 0 0 0 0c", "1 1 0 0 12"),
        ("I 0 0 0 1A", "1 1 0 0 26"),
        ("I 0 0 0 1C", "1 1 0 0 28"),
        ("I 0 0 0 1F", "1 1 0 0 31"),
        ("I 0 0 0 7F", "1 1 0 0 127"),
    ]);
}

#[test]
fn items_at_the_end_and_beyond() {
    check(&[
        ("I 0 0 0 -", "4 0 0 0 1"),
        ("I 0 0 2 4142", "4 2 0 0 1"),
        ("I 0 0 3 4142", "4 3 0 0 1"),
        ("I 0 0 4294967295 4142", "4 4294967295 0 0 1"),
        ("I 38 97 0 -", "4 0 0 0 1"),
        ("I 38 97 2 4142", "4 2 0 0 1"),
        ("I 38 97 3 4142", "4 3 0 0 1"),
        ("I 38 97 4294967295 -", "4 4294967295 0 0 1"),
    ]);
}

#[test]
fn items_of_two_bytes() {
    check(&[
        ("I 0 0 0 1B45", "2 2 0 0 69"),
        ("I 0 0 0 1B39", "2 2 0 0 57"),
        ("I 0 0 0 1B3D", "2 2 0 0 61"),
        ("I 0 0 0 1B5700", "2 2 0 0 87"),
        ("I 0 0 0 1B65", "2 2 0 0 101"),
        ("I 0 0 0 1B5F", "2 2 0 0 95"),
        ("I 0 0 0 1B30", "2 2 0 0 48"),
        ("I 0 0 0 1B7E", "2 2 0 0 126"),
        ("I 0 0 1 411B45", "2 3 0 0 69"),
        // An ESC before what can't stand, or before nothing.
        ("I 0 0 0 1B", "4 1 0 0 1"),
        ("I 0 0 0 1B1B45", "4 1 0 0 2"),
        ("I 0 0 0 1B20", "4 1 0 0 2"),
        ("I 0 0 0 1B7F", "4 1 0 0 2"),
        ("I 0 0 0 1BFF", "4 1 0 0 2"),
        ("I 0 0 0 1B00", "4 1 0 0 2"),
    ]);
}

#[test]
fn items_of_each_command() {
    let commands: [(&[u8], &str); 22] = [
        (b"\x1b&a2C", "3 5 0 0 1 0 20000 5 5"),
        (b"\x1b&a2H", "3 5 0 0 2 0 20000 5 5"),
        (b"\x1b*p2X", "3 5 0 0 3 0 20000 5 5"),
        (b"\x1b&a2V", "3 5 0 0 4 0 20000 5 5"),
        (b"\x1b*p2Y", "3 5 0 0 5 0 20000 5 5"),
        (b"\x1b&a2R", "3 5 0 0 6 0 20000 5 5"),
        (b"\x1b&a2L", "3 5 0 0 7 0 20000 5 5"),
        (b"\x1b&a2M", "3 5 0 0 8 0 20000 5 5"),
        (b"\x1b&l2E", "3 5 0 0 9 0 20000 5 5"),
        (b"\x1b&l2C", "3 5 0 0 10 0 20000 5 5"),
        (b"\x1b&l2D", "3 5 0 0 11 0 20000 5 5"),
        (b"\x1b&k2H", "3 5 0 0 12 0 20000 5 5"),
        (b"\x1b&k2G", "3 5 0 0 13 0 20000 5 5"),
        (b"\x1b&f2S", "3 5 0 0 14 0 20000 5 5"),
        (b"\x1b*t2R", "3 5 0 0 15 0 20000 5 5"),
        (b"\x1b*r2A", "3 5 0 0 16 0 20000 5 5"),
        (b"\x1b*r2B", "3 5 0 0 17 0 20000 5 5"),
        (b"\x1b*r2C", "3 5 0 0 18 0 20000 5 5"),
        (b"\x1b*b2Y", "3 5 0 0 19 0 20000 5 5"),
        (b"\x1b*b2M", "3 5 0 0 20 0 20000 5 5"),
        (b"\x1b&p2X\x1bE", "3 7 0 0 21 0 20000 5 7"),
        (b"\x1b*b2W\x1bE", "3 7 0 0 22 0 20000 5 7"),
    ];
    for (number, (stream, expected)) in (1..).zip(commands) {
        assert_eq!(item(stream), expected, "{number}");
        // A small letter leaves the sequence open, with or without payload.
        let mut small = stream.to_vec();
        small[4] += 32;
        let open = format!(" {} {} {number} ", stream[1], stream[2]);
        let expected = expected.replace(&format!(" 0 0 {number} "), &open);
        assert_eq!(item(&small), expected, "{number}");
        // The same as what comes next in an open sequence.
        let next = stream.len() - 3;
        assert_eq!(
            item_in(stream[1], stream[2], &stream[3..]),
            format!("3 {next} 0 0 {number} 0 20000 2 {next}")
        );
    }
}

#[test]
fn the_value_of_an_item_is_as_it_was_sent() {
    assert_eq!(item(b"\x1b&a+0C"), "3 6 0 0 1 1 0 6 6");
    assert_eq!(item(b"\x1b&a-0C"), "3 6 0 0 1 2 0 6 6");
    assert_eq!(item(b"\x1b&a-C"), "3 5 0 0 1 2 0 5 5");
    assert_eq!(item(b"\x1b&aC"), "3 4 0 0 1 0 0 4 4");
    assert_eq!(item(b"\x1b*r-7.5B"), "3 8 0 0 17 2 75000 8 8");
    assert_eq!(item(b"\x1b*rC"), "3 4 0 0 18 0 0 4 4");
    assert_eq!(item(b"\x1b&l+6.9D"), "3 8 0 0 11 1 69000 8 8");
    assert_eq!(item(b"\x1b&a99999H"), "3 9 0 0 2 0 327670000 9 9");
    assert_eq!(item(b"\x1b&k10.55559H"), "3 12 0 0 12 0 105555 12 12");
    // Not carried: none at all.
    assert_eq!(item(b"\x1b&a-5X"), "3 6 0 0 0 0 0 6 6");
    assert_eq!(item(b"\x1b*b5c"), "3 5 42 98 0 0 0 5 5");
}

#[test]
fn items_with_payload() {
    assert_eq!(item(b"\x1b&p3X\x1bEA."), "3 8 0 0 21 0 30000 5 8");
    assert_eq!(item(b"\x1b*b0W\x00"), "3 5 0 0 22 0 0 5 5");
    assert_eq!(item(b"\x1b*bW\x00"), "3 4 0 0 22 0 0 4 4");
    assert_eq!(item(b"\x1b*b1.9W\x00\x00"), "3 8 0 0 22 0 19000 7 8");
    assert_eq!(item(b"\x1b*b+1W\x00\x00"), "3 7 0 0 22 1 10000 6 7");
    // A negative count has none.
    assert_eq!(item(b"\x1b*b-3WABC"), "3 6 0 0 22 2 30000 6 6");
    assert_eq!(item(b"\x1b*b-0.5WABC"), "3 8 0 0 22 2 5000 8 8");
    assert_eq!(item(b"\x1b&p-1xA"), "3 6 38 112 21 2 10000 6 6");
    // Commands not carried have theirs too.
    assert_eq!(item(b"\x1b*b2VABC"), "3 7 0 0 0 0 0 5 7");
    assert_eq!(item(b"\x1b*b2vABC"), "3 7 42 98 0 0 0 5 7");
    assert_eq!(item(b"\x1b(5WABCDEF"), "3 9 0 0 0 0 0 4 9");
    assert_eq!(item(b"\x1b)s2WABC"), "3 7 0 0 0 0 0 5 7");
    assert_eq!(item(b"\x1b*p2WABC"), "3 7 0 0 0 0 0 5 7");
    // And others have none: *p#X, &b#V, &p#V.
    assert_eq!(item(b"\x1b&b2VABC"), "3 5 0 0 0 0 0 5 5");
    assert_eq!(item(b"\x1b&p2VABC"), "3 5 0 0 0 0 0 5 5");
    assert_eq!(item_in(42, 98, b"3w\x1bEA3W"), "3 5 42 98 22 0 30000 2 5");
    // In the middle of a stream.
    let line = format!("I 42 98 6 {}", hex(b"\x1b*b1wA2WBC\x0c"));
    assert_eq!(answer(&line), "3 10 0 0 22 0 20000 8 10");
}

#[test]
fn items_with_short_payload() {
    assert_eq!(item(b"\x1b*b3WAB"), "4 7 0 0 1");
    assert_eq!(item(b"\x1b*b3wAB"), "4 7 0 0 1");
    assert_eq!(item(b"\x1b*b1W"), "4 5 0 0 1");
    assert_eq!(item(b"\x1b&p2XA"), "4 6 0 0 1");
    assert_eq!(item(b"\x1b*b2VA"), "4 6 0 0 1");
    assert_eq!(item(b"\x1b(5WA"), "4 5 0 0 1");
    assert_eq!(item_in(42, 98, b"2WA"), "4 3 0 0 1");
    // The lowered number counts.
    let mut stream = b"\x1b*b40000W".to_vec();
    stream.extend([0xFF; 32_767]);
    let whole = "3 32776 0 0 22 0 327670000 9 32776";
    assert_eq!(item(&stream), whole);
    stream.pop();
    assert_eq!(item(&stream), "4 32775 0 0 1");
    stream.extend([0xFF; 9]);
    assert_eq!(item(&stream), whole);
}

#[test]
fn items_that_break() {
    // The stream's end.
    for stream in [&b"\x1b&"[..], b"\x1b&a", b"\x1b&a-", b"\x1b&a1.", b"\x1b(1"] {
        assert_eq!(item(stream), format!("4 {} 0 0 1", stream.len()));
    }
    // What can't stand: the bytes before it are taken.
    for byte in [0, 13, 27, 32, 33, 47, 58, 63, 95, 127, 128, 255] {
        assert_eq!(item(&[27, b'(', byte]), "4 2 0 0 2", "{byte}");
        assert_eq!(item(&[27, b'&', b'a', byte]), "4 3 0 0 2", "{byte}");
        assert_eq!(item(&[27, b'&', b'a', b'5', byte]), "4 4 0 0 2", "{byte}");
        assert_eq!(item_in(38, 97, &[byte]), "4 0 0 0 2", "{byte}");
        assert_eq!(item_in(38, 97, &[b'5', byte]), "4 1 0 0 2", "{byte}");
    }
    assert_eq!(item(b"\x1b&a1.2.3C"), "4 6 0 0 2");
    assert_eq!(item(b"\x1b&a--1C"), "4 4 0 0 2");
    // A small letter without a group, next and behind a value.
    assert_eq!(item(b"\x1b(5w"), "4 3 0 0 2");
    assert_eq!(item(b"\x1b(s"), "4 3 0 0 1");
    assert_eq!(item(b"\x1b(s5w"), "4 5 0 0 1");
    assert_eq!(item(b"\x1b(@"), "3 3 0 0 0 0 0 3 3");
    // The first and last bytes of each range.
    assert_eq!(item(b"\x1b!`@"), "3 4 0 0 0 0 0 4 4");
    assert_eq!(item(b"\x1b/~^"), "3 4 0 0 0 0 0 4 4");
    assert_eq!(item(b"\x1b*b`"), "3 4 42 98 0 0 0 4 4");
    assert_eq!(item(b"\x1b*b~"), "3 4 42 98 0 0 0 4 4");
    assert_eq!(item_in(33, 126, b"1~"), "3 2 33 126 0 0 0 2 2");
    assert_eq!(item_in(47, 96, b"-2W12"), "3 3 0 0 0 0 0 3 3");
    assert_eq!(item_in(47, 96, b"2W12"), "3 4 0 0 0 0 0 2 4");
}

// ---- D

#[test]
fn rows_by_methods_0_and_1() {
    check(&[
        ("D 0 4 - -", "1 -"),
        ("D 0 4 - 0102", "1 0102"),
        ("D 0 4 - 0a00", "1 0A"),
        ("D 0 4 - 00000001", "1 00000001"),
        ("D 0 2 - 01020304", "1 0102"),
        ("D 0 4 FFFFFFFF 01", "1 01"),
        ("D 0 4 FFFFFFFF -", "1 -"),
        ("D 0 0 FF FF", "1 -"),
        ("D 1 4 - -", "1 -"),
        ("D 1 4 - 0007", "1 07"),
        ("D 1 4 - 02070108", "1 07070708"),
        ("D 1 3 - FF07FF08", "1 070707"),
        ("D 1 4 FFFFFFFF 0107", "1 0707"),
        ("D 1 4 - 02", "0 -"),
        ("D 1 4 FF 020701", "0 -"),
        ("D 1 1 - FF0700", "0 -"),
        ("D 1 0 - 00", "0 -"),
    ]);
}

#[test]
fn rows_by_method_2() {
    check(&[
        ("D 2 5 - FEA5010FF0", "1 A5A5A50FF0"),
        ("D 2 5 - -", "1 -"),
        ("D 2 5 FF 0009", "1 09"),
        ("D 2 3 - 8105", "1 050505"),
        ("D 2 3 - 80", "1 -"),
        ("D 2 3 - 800009800008", "1 0908"),
        ("D 2 2 - 03AABBCCDD", "1 AABB"),
        ("D 2 5 - FE", "0 -"),
        ("D 2 5 FF 00", "0 -"),
        ("D 2 5 - 020102", "0 -"),
        ("D 2 5 - 0009FE", "0 -"),
        // Beyond the row, and damaged all the same.
        ("D 2 1 - F00100", "0 -"),
        ("D 2 1 - F001FF", "0 -"),
        ("D 2 0 - 0009", "1 -"),
        ("D 2 0 - 00", "0 -"),
    ]);
}

#[test]
fn rows_by_method_3() {
    check(&[
        ("D 3 5 A5A5A50FF0 211122", "1 A511220FF0"),
        ("D 3 4 01020304 -", "1 01020304"),
        ("D 3 4 0102 -", "1 0102"),
        ("D 3 2 01020304 -", "1 0102"),
        ("D 3 4 - -", "1 -"),
        ("D 3 4 01020304 0000", "1 00020304"),
        ("D 3 4 01020304 0300", "1 010203"),
        ("D 3 4 01020304 01090108", "1 01090308"),
        ("D 3 4 01020304 E20908070605040302", "1 01020908"),
        // Beyond the row the place goes on counting, and never comes back.
        ("D 3 4 01020304 1E090008", "1 01020304"),
        ("D 3 4 01020304 1FFFFF050900", "0 -"),
        ("D 3 4 01020304 1FFFFF05090007", "1 01020304"),
        ("D 3 4 01020304 00", "0 -"),
        ("D 3 4 01020304 2109", "0 -"),
        ("D 3 4 01020304 1F", "0 -"),
        ("D 3 4 01020304 1F00", "0 -"),
        ("D 3 4 01020304 1FFF", "0 -"),
        ("D 3 4 01020304 1E0900", "0 -"),
        // A greater number acts as 3.
        ("D 4 4 01020304 0009", "1 09020304"),
        ("D 255 4 01020304 -", "1 01020304"),
        ("D 256 4 01020304 0009", "1 09020304"),
        ("D 4294967295 4 01020304 1F", "0 -"),
    ]);
    let at = |zeros: usize| format!("1 {}77", "00".repeat(zeros));
    assert_eq!(answer("D 3 32 - 1E77"), at(30));
    assert_eq!(answer("D 3 32 - 1F0077"), at(31));
    assert_eq!(answer("D 3 600 - 1FFE77"), at(285));
    assert_eq!(answer("D 3 600 - 1FFF0077"), at(286));
    assert_eq!(answer("D 3 600 - 1FFFFF3A77"), at(599));
    assert_eq!(answer("D 3 600 - 1FFFFF3B77"), "1 -");
}

// ---- P

/// The answer for a page of these bytes, with so many dots.
fn page(bytes: &[u8], dots: u32) -> String {
    format!("{:016x} {dots}", fnv1a(bytes))
}

const NOTHING: &str = "cbf29ce484222325 0";

#[test]
fn painting_at_each_dots() {
    // FNV-1a of one byte, by its definition: (offset ^ byte) x prime.
    assert_eq!(answer("P 1 1 1 0 0 81 00"), "af643c4c86028fac 2");
    assert_eq!(page(&[0x81], 2), "af643c4c86028fac 2");
    assert_eq!(answer("P 1 1 0 0 0 FF 00"), page(&[0], 0));
    assert_eq!(answer("P 1 2 1 0 1 81 00"), page(&[0, 0x81], 2));
    assert_eq!(
        answer("P 2 3 2 0 0 81 00"),
        page(&[0xC0, 3, 0xC0, 3, 0, 0], 8)
    );
    let three = [0xE0, 0, 7, 0xE0, 0, 7, 0xE0, 0, 7];
    assert_eq!(answer("P 3 3 3 0 0 81 00"), page(&three, 18));
    let four = [0xF0, 0, 0, 0x0F].repeat(4);
    assert_eq!(answer("P 4 4 4 0 0 81 00"), page(&four, 32));
    // Each bit of a byte, three dots wide: 10110100.
    let line = [0b1110_0011, 0b1111_0001, 0b1100_0000];
    assert_eq!(answer("P 3 1 3 0 0 B4 00"), page(&line, 12));
    // Not from a whole byte on.
    assert_eq!(answer("P 2 1 1 3 0 FF 00"), page(&[0x1F, 0xE0], 8));
    assert_eq!(answer("P 3 1 2 5 0 C1 00"), page(&[0x07, 0x80, 0x18], 6));
    assert_eq!(answer("P 3 1 1 8 0 81 00"), page(&[0, 0x81, 0], 2));
    // Zeros behind the row, and no row at all.
    assert_eq!(answer("P 3 1 1 0 0 ff 00"), page(&[0xFF, 0, 0], 8));
    assert_eq!(answer("P 3 1 1 0 0 - 00"), page(&[0; 3], 0));
}

#[test]
fn painting_is_clipped() {
    // To the right.
    assert_eq!(answer("P 1 1 1 4 0 FF 00"), page(&[0x0F], 4));
    assert_eq!(answer("P 2 1 1 15 0 80 00"), page(&[0, 1], 1));
    assert_eq!(answer("P 2 1 1 16 0 80 00"), page(&[0, 0], 0));
    assert_eq!(answer("P 1 4 4 6 0 80 00"), page(&[3; 4], 8));
    assert_eq!(answer("P 1 2 1 0 0 81FFFF 00"), page(&[0x81, 0], 2));
    assert_eq!(answer("P 1 2 1 4 0 81FFFF 00"), page(&[0x08, 0], 1));
    // Below.
    assert_eq!(answer("P 1 3 4 0 2 80 00"), page(&[0, 0, 0xF0], 4));
    assert_eq!(answer("P 1 3 2 0 1 80 00"), page(&[0, 0xC0, 0xC0], 4));
    assert_eq!(answer("P 1 3 4 0 3 80 00"), page(&[0; 3], 0));
    // Both.
    assert_eq!(answer("P 1 2 4 7 1 FF 00"), page(&[0, 1], 1));
    // Far beyond.
    for dots in 1..=4 {
        for (from, line) in [
            ("4294967295", "0"),
            ("0", "4294967295"),
            ("4294967295", "4294967295"),
            ("8", "0"),
            ("0", "2"),
        ] {
            let line = format!("P 1 2 {dots} {from} {line} FFFF 00");
            assert_eq!(answer(&line), page(&[0, 0], 0), "{line}");
        }
    }
}

#[test]
fn painting_over_a_fill() {
    assert_eq!(answer("P 1 2 1 0 0 80 FF"), page(&[0xFF, 0xFF], 16));
    assert_eq!(answer("P 1 2 1 0 0 80 0f"), page(&[0x8F, 0x0F], 9));
    assert_eq!(answer("P 1 2 2 0 1 88 0F"), page(&[0x0F, 0xCF], 10));
    assert_eq!(answer("P 2 2 0 0 0 FF AA"), page(&[0xAA; 4], 16));
}

#[test]
fn pages_of_no_bytes_and_long_ones() {
    check(&[
        ("P 0 5 1 0 0 FF FF", NOTHING),
        ("P 5 0 1 0 0 FF FF", NOTHING),
        ("P 0 0 4 0 0 FF FF", NOTHING),
        ("P 0 4294967295 4 0 0 FF FF", NOTHING),
        ("P 4294967295 0 4 0 0 FF FF", NOTHING),
        ("P 4294967295 0 4 4294967295 4294967295 FF FF", NOTHING),
    ]);
    assert_eq!(
        answer("P 600 6800 1 4799 6799 80 00"),
        page(&[&vec![0; 4_079_999][..], &[1]].concat(), 1)
    );
    assert!(answer_leaf("P 7999999 1 1 0 0 80 00").is_some());
    assert_eq!(answer_leaf("P 8000000 1 1 0 0 80 00"), None);
    assert_eq!(answer_leaf("P 4294967295 4294967295 1 0 0 80 00"), None);
}

/// Dot by dot, with no cleverness.
fn painted_slowly(numbers: [usize; 5], row: &[u8], fill: u8) -> Vec<u8> {
    let [wide, high, dots, from, line] = numbers;
    let mut page = vec![fill; wide * high];
    for y in 0..high {
        for x in 0..wide * 8 {
            if dots == 0 || x < from || !(line..line + dots).contains(&y) {
                continue;
            }
            let column = (x - from) / dots;
            let byte = row.get(column / 8).copied().unwrap_or(0);
            if byte << (column % 8) & 0x80 != 0 {
                page[y * wide + x / 8] |= 0x80 >> (x % 8);
            }
        }
    }
    page
}

#[test]
fn painting_equals_painting_dot_by_dot() {
    let mut random = Random(7);
    for _ in 0..4_000 {
        let (wide, high, dots) = (random.below(7), random.below(8), random.below(5));
        let (from, line) = (random.below(wide * 8 + 9), random.below(high + 3));
        let row: Vec<u8> = (0..random.below(9)).map(|_| random.byte()).collect();
        let fill = random.byte() & random.byte();
        let expected = painted_slowly([wide, high, dots, from, line], &row, fill);
        let set = expected.iter().map(|byte| byte.count_ones()).sum();
        let case = format!(
            "P {wide} {high} {dots} {from} {line} {} {fill:02X}",
            hex(&row)
        );
        assert_eq!(answer(&case), page(&expected, set), "{case}");
    }
}

// ---- N

#[test]
fn plain_forms() {
    check(&[
        ("N 0 0", "0"),
        ("N 1 0", "+0"),
        ("N 2 0", "+0"),
        ("N 0 5000", "0.5"),
        ("N 0 327670000", "32767"),
        ("N 2 327670000", "-32767"),
        ("N 2 12500", "-1.25"),
        ("N 1 12500", "+1.25"),
        ("N 0 12500", "1.25"),
        ("N 0 1", "0.0001"),
        ("N 2 1", "-0.0001"),
        ("N 0 10", "0.001"),
        ("N 0 100", "0.01"),
        ("N 0 9999", "0.9999"),
        ("N 0 10000", "1"),
        ("N 1 10000", "+1"),
        ("N 0 10001", "1.0001"),
        ("N 0 10010", "1.001"),
        ("N 0 100000", "10"),
        ("N 0 1000500", "100.05"),
        ("N 0 4294967295", "429496.7295"),
        ("N 2 4294960000", "-429496"),
    ]);
}

#[test]
fn a_plain_form_is_read_as_the_value_it_is_of() {
    let mut random = Random(3);
    for _ in 0..4_000 {
        let (sign, size) = (random.below(3), random.below(327_670_001));
        let text = answer(&format!("N {sign} {size}"));
        // -0 is written as +0.
        let sign = if size == 0 { sign.min(1) } else { sign };
        let expected = format!("{sign} {size} {}", text.len());
        assert_eq!(value(text.as_bytes()), expected);
    }
}

// ---- lines

#[test]
fn lines_not_of_the_form() {
    let long = "00".repeat(601);
    assert!(answer_leaf(&format!("D 3 600 {} -", &long[2..])).is_some());
    assert_eq!(answer_leaf(&format!("D 3 600 {long} -")), None);
    for line in [
        "",
        " ",
        "V",
        "V ",
        "X 0 -",
        "v 0 -",
        " V 0 -",
        "V  0 -",
        "V 0 - ",
        "V 0 -\r",
        "V 0",
        "V 0 ",
        "V 0 - -",
        "V -1 -",
        "V +1 -",
        "V - -",
        "V 4294967296 -",
        "V 99999999999999999999999 -",
        "V 0x1 -",
        "V 0 3",
        "V 0 3g",
        "V 0 --",
        "V 0 é",
        "V\t0\t-",
        "I 0 0 0",
        "I 0 0 0 - -",
        "I 256 97 0 -",
        "I 38 256 0 -",
        "I - - 0 -",
        "I 38 97 4294967296 -",
        "D 0 601 - -",
        "D 4294967296 4 - -",
        "D -1 4 - -",
        "D 0 4 -",
        "D 0 4 - - -",
        "D 0 4 1 -",
        "D 0 4 - 1",
        "P 1 1 5 0 0 - 00",
        "P 1 1 1 0 0 - 0",
        "P 1 1 1 0 0 - 0000",
        "P 1 1 1 0 0 - -",
        "P 1 1 1 0 0 -",
        "P 1 1 1 4294967296 0 - 00",
        "P 1 1 1 0 4294967296 - 00",
        "P 1 1 1 0 0 - 00 0",
        "N 3 0",
        "N 0 4294967296",
        "N 0",
        "N 0 -",
        "N 0 0 0",
        "N - 0",
    ] {
        assert_eq!(answer_leaf(line), None, "{line}");
    }
}

#[test]
fn a_file_of_lines() {
    let mut out = Vec::new();
    let file = b"V 0 35\nI 0 0 0 41\nD 0 2 - 0102\nP 0 0 1 0 0 - 00\nN 2 12500";
    run_leaves(&mut &file[..], &mut out).unwrap();
    let expected = "0 50000 1\n0 1 0 0 65\n1 0102\ncbf29ce484222325 0\n-1.25\n";
    assert_eq!(String::from_utf8(out).unwrap(), expected);
    // The bad line stops it, with its number; those before are answered.
    let mut out = Vec::new();
    let stopped = run_leaves(&mut &b"N 0 0\nN 0\nN 0 0\n"[..], &mut out);
    assert!(matches!(stopped, Err(CasesStopped::Line(2))));
    assert_eq!(out, b"0\n");
    let stopped = run_leaves(&mut &b"N 0 0\n\n"[..], &mut Vec::new());
    assert!(matches!(stopped, Err(CasesStopped::Line(2))));
    let stopped = run_leaves(&mut &b"N 0 \xFF\n"[..], &mut Vec::new());
    assert!(matches!(stopped, Err(CasesStopped::Line(1))));
    run_leaves(&mut &b""[..], &mut Vec::new()).unwrap();
}

#[test]
fn junk_is_answered_or_not_of_the_form() {
    let words = [
        "V",
        "I",
        "D",
        "P",
        "N",
        "0",
        "1",
        "2",
        "3",
        "4",
        "5",
        "27",
        "38",
        "97",
        "126",
        "255",
        "256",
        "600",
        "601",
        "2147483647",
        "4294967295",
        "4294967296",
        "18446744073709551616",
        "-",
        "--",
        "",
        "1B",
        "1b26",
        "1B2661",
        "1B2A623357",
        "2D39",
        "FF",
        "FFFF",
        "1FFF",
        "1FFFFFFFFF",
        "2E2E2E",
        "7E7E",
        "0",
        "é",
        "\t",
        "x5:00",
    ];
    let mut random = Random(11);
    let mut answered = 0;
    for _ in 0..200_000 {
        let kind = words[random.below(5)];
        let count = match kind {
            "V" | "N" => 2,
            "P" => 7,
            _ => 4,
        };
        let mut line = kind.to_string();
        for _ in 0..count + usize::from(random.below(50) == 0) {
            line.push(' ');
            // Mostly words with a place in some form.
            let word = 5 + random.below(words.len() - 5);
            line.push_str(words[word]);
        }
        if let Some(answer) = answer_leaf(&line) {
            answered += 1;
            assert!(answer.bytes().all(|byte| (32..127).contains(&byte)));
        }
    }
    assert!(answered > 5_000, "{answered}");
    // Bytes at random, lines and all.
    for _ in 0..2_000 {
        let file: Vec<u8> = (0..random.below(60)).map(|_| random.byte()).collect();
        let _ = run_leaves(&mut &file[..], &mut Vec::new());
    }
}
