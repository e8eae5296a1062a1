//! The readings where the paper is silent or can be read two ways, by their
//! numbers in the list of open points.

mod common;
use common::{afresh, findings, items, join, measure, plain, plain_on, read, read_from, read_on};
use second::number::{read_value, Sign, Value};
use second::reader::{read_item, Broken, OpenSequence, Piece};
use second::state::State;

fn value(text: &[u8]) -> Value {
    let (value, length) = read_value(text);
    assert_eq!(length, text.len());
    value
}

fn valued(sign: Sign, size: i64) -> Value {
    Value { sign, size }
}

/// A state on 640 x 800 with the cursor here.
fn at(x: u32, y: u32) -> State {
    let mut state = afresh();
    (state.x, state.y) = (x, y);
    state
}

#[test]
fn reading_01_every_part_of_a_value_may_be_absent() {
    assert_eq!(value(b"5."), valued(Sign::None, 50_000));
    assert_eq!(value(b".5"), valued(Sign::None, 5_000));
    assert_eq!(value(b"."), valued(Sign::None, 0));
    assert_eq!(value(b""), Value::NONE);
    assert_eq!(value(b"+"), valued(Sign::Plus, 0));
    assert_eq!(value(b"-."), valued(Sign::Minus, 0));
    assert_eq!(value(b"+.25"), valued(Sign::Plus, 2_500));
    assert_eq!(read_value(b"1.2.3"), (valued(Sign::None, 12_000), 3));
    assert_eq!(read_value(b"--1"), (valued(Sign::Minus, 0), 1));
    // A sign alone is relative 0: the cursor stays.
    for stream in [&b"\x1b&a+C"[..], b"\x1b&a-C", b"\x1b&a-.C", b"\x1b&a+0C"] {
        let end = read_from(640, 800, at(1_000, 2_000), stream);
        assert_eq!((end.cursor(), end.findings()), ((1_000, 2_000), vec![]));
    }
    let end = read_from(640, 800, at(1_000, 2_000), b"\x1b&a.C");
    assert_eq!(end.cursor(), (0, 2_000));
}

#[test]
fn reading_02_four_places_first_then_the_size() {
    assert_eq!(value(b"32767.00009").size, 327_670_000);
    assert_eq!(value(b"32767.0001").size, 327_670_000);
    assert_eq!(value(b"32767.5").size, 327_670_000);
    assert_eq!(value(b"32766.99999").size, 327_669_999);
    assert_eq!(value(b"-40000").signed(), -327_670_000);
    assert_eq!(value(b"0000000000000000000000001.5").size, 15_000);
    assert_eq!(value(&[b'9'; 100_000]).size, 327_670_000);
    assert_eq!(value(b"1.23456789").size, 12_345);
    assert_eq!(value(b"-1.23456789").signed(), -12_345);
}

#[test]
fn reading_03_negative_after_the_cut() {
    for stream in [&b"\x1b&k-0H"[..], b"\x1b&k-0.00001H"] {
        let end = read(stream);
        assert_eq!((end.findings(), end.state.hmi), (vec![], 0));
    }
    assert_eq!(findings(b"\x1b&k-0.0001H"), [4]);
    assert_eq!(read(b"\x1b&l-0.00009C").state.vmi, 0);
    assert_eq!(findings(b"\x1b&l-0.0001C"), [4]);
    assert_eq!(
        findings(b"\x1b&a-0.5L\x1b&k-0.9G\x1b*r-0.5A\x1b*b-0.5M\x1b*b-0.5Y"),
        []
    );
    // Cut toward zero: 0.0001 of 60 is nothing, and allowed.
    assert_eq!(read(b"\x1b&k0.0001H").state.hmi, 0);
}

#[test]
fn reading_04_payload_of_sequences_without_a_group() {
    assert_eq!(items(b"\x1bWAB"), [(0, 2, 3), (2, 1, 0), (3, 1, 0)]);
    assert_eq!(items(b"\x1b(5W\x1bE\x1bE!A"), [(0, 9, 3), (9, 1, 0)]);
    assert_eq!(items(b"\x1b(WA"), [(0, 3, 3), (3, 1, 0)]);
    // X and V take payload in their groups only.
    assert_eq!(items(b"\x1b%1XA"), [(0, 4, 3), (4, 1, 0)]);
    assert_eq!(items(b"\x1b&b1VA"), [(0, 5, 3), (5, 1, 0)]);
}

#[test]
fn reading_05_finding_1_before_all_others() {
    assert_eq!(items(b"\x1b(s5Wab"), [(0, 7, 1)]);
    assert_eq!(items(b"\x1b*b5Vab"), [(0, 7, 1)]);
    assert_eq!(items(b"\x1b*z5Wab"), [(0, 7, 1)]);
    assert_eq!(items(b"\x1b(s-5Wa"), [(0, 6, 3), (6, 1, 0)]);
    assert_eq!(items(b"\x1b*b-5Wa"), [(0, 6, 4), (6, 1, 0)]);
}

#[test]
fn reading_06_the_lowered_number_counts() {
    let stream = join(&[b"\x1b*b40000W", &[0; 32_767], b"\x0D"]);
    assert_eq!(items(&stream), [(0, 32_776, 0), (32_776, 1, 0)]);
}

#[test]
fn reading_07_escape_before_another_byte() {
    let bytes = (0..=32).chain(127..=255);
    for byte in bytes {
        let item = read_item(&[27, byte], 0, None).unwrap();
        assert_eq!(item.length, 1, "{byte}");
        assert_eq!(item.piece, Piece::Broken(Broken::CannotStand), "{byte}");
    }
    assert_eq!(items(b"A\x1b"), [(0, 1, 0), (1, 1, 1)]);
    for byte in 33..=47 {
        assert_eq!(items(&[27, byte]), [(0, 2, 1)]);
    }
    for byte in 48..=126 {
        let item = read_item(&[27, byte, 65], 0, None).unwrap();
        assert_eq!((item.length, item.piece), (2, Piece::TwoByte(byte)));
    }
}

#[test]
fn reading_08_bytes_that_cannot_stand() {
    let open = Some(OpenSequence {
        first: b'&',
        group: b'a',
    });
    let cannot = (0..=42)
        .chain([44, 47])
        .chain(58..=63)
        .chain([95])
        .chain(127..=255);
    for byte in cannot {
        let in_value = read_item(&[27, b'&', b'a', b'1', byte], 0, None).unwrap();
        assert_eq!((in_value.length, in_value.end()), (4, 4), "{byte}");
        assert_eq!(in_value.piece, Piece::Broken(Broken::CannotStand), "{byte}");
        let at_first = read_item(&[byte], 0, open).unwrap();
        assert_eq!(at_first.length, 0, "{byte}");
        assert_eq!(at_first.piece, Piece::Broken(Broken::CannotStand), "{byte}");
        assert_eq!(at_first.leaves_open, None);
    }
    // A second sign or point, and a sign after digits.
    assert_eq!(items(b"\x1b&a++")[0], (0, 4, 2));
    assert_eq!(items(b"\x1b&a1+")[0], (0, 4, 2));
    assert_eq!(items(b"\x1b&a1..")[0], (0, 5, 2));
    assert_eq!(items(b"\x1b&a1.-")[0], (0, 5, 2));
}

#[test]
fn reading_09_the_ends_of_the_ranges() {
    assert_eq!(items(b"\x1b&a1`2C"), [(0, 5, 3), (5, 2, 0)]);
    assert_eq!(items(b"\x1b&a1~2C"), [(0, 5, 3), (5, 2, 0)]);
    assert_eq!(items(b"\x1b&a1@2"), [(0, 5, 3), (5, 1, 0)]);
    assert_eq!(items(b"\x1b&a1^2"), [(0, 5, 3), (5, 1, 0)]);
    // As group bytes.
    assert_eq!(items(b"\x1b&`1C"), [(0, 5, 3)]);
    assert_eq!(items(b"\x1b&~1C"), [(0, 5, 3)]);
    // A two-byte command with a small letter opens nothing.
    assert_eq!(items(b"\x1bz1C"), [(0, 2, 3), (2, 1, 0), (3, 1, 0)]);
    assert_eq!(items(b"\x1b~"), [(0, 2, 3)]);
    assert_eq!(items(b"\x1b0"), [(0, 2, 3)]);
}

#[test]
fn reading_10_items_of_no_bytes() {
    let end = read(b"\x1b&a1c\x1b&a1c\x1b&a1c");
    let expected = [
        (0, 5, 0),
        (5, 0, 2),
        (5, 5, 0),
        (10, 0, 2),
        (10, 5, 0),
        (15, 0, 1),
    ];
    assert_eq!(end.items, expected);
    // A handed state with an open sequence, at the end of the stream.
    let mut state = afresh();
    state.open = Some(OpenSequence {
        first: b'&',
        group: b'a',
    });
    let end = read_from(640, 800, state, b"");
    assert_eq!((end.items, end.state), (vec![(0, 0, 1)], afresh()));
}

#[test]
fn reading_11_a_small_letter_keeps_the_sequence_open() {
    let end = read(b"\x1b*b2m1w\xFE2w\x00\x413Y");
    let expected = [(0, 5, 0), (5, 3, 7), (8, 4, 0), (12, 2, 0)];
    assert_eq!(end.items, expected);
    assert_eq!(end.state.open, None);
    // After 3, 4, 5 and 6.
    assert_eq!(
        items(b"\x1b*b1z9m0y0W"),
        [(0, 5, 3), (5, 2, 4), (7, 2, 6), (9, 2, 0)]
    );
    assert_eq!(items(b"\x1b&f1s9s0S"), [(0, 5, 5), (5, 2, 4), (7, 2, 0)]);
}

#[test]
fn reading_12_finding_4_before_6() {
    assert_eq!(
        findings(b"\x1b*r0A\x1b*t9R\x1b*r9A\x1b*t75R\x1b*r0A"),
        [4, 4, 6, 6]
    );
    assert_eq!(findings(b"\x1b*b-1Y\x1b*b1Y"), [4, 6]);
}

#[test]
fn reading_13_values_compared() {
    assert_eq!(read(b"\x1b&l336C").state.vmi, 50_400);
    assert_eq!(read(b"\x1b&l336.00009C").state.vmi, 50_400);
    assert_eq!(findings(b"\x1b&l336.0001C"), [4]);
    assert_eq!(read(b"\x1b&l7.9999C").state.vmi, 1_199);
    assert_eq!(findings(b"\x1b&k4G"), [4]);
    assert_eq!(read(b"\x1b&k3.9G").state.line_termination, 3);
}

#[test]
fn reading_14_margins_and_the_cursor() {
    // Carried out: x moves into the margins.
    let end = read(b"\x1b&a5L");
    assert_eq!((end.state.left_margin, end.state.x), (3_600, 3_600));
    let end = read(b"\x1b&a20C\x1b&a9M");
    assert_eq!((end.state.right_margin, end.state.x), (7_200, 7_200));
    // Not carried out: x stays.
    let end = read(b"\x1b&a9M\x1b&a10L");
    assert_eq!(
        (end.findings(), end.state.left_margin, end.state.x),
        (vec![4], 0, 0)
    );
    let end = read(b"\x1b&a5L\x1b&a20C\x1b&a4M");
    assert_eq!(
        (end.findings(), end.state.right_margin, end.state.x),
        (vec![4], 15_360, 14_400)
    );
    // The lesser of (n + 1) x HMI and LW.
    assert_eq!(read(b"\x1b&a9999M").state.right_margin, 15_360);
    // HMI 0: R would be 0, which is not above L; L = 0 is below R.
    assert_eq!(findings(b"\x1b&k0H\x1b&a5M\x1b&a5L"), [4]);
    // ESC 9 leaves the cursor; positions go beyond margins.
    let end = read(b"\x1b&a5l9M\x1b9");
    assert_eq!((end.state.left_margin, end.state.right_margin), (0, 15_360));
    assert_eq!(end.state.x, 3_600);
    let end = read(b"\x1b&a5l9M\x1b&a1C\x1b&f0S\x1b&a20C\x1b&f1S");
    assert_eq!(end.cursor(), (720, 4_500));
    assert_eq!((end.state.depth, end.state.stack), (0, afresh().stack));
    assert_eq!(read(b"\x1b&a5l9m20C").state.x, 14_400);
}

#[test]
fn reading_15_form_feed_on_an_unused_page() {
    let end = read(b"\x0C\x0C");
    assert_eq!(end.pages.len(), 2);
    assert!(end
        .pages
        .iter()
        .all(|page| page.iter().all(|byte| *byte == 0)));
    // x, the raster, its margin and seed row stay.
    let end = read(b"\x1b&a3C\x1b*t300R\x1b*r1A\x1b*b1W\x80\x1b&a5C\x0C");
    assert_eq!(end.cursor(), (3_600, 4_500));
    assert!(end.state.started && !end.state.used);
    assert_eq!(
        (end.state.graphics_margin, end.seed(1)),
        (2_160, vec![0x80])
    );
    assert_eq!(end.pages.len(), 1);
    // ESC E ends a used page only.
    assert_eq!(read(b"\x1bE").pages.len(), 0);
    let end = read(b"A\x1b&k5H\x1bE");
    assert_eq!((end.pages.len(), end.state), (1, afresh()));
}

#[test]
fn reading_16_line_termination() {
    let end_of = |termination: u8, code: u8| {
        let mut state = at(5_000, 6_000);
        state.line_termination = termination;
        state.left_margin = 100;
        let end = read_from(640, 800, state, &[code]);
        (end.cursor(), end.pages.len())
    };
    for (termination, cr, lf, ff) in [
        (0, (100, 6_000), (5_000, 7_200), (5_000, 4_500)),
        (1, (100, 7_200), (5_000, 7_200), (5_000, 4_500)),
        (2, (100, 6_000), (100, 7_200), (100, 4_500)),
        (3, (100, 7_200), (100, 7_200), (100, 4_500)),
    ] {
        assert_eq!(end_of(termination, b'\x0D'), (cr, 0));
        assert_eq!(end_of(termination, b'\x0A'), (lf, 0));
        assert_eq!(end_of(termination, b'\x0C'), (ff, 1));
    }
}

#[test]
fn reading_17_transparent_print() {
    let all: Vec<u8> = (0..=255).collect();
    let end = read(&join(&[b"\x1b&k0.5H\x1b&p256X", &all]));
    assert_eq!((end.cursor(), end.items.len()), ((256 * 30, 4_500), 2));
    assert!(end.state.used && end.pages.is_empty());
    // Spaces do not mark the page used, any other byte does.
    for byte in 0..=255 {
        let end = read(&[27, b'&', b'p', b'2', b'X', 32, byte]);
        assert_eq!((end.state.x, end.state.used), (1_440, byte != 32), "{byte}");
    }
    assert_eq!(findings(b"\x1b&p-1X"), [4]);
    assert_eq!(plain(b"\x1b&p-0.5XA"), b"\x1b&p0XA");
}

#[test]
fn reading_18_horizontal_tab() {
    let tab = |x, left, right, hmi| {
        let mut state = at(x, 0);
        (state.left_margin, state.right_margin, state.hmi) = (left, right, hmi);
        read_from(640, 800, state, b"\x09").state.x
    };
    assert_eq!(tab(0, 0, 15_360, 720), 5_760);
    assert_eq!(tab(5_759, 0, 15_360, 720), 5_760);
    assert_eq!(tab(5_760, 0, 15_360, 720), 11_520);
    assert_eq!(tab(11_520, 0, 15_360, 720), 15_360);
    // Left of L to L; from L on to the next.
    assert_eq!(tab(99, 100, 15_360, 720), 100);
    assert_eq!(tab(100, 100, 15_360, 720), 5_860);
    // With HMI 0 never.
    assert_eq!(tab(50, 100, 15_360, 0), 50);
    assert_eq!(tab(200, 100, 15_360, 0), 200);
    // It stops at R, at R it does not move, beyond R it stops at LW.
    assert_eq!(tab(0, 0, 5_000, 720), 5_000);
    assert_eq!(tab(5_000, 0, 5_000, 720), 5_000);
    assert_eq!(tab(5_001, 0, 5_000, 720), 5_760);
    assert_eq!(tab(15_000, 0, 5_000, 720), 15_360);
}

#[test]
fn reading_19_text_that_cannot_move() {
    let text = |x, right, hmi, byte| {
        let mut state = at(x, 0);
        (state.right_margin, state.hmi) = (right, hmi);
        let end = read_from(640, 800, state, &[byte]);
        (end.state.x, end.state.used)
    };
    assert_eq!(text(5_000, 5_000, 720, b'A'), (5_000, true));
    assert_eq!(text(1_000, 5_000, 0, b'A'), (1_000, true));
    assert_eq!(text(4_900, 5_000, 720, 200), (5_000, true));
    assert_eq!(text(5_001, 5_000, 720, b'A'), (5_721, true));
    assert_eq!(text(15_300, 5_000, 720, b'A'), (15_360, true));
    assert_eq!(text(5_000, 5_000, 720, b' '), (5_000, false));
}

#[test]
fn reading_20_ends_of_raster_graphics() {
    assert_eq!(findings(b"\x1b*rB\x1b*rC\x1b*r-5B\x1b*r-5C"), []);
    let rows = b"\x1b&a3C\x1b*b2M\x1b*r1A\x1b*b2W\x00\x81";
    let end = read(&join(&[rows, b"\x1b*rB"]));
    assert!(!end.state.started);
    assert_eq!(
        (end.state.graphics_margin, end.seed(1)),
        (2_160, vec![0x81])
    );
    assert_eq!(end.state.method, 2);
    // The next row acts as *r0A: margin 0, seed row zero.
    let end = read(&join(&[rows, b"\x1b*rB\x1b*b3m0W"]));
    assert_eq!((end.state.graphics_margin, end.seed(1)), (0, vec![0]));
    assert_eq!(end.state.x, 0);
    let end = read(&join(&[rows, b"\x1b*rC"]));
    assert_eq!((end.state.graphics_margin, end.seed(1)), (0, vec![0]));
    assert_eq!((end.state.method, end.state.started), (0, false));
}

#[test]
fn reading_21_counts_of_rows() {
    let end = read(b"\x1b*b-1W");
    assert_eq!((end.findings(), end.state), (vec![4], afresh()));
    let end = read(b"\x1b*b-0.5W");
    assert_eq!((end.findings(), end.cursor()), (vec![], (0, 4_596)));
    assert!(end.state.started && end.state.used);
}

#[test]
fn reading_22_ignored_codes_and_space() {
    for byte in (0..=7)
        .chain([11])
        .chain(14..=26)
        .chain(28..=31)
        .chain([127])
    {
        let end = read(&[byte]);
        assert_eq!(
            (end.items, end.state),
            (vec![(0, 1, 0)], afresh()),
            "{byte}"
        );
        assert_eq!(plain(&[byte]), b"", "{byte}");
    }
    let end = read(b" ");
    assert_eq!((end.state.x, end.state.used), (720, false));
    assert_eq!(plain(b" "), b" ");
}

#[test]
fn reading_23_low_pages() {
    let cursor = |height| State::afresh(&measure(8, height)).y;
    assert_eq!(cursor(10), 240);
    assert_eq!(cursor(37), 888);
    assert_eq!(cursor(38), 900);
    assert_eq!(cursor(150), 900);
    assert_eq!(State::afresh(&measure(8, 150)).top_margin, 0);
    assert_eq!(State::afresh(&measure(8, 151)).top_margin, 3_600);
    // 151 dots are 3,624 units.
    assert_eq!(cursor(151), 3_624);
    assert_eq!(read_on(8, 10, b"\x1b*p0Y\x0C").state.y, 240);
    // Three quarters are cut down to whole units: 3 of 150 is 112.
    assert_eq!(read(b"\x1b&l1C\x0C").state.y, 3_712);
    assert_eq!(read(b"\x1b&l0.02C\x1b=").state.y, 4_501);
}

#[test]
fn reading_24_the_payload_is_read_to_its_end() {
    // The row is full after the first pair of bytes; the lone control byte
    // after it damages the row all the same.
    let end = read_on(16, 300, b"\x1b*b2m3W\x81\xFF\x05");
    assert_eq!((end.findings(), end.seed(2)), (vec![7], vec![0, 0]));
    let end = read_on(16, 300, b"\x1b*b3m3W\x1E\xFF\x05");
    assert_eq!((end.findings(), end.seed(2)), (vec![7], vec![0, 0]));
    // Beyond the row and back to its start: there is no way back.
    let end = read_on(16, 300, b"\x1b*b3m4W\x1E\xFF\x00\xAA");
    assert_eq!((end.findings(), end.seed(2)), (vec![], vec![0, 0]));
}

#[test]
fn reading_25_missing_bytes_and_empty_payload() {
    let seeded = b"\x1b*b3W\x11\x22\x33";
    for (method, expected) in [
        (b'0', vec![0, 0, 0]),
        (b'1', vec![0, 0, 0]),
        (b'2', vec![0, 0, 0]),
        (b'3', vec![0x11, 0x22, 0x33]),
    ] {
        let end = read(&join(&[seeded, b"\x1b*b", &[method], b"m0W"]));
        assert_eq!((end.findings(), end.seed(3)), (vec![], expected));
    }
    let end = read(&join(&[seeded, b"\x1b*b3m2W\x01\x99"]));
    assert_eq!(end.seed(4), [0x11, 0x99, 0x33, 0]);
    let end = read(&join(&[seeded, b"\x1b*b1m2W\x00\x99"]));
    assert_eq!(end.seed(4), [0x99, 0, 0, 0]);
}

#[test]
fn reading_26_the_ends_of_methods_2_and_3() {
    assert_eq!(findings(b"\x1b*b2m1W\x80"), []);
    assert_eq!(findings(b"\x1b*b2m3W\x00\x41\x80"), []);
    assert_eq!(findings(b"\x1b*b3m1W\x1F"), [7]);
    assert_eq!(findings(b"\x1b*b3m2W\x1F\xFF"), [7]);
    assert_eq!(findings(b"\x1b*b3m4W\x1F\xFF\x00\x41"), []);
}

#[test]
fn reading_27_a_damaged_row_when_not_started() {
    let before = b"\x1b&a3C\x1b*r1A\x1b*b1W\xFF\x1b*rB\x1b&a5C";
    let end = read(&join(&[before, b"\x1b*b1m1W\x07"]));
    assert_eq!(end.findings(), [7]);
    assert_eq!((end.state.graphics_margin, end.seed(1)), (0, vec![0]));
    assert_eq!(end.cursor(), (0, 4_500 + 2 * 96));
    assert!(end.state.started && end.state.used);
    // When started it keeps its margin.
    let end = read(b"\x1b&a3C\x1b*r1A\x1b&a5C\x1b*b1m1W\x07");
    assert_eq!(
        (end.state.graphics_margin, end.cursor()),
        (2_160, (2_160, 4_596))
    );
}

#[test]
fn reading_28_bytes_that_fall_off_the_page() {
    let row: Vec<u8> = (1..=80).collect();
    let stream = join(&[b"\x1b*b81W", &row, b"\xFF"]);
    let end = read(&stream);
    assert_eq!(end.seed(80), row);
    assert_eq!(end.state.seed[80], 0);
    assert_eq!(plain(&stream), join(&[b"\x1b*b80W", &row]));
    // At 75 only 20 of the 80 bytes are on the page, at 100 26 and 2 thirds.
    let ones: u32 = row[..20].iter().map(|byte| byte.count_ones()).sum();
    assert_eq!(end.dots(), u64::from(ones) * 16);
    let full = join(&[b"\x1b*t100R\x1b*b80W", &[0xFF; 80]]);
    assert_eq!(read(&full).dots(), 640 * 3);
}

#[test]
fn reading_29_commands_that_change_nothing_are_kept() {
    let stream = b"\x08\x1b*rB\x1b*rC\x1b&p0X\x1b*r0A\x1b*b0Y\x1b&a+0C\x1b9";
    assert_eq!(plain(stream), stream);
    assert_eq!(findings(stream), []);
}

#[test]
fn reading_30_values_of_the_plain_stream() {
    let cases: [(&[u8], &[u8]); 24] = [
        (b"\x1b&a99999C", b"\x1b&a32767C"),
        (b"\x1b&a-99999.5C", b"\x1b&a-32767C"),
        (b"\x1b&a-0C", b"\x1b&a+0C"),
        (b"\x1b&a-0.00009V", b"\x1b&a+0V"),
        (b"\x1b&aC", b"\x1b&a0C"),
        (b"\x1b&a.C", b"\x1b&a0C"),
        (b"\x1b&a007.500C", b"\x1b&a7.5C"),
        (b"\x1b&a.5R", b"\x1b&a0.5R"),
        (b"\x1b&a-.05H", b"\x1b&a-0.05H"),
        (b"\x1b*p+3.X", b"\x1b*p+3X"),
        (b"\x1b*p1.00019Y", b"\x1b*p1.0001Y"),
        (b"\x1b&k+10.50H", b"\x1b&k10.5H"),
        (b"\x1b&k-0H", b"\x1b&k0H"),
        (b"\x1b&l+8C", b"\x1b&l8C"),
        (b"\x1b&l6.9D", b"\x1b&l6D"),
        (b"\x1b&a+2.7L", b"\x1b&a2L"),
        (b"\x1b&l-0.5E", b"\x1b&l0E"),
        (b"\x1b&fS", b"\x1b&f0S"),
        (b"\x1b*t+300.9R", b"\x1b*t300R"),
        (b"\x1b*r7B\x1b*r-7C", b"\x1b*rB\x1b*rC"),
        (b"\x1b*b2m1W\xFE", b"\x1b*b0W"),
        (b"\x1b*b3w\x41\x00\x000W", b"\x1b*b1W\x41\x1b*b0W"),
        (b"\x1b&p+1.9x\x1b\x1b&a1z2C\x07", b"\x1b&p1X\x1b\x1b&a2C"),
        (b"\x1b&f1S\x1bZ\x1b*b9M\x1b(8U\x1b*b1YA", b"A"),
    ];
    for (stream, expected) in cases {
        let translated = plain(stream);
        assert_eq!(translated, expected, "{stream:?}");
        assert_eq!(plain(&translated), expected, "{stream:?}");
    }
    // Method 3 becomes what it drew.
    let delta = b"\x1b*b3m2w\x00\x112w\x01\x22W";
    let expected = b"\x1b*b1W\x11\x1b*b2W\x11\x22\x1b*b2W\x11\x22";
    assert_eq!(plain_on(16, 300, delta), expected);
}

#[test]
fn reading_31_findings_and_page_ends() {
    // A page end is its own item, with no finding, here and after a finding.
    let end = read(b"\x1b&f1S\x0CA\x1bE");
    assert_eq!(end.items, [(0, 5, 5), (5, 1, 0), (6, 1, 0), (7, 2, 0)]);
    assert_eq!(end.pages.len(), 2);
    let mut out = Vec::new();
    second::report::write_report(&[0; 65_537], &mut out).unwrap();
    assert_eq!(out, b"SIZE\t640\t800\nREFUSED\t12\n");
}
