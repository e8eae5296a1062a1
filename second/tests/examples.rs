//! The fifteen examples of the paper, on 640 x 800.

mod common;
use common::{afresh, plain, read, read_from};

#[test]
fn example_01_nothing() {
    let end = read(b"");
    assert_eq!(end.cursor(), (0, 4_500));
    assert!(end.items.is_empty());
}

#[test]
fn example_02_column_and_row_combined() {
    let end = read(b"\x1b&a10c5R");
    assert_eq!(end.cursor(), (7_200, 10_500));
    assert_eq!(end.items, [(0, 6, 0), (6, 2, 0)]);
}

#[test]
fn example_03_left_of_the_page() {
    assert_eq!(read(b"\x1b&a-5C").cursor(), (0, 4_500));
}

#[test]
fn example_04_dots() {
    assert_eq!(read(b"\x1b*p100x50Y").cursor(), (2_400, 4_800));
}

#[test]
fn example_05_right_of_the_page() {
    assert_eq!(read(b"\x1b&a99999H").cursor(), (15_360, 4_500));
}

#[test]
fn example_06_a_column_and_a_half() {
    assert_eq!(read(b"\x1b&a1.5C").cursor(), (1_080, 4_500));
}

#[test]
fn example_07_half_a_column_back() {
    let mut state = afresh();
    state.x = 7_200;
    let end = read_from(640, 800, state, b"\x1b&a-0.5C");
    assert_eq!(end.cursor(), (6_840, 4_500));
}

#[test]
fn example_08_horizontal_motion() {
    assert_eq!(read(b"\x1b&k10.5H").state.hmi, 630);
}

#[test]
fn example_09_escape_in_transparent_print() {
    let end = read(b"\x1b&k0G\x1b&p3X\x1bEA");
    assert_eq!(end.cursor(), (2_160, 4_500));
    assert_eq!(end.items, [(0, 5, 0), (5, 8, 0)]);
    assert!(end.pages.is_empty());
    assert!(end.state.used);
}

#[test]
fn example_10_a_row_at_75() {
    let end = read(b"\x1b*b1W\x80");
    assert_eq!(end.dots(), 16);
    for (row, bytes) in end.page.chunks(80).enumerate() {
        let expected = if (187..=190).contains(&row) { 0xF0 } else { 0 };
        assert_eq!(bytes[0], expected, "row {row}");
        assert!(bytes[1..].iter().all(|byte| *byte == 0), "row {row}");
    }
    assert_eq!(end.cursor(), (0, 4_596));
}

#[test]
fn examples_11_and_12_packed_then_delta() {
    let packed = read(b"\x1b*b2M\x1b*b5W\xFE\xA5\x01\x0F\xF0");
    assert_eq!(packed.seed(6), [0xA5, 0xA5, 0xA5, 0x0F, 0xF0, 0]);
    let delta = read(b"\x1b*b2M\x1b*b5W\xFE\xA5\x01\x0F\xF0\x1b*b3M\x1b*b3W\x21\x11\x22");
    assert_eq!(delta.seed(6), [0xA5, 0x11, 0x22, 0x0F, 0xF0, 0]);
    assert!(delta.findings().is_empty());
}

#[test]
fn example_13_offset_of_31() {
    let end = read(b"\x1b*b3m3W\x1F\x00\x77");
    let mut expected = [0; 80];
    expected[31] = 0x77;
    assert_eq!(end.seed(80), expected);
}

#[test]
fn example_14_a_damaged_row() {
    let end = read(b"\x1b*b2m1W\xFE");
    assert_eq!(end.items, [(0, 5, 0), (5, 3, 7)]);
    assert_eq!(end.dots(), 0);
    assert_eq!(end.cursor(), (0, 4_596));
    assert!(end.state.used);
}

#[test]
fn example_15_translated() {
    assert_eq!(plain(b"\x1b&a10c5R"), b"\x1b&a10C\x1b&a5R");
}
