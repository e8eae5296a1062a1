//! Rows: the four methods, whole and damaged, and the dots they paint.

mod common;
use common::{read, read_from, read_on};
use second::dots::{count_dots, paint_row, Sheet};
use second::rows::{decode_row, Damaged};

const SEED: [u8; 6] = [1, 2, 3, 4, 5, 6];

fn decoded(method: u8, payload: &[u8]) -> Vec<u8> {
    let mut row = [0xEE; 6];
    assert_eq!(decode_row(method, payload, &SEED, &mut row), Ok(()));
    row.to_vec()
}

/// A damaged row is a row of zeros, not the seed row and not its good part.
fn assert_damaged(method: u8, payload: &[u8]) {
    let mut row = [0xEE; 6];
    let result = decode_row(method, payload, &SEED, &mut row);
    assert_eq!(result, Err(Damaged), "{method} {payload:02X?}");
    assert_eq!(row, [0; 6], "{method} {payload:02X?}");
}

#[test]
fn method_0_cuts_and_fills() {
    assert_eq!(decoded(0, b""), [0; 6]);
    assert_eq!(decoded(0, &[9, 8]), [9, 8, 0, 0, 0, 0]);
    assert_eq!(decoded(0, &[1, 2, 3, 4, 5, 6, 7, 8]), [1, 2, 3, 4, 5, 6]);
}

#[test]
fn method_1_pairs() {
    assert_eq!(decoded(1, b""), [0; 6]);
    assert_eq!(decoded(1, &[0, 7]), [7, 0, 0, 0, 0, 0]);
    assert_eq!(decoded(1, &[2, 7, 1, 8]), [7, 7, 7, 8, 8, 0]);
    assert_eq!(decoded(1, &[255, 7]), [7; 6]);
    assert_eq!(decoded(1, &[255, 7, 255, 8]), [7; 6]);
}

#[test]
fn method_1_odd_length_is_damaged() {
    assert_damaged(1, &[0]);
    assert_damaged(1, &[2, 7, 1]);
    assert_damaged(1, &[255, 7, 0]);
}

#[test]
fn method_2_literals_and_repeats() {
    assert_eq!(decoded(2, b""), [0; 6]);
    assert_eq!(decoded(2, &[0, 9]), [9, 0, 0, 0, 0, 0]);
    assert_eq!(decoded(2, &[1, 9, 8, 255, 7]), [9, 8, 7, 7, 0, 0]);
    assert_eq!(decoded(2, &[129, 5]), [5; 6]);
    assert_eq!(decoded(2, &[128, 0, 9, 128, 0, 8]), [9, 8, 0, 0, 0, 0]);
    assert_eq!(decoded(2, &[128]), [0; 6]);
    assert_eq!(decoded(2, &[0, 9, 128]), [9, 0, 0, 0, 0, 0]);
}

#[test]
fn method_2_missing_bytes_are_damage() {
    assert_damaged(2, &[0xFE]);
    assert_damaged(2, &[0]);
    assert_damaged(2, &[2, 1, 2]);
    assert_damaged(2, &[0, 9, 129]);
    assert_damaged(2, &[127]);
    // Beyond the row, and damaged all the same.
    assert_damaged(2, &[0xF0, 1, 0xF0, 2, 0]);
    assert_damaged(2, &[0xF0, 1, 0xFF]);
}

#[test]
fn method_3_changes_the_seed_row() {
    assert_eq!(decoded(3, b""), SEED);
    assert_eq!(decoded(3, &[0x00, 9]), [9, 2, 3, 4, 5, 6]);
    assert_eq!(decoded(3, &[0x21, 9, 8]), [1, 9, 8, 4, 5, 6]);
    // The offset counts from the byte after the last replaced one.
    assert_eq!(decoded(3, &[0x01, 9, 0x01, 8]), [1, 9, 3, 8, 5, 6]);
    // Zeros replace as any byte does.
    assert_eq!(decoded(3, &[0x00, 0, 0x00, 0]), [0, 0, 3, 4, 5, 6]);
    // Eight replaced from 4 on: six fall beyond.
    let eight = [0xE4, 9, 8, 7, 6, 5, 4, 3, 2];
    assert_eq!(decoded(3, &eight), [1, 2, 3, 4, 9, 8]);
    // Beyond the row the place goes on counting, and never comes back.
    assert_eq!(decoded(3, &[0x1E, 9, 0x00, 8]), SEED);
    assert_eq!(decoded(3, &[0x1F, 0xFF, 0xFF, 0x05, 9, 0, 7]), SEED);
}

#[test]
fn method_3_long_offsets() {
    let seed = [0; 600];
    let mut row = [0; 600];
    let mut byte_set = |payload: &[u8]| {
        assert_eq!(decode_row(3, payload, &seed, &mut row), Ok(()));
        let set: Vec<usize> = (0..600).filter(|place| row[*place] != 0).collect();
        set
    };
    assert_eq!(byte_set(&[0x1E, 1]), [30]);
    assert_eq!(byte_set(&[0x1F, 0, 1]), [31]);
    assert_eq!(byte_set(&[0x1F, 1, 1]), [32]);
    assert_eq!(byte_set(&[0x1F, 254, 1]), [285]);
    assert_eq!(byte_set(&[0x1F, 255, 0, 1]), [286]);
    assert_eq!(byte_set(&[0x1F, 255, 255, 3, 1]), [544]);
    assert_eq!(byte_set(&[0x1F, 0, 1, 0x1F, 2, 1]), [31, 65]);
}

#[test]
fn method_3_missing_bytes_are_damage() {
    assert_damaged(3, &[0x00]);
    assert_damaged(3, &[0x21, 9]);
    assert_damaged(3, &[0x1F]);
    assert_damaged(3, &[0x1F, 0]);
    assert_damaged(3, &[0x1F, 255]);
    assert_damaged(3, &[0x1F, 255, 255]);
    assert_damaged(3, &[0x00, 9, 0x00]);
    // Beyond the row.
    assert_damaged(3, &[0x1E, 9, 0x00]);
}

#[test]
fn damaged_rows_of_each_method_in_a_stream() {
    for (method, payload) in [(b'1', &b"\x03"[..]), (b'2', b"\x05\x01"), (b'3', b"\x1F")] {
        let mut stream = b"\x1b*t300r\x1b*p10X\x1b*r1A\x1b*b2W\xFF\xFF\x1b*b".to_vec();
        stream.push(method);
        stream.extend(b"m");
        stream.extend(payload.len().to_string().as_bytes());
        stream.extend(b"w");
        stream.extend(payload);
        stream.extend(b"3m0W");
        let end = read(&stream);
        // The open *t300r before an ESC is a finding 2 of no bytes.
        assert_eq!(end.findings(), [2, 7], "method {method}");
        // The row, the damaged row, and the seed row (zero) repeated.
        assert_eq!(end.dots(), 16, "method {method}");
        assert_eq!(end.seed(80), [0; 80]);
        assert_eq!(end.cursor(), (240, 4_500 + 3 * 24));
        assert_eq!(end.state.open, None);
    }
}

#[test]
fn a_row_paints_from_margin_and_cursor_cut_down() {
    // x 250 units is dot 10, y 4,500 units is dot 187.
    let mut state = common::afresh();
    state.x = 250;
    let end = read_from(640, 800, state, b"\x1b*t300R\x1b*r1A\x1b*b1W\x81");
    assert_eq!(end.state.graphics_margin, 250);
    let row = &end.page[187 * 80..188 * 80];
    assert_eq!(&row[..3], &[0, 0x20, 0x40]);
    assert_eq!(end.dots(), 2);
    assert_eq!(end.cursor(), (250, 4_524));
}

#[test]
fn other_dots_stay() {
    let stream = b"\x1b*t300R\x1b*b1W\x0F\x1b*p-1Y\x1b*b1W\xF0";
    let end = read(stream);
    assert_eq!(end.page[187 * 80], 0xFF);
    assert_eq!(end.dots(), 8);
}

#[test]
fn the_foot_of_the_page_clips() {
    // 8 x 10 at 75: y is LH, below the last dot; then two dots above the foot.
    let low = read_on(8, 10, b"\x1b*b1W\xFF");
    assert_eq!((low.dots(), low.cursor()), (0, (0, 240)));
    let end = read_on(8, 10, b"\x1b*p8Y\x1b*b1W\xC0");
    assert_eq!(&end.page[..], &[0, 0, 0, 0, 0, 0, 0, 0, 0xFF, 0xFF]);
    assert_eq!(end.cursor(), (0, 240));
}

/// Dot by dot, with no cleverness: what painting means.
fn paint_slowly(page: &mut [u8], row_bytes: usize, height: usize, row: &[u8], at: [usize; 3]) {
    let [left, top, size] = at;
    for column in 0..row.len() * 8 {
        if row[column / 8] >> (7 - column % 8) & 1 == 0 {
            continue;
        }
        for down in 0..size {
            for right in 0..size {
                let (x, y) = (left + column * size + right, top + down);
                if x < row_bytes * 8 && y < height {
                    page[y * row_bytes + x / 8] |= 0x80 >> (x % 8);
                }
            }
        }
    }
}

#[test]
fn painting_equals_painting_dot_by_dot() {
    let mut seed: u32 = 1;
    let mut random = move || {
        seed = seed.wrapping_mul(1_664_525).wrapping_add(1_013_904_223);
        (seed >> 16) as usize
    };
    for _ in 0..4_000 {
        let (row_bytes, height) = (1 + random() % 7, 1 + random() % 9);
        let row: Vec<u8> = (0..row_bytes).map(|_| random() as u8).collect();
        let (left, top) = (random() % (row_bytes * 8 + 1), random() % (height + 1));
        let size = 1 + random() % 4;
        // Five bytes after the page, which nobody may touch.
        let before: Vec<u8> = (0..row_bytes * height + 5)
            .map(|_| random() as u8 & random() as u8)
            .collect();
        let (mut quick, mut slow) = (before.clone(), before);
        paint_row(&mut quick, row_bytes, height, &row, left, top, size);
        paint_slowly(&mut slow, row_bytes, height, &row, [left, top, size]);
        assert_eq!(quick, slow);
    }
}

#[test]
fn a_sheet_knows_its_dots() {
    let measure = common::measure(16, 4);
    let mut bytes = vec![0xFF; 11];
    let mut sheet = Sheet::new(&mut bytes);
    assert_eq!(sheet.dots(&measure), 64);
    sheet.zero(&measure);
    assert_eq!(sheet.dots(&measure), 0);
    sheet.paint(&measure, &[0x80, 0x01], 0, 1, 2);
    sheet.paint(&measure, &[0x80, 0x01], 0, 3, 2);
    assert_eq!(sheet.dots(&measure), 6);
    assert_eq!(sheet.dots(&measure), count_dots(sheet.page(&measure)));
    sheet.zero(&measure);
    assert_eq!(sheet.dots(&measure), 0);
    assert_eq!(bytes, [0, 0, 0, 0, 0, 0, 0, 0, 0xFF, 0xFF, 0xFF]);
}
