//! The seven findings, several streams each: place, bytes and number of every
//! item.

mod common;
use common::{findings, items, join, read};

#[test]
fn finding_1_the_stream_ends_inside_a_sequence() {
    assert_eq!(items(b"\x1b"), [(0, 1, 1)]);
    assert_eq!(items(b"A\x1b&"), [(0, 1, 0), (1, 2, 1)]);
    assert_eq!(items(b"\x1b&a"), [(0, 3, 1)]);
    assert_eq!(items(b"\x1b&a-12.5"), [(0, 8, 1)]);
    assert_eq!(items(b"\x1b(12"), [(0, 4, 1)]);
    // An open sequence at the stream's end: an item of no bytes.
    assert_eq!(items(b"\x1b&a1c"), [(0, 5, 0), (5, 0, 1)]);
    assert_eq!(items(b"\x1b&a1c2"), [(0, 5, 0), (5, 1, 1)]);
    let end = read(b"\x1b&a1c2");
    assert_eq!((end.state.open, end.cursor()), (None, (720, 4_500)));
}

#[test]
fn finding_1_payload_is_short() {
    assert_eq!(items(b"\x1b*b2W\xFF"), [(0, 6, 1)]);
    assert_eq!(items(b"\x1b*b1W"), [(0, 5, 1)]);
    assert_eq!(items(b"\x1b&p3XAB"), [(0, 7, 1)]);
    assert_eq!(items(b"\x1b*b3VAB"), [(0, 7, 1)]);
    assert_eq!(items(b"\x1b)s9W"), [(0, 5, 1)]);
    // Nothing is done: no row, no start, no text.
    let end = read(b"\x1b*b2W\xFF");
    assert!(!end.state.started && !end.state.used);
    assert_eq!(read(b"\x1b&p3XAB").cursor(), (0, 4_500));
    // Also after a small letter, with the rest of the stream taken.
    assert_eq!(items(b"\x1b*b9wAB\x1bE"), [(0, 9, 1)]);
    assert_eq!(read(b"\x1b*b9wAB\x1bE").state.open, None);
}

#[test]
fn finding_2_a_byte_that_cannot_stand() {
    assert_eq!(items(b"\x1b\x1b9"), [(0, 1, 2), (1, 2, 0)]);
    assert_eq!(items(b"\x1b A"), [(0, 1, 2), (1, 1, 0), (2, 1, 0)]);
    assert_eq!(items(b"\x1b&a1 "), [(0, 4, 2), (4, 1, 0)]);
    assert_eq!(items(b"\x1b&\x0D"), [(0, 2, 2), (2, 1, 0)]);
    assert_eq!(
        items(b"\x1b&a+-1C"),
        [(0, 4, 2), (4, 1, 0), (5, 1, 0), (6, 1, 0)]
    );
    assert_eq!(items(b"\x1b&a1.2.3C")[0], (0, 6, 2));
    assert_eq!(items(b"\x1b&a5-C"), [(0, 4, 2), (4, 1, 0), (5, 1, 0)]);
    // The byte is read afresh, an ESC too.
    let end = read(b"\x1b&a1\x1b&a2C");
    assert_eq!(end.items, [(0, 4, 2), (4, 5, 0)]);
    assert_eq!(end.cursor(), (1_440, 4_500));
    // Without a group a small letter breaks the sequence.
    assert_eq!(items(b"\x1b(5w"), [(0, 3, 2), (3, 1, 0)]);
    // Of no bytes, in an open sequence.
    assert_eq!(items(b"\x1b&a1c\x1b9"), [(0, 5, 0), (5, 0, 2), (5, 2, 0)]);
    assert_eq!(items(b"\x1b&a1c2 "), [(0, 5, 0), (5, 1, 2), (6, 1, 0)]);
}

#[test]
fn finding_3_command_not_carried() {
    assert_eq!(items(b"\x1bZ"), [(0, 2, 3)]);
    assert_eq!(items(b"\x1b(8U"), [(0, 4, 3)]);
    assert_eq!(items(b"\x1b&l2A"), [(0, 5, 3)]);
    assert_eq!(items(b"\x1b*b2VAB"), [(0, 7, 3)]);
    assert_eq!(items(b"\x1b(s4W\x1bE\x1bE"), [(0, 9, 3)]);
    // The letter of another group, or of another first byte.
    assert_eq!(items(b"\x1b&p1Y"), [(0, 5, 3)]);
    assert_eq!(items(b"\x1b(a1C"), [(0, 5, 3)]);
    // A small letter keeps the sequence open after 3.
    let end = read(b"\x1b&a1z2C");
    assert_eq!(end.items, [(0, 5, 3), (5, 2, 0)]);
    assert_eq!(end.cursor(), (1_440, 4_500));
    // ESC inside payload is never read.
    assert_eq!(items(b"\x1b&k2W\x1bE!"), [(0, 7, 3), (7, 1, 0)]);
}

#[test]
fn finding_4_value_not_allowed() {
    let refused: [&[u8]; 27] = [
        b"\x1b&a-1L",
        b"\x1b&a32L",
        b"\x1b&a-1M",
        b"\x1b&l-1E",
        b"\x1b&l17E",
        b"\x1b&l-1C",
        b"\x1b&l336.0001C",
        b"\x1b&l0D",
        b"\x1b&l5D",
        b"\x1b&l-6D",
        b"\x1b&l-0.5D",
        b"\x1b&k-0.0001H",
        b"\x1b&k-1G",
        b"\x1b&k4G",
        b"\x1b&f2S",
        b"\x1b&f-1S",
        b"\x1b&p-1X",
        b"\x1b*t0R",
        b"\x1b*t200R",
        b"\x1b*t-75R",
        b"\x1b*r2A",
        b"\x1b*r-1A",
        b"\x1b*b4M",
        b"\x1b*b-1M",
        b"\x1b*b-1W",
        b"\x1b*b-1Y",
        b"\x1b*b-32768W",
    ];
    for stream in refused {
        let end = read(stream);
        assert_eq!(end.items, [(0, stream.len() as u64, 4)], "{stream:?}");
        assert_eq!(end.state, common::afresh(), "{stream:?}");
    }
    // On a page of 800 dots T = 16 lines is LH exactly.
    assert_eq!(read(b"\x1b&l16E").state.top_margin, 19_200);
    // VMI 0 allows no top margin, not even 0.
    assert_eq!(findings(b"\x1b&l0C\x1b&l0E"), [4]);
}

#[test]
fn finding_5_push_when_full_pop_when_empty() {
    assert_eq!(findings(b"\x1b&f1S"), [5]);
    assert_eq!(findings(b"\x1b&f0S\x1b&f1S\x1b&f1S"), [5]);
    let mut stream = b"\x1b&f".to_vec();
    stream.extend(b"0s".repeat(20));
    stream.extend(b"0S");
    let end = read(&stream);
    assert_eq!(end.findings(), [5]);
    assert_eq!(end.items[20], (43, 2, 5));
    assert_eq!(end.state.depth, 20);
    // After 5 the sequence stays open.
    let end = read(b"\x1b&f1s0S");
    assert_eq!(end.items, [(0, 5, 5), (5, 2, 0)]);
    assert_eq!(end.state.depth, 1);
}

#[test]
fn finding_6_not_allowed_at_this_moment() {
    assert_eq!(findings(b"\x1b*r0A\x1b*t300R"), [6]);
    assert_eq!(findings(b"\x1b*r0A\x1b*r1A"), [6]);
    assert_eq!(findings(b"\x1b*b1Y"), [6]);
    assert_eq!(findings(b"\x1b*b0Y"), [6]);
    assert_eq!(findings(b"\x1b*b0W\x1b*t300R"), [6]);
    assert_eq!(findings(b"\x1b*r0A\x1b*rB\x1b*t300R\x1b*r0A"), []);
    // Carried out after *r0A, with the sequence open after 6.
    let end = read(b"\x1b*r0a0a\x1b*b2Y");
    assert_eq!(end.items, [(0, 5, 0), (5, 2, 6), (7, 0, 2), (7, 5, 0)]);
    assert_eq!(end.cursor(), (0, 4_500 + 2 * 96));
}

#[test]
fn finding_7_a_damaged_row() {
    assert_eq!(findings(b"\x1b*b1m1W\x01"), [7]);
    assert_eq!(findings(b"\x1b*b2m2W\x01\x01"), [7]);
    assert_eq!(findings(b"\x1b*b3m1W\x01"), [7]);
    // The sequence stays open after 7, and the next row is read.
    let end = read(b"\x1b*b1m1w\x012W\x00\x41");
    assert_eq!(end.items, [(0, 5, 0), (5, 3, 7), (8, 4, 0)]);
    assert_eq!(end.seed(2), [0x41, 0]);
}

#[test]
fn lowered_numbers_count_payload() {
    let payload = vec![b'\x1b'; 32_767];
    let stream = join(&[b"\x1b*b99999W", &payload, b"A"]);
    assert_eq!(items(&stream), [(0, 9 + 32_767, 0), (32_776, 1, 0)]);
    let short = join(&[b"\x1b*b99999W", &payload[1..]]);
    assert_eq!(items(&short), [(0, 9 + 32_766, 1)]);
    let plus = join(&[b"\x1b(s+32767.9W", &payload, b"A"]);
    assert_eq!(items(&plus), [(0, 12 + 32_767, 3), (32_779, 1, 0)]);
}

#[test]
fn negative_counts_have_no_payload() {
    assert_eq!(items(b"\x1b*b-2WAB"), [(0, 6, 4), (6, 1, 0), (7, 1, 0)]);
    assert_eq!(items(b"\x1b&p-2XAB"), [(0, 6, 4), (6, 1, 0), (7, 1, 0)]);
    assert_eq!(items(b"\x1b*b-2VAB"), [(0, 6, 3), (6, 1, 0), (7, 1, 0)]);
    assert_eq!(items(b"\x1b(s-2WAB"), [(0, 6, 3), (6, 1, 0), (7, 1, 0)]);
    // -0.5 is 0, not negative; 1.9 is one byte.
    assert_eq!(items(b"\x1b*b-0.5WA"), [(0, 8, 0), (8, 1, 0)]);
    assert_eq!(items(b"\x1b*b1.9WAB"), [(0, 8, 0), (8, 1, 0)]);
}
