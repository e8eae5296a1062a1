//! Marks: where the cursor stood as an item with a finding began.

mod common;
use common::{join, measure, read_on};
use second::measure::{Measure, LONGEST_STREAM};
use second::report::{write_marks, write_trace, Stopped};

/// The lines of a stream on a page of this measure.
fn marks_on(width: u64, height: u64, stream: &[u8]) -> String {
    let mut out = Vec::new();
    write_marks(Some(measure(width, height)), stream, &mut out).expect("a call not refused");
    String::from_utf8(out).expect("text")
}

/// The same on 640 x 800.
fn marks(stream: &[u8]) -> String {
    marks_on(640, 800, stream)
}

/// The refusal of a call, which may write nothing; 0 if it was not refused.
fn refusal(measure: Option<Measure>, stream: &[u8]) -> u8 {
    let mut out = Vec::new();
    match write_marks(measure, stream, &mut out) {
        Ok(()) => 0,
        Err(Stopped::Refused(refusal)) => {
            assert!(out.is_empty());
            refusal.number()
        }
        Err(Stopped::Output(error)) => panic!("{error}"),
    }
}

#[test]
fn no_finding_no_mark() {
    assert_eq!(marks(b""), "");
    assert_eq!(marks(b"A \x07\x0D\x0A\x0C\x1bE\x1b&a10c5R"), "");
    assert_eq!(marks(b"\x1b&p3X\x1bEA\x1b*b1W\x80"), "");
}

#[test]
fn a_damaged_row_in_the_middle_of_a_graphic() {
    let start = b"\x1b*p100X\x1b*t300R\x1b*r1A";
    let row = b"\x1b*b1W\x80";
    let damaged = b"\x1b*b2m1w\xFE0M";
    // Before the row, 24 units below the first one; not after it.
    let stream = join(&[start, row, damaged, row]);
    assert_eq!(marks(&stream), "30\t7\t2400\t4524\n");
    // The next row, good or damaged, is one further down.
    let stream = join(&[start, row, damaged, row, damaged]);
    assert_eq!(marks(&stream), "30\t7\t2400\t4524\n46\t7\t2400\t4572\n");
    // x is the cursor's, also where it is not the graphics margin.
    let stream = join(&[start, row, b"A", damaged, row]);
    assert_eq!(marks(&stream), "31\t7\t3120\t4524\n");
    // A row that starts the graphic sets the margin to 0, but after that.
    assert_eq!(marks(b"A\x1b*b1m1W\x07"), "6\t7\t720\t4500\n");
    // A row below the page: y is brought into the page, and stays there.
    let low = b"\x1b*p99999Y\x1b*b1m1w\x001w\x00";
    assert_eq!(
        marks(low),
        "14\t7\t0\t19200\n17\t7\t0\t19200\n20\t1\t0\t19200\n"
    );
}

#[test]
fn a_pop_from_an_empty_stack_after_cursor_moves() {
    assert_eq!(marks(b"\x1b&f1S"), "0\t5\t0\t4500\n");
    assert_eq!(marks(b"\x1b&a10c5R\x1b&f1S"), "8\t5\t7200\t10500\n");
    assert_eq!(marks(b"\x1b*p100x50YAB\x0A\x1b&f1S"), "13\t5\t3840\t6000\n");
    // The second pop is the empty one, at the place the first one gave.
    let stream = b"A\x1b&f0S\x1b*p9x9Y\x1b&f1s1S";
    assert_eq!(marks(stream), "18\t5\t720\t4500\n");
    // A push when full.
    let stream = join(&[b"\x1b&a1C\x1b&f", &b"0s".repeat(20), b"0S"]);
    assert_eq!(marks(&stream), "48\t5\t720\t4500\n");
}

#[test]
fn a_stream_that_ends_inside_a_sequence() {
    assert_eq!(marks(b"\x1b"), "0\t1\t0\t4500\n");
    assert_eq!(marks(b"AB\x1b&a9"), "2\t1\t1440\t4500\n");
    assert_eq!(marks(b"A\x1b*b2W\xFF"), "1\t1\t720\t4500\n");
    // In an open sequence: after what its commands did, of no bytes or of one.
    assert_eq!(marks(b"\x1b&a10c"), "6\t1\t7200\t4500\n");
    assert_eq!(marks(b"\x1b&a10c5"), "6\t1\t7200\t4500\n");
    assert_eq!(marks(b"\x1b&a10c5r"), "8\t1\t7200\t10500\n");
}

#[test]
fn two_findings_on_two_pages() {
    // FF leaves x, and y is at the first line again.
    let stream = b"AB\x0A\x1bZ\x0C\x1bZ";
    assert_eq!(marks(stream), "3\t3\t1440\t5700\n6\t3\t1440\t4500\n");
    // With line termination 2 it is a CR too.
    let stream = b"\x1b&k2GAB\x0A\x1bZA\x0C\x1bZ";
    assert_eq!(marks(stream), "8\t3\t0\t5700\n12\t3\t0\t4500\n");
    // ESC E: afresh.
    let stream = b"AB\x0A\x1bZ\x1bE\x1bZ";
    assert_eq!(marks(stream), "3\t3\t1440\t5700\n7\t3\t0\t4500\n");
    // A place is one of the stream, not of the page.
    let stream = b"\x1b*b1m1W\x07\x0C\x1b*b1W\x07";
    assert_eq!(marks(stream), "5\t7\t0\t4500\n9\t7\t0\t4500\n");
}

#[test]
fn the_other_findings() {
    // 2, and the byte is read afresh; of no bytes in an open sequence.
    assert_eq!(marks(b"A\x1b&a1 A"), "1\t2\t720\t4500\n");
    assert_eq!(
        marks(b"\x1b&a1c\x1b\x1bZ"),
        "5\t2\t720\t4500\n5\t2\t720\t4500\n6\t3\t720\t4500\n"
    );
    // 3, 4 and 6 do nothing; a small letter leaves the sequence open.
    assert_eq!(
        marks(b"\x1b&a1c1z2c-1l3C"),
        "5\t3\t720\t4500\n9\t4\t1440\t4500\n"
    );
    assert_eq!(marks(b"AB\x1b*b1Y"), "2\t6\t1440\t4500\n");
    assert_eq!(
        marks(b"\x1b*r0a\x1b*b2y\x1b*t75R"),
        "5\t2\t0\t4500\n10\t2\t0\t4692\n10\t6\t0\t4692\n"
    );
}

#[test]
fn other_pages() {
    // T is 0 on a page of at most 150 dots, and y is in the page.
    assert_eq!(marks_on(8, 1, b"AA\x1bZ"), "2\t3\t192\t24\n");
    assert_eq!(marks_on(8, 150, b"\x1bZ"), "0\t3\t0\t900\n");
    let stream = b"\x1b*p5000x7000y1Z";
    assert_eq!(marks_on(4_800, 6_800, stream), "13\t3\t115200\t163200\n");
}

#[test]
fn a_refused_measure() {
    for (width, height) in [(0, 800), (641, 800), (4_808, 800), (640, 0), (640, 6_801)] {
        assert_eq!(refusal(Measure::allowed(width, height), b"\x1bZ"), 10);
    }
    // A stream too long, and 10 before 12.
    let long = vec![0; LONGEST_STREAM + 1];
    assert_eq!(refusal(None, &long), 10);
    assert_eq!(refusal(Some(measure(640, 800)), &long), 12);
    assert_eq!(refusal(Some(measure(640, 800)), &long[1..]), 0);
}

/// Streams with many findings, for the two laws below.
const STREAMS: [&[u8]; 7] = [
    b"\x1b&a5C\x1b&f1S\x1b*t300R\x1b*r1A\x1b*b3m1W\xFF\x0C\x1b&f1S",
    b"\x1b*p0YA\x1b&f0s\x1b*t300R\x1b*b2W\x81\xFF\x0CB",
    b"A\x1b&a3l9z\x1b\x1b&a1c2r-3l1.5.C\x09B\x08\x1b&p3X\x1bEA\x1bE\x1bZ\x1b&p9XAB",
    b"\x1b*r1A\x1b*b1m1w\x07A\x1b*b2m1w\xFE3m1w\xFF0m1w\xFF-1w1y-1y9m",
    b"\x1b&k3GABC\x0D\x1b\x0D\x0A\x1b\x0A\x0C\x1b\x0C\x1b=\x1b?\x1b9\x1b8\x1b&l0c0E\x1b&",
    b"\x1b*t150R\x1b*b1m2W\xFF\xFF1W\xFF\x1b*b3W\xFF\xFF\xFF\x1b*r1A\x1b*rC\x1b*b0y",
    b"\x1b&f0s\x1b&a7c7R\x1b&f1s1s2s0s0S\x1b(s1WA\x1b)s2wAB",
];

/// Place and finding of each item that has one, as `trace` lists them.
fn traced(measure: Measure, stream: &[u8]) -> Vec<String> {
    let mut out = Vec::new();
    write_trace(Some(measure), stream, &mut out).expect("a call not refused");
    let text = String::from_utf8(out).expect("text");
    text.lines()
        .map(|line| line.split('\t').collect::<Vec<_>>())
        .filter(|fields| fields[0] == "ITEM" && fields[3] != "0")
        .map(|fields| format!("{}\t{}", fields[1], fields[3]))
        .collect()
}

#[test]
fn the_findings_are_those_of_trace() {
    for (width, height) in [(8, 1), (16, 151), (640, 800)] {
        for stream in STREAMS {
            let traced = traced(measure(width, height), stream);
            let marks = marks_on(width, height, stream);
            assert!(!traced.is_empty());
            assert_eq!(traced.len(), marks.lines().count(), "{stream:02X?}");
            for (line, found) in marks.lines().zip(&traced) {
                assert!(line.starts_with(&format!("{found}\t")), "{stream:02X?}");
            }
        }
    }
}

/// A stream cut where an item began ends with the cursor of that moment: an
/// open sequence is closed there by finding 1, which does nothing.
#[test]
fn the_cursor_is_that_of_the_stream_before() {
    for (width, height) in [(8, 1), (16, 151), (640, 800)] {
        for stream in STREAMS {
            for line in marks_on(width, height, stream).lines() {
                let fields: Vec<usize> = line
                    .split('\t')
                    .map(|field| field.parse().expect("a number"))
                    .collect();
                let (x, y) = read_on(width, height, &stream[..fields[0]]).cursor();
                assert_eq!(fields[2..], [x as usize, y as usize], "{stream:02X?}");
            }
        }
    }
}
