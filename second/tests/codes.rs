//! Control codes and cursor moves that no other test file is about.

mod common;
use common::{afresh, read, read_from};

/// x after one code, from x, L and HMI.
fn x_after(code: u8, x: u32, left: u32, hmi: u32) -> u32 {
    let mut state = afresh();
    (state.x, state.left_margin, state.hmi) = (x, left, hmi);
    read_from(640, 800, state, &[code]).state.x
}

#[test]
fn backspace() {
    // From right of L to no less than L.
    assert_eq!(x_after(8, 5_000, 1_000, 720), 4_280);
    assert_eq!(x_after(8, 1_720, 1_000, 720), 1_000);
    assert_eq!(x_after(8, 1_300, 1_000, 720), 1_000);
    assert_eq!(x_after(8, 1_001, 1_000, 1_966_020), 1_000);
    // At L no move.
    assert_eq!(x_after(8, 1_000, 1_000, 720), 1_000);
    assert_eq!(x_after(8, 0, 0, 720), 0);
    // Left of L to no less than 0.
    assert_eq!(x_after(8, 999, 1_000, 720), 279);
    assert_eq!(x_after(8, 500, 1_000, 720), 0);
    assert_eq!(x_after(8, 500, 1_000, 0), 500);
}

#[test]
fn displacements_are_cut_toward_zero() {
    let cursor = |stream: &[u8]| {
        let mut state = afresh();
        (state.x, state.y) = (1_000, 5_000);
        read_from(640, 800, state, stream).cursor()
    };
    // 0.01 of a dot is 0.24 of a unit, 0.06 is 1.44, 0.05 is 1.2.
    assert_eq!(cursor(b"\x1b*p-0.01x-0.01Y"), (1_000, 5_000));
    assert_eq!(cursor(b"\x1b*p+0.01x+0.01Y"), (1_000, 5_000));
    assert_eq!(cursor(b"\x1b*p-0.06x-0.05Y"), (999, 4_999));
    assert_eq!(cursor(b"\x1b*p+0.06x+0.05Y"), (1_001, 5_001));
    assert_eq!(cursor(b"\x1b&a-1.99h-1.99V"), (981, 4_981));
    assert_eq!(cursor(b"\x1b&a-0.0013C"), (1_000, 5_000));
    assert_eq!(cursor(b"\x1b&a-0.0014C"), (999, 5_000));
}

#[test]
fn positions_from_their_origins() {
    // Vertical positions count from T, rows from three quarters below it.
    assert_eq!(read(b"\x1b&a0V").state.y, 3_600);
    assert_eq!(read(b"\x1b*p0Y").state.y, 3_600);
    assert_eq!(read(b"\x1b&a0R").state.y, 4_500);
    assert_eq!(read(b"\x1b&a72V").state.y, 4_320);
    assert_eq!(read(b"\x1b&a1.5R").state.y, 6_300);
    assert_eq!(read(b"\x1b&a+1R").state.y, 5_700);
    assert_eq!(read(b"\x1b&a-1R").state.y, 3_300);
    assert_eq!(read(b"\x1b&a-99R").state.y, 0);
    assert_eq!(read(b"\x1b&a9999R").state.y, 19_200);
    assert_eq!(read(b"\x1b&l2E\x1b*p0Y").state.y, 2_400);
    // The top margin leaves y where it is.
    assert_eq!(read(b"\x1b&l2E").state.y, 4_500);
    assert_eq!(read(b"\x1b&l2E\x0C").state.y, 3_300);
}

#[test]
fn line_spacings() {
    for lines in 0..=60 {
        let end = read(format!("\x1b&l{lines}D").as_bytes());
        let allowed = [1, 2, 3, 4, 6, 8, 12, 16, 24, 48].contains(&lines);
        let expected = if allowed { 7_200 / lines } else { 1_200 };
        assert_eq!(end.state.vmi, expected, "{lines}");
        assert_eq!(end.findings().is_empty(), allowed, "{lines}");
    }
}

#[test]
fn half_a_line_and_a_line() {
    assert_eq!(read(b"\x1b=").state.y, 5_100);
    assert_eq!(read(b"\x0A").state.y, 5_700);
    assert_eq!(read(b"\x0D").cursor(), (0, 4_500));
    assert_eq!(read(&[10; 20]).state.y, 19_200);
    assert_eq!(read(b"\x1b&l336C\x1b=").state.y, 19_200);
}

#[test]
fn rows_down_by_resolution() {
    for (resolution, height) in [(75, 96), (100, 72), (150, 48), (300, 24)] {
        let stream = format!("\x1b*t{resolution}R\x1b*r0A\x1b*b3Y\x1b*b0W");
        let end = read(stream.as_bytes());
        assert_eq!(end.state.y, 4_500 + 4 * height);
        let stream = format!("\x1b*t{resolution}R\x1b*b1W\x40");
        let size = height / 24;
        assert_eq!(read(stream.as_bytes()).dots(), u64::from(size * size));
    }
}

#[test]
fn the_stack_is_last_in_first_out() {
    let end = read(b"\x1b&a1C\x1b&f0S\x1b&a2C\x1b&f0S\x1b&a3C\x1b&f1S");
    assert_eq!((end.state.x, end.state.depth), (1_440, 1));
    assert_eq!((end.state.stack[0].x, end.state.stack[0].y), (720, 4_500));
    assert_eq!((end.state.stack[1].x, end.state.stack[1].y), (0, 0));
}
