//! Calls refused as a whole, 10 to 15: alone, in pairs for their order, and
//! with everything lent as it was.

mod common;
use common::{afresh, measure, plain};
use second::cases::answer_case;
use second::dots::Sheet;
use second::measure::{Measure, LONGEST_STREAM};
use second::plain::translate;
use second::reader::OpenSequence;
use second::run::{run, Ran};
use second::state::{Position, State};

/// The refusal of a run on 640 x 800 or another page, 0 if it ran; nothing may
/// be written if refused.
fn refusal(width: u64, height: u64, length: usize, stream: &[u8], state: &State, at: u64) -> u8 {
    let mut page = vec![0xA5; length];
    let (mut after, mut place) = (state.clone(), at);
    let mut sheet = Sheet::new(&mut page);
    let result = run(
        width, height, &mut sheet, stream, &mut after, &mut place, 1_000,
    );
    match result {
        Ok(_) => 0,
        Err(refusal) => {
            assert!(page.iter().all(|byte| *byte == 0xA5));
            assert_eq!((&after, place), (state, at));
            refusal.number()
        }
    }
}

fn unsound() -> State {
    let mut state = afresh();
    state.method = 4;
    state
}

#[test]
fn refusal_10_measures() {
    let huge = 18_446_744_073_709_551_615;
    let refused = [
        (0, 800),
        (7, 800),
        (12, 800),
        (636, 800),
        (4_808, 800),
        (huge, 800),
        (640, 0),
        (640, 6_801),
        (640, huge),
        (0, 0),
    ];
    for (width, height) in refused {
        assert_eq!(Measure::allowed(width, height), None);
        assert_eq!(refusal(width, height, 64_000, b"A", &afresh(), 0), 10);
        let mut room = [7; 8];
        let result = translate(width, height, b"A", &mut room);
        assert_eq!(result.map_err(|refusal| refusal.number()), Err(10));
        assert_eq!(room, [7; 8]);
    }
    for (width, height) in [(8, 1), (8, 6_800), (4_800, 1), (4_800, 6_800), (640, 800)] {
        let allowed = measure(width, height);
        assert_eq!(
            (allowed.width(), allowed.height()),
            (width as u32, height as u32)
        );
        assert!(State::afresh(&allowed).is_sound(&allowed));
    }
}

#[test]
fn refusal_11_page_too_short() {
    assert_eq!(refusal(640, 800, 63_999, b"A", &afresh(), 0), 11);
    assert_eq!(refusal(640, 800, 0, b"A", &afresh(), 0), 11);
    assert_eq!(refusal(640, 800, 64_000, b"A", &afresh(), 0), 0);
}

#[test]
fn refusal_12_stream_too_long() {
    let long = vec![b'A'; LONGEST_STREAM + 1];
    assert_eq!(refusal(640, 800, 64_000, &long, &afresh(), 0), 12);
    assert_eq!(refusal(640, 800, 64_000, &long[1..], &afresh(), 0), 0);
    let mut room = vec![7; 2 * LONGEST_STREAM];
    let result = translate(640, 800, &long, &mut room);
    assert_eq!(result.map_err(|refusal| refusal.number()), Err(12));
    assert!(room.iter().all(|byte| *byte == 7));
}

#[test]
fn refusal_13_each_rule_of_a_sound_state() {
    // The change that is just allowed, and the one just beyond.
    type Change = fn(&mut State);
    let rules: [(&str, Change, Change); 19] = [
        ("x", |s| s.x = 15_360, |s| s.x = 15_361),
        ("y", |s| s.y = 19_200, |s| s.y = 19_201),
        ("L", |s| s.left_margin = 15_359, |s| s.left_margin = 15_360),
        ("R", |s| s.right_margin = 1, |s| s.right_margin = 0),
        (
            "R, LW",
            |s| s.right_margin = 15_360,
            |s| s.right_margin = 15_361,
        ),
        ("T", |s| s.top_margin = 19_200, |s| s.top_margin = 19_201),
        ("HMI", |s| s.hmi = 1_966_020, |s| s.hmi = 1_966_021),
        ("VMI", |s| s.vmi = 50_400, |s| s.vmi = 50_401),
        ("depth", |s| s.depth = 20, |s| s.depth = 21),
        (
            "termination",
            |s| s.line_termination = 3,
            |s| s.line_termination = 4,
        ),
        ("resolution", |s| s.resolution = 300, |s| s.resolution = 301),
        (
            "no resolution",
            |s| s.resolution = 150,
            |s| s.resolution = 0,
        ),
        ("method", |s| s.method = 3, |s| s.method = 4),
        (
            "margin",
            |s| s.graphics_margin = 15_360,
            |s| s.graphics_margin = 15_361,
        ),
        ("seed", |s| s.seed[79] = 1, |s| s.seed[80] = 1),
        ("last seed byte", |s| s.seed[0] = 255, |s| s.seed[599] = 1),
        (
            "stacked x",
            |s| (s.depth, s.stack[0]) = (1, Position { x: 15_360, y: 0 }),
            |s| (s.depth, s.stack[0]) = (1, Position { x: 15_361, y: 0 }),
        ),
        (
            "stacked y",
            |s| (s.depth, s.stack[0]) = (1, Position { x: 0, y: 19_200 }),
            |s| (s.depth, s.stack[0]) = (1, Position { x: 0, y: 19_201 }),
        ),
        (
            "free place",
            |s| (s.depth, s.stack[1]) = (2, Position { x: 1, y: 0 }),
            |s| (s.depth, s.stack[1]) = (1, Position { x: 1, y: 0 }),
        ),
    ];
    for (name, allowed, beyond) in rules {
        let (mut good, mut bad) = (afresh(), afresh());
        allowed(&mut good);
        beyond(&mut bad);
        assert_eq!(refusal(640, 800, 64_000, b"A", &good, 0), 0, "{name}");
        assert_eq!(refusal(640, 800, 64_000, b"A", &bad, 0), 13, "{name}");
    }
    for resolution in 0..=u16::MAX {
        let mut state = afresh();
        state.resolution = resolution;
        let sound = [75, 100, 150, 300].contains(&resolution);
        assert_eq!(state.is_sound(&measure(640, 800)), sound, "{resolution}");
    }
}

#[test]
fn refusal_13_an_open_sequence() {
    let with = |first, group| {
        let mut state = afresh();
        state.open = Some(OpenSequence { first, group });
        refusal(640, 800, 64_000, b"1C", &state, 0)
    };
    for (first, group) in [(33, 96), (47, 126), (38, 97)] {
        assert_eq!(with(first, group), 0);
    }
    for (first, group) in [(32, 97), (48, 97), (38, 95), (38, 127), (0, 0), (255, 255)] {
        assert_eq!(with(first, group), 13);
    }
}

#[test]
fn refusal_14_place_after_the_end() {
    assert_eq!(refusal(640, 800, 64_000, b"AB", &afresh(), 3), 14);
    assert_eq!(refusal(640, 800, 64_000, b"AB", &afresh(), u64::MAX), 14);
    assert_eq!(refusal(640, 800, 64_000, b"AB", &afresh(), 2), 0);
    assert_eq!(refusal(640, 800, 64_000, b"", &afresh(), 0), 0);
    assert_eq!(refusal(640, 800, 64_000, b"", &afresh(), 1), 14);
}

#[test]
fn refusal_15_translation_too_long() {
    let stream = b"\x1b&a10c5R";
    assert_eq!(plain(stream).len(), 11);
    let mut room = [7; 10];
    let result = translate(640, 800, stream, &mut room);
    assert_eq!(result.map_err(|refusal| refusal.number()), Err(15));
    assert_eq!(room, [7; 10]);
    let mut room = [7; 13];
    assert_eq!(translate(640, 800, stream, &mut room), Ok(11));
    assert_eq!(&room, b"\x1b&a10C\x1b&a5R\x07\x07");
    assert_eq!(translate(640, 800, b"", &mut []), Ok(0));
}

#[test]
fn refusal_15_longer_than_any_stream() {
    // Each `w` repeats a row of 80 bytes: 86 bytes of plain stream.
    let long = |rows: usize| {
        let mut stream = b"\x1b*b80w".to_vec();
        stream.extend([0xFF; 80]);
        stream.extend(b"3m");
        stream.extend(vec![b'w'; rows - 1]);
        stream.extend(b"0M");
        stream
    };
    let mut room = vec![0; 2 * LONGEST_STREAM];
    let rows = LONGEST_STREAM / 86;
    assert_eq!(translate(640, 800, &long(rows), &mut room), Ok(rows * 86));
    let result = translate(640, 800, &long(rows + 1), &mut room);
    assert_eq!(result.map_err(|refusal| refusal.number()), Err(15));
    // To the byte: 64 bytes are left over, and filled with text.
    let mut exact = long(rows);
    exact.extend(vec![b'A'; LONGEST_STREAM % 86]);
    assert_eq!(translate(640, 800, &exact, &mut room), Ok(LONGEST_STREAM));
    exact.push(b'A');
    let result = translate(640, 800, &exact, &mut room);
    assert_eq!(result.map_err(|refusal| refusal.number()), Err(15));
}

#[test]
fn the_order_of_refusals() {
    let long = vec![b'A'; LONGEST_STREAM + 1];
    let (good, bad) = (afresh(), unsound());
    let far = u64::MAX;
    assert_eq!(refusal(641, 800, 0, &long, &bad, far), 10);
    assert_eq!(refusal(640, 800, 0, &long, &bad, far), 11);
    assert_eq!(refusal(640, 800, 64_000, &long, &bad, far), 12);
    assert_eq!(refusal(640, 800, 64_000, b"A", &bad, far), 13);
    assert_eq!(refusal(640, 800, 64_000, b"A", &good, far), 14);
    assert_eq!(refusal(641, 800, 0, b"A", &good, 0), 10);
    assert_eq!(refusal(640, 800, 0, b"A", &bad, 0), 11);
    assert_eq!(refusal(640, 800, 0, b"A", &good, far), 11);
    assert_eq!(refusal(640, 800, 64_000, &long, &good, far), 12);
    // An allowance of 0 is refused as any other.
    let answer = answer_case("R 640 801 64000 00 - 0 0 -").unwrap();
    assert!(answer.starts_with("refused 11 0 0 "));
    // The translator: 10, 12, 15.
    let code = |width, stream: &[u8]| {
        translate(width, 800, stream, &mut []).map_err(|refusal| refusal.number())
    };
    assert_eq!(code(641, &long), Err(10));
    assert_eq!(code(640, &long), Err(12));
    assert_eq!(code(640, b"A"), Err(15));
    assert_eq!(code(641, b"A"), Err(10));
}

#[test]
fn a_run_of_no_items() {
    let nothing = Ran::default();
    let mut page = vec![0xA5; 64_000];
    let (mut state, mut place) = (afresh(), 0);
    let mut go = |stream: &[u8], allowance| {
        let mut sheet = Sheet::new(&mut page);
        let ran = run(
            640, 800, &mut sheet, stream, &mut state, &mut place, allowance,
        );
        (ran.unwrap(), page[0])
    };
    // An allowance of 0 does nothing, and nothing to do zeroes nothing.
    assert_eq!(go(b"A", 0), (nothing, 0xA5));
    assert_eq!(go(b"", u64::MAX), (nothing, 0xA5));
    // A used page is not zeroed, an unused one is.
    assert_eq!(go(b" ", 1).1, 0);
}

#[test]
fn a_run_keeps_a_used_page_and_the_bytes_after_it() {
    let mut page = vec![0xA5; 12];
    let small = measure(8, 10);
    let mut state = State::afresh(&small);
    state.used = true;
    let mut place = 0;
    let mut sheet = Sheet::new(&mut page);
    let ran = run(8, 10, &mut sheet, b"A\x0CA", &mut state, &mut place, 9).unwrap();
    assert_eq!((ran.done, ran.page_ended, place), (2, true, 2));
    assert_eq!(page, [0xA5; 12]);
    let mut sheet = Sheet::new(&mut page);
    let ran = run(8, 10, &mut sheet, b"A\x0CA", &mut state, &mut place, 9).unwrap();
    assert_eq!((ran.done, ran.page_ended, place), (1, false, 3));
    assert_eq!(page, [0, 0, 0, 0, 0, 0, 0, 0, 0, 0, 0xA5, 0xA5]);
}
