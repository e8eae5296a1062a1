//! Each call of the wrapper, and each number that the library gives, by a case of paper 01.
use rovinuset::{Finding, Measure, Ran, Refusal, State};

const PAGE: Measure = Measure { wide: 640, high: 800 };
const PAGE_BYTES: usize = PAGE.page_bytes();

/// A stream run to its first stop, afresh.
fn run(stream: &[u8]) -> (Ran, State, Vec<u8>) {
    let mut state = State::afresh(PAGE).unwrap();
    let mut page = vec![0xFF; PAGE_BYTES];
    let ran = state.run(PAGE, &mut page, stream, &mut 0, usize::MAX).unwrap();
    (ran, state, page)
}

#[test]
fn afresh_is_sound_on_its_page() {
    let state = State::afresh(PAGE).unwrap();
    assert_eq!((state.x(), state.y(), state.stack_depth(), state.page_used()), (0, 4500, 0, false));
    assert!(state.is_sound(PAGE));
    assert!(!state.is_sound(Measure { wide: 8, high: 1 }));
}

#[test]
fn a_row_is_drawn() {
    let (ran, state, page) = run(b"\x1b*b1W\x80");
    assert_eq!(ran, Ran { done: 1, finding: None, page_ended: false });
    assert_eq!((state.x(), state.y(), state.page_used()), (0, 4596, true));
    assert_eq!(PAGE.dots(&page), 16);
}

#[test]
fn a_page_ends() {
    let (ran, state, _) = run(b"\x1b&f0Sa\x0cb");
    assert_eq!(ran, Ran { done: 3, finding: None, page_ended: true });
    assert_eq!((state.x(), state.stack_depth(), state.page_used()), (720, 1, false));
}

#[test]
fn each_finding_comes_with_its_place() {
    let cases: [(&[u8], Finding, u32, usize); 7] = [
        (b"a\x1b&a12", Finding::ENDS_INSIDE, 1, 1),
        (b"a\x1b&a1c\n", Finding::CANNOT_STAND, 2, 6),
        (b"ab\x1bZ", Finding::NOT_CARRIED, 3, 2),
        (b"\x1b&l5D", Finding::NOT_ALLOWED, 4, 0),
        (b"\x1b&f1S", Finding::STACK_LIMIT, 5, 0),
        (b"\x1b*r0A\x1b*t75R", Finding::NOT_NOW, 6, 5),
        (b"\x1b*b2m1W\xFE", Finding::DAMAGED_ROW, 7, 5),
    ];
    for (stream, finding, number, place) in cases {
        assert_eq!(run(stream).0.finding, Some((finding, place)));
        assert_eq!(finding.number(), number);
    }
}

/// A call that is refused leaves page, state and place as they were.
fn refused(measure: Measure, page_bytes: usize, stream: &[u8], state: &State, place: usize) -> Refusal {
    let (mut page, mut after, mut at) = (vec![0xA5; page_bytes], state.clone(), place);
    let refusal = after.run(measure, &mut page, stream, &mut at, 1).unwrap_err();
    assert!(page.iter().all(|&byte| byte == 0xA5) && after == *state && at == place);
    refusal
}

#[test]
fn each_refusal_has_its_number() {
    let state = State::afresh(PAGE).unwrap();
    let unsound = State([0xFF; State::BYTES]);
    let narrow = Measure { wide: 7, high: 800 };
    let cases = [
        (refused(narrow, PAGE_BYTES, b"a", &state, 0), Refusal::PAGE_MEASURE, 10),
        (refused(PAGE, PAGE_BYTES - 1, b"a", &state, 0), Refusal::PAGE_BUFFER, 11),
        (refused(PAGE, PAGE_BYTES, &vec![b'a'; 1_048_577], &state, 0), Refusal::STREAM_LENGTH, 12),
        (refused(PAGE, PAGE_BYTES, b"a", &unsound, 0), Refusal::UNSOUND_STATE, 13),
        (refused(PAGE, PAGE_BYTES, b"a", &state, 2), Refusal::START_PLACE, 14),
        (PAGE.translate(b"ab", &mut [0; 1]).unwrap_err(), Refusal::ROOM, 15),
    ];
    for (given, refusal, number) in cases {
        assert_eq!((given, given.number()), (refusal, number));
    }
    assert_eq!(State::afresh(narrow), Err(Refusal::PAGE_MEASURE));
}

/// The state after a stream, parked in a room that is always enough.
fn parked(stream: &[u8]) -> Vec<u8> {
    let mut room = [0; State::PARKED];
    run(stream).1.park(PAGE, &mut room).unwrap().to_vec()
}

#[test]
fn a_state_is_parked_and_read_back() {
    let (_, state, _) = run(b"\x1b&f0Sab\x1b*b2W\xa5\x0f");
    let mut text = b"JOB\t640\t800\t0\t4596\t0\t15360\t3600\t720\t1200\t0\t75\t0\t1\t0\t1\t1\nPOS\t0\t4500\nROW\tA50F".to_vec();
    text.extend([b'0'; 156]);
    text.push(b'\n');
    let mut room = [0xA5; State::PARKED];
    assert_eq!(state.park(PAGE, &mut room).unwrap(), text);
    assert!(room[text.len()..].iter().all(|&byte| byte == 0xA5));
    assert_eq!(State::unpark(&text), Ok((PAGE, state)));
}

/// A parking that is refused leaves the room as it was.
fn not_parked(measure: Measure, state: &State, room_bytes: usize) -> Refusal {
    let mut room = vec![0xA5; room_bytes];
    let refusal = state.park(measure, &mut room).unwrap_err();
    assert!(room.iter().all(|&byte| byte == 0xA5));
    refusal
}

#[test]
fn each_refusal_of_parking_has_its_number() {
    let state = State::afresh(PAGE).unwrap();
    let unsound = State([0xFF; State::BYTES]);
    let mut open = State::afresh(PAGE).unwrap();
    open.run(PAGE, &mut vec![0; PAGE_BYTES], b"\x1b&a1c2C", &mut 0, 1).unwrap();
    let length = parked(b"").len();
    let cases = [
        (not_parked(Measure { wide: 7, high: 800 }, &unsound, 0), Refusal::PAGE_MEASURE, 10),
        (not_parked(PAGE, &unsound, 0), Refusal::UNSOUND_STATE, 13),
        (not_parked(Measure { wide: 8, high: 1 }, &state, State::PARKED), Refusal::UNSOUND_STATE, 13),
        (not_parked(PAGE, &open, 0), Refusal::SEQUENCE_OPEN, 16),
        (not_parked(PAGE, &state, length - 1), Refusal::ROOM, 15),
    ];
    for (given, refusal, number) in cases {
        assert_eq!((given, given.number()), (refusal, number));
    }
    assert!(state.park(PAGE, &mut vec![0; length]).is_ok());
}

#[test]
fn each_refusal_of_reading_has_its_number() {
    let text = parked(b"");
    let front = |old: &[u8], new: &[u8]| [new, text.strip_prefix(old).unwrap()].concat();
    let cases = [
        (text[..text.len() - 1].to_vec(), Refusal::TEXT_FORM, 17),
        ([&text[..], b"\n"].concat(), Refusal::TEXT_FORM, 17),
        (front(b"JOB\t640", b"JOB\t0640"), Refusal::TEXT_FORM, 17),
        (front(b"JOB\t640\t800", b"JOB\t640\t6801"), Refusal::TEXT_STATE, 18),
        (front(b"JOB\t640\t800\t0", b"JOB\t640\t800\t15361"), Refusal::TEXT_STATE, 18),
    ];
    for (text, refusal, number) in cases {
        assert_eq!(State::unpark(&text), Err(refusal));
        assert_eq!(refusal.number(), number);
    }
}

#[test]
fn a_plain_stream_is_the_front_of_its_room() {
    let mut room = [0xA5; 16];
    assert_eq!(PAGE.translate(b"\x1b&a10c5R", &mut room).unwrap(), b"\x1b&a10C\x1b&a5R");
    assert_eq!(room[11..], [0xA5; 5]);
}

/// An empty slice of Rust has a pointer that points nowhere; it is not read.
#[test]
fn empty_slices_are_not_read() {
    assert_eq!(run(b"").0, Ran { done: 0, finding: None, page_ended: false });
    assert_eq!(PAGE.dots(&[]), 0);
    assert_eq!(PAGE.translate(b"", &mut []).unwrap(), b"");
    assert_eq!(State::unpark(b""), Err(Refusal::TEXT_FORM));
    assert_eq!(State::afresh(PAGE).unwrap().park(PAGE, &mut []), Err(Refusal::ROOM));
}
