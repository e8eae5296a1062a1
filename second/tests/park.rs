//! Parked texts: the form, what is not of it, what is of it and not sound, and
//! that writing and reading are inverse.

mod common;
use common::{afresh, call, call_for_text, join, measure, read, Random};
use second::cases::{answer_case, fnv1a, write_state};
use second::park::{listing, park, parked_text, unpark, write_pairs, Parked};
use second::reader::OpenSequence;
use second::state::{Position, State};

/// On 16 x 2, where LW is 384 and LH is 48: every member at a value of its own.
const TEXT: &str = "JOB\t16\t2\t5\t48\t1\t384\t7\t630\t1201\t3\t300\t2\t1\t383\t1\t2\n\
    POS\t384\t9\n\
    POS\t0\t48\n\
    ROW\t0AFF\n";

/// The state of that text.
fn parked() -> Parked {
    let measure = measure(16, 2);
    let mut state = State::afresh(&measure);
    (state.x, state.y) = (5, 48);
    (state.left_margin, state.right_margin, state.top_margin) = (1, 384, 7);
    (state.hmi, state.vmi) = (630, 1_201);
    (state.line_termination, state.resolution, state.method) = (3, 300, 2);
    (state.started, state.graphics_margin, state.used) = (true, 383, true);
    state.depth = 2;
    state.stack[0] = Position { x: 384, y: 9 };
    state.stack[1] = Position { x: 0, y: 48 };
    state.seed[..2].copy_from_slice(&[0x0A, 0xFF]);
    Parked { measure, state }
}

/// The refusal of a text, 0 if it reads. A text that reads is what writing its
/// state gives.
fn refusal(text: impl AsRef<[u8]>) -> u8 {
    let text = text.as_ref();
    match unpark(text.iter().copied()) {
        Err(refusal) => refusal.number(),
        Ok(parked) => {
            assert_eq!(written(&parked).as_bytes(), text);
            assert_eq!(parked.state.open, None);
            0
        }
    }
}

fn written(parked: &Parked) -> String {
    let Parked { measure, state } = parked;
    let (width, height) = (u64::from(measure.width()), u64::from(measure.height()));
    parked_text(width, height, state).expect("a text")
}

/// The refusal of writing into a room of this many bytes, or the length; a
/// refused room, and room beyond the text, is as it was.
fn parking(width: u64, height: u64, state: &State, room: usize) -> Result<usize, u8> {
    let mut room = vec![0xA5; room];
    let result = park(width, height, state, &mut room);
    let length = result.unwrap_or(0);
    assert!(room[length..].iter().all(|byte| *byte == 0xA5));
    if let Ok(text) = parked_text(width, height, state) {
        assert!(result.is_err() || &room[..length] == text.as_bytes());
    }
    result.map_err(|refusal| refusal.number())
}

// ---- the form, by its parts

/// The fields of the line JOB, the other lines' text behind it.
#[derive(Clone)]
struct Parts {
    fields: Vec<String>,
    positions: Vec<String>,
    row: String,
}

const WIDTH: usize = 0;
const HEIGHT: usize = 1;
const LEFT: usize = 4;
const RIGHT: usize = 5;
const DEPTH: usize = 15;

fn parts() -> Parts {
    let (line, rest) = TEXT.split_once('\n').expect("a line");
    let (positions, row) = rest.split_once("ROW").expect("a row");
    Parts {
        fields: line.split('\t').skip(1).map(str::to_string).collect(),
        positions: positions.lines().map(str::to_string).collect(),
        row: format!("ROW{}", row.trim_end()),
    }
}

impl Parts {
    fn text(&self) -> String {
        let mut lines = vec![format!("JOB\t{}", self.fields.join("\t"))];
        lines.extend(self.positions.iter().cloned());
        lines.push(self.row.clone());
        lines.join("\n") + "\n"
    }
}

/// The text with another value in one field of the line JOB.
fn with_field(field: usize, value: &str) -> String {
    let mut parts = parts();
    parts.fields[field] = value.to_string();
    parts.text()
}

/// The text with these positions, and a depth that says as many.
fn with_positions(positions: &[&str]) -> String {
    let mut parts = parts();
    parts.fields[DEPTH] = positions.len().to_string();
    parts.positions = positions.iter().map(|line| line.to_string()).collect();
    parts.text()
}

/// The text on another page, with margins that fit it and a row of this text.
fn with_page(width: &str, height: &str, row: &str) -> String {
    let mut parts = parts();
    for field in &mut parts.fields[2..] {
        *field = "0".to_string();
    }
    parts.fields[WIDTH] = width.to_string();
    parts.fields[HEIGHT] = height.to_string();
    parts.fields[RIGHT] = "1".to_string();
    parts.fields[10] = "75".to_string();
    parts.positions.clear();
    parts.row = format!("ROW\t{row}");
    parts.text()
}

#[test]
fn the_form_by_hand() {
    assert_eq!(written(&parked()), TEXT);
    assert_eq!(unpark(TEXT.bytes()), Ok(parked()));
    assert_eq!(parts().text(), TEXT);
    // Afresh on the page of the report.
    let zeros = "00".repeat(80);
    let text = format!(
        "JOB\t640\t800\t0\t4500\t0\t15360\t3600\t720\t1200\t0\t75\t0\t0\t0\t0\t0\nROW\t{zeros}\n"
    );
    assert_eq!(parked_text(640, 800, &afresh()), Ok(text.clone()));
    let parked = unpark(text.bytes()).expect("it reads");
    assert_eq!(parked.measure, measure(640, 800));
    assert_eq!(parked.state, afresh());
}

#[test]
fn a_job_half_read_goes_on() {
    // Parked in the middle, read back, and run on: the same end as in one go.
    let (before, after) = (
        b"\x1b&f0S\x1b*r1A\x1b*b3m3W\x1f\x00\x77AB",
        b"\x1b*b1W\x00\x1b&f1SC",
    );
    let half = read(before).state;
    let parked = unpark(parked_text(640, 800, &half).expect("a text").into_bytes());
    let parked = parked.expect("it reads");
    assert_eq!(parked.state, half);
    let end = common::read_from(640, 800, parked.state, after).state;
    assert_eq!(end, read(&join(&[before, after])).state);
}

#[test]
fn the_widest_and_the_deepest() {
    let measure = measure(4_800, 6_800);
    let mut state = State::afresh(&measure);
    (state.x, state.y) = (115_200, 163_200);
    (state.left_margin, state.right_margin, state.top_margin) = (115_199, 115_200, 163_200);
    (state.hmi, state.vmi) = (1_966_020, 50_400);
    state.graphics_margin = 115_200;
    state.depth = 20;
    state.stack = [Position {
        x: 115_200,
        y: 163_200,
    }; 20];
    state.seed = [0xFF; 600];
    let text = parked_text(4_800, 6_800, &state).expect("a text");
    assert!(text.len() < 2_000, "{}", text.len());
    assert_eq!(refusal(&text), 0);
    assert_eq!(unpark(text.bytes()), Ok(Parked { measure, state }));
}

// ---- 17

#[test]
fn refusal_17_words_tabs_and_lines() {
    let texts = [
        String::new(),
        "\n".to_string(),
        "JOB\n".to_string(),
        "JOB\t".to_string(),
        TEXT.replacen("JOB", "JOC", 1),
        TEXT.replacen("JOB", "job", 1),
        TEXT.replacen("JOB", "JOB2", 1),
        TEXT.replacen("JOB", "J", 1),
        TEXT.replacen("JOB", "", 1),
        TEXT.replacen("JOB", " JOB", 1),
        TEXT.replacen("JOB", "\u{feff}JOB", 1),
        TEXT.replacen('\t', " ", 1),
        TEXT.replacen('\t', "\t\t", 1),
        TEXT.replacen("48\t1", "48 1", 1),
        TEXT.replacen("48\t1", "48\t\t1", 1),
        TEXT.replacen("48\t1", "48,1", 1),
        TEXT.replacen("48\t1", "48\n1", 1),
        TEXT.replacen('\n', "\t\n", 1),
        TEXT.replacen('\n', " \n", 1),
        TEXT.replacen('\n', "", 1),
        TEXT.replacen('\n', "\n\n", 1),
        TEXT.replacen('\n', "\r\n", 1),
        TEXT.replace('\n', "\r\n"),
        TEXT.replace('\n', "\r"),
        TEXT.replacen("POS", "pos", 1),
        TEXT.replacen("POS", "POZ", 1),
        TEXT.replacen("POS", "POSS", 1),
        TEXT.replacen("POS\t", "POS ", 1),
        TEXT.replacen("POS\t", "", 1),
        TEXT.replacen("POS\t384\t9\n", "", 1),
        TEXT.replacen("POS\t384\t9\n", "POS\t384\t9\nPOS\t384\t9\n", 1),
        TEXT.replacen("384\t9", "384", 1),
        TEXT.replacen("384\t9", "384\t", 1),
        TEXT.replacen("384\t9", "\t9", 1),
        TEXT.replacen("384\t9", "384\t9\t1", 1),
        TEXT.replacen("384\t9", "384\t9\t", 1),
        TEXT.replacen("384\t9", "384 9", 1),
        TEXT.replacen("384\t9", "384\t09", 1),
        TEXT.replacen("384\t9", "384\t+9", 1),
        TEXT.replacen("384\t9", "384\t12345678901", 1),
        TEXT.replacen("POS\t0\t48\nROW\t0AFF\n", "ROW\t0AFF\nPOS\t0\t48\n", 1),
        TEXT.replacen("ROW", "row", 1),
        TEXT.replacen("ROW", "ROWS", 1),
        TEXT.replacen("ROW\t", "ROW", 1),
        TEXT.replacen("ROW\t", "ROW ", 1),
        TEXT.replacen("ROW\t", "ROW\t\t", 1),
        TEXT.replacen("ROW\t0AFF\n", "", 1),
        TEXT.replacen("ROW\t0AFF\n", "ROW\t0AFF\nROW\t0AFF\n", 1),
        TEXT.trim_end().to_string(),
        format!("{TEXT}\n"),
        format!("{TEXT} "),
        format!("{TEXT}\0"),
        format!("{TEXT}X"),
        format!("{TEXT}{TEXT}"),
        format!("\n{TEXT}"),
    ];
    for text in texts {
        assert_eq!(refusal(&text), 17, "{text:?}");
    }
}

#[test]
fn refusal_17_fields() {
    // In every field that is a number: digits, one to ten, no leading zeros.
    let wrong = [
        "",
        "00",
        "01",
        "0000000001",
        "+1",
        "-1",
        "-0",
        " 1",
        "1 ",
        "1.0",
        "1e1",
        "1A",
        "A",
        "0x1",
        "x",
        "12345678901",
        "10000000000",
        "99999999999",
        "00000000000",
        "18446744073709551617",
        "340282366920938463463374607431768211457",
        "\u{661}",
    ];
    for field in 0..16 {
        for value in wrong {
            let text = with_field(field, value);
            assert_eq!(refusal(&text), 17, "{text:?}");
        }
    }
    // Flags are of the form as 0 and 1 alone.
    for field in [12, 14] {
        for value in ["0", "1"] {
            assert_eq!(refusal(with_field(field, value)), 0);
        }
        for value in ["2", "01", "10", "11", "00", "9999999999", "T"] {
            let text = with_field(field, value);
            assert_eq!(refusal(&text), 17, "{text:?}");
        }
    }
    // Fields too few or too many.
    for field in 0..16 {
        let mut fewer = parts();
        fewer.fields.remove(field);
        assert_eq!(refusal(fewer.text()), 17, "without field {field}");
        let mut more = parts();
        more.fields.insert(field, "1".to_string());
        assert_eq!(refusal(more.text()), 17, "one more at {field}");
    }
    let mut more = parts();
    more.fields.push("2".to_string());
    assert_eq!(refusal(more.text()), 17);
}

#[test]
fn refusal_17_depth_and_row() {
    for depth in ["0", "1", "3", "20", "21", "4294967298", "9999999999"] {
        assert_eq!(refusal(with_field(DEPTH, depth)), 17, "{depth}");
    }
    for row in [
        "",
        "\t",
        "\t0A",
        "\t0AF",
        "\t0AFFF",
        "\t0AFF0",
        "\t0AFF00",
        "\t0aFF",
        "\t0Aff",
        "\t0GFF",
        "\t0A FF",
        "\t0A\tFF",
        "\t 0AFF",
        "\t0AFF ",
        "\t0AFF\t",
        "\t0AF\u{ff}",
        "\t:AFF",
        "\t@AFF",
        "\t/AFF",
        "\t0AF`",
    ] {
        let mut parts = parts();
        parts.row = format!("ROW{row}");
        assert_eq!(refusal(parts.text()), 17, "{row:?}");
    }
    // A row of another W, also where W/8 is cut down.
    for width in ["8", "15", "24", "0", "9999999999"] {
        assert_eq!(refusal(with_field(WIDTH, width)), 17, "{width}");
    }
}

#[test]
fn every_text_cut_short_is_17() {
    for end in 0..TEXT.len() {
        assert_eq!(refusal(&TEXT[..end]), 17, "{end} bytes");
    }
}

#[test]
fn form_comes_before_soundness() {
    // Not allowed, not sound, and in the last byte not of the form.
    let mut parts = parts();
    parts.fields[HEIGHT] = "6801".to_string();
    parts.fields[11] = "4".to_string();
    let text = parts.text();
    assert_eq!(refusal(&text), 18);
    assert_eq!(refusal(text.trim_end()), 17);
    assert_eq!(refusal(text.clone() + "\n"), 17);
    assert_eq!(refusal(text.replacen("0AFF", "0AFG", 1)), 17);
}

// ---- 18

#[test]
fn refusal_18_at_each_bound() {
    // Field, the values at the bound and within, and those past it. LW is 384,
    // LH is 48; 10 digits are of the form.
    let bounds: [(usize, &[&str], &[&str]); 12] = [
        (HEIGHT, &["2", "3", "6800"], &["0", "6801"]),
        (2, &["0", "384"], &["385"]),
        (3, &["0", "48"], &["49"]),
        (LEFT, &["0", "383"], &["384", "385"]),
        (RIGHT, &["2", "384"], &["0", "1", "385"]),
        (6, &["0", "48"], &["49"]),
        (7, &["0", "1966020"], &["1966021"]),
        (8, &["0", "50400"], &["50401"]),
        (9, &["0", "1", "2", "3"], &["4", "256", "259"]),
        (
            10,
            &["75", "100", "150", "300"],
            &[
                "0", "74", "76", "99", "101", "149", "151", "200", "299", "301", "600", "65611",
            ],
        ),
        (11, &["0", "1", "2", "3"], &["4", "5", "256", "258"]),
        (13, &["0", "384"], &["385"]),
    ];
    // Beyond 32 bits, and what would be sound if cut to them.
    let wide = [
        "4294967295",
        "4294967296",
        "4294967297",
        "4294967371",
        "8589934667",
        "9999999999",
    ];
    for (field, good, bad) in bounds {
        for value in good {
            assert_eq!(refusal(with_field(field, value)), 0, "{field}: {value}");
        }
        for value in bad.iter().chain(&wide) {
            assert_eq!(refusal(with_field(field, value)), 18, "{field}: {value}");
        }
    }
}

#[test]
fn refusal_18_measures() {
    let row = |pairs: usize| "00".repeat(pairs);
    let good = [("8", "1", 1), ("16", "6800", 2), ("4800", "6800", 600)];
    for (width, height, pairs) in good {
        let text = with_page(width, height, &row(pairs));
        assert_eq!(refusal(&text), 0, "{width} x {height}");
        assert_eq!(refusal(with_page(width, height, &row(pairs - 1))), 17);
        assert_eq!(refusal(with_page(width, height, &row(pairs + 1))), 17);
    }
    let bad = [
        ("0", "1", 0),
        ("1", "1", 0),
        ("4", "1", 0),
        ("7", "1", 0),
        ("9", "1", 1),
        ("12", "1", 1),
        ("15", "1", 1),
        ("4801", "1", 600),
        ("4807", "1", 600),
        ("4808", "1", 601),
        ("65544", "1", 8_193),
        ("8", "0", 1),
        ("8", "6801", 1),
        ("8", "4294967297", 1),
        ("8", "9999999999", 1),
    ];
    for (width, height, pairs) in bad {
        let text = with_page(width, height, &row(pairs));
        assert_eq!(refusal(&text), 18, "{width} x {height}");
        assert_eq!(refusal(with_page(width, height, &row(pairs + 1))), 17);
    }
}

#[test]
fn refusal_18_positions() {
    for (line, expected) in [
        ("POS\t0\t0", 0),
        ("POS\t384\t48", 0),
        ("POS\t385\t48", 18),
        ("POS\t384\t49", 18),
        ("POS\t4294967296\t0", 18),
        ("POS\t0\t4294967296", 18),
        ("POS\t9999999999\t9999999999", 18),
    ] {
        assert_eq!(refusal(with_positions(&[line])), expected, "{line}");
        let last = [&["POS\t1\t1"; 19][..], &[line]].concat();
        assert_eq!(refusal(with_positions(&last)), expected, "last: {line}");
    }
    assert_eq!(refusal(with_positions(&[])), 0);
    assert_eq!(refusal(with_positions(&["POS\t0\t0"; 20])), 0);
    // The 21st position is one too many, and must be of the form all the same.
    assert_eq!(refusal(with_positions(&["POS\t0\t0"; 21])), 18);
    let last = [&["POS\t0\t0"; 20][..], &["POS\t00\t0"]].concat();
    assert_eq!(refusal(with_positions(&last)), 17);
}

/// Each example of the decided readings on 17 and 18, under its words.
#[test]
fn the_decided_readings() {
    // "W not a multiple of 8"
    assert_eq!(refusal(with_field(WIDTH, "17")), 18);
    // "H 6,801"
    assert_eq!(refusal(with_field(HEIGHT, "6801")), 18);
    // "resolution 76"
    assert_eq!(refusal(with_field(10, "76")), 18);
    // "method 4"
    assert_eq!(refusal(with_field(11, "4")), 18);
    // "line termination 4"
    assert_eq!(refusal(with_field(9, "4")), 18);
    // "L not below R"
    assert_eq!(refusal(with_field(LEFT, "384")), 18);
    // "21 positions with depth 21"
    assert_eq!(refusal(with_positions(&["POS\t1\t1"; 21])), 18);
    // "a number beyond 32 bits"
    assert_eq!(refusal(with_field(2, "4294967301")), 18);
    // "`ROW`, a tab and nothing where W is below 8"
    assert_eq!(refusal(with_page("7", "1", "")), 18);
    assert_eq!(
        refusal(with_page("7", "1", "").replacen("ROW\t", "ROW", 1)),
        17
    );
    // "Eleven digits are 17."
    assert_eq!(refusal(with_field(2, "42949673010")), 17);
    // "Nothing behind the last."
    assert_eq!(refusal(format!("{TEXT}\n")), 17);
    // "Reading gives just what is sound, with no sequence open. A text that
    // reads is what writing its state gives, byte for byte."
    assert_eq!(refusal(TEXT), 0);
}

// ---- long texts, great numbers

#[test]
fn great_numbers_in_short_texts() {
    for row in ["", "00", "0AFF"] {
        let text = with_page("9999999999", "1", row);
        assert_eq!(refusal(&text), 17, "{text:?}");
    }
    assert_eq!(refusal(with_field(DEPTH, "9999999999")), 17);
    let mut parts = parts();
    for field in [0, 1, 2, 3, 4, 5, 6, 7, 8, 9, 10, 11, 13, 15] {
        parts.fields[field] = "9999999999".to_string();
    }
    assert_eq!(refusal(parts.text()), 17);
}

#[test]
fn long_texts() {
    let positions = vec!["POS\t0\t0"; 300_000];
    let text = with_positions(&positions);
    assert_eq!(refusal(&text), 18);
    assert_eq!(refusal(text.replacen("\t300000\n", "\t299999\n", 1)), 17);
    assert_eq!(refusal(text.replacen("\t300000\n", "\t300001\n", 1)), 17);
    let row = "7E".repeat(1_000_000);
    assert_eq!(refusal(with_page("8000000", "1", &row)), 18);
    assert_eq!(refusal(with_page("8000007", "1", &row)), 18);
    assert_eq!(refusal(with_page("8000008", "1", &row)), 17);
    assert_eq!(refusal(with_page("7999999", "1", &row)), 17);
    // One field that does not end.
    assert_eq!(
        refusal(format!("JOB\t{}\n", "0123456789".repeat(100_000))),
        17
    );
}

#[test]
fn no_more_is_read_than_decides() {
    let read_of = |text: &[u8]| {
        let mut count = 0;
        // What follows has no end.
        let endless = text.iter().copied().chain(std::iter::repeat(b'0'));
        let refused = unpark(endless.inspect(|_| count += 1)).map_err(|refusal| refusal.number());
        assert_eq!(refused.map(|_| ()), Err(17));
        count
    };
    assert_eq!(read_of(b""), 1);
    assert_eq!(read_of(b"JOC"), 3);
    // Ten digits and the eleventh byte.
    assert_eq!(read_of(b"JOB\t1"), 15);
    assert_eq!(read_of(TEXT.as_bytes()), TEXT.len() + 1);
}

// ---- writing

fn opened(mut state: State, first: u8, group: u8) -> State {
    state.open = Some(OpenSequence { first, group });
    state
}

#[test]
fn refusals_of_writing_in_their_order() {
    let sound = parked().state;
    let mut unsound = sound.clone();
    unsound.method = 4;
    let open = opened(sound.clone(), 38, 97);
    let length = TEXT.len();
    assert_eq!(parking(16, 2, &sound, length), Ok(length));
    assert_eq!(parking(16, 2, &sound, length + 1), Ok(length));
    assert_eq!(parking(16, 2, &sound, 2_000), Ok(length));
    assert_eq!(parking(16, 2, &sound, length - 1), Err(15));
    assert_eq!(parking(16, 2, &sound, 0), Err(15));
    for room in [0, length - 1, length, 2_000] {
        assert_eq!(parking(16, 2, &open, room), Err(16));
        assert_eq!(parking(16, 2, &unsound, room), Err(13));
        // Sound or not, a sequence open or not.
        for state in [&sound, &unsound, &open, &opened(unsound.clone(), 38, 97)] {
            for (width, height) in [
                (0, 2),
                (15, 2),
                (4_808, 2),
                (16, 0),
                (16, 6_801),
                (u64::MAX, 2),
                (4_294_967_312, 2),
                (16, 4_294_967_298),
            ] {
                assert_eq!(parking(width, height, state, room), Err(10));
            }
        }
        // 13 before 16: another member, or the sequence's own bytes.
        assert_eq!(
            parking(16, 2, &opened(unsound.clone(), 38, 97), room),
            Err(13)
        );
        for (first, group) in [(32, 97), (48, 97), (38, 95), (38, 127), (0, 0)] {
            let state = opened(sound.clone(), first, group);
            assert_eq!(parking(16, 2, &state, room), Err(13));
        }
        for (first, group) in [(33, 96), (47, 126)] {
            let state = opened(sound.clone(), first, group);
            assert_eq!(parking(16, 2, &state, room), Err(16));
        }
    }
}

#[test]
fn refusal_13_of_what_no_text_holds() {
    // A free place that is not 0, 0; a seed byte beyond the row; a depth that
    // has no places.
    let spoilt: [fn(&mut State); 7] = [
        |state| state.stack[2].x = 1,
        |state| state.stack[19].y = 1,
        |state| state.seed[2] = 1,
        |state| state.seed[599] = 1,
        |state| state.depth = 21,
        |state| state.depth = u64::MAX,
        |state| state.stack[1].y = 49,
    ];
    for (number, spoil) in spoilt.iter().enumerate() {
        let mut state = parked().state;
        spoil(&mut state);
        assert_eq!(parking(16, 2, &state, 2_000), Err(13), "{number}");
    }
    // Sound on its own page, and not on a smaller one.
    assert_eq!(parking(8, 2, &parked().state, 2_000), Err(13));
    assert_eq!(parking(16, 1, &parked().state, 2_000), Err(13));
}

// ---- inverse

/// One that is sound, random and often at its bounds.
fn random_parked(random: &mut Random) -> Parked {
    let wide = [1, 2, 3, 80, 600][random.below(5)];
    let high = [1, 2, 150, 151, 6_800][random.below(5)];
    let measure = measure(8 * wide, high);
    let mut up_to = |most: u32| match random.below(4) {
        0 => 0,
        1 => most,
        _ => random.below(most as usize + 1) as u32,
    };
    let (logical_width, logical_height) = (measure.logical_width(), measure.logical_height());
    let mut state = State::afresh(&measure);
    (state.x, state.y) = (up_to(logical_width), up_to(logical_height));
    state.left_margin = up_to(logical_width - 1);
    state.right_margin = state.left_margin + 1 + up_to(logical_width - state.left_margin - 1);
    state.top_margin = up_to(logical_height);
    (state.hmi, state.vmi) = (up_to(1_966_020), up_to(50_400));
    state.line_termination = up_to(3) as u8;
    state.resolution = [75, 100, 150, 300][up_to(3) as usize];
    state.method = up_to(3) as u8;
    (state.started, state.used) = (up_to(1) == 1, up_to(1) == 1);
    state.graphics_margin = up_to(logical_width);
    let depth = up_to(20) as usize;
    state.depth = depth as u64;
    for place in &mut state.stack[..depth] {
        (place.x, place.y) = (up_to(logical_width), up_to(logical_height));
    }
    for byte in &mut state.seed[..wide as usize] {
        *byte = up_to(255) as u8;
    }
    Parked { measure, state }
}

#[test]
fn written_is_read_back() {
    let mut random = Random(5);
    for _ in 0..1_000 {
        let parked = random_parked(&mut random);
        let text = written(&parked);
        assert_eq!(unpark(text.bytes()), Ok(parked));
        // It is the only text: one digit more or less is another.
        assert_eq!(refusal(text.replacen('\t', "\t0", 1)), 17);
    }
}

#[test]
fn what_reads_is_what_is_written() {
    // Every byte of a text changed to every other: `refusal` looks that what
    // still reads is written so.
    let mut counts = [0; 3];
    for place in 0..TEXT.len() {
        for byte in 0..=255 {
            let mut text = TEXT.as_bytes().to_vec();
            text[place] = byte;
            counts[usize::from(refusal(&text).saturating_sub(16))] += 1;
        }
    }
    assert!(counts.iter().all(|count| *count > 0), "{counts:?}");
    let mut random = Random(9);
    for _ in 0..2_000 {
        let mut text = written(&random_parked(&mut random)).into_bytes();
        let place = random.below(text.len());
        match random.below(4) {
            0 => text[place] = b"0123456789ABCDEF\t\nJOPSRW"[random.below(24)],
            1 => drop(text.remove(place)),
            2 => text.insert(place, text[place]),
            _ => text.insert(place, random.byte()),
        }
        refusal(&text);
    }
    // And any bytes at all.
    for _ in 0..2_000 {
        let text: Vec<u8> = (0..random.below(60)).map(|_| random.byte()).collect();
        assert_eq!(refusal(&text), 17);
    }
}

// ---- case files

const STATE: &str = "5,48,1,384,7,630,1201,3,300,2,1,383,1,2,-,384:9;0:48,0AFF";

fn answer(line: &str) -> String {
    answer_case(line).unwrap_or_else(|| panic!("not of the form: {line}"))
}

#[test]
fn cases_of_writing() {
    assert_eq!(write_state(&parked().state), STATE);
    let text = TEXT.as_bytes();
    let length = text.len();
    let pairs = write_pairs(text);
    assert_eq!(pairs[..10], *"4A4F420931");
    let hash = fnv1a(&join(&[text, b"\x07\x07"]));
    assert_eq!(
        answer(&format!("K 16 2 {} 07 {STATE}", length + 2)),
        format!("parked {length} {hash:016x} {pairs}")
    );
    let hash = fnv1a(&vec![0xAB; length - 1]);
    let refused = |words: &str, number: u8| {
        let line = words.replacen("ROOM", &(length - 1).to_string(), 1);
        assert_eq!(answer(&line), format!("refused {number} 0 {hash:016x}"));
    };
    refused(&format!("K 16 2 ROOM aB {STATE}"), 15);
    let open = STATE.replacen(",-,", ",38:97,", 1);
    refused(&format!("K 16 2 ROOM AB {open}"), 16);
    let unsound = STATE.replacen(",-,", ",38:64,", 1);
    refused(&format!("K 16 2 ROOM AB {unsound}"), 13);
    refused(&format!("K 17 2 ROOM AB {unsound}"), 10);
    refused("K 0 18446744073709551615 ROOM AB -", 10);
    // Afresh.
    let text = "JOB\t8\t1\t0\t24\t0\t192\t0\t720\t1200\t0\t75\t0\t0\t0\t0\t0\nROW\t00\n";
    let expected = format!("parked {} ", text.len());
    assert!(answer("K 8 1 2000 00 -").starts_with(&expected));
    assert!(answer("K 8 1 2000 00 -").ends_with(&write_pairs(text.as_bytes())));
    assert_eq!(answer("K 8 1 0 00 -"), "refused 15 0 cbf29ce484222325");
}

#[test]
fn cases_of_reading() {
    let pairs = write_pairs(TEXT.as_bytes());
    let read = format!("read 16 2 {STATE}");
    assert_eq!(answer(&format!("U {pairs}")), read);
    assert_eq!(answer(&format!("U {}", pairs.to_lowercase())), read);
    let length = TEXT.len();
    assert_eq!(answer(&format!("U x{length}:{pairs}")), read);
    assert_eq!(answer(&format!("U x{}:{pairs}", length + 1)), "refused 17");
    assert_eq!(answer("U -"), "refused 17");
    assert_eq!(answer("U x0:41"), "refused 17");
    assert_eq!(answer("U x7999999:4A4F42"), "refused 17");
    let unsound = write_pairs(with_field(HEIGHT, "6801").as_bytes());
    assert_eq!(answer(&format!("U {unsound}")), "refused 18");
}

#[test]
fn lines_not_of_the_form() {
    for line in [
        "K",
        "U",
        "K 8 1 2000 00",
        "K 8 1 2000 00 - -",
        "K 8 1 2000 0 -",
        "K 8 1 8000000 00 -",
        "K 8 1 -1 00 -",
        "K +8 1 1 00 -",
        "K 8 18446744073709551616 1 00 -",
        "K 8 1 1 00 0,0",
        "k 8 1 2000 00 -",
        "u -",
        "U ",
        "U - -",
        "U 4",
        "U 4G",
        "U x5",
        "U x5:",
        "U x8000000:00",
        "U x18446744073709551615:00",
    ] {
        assert_eq!(answer_case(line), None, "{line}");
    }
}

// ---- the command line

#[test]
fn park_from_the_command_line() {
    let half = b"\x1b&f0S\x1b*t300R\x1b*b2W\xFF\x80\x1b&fs1s1S\x0CA\x1b*p+x+Y";
    let parked = |words: &[&str], input: &[u8]| {
        let (status, out, error) = call_for_text(words, input);
        assert_eq!((status, error.as_str()), (0, ""), "{words:?}");
        out
    };
    // To its end: over findings and page ends, with any number of items that is
    // enough or none given.
    let text = written(&Parked {
        measure: measure(640, 800),
        state: read(half).state,
    });
    let huge = "9".repeat(40);
    assert_eq!(parked(&["park", "640", "800"], half), text);
    for items in ["10", "11", "0000000000000000000000012", &huge] {
        let words = ["park", "640", "800", "-n", items];
        assert_eq!(parked(&words, half), text, "{items}");
    }
    // Item by item; after the commands that a small letter ends it is 16.
    let items = read(half).items;
    assert_eq!(items.len(), 10);
    let mut refused = 0;
    for done in 0..items.len() {
        let end: u64 = items.iter().take(done).map(|item| item.1).sum();
        let words = ["park", "640", "800", "-n", &done.to_string()];
        if [4, 5, 9].contains(&done) {
            assert_eq!(
                call_for_text(&words, half),
                (2, "REFUSED\t16\n".to_string(), String::new())
            );
            refused += 1;
        } else {
            let state = read(&half[..end as usize]).state;
            let measure = measure(640, 800);
            let text = written(&Parked { measure, state });
            assert_eq!(parked(&words, half), text, "{done} items");
        }
    }
    assert_eq!(refused, 3);
    // Nothing to read, nothing to do.
    let text = "JOB\t8\t1\t0\t24\t0\t192\t0\t720\t1200\t0\t75\t0\t0\t0\t0\t0\nROW\t00\n";
    assert_eq!(parked(&["park", "8", "1"], b""), text);
    assert_eq!(parked(&["park", "8", "1", "-n", "0"], b"AA\x1b&a"), text);
    // A sequence still open at the end is closed by the item of no bytes there.
    assert_eq!(parked(&["park", "8", "1"], b"\x1b&f1s"), text);
}

#[test]
fn park_refused() {
    let refused = |number: u8| (2, format!("REFUSED\t{number}\n"), String::new());
    let long = vec![0; 1_048_577];
    for (width, height) in [("0", "800"), ("641", "800"), ("640", "6801"), ("8", "0")] {
        assert_eq!(call_for_text(&["park", width, height], &long), refused(10));
        let words = ["park", width, height, "-n", "1"];
        assert_eq!(call_for_text(&words, b"\x1b&f0s"), refused(10));
    }
    assert_eq!(call_for_text(&["park", "640", "800"], &long), refused(12));
    // 12 before 16, and also where no item is asked for.
    let open = join(&[b"\x1b&f0s", &long]);
    for items in ["0", "1"] {
        let words = ["park", "640", "800", "-n", items];
        assert_eq!(call_for_text(&words, &open), refused(12));
    }
    let words = ["park", "640", "800", "-n", "1"];
    assert_eq!(call_for_text(&words, b"\x1b&f0s"), refused(16));
    // The longest stream is not too long.
    let (status, out, _) = call(&["park", "8", "1"], &long[1..]);
    assert_eq!((status, out.starts_with(b"JOB\t8\t1\t0\t")), (0, true));
}

#[test]
fn unpark_from_the_command_line() {
    let lines = "W\t16\nH\t2\nx\t5\ny\t48\nL\t1\nR\t384\nT\t7\nHMI\t630\nVMI\t1201\n\
        termination\t3\nresolution\t300\nmethod\t2\nstarted\t1\nmargin\t383\nused\t1\ndepth\t2\n\
        POS\t384\t9\nPOS\t0\t48\nROW\t0AFF\n";
    assert_eq!(listing(&parked()), lines);
    assert_eq!(
        call_for_text(&["unpark"], TEXT.as_bytes()),
        (0, lines.to_string(), String::new())
    );
    let refused = |number: u8| (2, format!("REFUSED\t{number}\n"), String::new());
    assert_eq!(call_for_text(&["unpark"], b""), refused(17));
    assert_eq!(call_for_text(&["unpark"], b"JOB2"), refused(17));
    let unsound = with_field(HEIGHT, "6801");
    assert_eq!(call_for_text(&["unpark"], unsound.as_bytes()), refused(18));
    // Long ones, refused by their first byte or by their last.
    assert_eq!(call_for_text(&["unpark"], &vec![0; 3_000_000]), refused(17));
    let long = with_positions(&vec!["POS\t1\t1"; 200_000]);
    assert_eq!(call_for_text(&["unpark"], long.as_bytes()), refused(18));
    // What was parked, read back.
    let (_, text, _) = call_for_text(&["park", "16", "4"], b"\x1b&f0SA");
    let (status, out, _) = call_for_text(&["unpark"], text.as_bytes());
    assert_eq!(status, 0);
    assert!(out.starts_with("W\t16\nH\t4\nx\t384\ny\t96\n"), "{out}");
    assert!(out.ends_with("depth\t1\nPOS\t0\t96\nROW\t0000\n"), "{out}");
}

#[test]
fn faults_of_the_words() {
    let faults: [&[&str]; 16] = [
        &["park"],
        &["park", "640"],
        &["park", "640", "800", "-n"],
        &["park", "640", "800", "5"],
        &["park", "640", "800", "-n", "5", "6"],
        &["park", "640", "800", "-m", "5"],
        &["park", "640", "800", "n", "5"],
        &["park", "640", "800", "-n", ""],
        &["park", "640", "800", "-n", "-1"],
        &["park", "640", "800", "-n", "+1"],
        &["park", "640", "800", "-n", "1.5"],
        &["park", "640", "800", "-n", "all"],
        &["park", "w", "800"],
        // Words come before measures.
        &["park", "641", "800", "-n", "x"],
        &["unpark", "640"],
        &["unparks"],
    ];
    for words in faults {
        let (status, out, error) = call(words, b"A");
        assert_eq!((status, out.len()), (1, 0), "{words:?}");
        assert_eq!(error.lines().count(), 1, "{words:?}: {error}");
        assert!(error.ends_with('\n'), "{words:?}: {error}");
    }
}
