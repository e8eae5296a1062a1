//! Steps of a job: what one gives on, the lines it writes, the room for them.

mod common;
use common::{afresh, measure, read_from};
use second::cases::{answer_case, fnv1a, HIGHEST_COUNT, ROOM_FILL};
use second::dots::count_dots;
use second::measure::LONGEST_STREAM;
use second::report::{write_marks, write_pages, write_report};
use second::state::State;
use second::step::{step, write_front, Job, Stepped};

/// A job afresh, at its first page and without a finding.
fn job(width: u64, height: u64) -> Job {
    Job {
        state: State::afresh(&measure(width, height)),
        place: 0,
        number: 1,
        findings: 0,
    }
}

/// The step on a page of 16 x 4 with two bytes behind it, every byte FF.
fn stepped(job: &mut Job, stream: &[u8]) -> (Stepped, Vec<u8>) {
    let mut page = vec![0xFF; 10];
    let stepped = step(16, 4, &mut page, stream, job).expect("a step not refused");
    (stepped, page)
}

fn gave(lines: &str, has_page: bool, over: bool) -> Stepped {
    Stepped {
        lines: lines.to_string(),
        has_page,
        over,
    }
}

#[test]
fn refused_with_each_number() {
    let unsound = |mut job: Job| {
        job.state.method = 4;
        job
    };
    let at = |place: u64, mut job: Job| {
        job.place = place;
        job
    };
    let long = vec![b'A'; LONGEST_STREAM + 1];
    let cases: [(u8, u64, usize, &[u8], Job); 9] = [
        (10, 9, 8, b"A", job(16, 4)),
        (11, 16, 7, b"A", job(16, 4)),
        (12, 16, 8, &long, job(16, 4)),
        (13, 16, 8, b"A", unsound(job(16, 4))),
        (14, 16, 8, b"A", at(2, job(16, 4))),
        // In the paper's order.
        (10, 9, 7, &long, at(9_999_999, unsound(job(16, 4)))),
        (11, 16, 7, &long, at(9_999_999, unsound(job(16, 4)))),
        (12, 16, 8, &long, at(9_999_999, unsound(job(16, 4)))),
        (13, 16, 8, b"A", at(2, unsound(job(16, 4)))),
    ];
    for (number, width, length, stream, handed) in cases {
        let mut page = vec![0xA5; length];
        let mut after = handed.clone();
        let refusal = step(width, 4, &mut page, stream, &mut after).expect_err("a refusal");
        assert_eq!(refusal.number(), number);
        assert_eq!(after, handed);
        assert!(page.iter().all(|byte| *byte == 0xA5));
    }
    assert_eq!(Stepped::refused(), gave("", false, true));
}

#[test]
fn a_finding_and_its_mark() {
    // Text, then a pop from an empty stack; what follows is the next step's.
    let mut job = job(16, 4);
    job.number = 5;
    job.findings = 7;
    let (given, page) = stepped(&mut job, b"\x1b*p4XA\x1b&f1SB");
    // x is 96, and the text moves it to the page's end.
    assert_eq!(
        given,
        gave("FAULT\t6\t5\nMARK\t6\t5\t384\t96\n", false, false)
    );
    assert_eq!((job.place, job.number, job.findings), (11, 5, 8));
    assert!(job.state.used);
    assert_eq!(page, [0, 0, 0, 0, 0, 0, 0, 0, 0xFF, 0xFF]);
}

#[test]
fn an_item_of_no_bytes_has_a_mark_like_any_other() {
    let mut job = job(16, 4);
    let (given, _) = stepped(&mut job, b"\x1b*p3x");
    assert_eq!(
        given,
        gave("FAULT\t5\t1\nMARK\t5\t1\t72\t96\n", false, false)
    );
    assert_eq!((job.place, job.findings), (5, 1));
}

#[test]
fn a_damaged_row_is_marked_where_it_began() {
    let stream = b"\x1b*t300R\x1b*p2x1Y\x1b*r1A\x1b*b1m2w\x00\x801w\x07W";
    let mut job = job(16, 4);
    let (given, page) = stepped(&mut job, stream);
    // Started at x 48 and y 24; one good row, then the damaged one.
    assert_eq!(
        given,
        gave("FAULT\t28\t7\nMARK\t28\t7\t48\t48\n", false, false)
    );
    assert_eq!((job.state.x, job.state.y), (48, 72));
    assert_eq!(page, [0, 0, 0x20, 0, 0, 0, 0, 0, 0xFF, 0xFF]);
    // Not started: x is the cursor's still, though the row ends at margin 0.
    let mut job = self::job(16, 4);
    let (given, _) = stepped(&mut job, b"\x1b*p2x1Y\x1b*b1m1W\x07");
    assert_eq!(
        given,
        gave("FAULT\t12\t7\nMARK\t12\t7\t48\t24\n", false, false)
    );
    // 24 and a row of 96, brought into the page.
    assert_eq!((job.state.x, job.state.y), (0, 96));
}

#[test]
fn a_page_end() {
    // The dots of the two bytes behind the page are counted too.
    let mut job = job(16, 4);
    job.number = 9;
    job.findings = 3;
    let (given, page) = stepped(&mut job, b"\x1b*t300R\x1b*p0Y\x1b*b2W\xFF\x80\x0CA");
    assert_eq!(given, gave("PAGE\t9\t25\n", true, false));
    assert_eq!((job.place, job.number, job.findings), (20, 10, 3));
    assert_eq!(page, [0xFF, 0x80, 0, 0, 0, 0, 0, 0, 0xFF, 0xFF]);
    assert!(!job.state.used);
    // ESC E ends a used page only.
    let mut job = self::job(16, 4);
    let (given, _) = stepped(&mut job, b"\x1bEA\x1bE");
    assert_eq!(given, gave("PAGE\t1\t16\n", true, false));
    assert_eq!((job.place, job.number), (5, 2));
}

#[test]
fn to_the_end_of_the_stream_without_a_line() {
    let mut job = job(16, 4);
    let (given, page) = stepped(&mut job, b"A");
    assert_eq!(given, gave("", false, false));
    assert_eq!((job.place, job.number, job.findings), (1, 1, 0));
    assert_eq!(count_dots(&page), 16);
}

#[test]
fn over_with_the_page_used_and_unused() {
    let mut used = job(16, 4);
    (used.number, used.findings, used.place) = (4, 2, 1);
    (used.state.used, used.state.x) = (true, 240);
    let handed = used.clone();
    let (given, page) = stepped(&mut used, b"A");
    // Nothing is done, so nothing is zeroed: the dots of all ten bytes.
    assert_eq!(given, gave("PAGE\t4\t80\nEND\t240\t96\t0\t2\n", true, true));
    assert_eq!(used, handed);
    assert_eq!(page, [0xFF; 10]);
    let mut unused = job(16, 4);
    unused.findings = HIGHEST_COUNT;
    let handed = unused.clone();
    let (given, page) = stepped(&mut unused, b"");
    assert_eq!(given, gave("END\t0\t96\t0\t4294967296\n", false, true));
    assert_eq!(unused, handed);
    assert_eq!(page, [0xFF; 10]);
}

#[test]
fn the_room() {
    for (length, end) in [(0, 0), (1, 1), (5, 5), (6, 6), (7, 6), (40, 6)] {
        let mut room = vec![0x2E; length];
        assert_eq!(write_front(&mut room, b"PAGE\t1"), end);
        assert_eq!(room[..end], b"PAGE\t1"[..end]);
        assert!(room[end..].iter().all(|byte| *byte == 0x2E));
    }
}

// ---- the steps of a whole job

/// All lines of a job, and how many of its pages are to be written.
fn steps_of(stream: &[u8]) -> (String, usize) {
    let mut job = job(640, 800);
    let mut page = vec![0xA5; 64_000];
    let (mut lines, mut pages) = (String::new(), 0);
    loop {
        let given = step(640, 800, &mut page, stream, &mut job).expect("a step not refused");
        lines += &given.lines;
        pages += usize::from(given.has_page);
        if given.over {
            return (lines, pages);
        }
    }
}

fn written(write: impl Fn(&mut Vec<u8>)) -> String {
    let mut out = Vec::new();
    write(&mut out);
    String::from_utf8(out).expect("text")
}

#[test]
fn the_steps_of_a_job_are_its_report_with_its_marks() {
    let streams: [&[u8]; 7] = [
        b"",
        b"A",
        b"\x0C\x0C",
        b"\x1b&f1S\x1b*t300R\x1b*b2W\xFF\x80\x0C",
        b"\x1b&f1S\x1b*t300R\x1b*b2W\xFF\x80\x0CB\x1b&l99x3y\x1b*b2m1w\xFE\x1bEA\x1b*b1W",
        b"\x1b*p10x10YA\x1b*b1m1w\x071m\x1b*b",
        b"\x1b&f0s0s1s1s1S\x1b*r1A\x1b*t75R\x1b*b1W\x80\x0C\x1b",
    ];
    for stream in streams {
        let (lines, pages) = steps_of(stream);
        let (marks, rest): (Vec<&str>, Vec<&str>) = lines
            .split_inclusive('\n')
            .partition(|line| line.starts_with("MARK\t"));
        let report = written(|out| write_report(stream, out).expect("a report"));
        assert_eq!(format!("SIZE\t640\t800\n{}", rest.concat()), report);
        let measure = Some(measure(640, 800));
        let marked = written(|out| write_marks(measure, stream, out).expect("marks"));
        assert_eq!(marks.concat().replace("MARK\t", ""), marked);
        let mut drawn = Vec::new();
        write_pages(measure, stream, &mut drawn).expect("pages");
        assert_eq!(drawn.len(), pages * (b"P4\n640 800\n".len() + 64_000));
        // Each mark is the cursor after the items before it.
        for mark in marked.lines() {
            let fields: Vec<&str> = mark.split('\t').collect();
            let before = read_from(640, 800, afresh(), &stream[..fields[0].parse().unwrap()]);
            if before.findings().last() != Some(&1) {
                let (x, y) = before.cursor();
                assert_eq!(fields[2..], [x.to_string(), y.to_string()]);
            }
        }
    }
}

// ---- the form of a case

const STATE: &str = "0,96,0,384,0,720,1200,0,75,0,0,0,0,0,-,-,-";

fn answer(line: &str) -> String {
    answer_case(line).unwrap_or_else(|| panic!("not of the form: {line}"))
}

fn hash(bytes: &[u8]) -> String {
    format!("{:016x}", fnv1a(bytes))
}

/// END, LINES and RHASH of these lines in a room of this length.
fn room(lines: &str, length: usize) -> String {
    let mut room = vec![ROOM_FILL; length];
    let end = write_front(&mut room, lines.as_bytes());
    let pairs: String = room[..end]
        .iter()
        .map(|byte| format!("{byte:02X}"))
        .collect();
    let pairs = if end == 0 { "-" } else { &pairs };
    format!("{end} {pairs} {}", hash(&room))
}

#[test]
fn answers_of_steps() {
    let fills = hash(&[0xFF; 8]);
    let zeros = hash(&[0; 8]);
    // A page end.
    assert_eq!(
        answer("S 16 4 8 FF - 0 7 2 184 0c0c"),
        format!(
            "stepped 1 {STATE} {zeros} 8 2 1 0 {}",
            room("PAGE\t7\t0\n", 184)
        )
    );
    // A finding.
    let lines = "FAULT\t1\t2\nMARK\t1\t2\t0\t96\n";
    for length in [0, 1, 9, 10, 11, lines.len() - 1, lines.len(), 200, 4096] {
        assert_eq!(
            answer(&format!(
                "S 16 4 8 FF {STATE} 1 7 4294967296 {length} 001B00"
            )),
            format!(
                "stepped 2 {STATE} {zeros} 7 4294967297 0 0 {}",
                room(lines, length)
            )
        );
    }
    // Over.
    assert_eq!(
        answer("S 16 4 8 FF - 1 7 2 184 41"),
        format!(
            "stepped 1 {STATE} {fills} 7 2 0 1 {}",
            room("END\t0\t96\t0\t2\n", 184)
        )
    );
    let used = "9,96,0,384,0,720,1200,0,75,0,0,0,1,1,-,1:2,-";
    let lines = "PAGE\t4294967296\t64\nEND\t9\t96\t1\t0\n";
    for length in [3, 17, 20, 184] {
        assert_eq!(
            answer(&format!("S 16 4 8 FF {used} 0 4294967296 0 {length} -")),
            format!(
                "stepped 0 {used} {fills} 4294967296 0 1 1 {}",
                room(lines, length)
            )
        );
    }
    // Refused.
    assert_eq!(
        answer("S 16 4 8 FF - 2 7 3 5 41"),
        format!("refused 14 2 {STATE} {fills} 7 3 0 1 {}", room("", 5))
    );
    let odd = "4294967295,1,2,3,4,5,6,255,65535,9,1,7,1,18446744073709551615,0:255,0:0;1:2,00FF";
    assert_eq!(
        answer(&format!("S 16 4 8 FF {odd} 18446744073709551615 0 0 0 41")),
        format!(
            "refused 13 18446744073709551615 {odd} {fills} 0 0 0 1 {}",
            room("", 0)
        )
    );
    assert_eq!(
        answer("S 16 4 8 FF - 0 1 0 9 x1048577:00")[..11],
        *"refused 12 "
    );
    assert_eq!(answer("S 16 4 7 FF - 0 1 0 9 41")[..11], *"refused 11 ");
    assert_eq!(answer("S 17 4 8 FF - 0 1 0 9 41")[..11], *"refused 10 ");
}

#[test]
fn steps_not_of_the_form() {
    assert!(answer_case("S 16 4 8 FF - 0 1 0 9 41").is_some());
    let bad = [
        "S 16 4 8 FF - 0 1 0 9",
        "S 16 4 8 FF - 0 1 0 9 41 41",
        "s 16 4 8 FF - 0 1 0 9 41",
        "S 16 4 8 FF - 0 4294967297 0 9 41",
        "S 16 4 8 FF - 0 1 4294967297 9 41",
        "S 16 4 8 FF - 0 -1 0 9 41",
        "S 16 4 8 FF - 0 1 x 9 41",
        "S 16 4 8 FF - 0 1 0 8000000 41",
        "S 16 4 8000000 FF - 0 1 0 9 41",
        "S 16 4 8 FF - 0 1 0 - 41",
        "S 16 4 8 FF - 0 1 0 9 4",
    ];
    for line in bad {
        assert_eq!(answer_case(line), None, "{line}");
    }
}
