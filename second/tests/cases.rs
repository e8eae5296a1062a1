//! Case files: the form of lines and answers.

mod common;
use second::cases::{answer_case, decimal, fnv1a, run_cases, CasesStopped};

const AFRESH: &str = "0,4500,0,15360,3600,720,1200,0,75,0,0,0,0,0,-,-,-";

fn answer(line: &str) -> String {
    answer_case(line).unwrap_or_else(|| panic!("not of the form: {line}"))
}

fn hash(bytes: &[u8]) -> String {
    format!("{:016x}", fnv1a(bytes))
}

#[test]
fn the_hash_is_fnv_1a() {
    assert_eq!(hash(b""), "cbf29ce484222325");
    assert_eq!(hash(b"a"), "af63dc4c8601ec8c");
    assert_eq!(hash(b"foobar"), "85944171f73967e8");
}

#[test]
fn a_run_of_the_papers_report_example() {
    let stream = "1b2666315300";
    // &f1S is finding 5 at place 0; the run stops after it.
    let expected = format!("ran 1 5 5 0 0 {AFRESH} {} 0", hash(&[0; 64_000]));
    assert_eq!(
        answer(&format!("R 640 800 64000 AA - 0 9 {stream}")),
        expected
    );
}

#[test]
fn a_run_that_paints() {
    // 8 x 4 at 300: a row of 81 at the top, and two bytes lent beyond.
    let line =
        "R 8 4 6 AA 0,0,0,192,0,720,1200,0,300,0,0,0,0,0,-,-,- 0 18446744073709551615 1b2a62315781";
    let state = "0,24,0,192,0,720,1200,0,300,0,1,0,1,0,-,-,81";
    let expected = format!(
        "ran 1 6 0 0 0 {state} {} 2",
        hash(&[0x81, 0, 0, 0, 0xAA, 0xAA])
    );
    assert_eq!(answer(line), expected);
}

#[test]
fn allowance_page_end_and_place() {
    let fills = hash(&[0xFF; 4]);
    let zeros = hash(&[0; 4]);
    let state = "0,96,0,192,0,720,1200,0,75,0,0,0,0,0,-,-,-";
    // Nothing allowed, nothing to do: the fill stands, and is counted.
    assert_eq!(
        answer("R 8 4 4 FF - 0 0 0c"),
        format!("ran 0 0 0 0 0 {state} {fills} 32")
    );
    assert_eq!(
        answer("R 8 4 4 FF - 1 7 0c"),
        format!("ran 0 1 0 0 0 {state} {fills} 32")
    );
    assert_eq!(
        answer("R 8 4 4 FF - 0 7 -"),
        format!("ran 0 0 0 0 0 {state} {fills} 32")
    );
    // A page end stops the run.
    assert_eq!(
        answer("R 8 4 4 FF - 0 7 0c0c"),
        format!("ran 1 1 0 0 1 {state} {zeros} 0")
    );
    assert_eq!(
        answer("R 8 4 4 FF - 1 7 0c0c"),
        format!("ran 1 2 0 0 1 {state} {zeros} 0")
    );
    // An open sequence at the end is an item of no bytes.
    let open = "0,96,0,192,0,720,1200,0,75,0,0,0,0,0,38:97,-,-";
    assert_eq!(
        answer(&format!("R 8 4 4 FF {open} 1 7 41")),
        format!("ran 1 1 1 1 0 {state} {zeros} 0")
    );
    // The stream ends with the sequence open, as the allowance ends the run.
    let after = "0,96,0,192,0,720,1200,0,75,0,0,0,0,0,38:97,-,-";
    assert_eq!(
        answer("R 8 4 4 FF - 0 1 1b266163"),
        format!("ran 1 4 0 0 0 {after} {zeros} 0")
    );
    assert_eq!(
        answer("R 8 4 4 FF - 0 2 1b266163"),
        format!("ran 2 4 1 4 0 {state} {zeros} 0")
    );
}

#[test]
fn refused_runs_give_everything_back() {
    let odd = "4294967295,1,2,3,4,5,6,255,65535,9,1,7,1,18446744073709551615,0:255,0:0;1:2,00FF";
    let buffer = hash(&[0x5A; 3]);
    assert_eq!(
        answer(&format!("R 8 3 3 5a {odd} 18446744073709551615 5 41")),
        format!("refused 13 0 18446744073709551615 {odd} {buffer}")
    );
    // Zeros at the end are left out of the answer.
    let zeros = "0,0,0,9,0,0,0,0,0,0,0,0,0,0,-,1:1;0:0,410000";
    let short = "0,0,0,9,0,0,0,0,0,0,0,0,0,0,-,1:1,41";
    assert_eq!(
        answer(&format!("R 8 3 3 5a {zeros} 0 5 41")),
        format!("refused 13 0 0 {short} {buffer}")
    );
    // A measure not allowed has the state of 640 x 800 afresh.
    assert_eq!(
        answer("R 18446744073709551615 3 3 5A - 2 5 41"),
        format!("refused 10 0 2 {AFRESH} {buffer}")
    );
    assert_eq!(
        answer(&format!("R 8 4 3 5A {short} 9 5 41"))[..11],
        *"refused 11 "
    );
    assert_eq!(answer("R 8 3 3 5A - 9 5 x1048577:00")[..11], *"refused 12 ");
    assert_eq!(
        answer("R 8 3 3 5A - 9 5 x18446744073709551615:00")[..11],
        *"refused 12 "
    );
    assert_eq!(answer("R 8 3 3 5A - 2 5 41")[..11], *"refused 14 ");
    assert_eq!(answer("R 8 3 3 5A - 1 5 41")[..8], *"ran 0 1 ");
}

#[test]
fn translations() {
    assert_eq!(
        answer("T 640 800 13 07 1b2661313063355200"),
        format!("plain 11 {}", hash(b"\x1b&a10C\x1b&a5R\x07\x07"))
    );
    assert_eq!(
        answer("T 8 8 1 07 4142"),
        format!("refused 15 0 {}", hash(b"\x07"))
    );
    assert_eq!(
        answer("T 9 8 1 07 4142"),
        format!("refused 10 0 {}", hash(b"\x07"))
    );
    assert_eq!(
        answer("T 8 8 1 07 x1048577:4142"),
        format!("refused 12 0 {}", hash(b"\x07"))
    );
    assert_eq!(answer("T 8 8 0 07 -"), format!("plain 0 {}", hash(b"")));
    assert_eq!(
        answer("T 8 8 5 07 x5:4142"),
        format!("plain 5 {}", hash(b"ABABA"))
    );
}

#[test]
fn lines_not_of_the_form() {
    let seed_601 = "00".repeat(601);
    let stack_21 = vec!["0:0"; 21].join(";");
    let state = |tail: &str| format!("R 8 4 4 FF 0,0,0,192,0,0,0,0,75,0,{tail} 0 1 -");
    assert!(answer_case(&state("0,0,0,0,-,-,-")).is_some());
    assert!(answer_case(&state(&format!("0,0,0,0,-,-,{}", &seed_601[2..]))).is_some());
    assert!(answer_case(&state(&format!("0,0,0,0,-,{},-", &stack_21[4..]))).is_some());
    let bad = [
        "".to_string(),
        " ".to_string(),
        "X".to_string(),
        "R 8 4 4 FF - 0 1".to_string(),
        "R 8 4 4 FF - 0 1 - -".to_string(),
        "R  8 4 4 FF - 0 1 -".to_string(),
        "R 8 4 4 FF - 0 1 -\r".to_string(),
        "r 8 4 4 FF - 0 1 -".to_string(),
        "R +8 4 4 FF - 0 1 -".to_string(),
        "R 8 -4 4 FF - 0 1 -".to_string(),
        "R 8 4 8000000 FF - 0 1 -".to_string(),
        "R 8 4 4 F - 0 1 -".to_string(),
        "R 8 4 4 FFFF - 0 1 -".to_string(),
        "R 8 4 4 GG - 0 1 -".to_string(),
        "R 8 4 4 FF - 0 18446744073709551616 -".to_string(),
        "R 8 4 4 FF - 0 1 4".to_string(),
        "R 8 4 4 FF - 0 1 x5".to_string(),
        "R 8 4 4 FF - 0 1 x5:".to_string(),
        "R 8 4 4 FF - 0 1 x:00".to_string(),
        "R 8 4 4 FF - 0 1 4g".to_string(),
        "R 8 4 4 FF 0,0 0 1 -".to_string(),
        "T 8 8 8000000 07 -".to_string(),
        "T 8 8 1 07 - 0".to_string(),
        state("2,0,0,0,-,-,-"),
        state("0,0,2,0,-,-,-"),
        state("0,4294967296,0,0,-,-,-"),
        state("0,0,0,18446744073709551616,-,-,-"),
        state("0,0,0,0,38,-,-"),
        state("0,0,0,0,38:256,-,-"),
        state("0,0,0,0,-,1,-"),
        state("0,0,0,0,-,1:2:3,-"),
        state("0,0,0,0,-,-,4"),
        state("0,0,0,0,-,-,-,-"),
        state(&format!("0,0,0,0,-,-,{seed_601}")),
        state(&format!("0,0,0,0,-,{stack_21},-")),
    ];
    for line in bad {
        assert_eq!(answer_case(&line), None, "{line}");
    }
    assert_eq!(decimal("18446744073709551615"), Some(u64::MAX));
    assert_eq!(decimal("007"), Some(7));
}

#[test]
fn a_file_of_cases() {
    let mut out = Vec::new();
    let file = b"T 8 8 0 07 -\nT 8 8 0 07 41";
    run_cases(&mut &file[..], &mut out).unwrap();
    let expected = "1 plain 0 cbf29ce484222325\n2 refused 15 0 cbf29ce484222325\n";
    assert_eq!(String::from_utf8(out).unwrap(), expected);
    // The bad line stops it, with its number; those before are answered.
    let mut out = Vec::new();
    let file = b"T 8 8 0 07 -\n\nT 8 8 0 07 -\n";
    let stopped = run_cases(&mut &file[..], &mut out);
    assert!(matches!(stopped, Err(CasesStopped::Line(2))));
    assert_eq!(out, b"1 plain 0 cbf29ce484222325\n");
    let mut out = Vec::new();
    let stopped = run_cases(&mut &b"T \xFF\n"[..], &mut out);
    assert!(matches!(stopped, Err(CasesStopped::Line(1))));
    run_cases(&mut &b""[..], &mut Vec::new()).unwrap();
}
