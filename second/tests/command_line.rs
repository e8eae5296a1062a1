//! The program as it is called: output to the byte, and exit status.

mod common;
use common::{call, call_for_text};

#[test]
fn the_report_example_to_the_byte() {
    let input = b"\x1b&f1S\x1b*t300R\x1b*b2W\xFF\x80\x0C";
    let expected = "SIZE\t640\t800\nFAULT\t0\t5\nPAGE\t1\t9\nEND\t0\t4500\t0\t1\n";
    let answer = call_for_text(&["report"], input);
    assert_eq!(answer, (0, expected.to_string(), String::new()));
}

#[test]
fn more_reports() {
    let report = |input: &[u8]| call_for_text(&["report"], input).1;
    assert_eq!(report(b""), "SIZE\t640\t800\nEND\t0\t4500\t0\t0\n");
    // A used last page, blank or not; an unused one is not listed.
    assert_eq!(
        report(b"A"),
        "SIZE\t640\t800\nPAGE\t1\t0\nEND\t720\t4500\t0\t0\n"
    );
    assert_eq!(report(b" "), "SIZE\t640\t800\nEND\t720\t4500\t0\t0\n");
    // In item order, a finding of no bytes at the end with it.
    let input = b"\x0C\x1bZ\x1b*b1W\x80\x1bE\x1b&f0s1s";
    let expected =
        "SIZE\t640\t800\nPAGE\t1\t0\nFAULT\t1\t3\nPAGE\t2\t16\nFAULT\t18\t1\nEND\t0\t4500\t0\t2\n";
    assert_eq!(report(input), expected);
    // A damaged row on the last page.
    let input = b"\x1b&f0S\x1b*b2m1W\xFE";
    let expected = "SIZE\t640\t800\nFAULT\t10\t7\nPAGE\t1\t0\nEND\t0\t4596\t1\t1\n";
    assert_eq!(report(input), expected);
}

#[test]
fn the_report_limit() {
    let refused = (
        0,
        "SIZE\t640\t800\nREFUSED\t12\n".to_string(),
        String::new(),
    );
    assert_eq!(call_for_text(&["report"], &[0; 65_537]), refused);
    assert_eq!(call_for_text(&["report"], &vec![b'A'; 3_000_000]), refused);
    let whole = (
        0,
        "SIZE\t640\t800\nEND\t0\t4500\t0\t0\n".to_string(),
        String::new(),
    );
    assert_eq!(call_for_text(&["report"], &[0; 65_536]), whole);
}

#[test]
fn trace_lists_everything() {
    // On 16 x 151, where T is a dot above the foot.
    let input = b"\x1b*p0YA\x1b&f0s\x1b*t300R\x1b*b2W\x81\xFF\x0CB";
    let expected = "ITEM\t0\t5\t0\n\
        ITEM\t5\t1\t0\n\
        ITEM\t6\t5\t0\n\
        ITEM\t11\t0\t2\n\
        ITEM\t11\t7\t0\n\
        ITEM\t18\t7\t0\n\
        ITEM\t25\t1\t0\n\
        PAGE\t1\t10\n\
        ITEM\t26\t1\t0\n\
        PAGE\t2\t0\n\
        END\t384\t3624\t0\t384\t3600\t720\t1200\t0\t300\t0\t1\t0\t1\t1\n\
        STACK\t384\t3600\n\
        SEED\t81FF\n\
        COUNT\t8\t1\n";
    let answer = call_for_text(&["trace", "16", "151"], input);
    assert_eq!(answer, (0, expected.to_string(), String::new()));
}

#[test]
fn marks_list_the_findings() {
    let input = b"\x1b&a5C\x1b&f1S\x1b*t300R\x1b*r1A\x1b*b3m1W\xFF\x0C\x1b&f1S";
    let expected = "5\t5\t3600\t4500\n27\t7\t3600\t4500\n31\t5\t3600\t4500\n";
    let answer = call_for_text(&["marks", "640", "800"], input);
    assert_eq!(answer, (0, expected.to_string(), String::new()));
    // No finding: nothing.
    assert_eq!(call(&["marks", "8", "1"], b""), (0, vec![], String::new()));
    assert_eq!(
        call(&["marks", "8", "1"], b"A\x0C\x1bE"),
        (0, vec![], String::new())
    );
}

#[test]
fn pages_as_pictures() {
    let input = b"\x1b*p0Y\x1b*t300R\x1b*b1W\x81\x0C\x0C\x1b*p1Y\x1b*b2W\x42\xFF";
    let (status, out, error) = call(&["pages", "8", "3"], input);
    let expected = b"P4\n8 3\n\x81\x00\x00P4\n8 3\n\x00\x00\x00P4\n8 3\n\x00\x42\x00";
    assert_eq!((status, error.as_str()), (0, ""));
    assert_eq!(out, expected);
    // No page at all: nothing.
    assert_eq!(
        call(&["pages", "8", "3"], b" \x1bE"),
        (0, vec![], String::new())
    );
}

#[test]
fn plain_streams() {
    let answer = call(&["plain", "640", "800"], b"\x1b&a10c5R");
    assert_eq!(answer, (0, b"\x1b&a10C\x1b&a5R".to_vec(), String::new()));
    assert_eq!(call(&["plain", "8", "1"], b""), (0, vec![], String::new()));
}

#[test]
fn refusals_of_the_words() {
    let on_error = |code: &str| (2, vec![], format!("REFUSED\t{code}\n"));
    let on_output = |code: &str| (2, format!("REFUSED\t{code}\n").into_bytes(), String::new());
    let long = vec![0; 1_048_577];
    let huge = "123456789012345678901234567890";
    for (width, height) in [
        ("0", "800"),
        ("640", "0"),
        ("641", "800"),
        (huge, "800"),
        ("8", huge),
    ] {
        assert_eq!(call(&["pages", width, height], &long), on_error("10"));
        assert_eq!(call(&["plain", width, height], &long), on_error("10"));
        assert_eq!(call(&["trace", width, height], &long), on_output("10"));
        assert_eq!(call(&["marks", width, height], &long), on_output("10"));
    }
    assert_eq!(call(&["pages", "640", "800"], &long), on_error("12"));
    assert_eq!(call(&["plain", "640", "800"], &long), on_error("12"));
    assert_eq!(call(&["trace", "640", "800"], &long), on_output("12"));
    assert_eq!(call(&["marks", "640", "800"], &long), on_output("12"));
    assert_eq!(
        call(&["marks", "640", "800"], &long[1..]),
        (0, vec![], String::new())
    );
    assert_eq!(
        call(&["plain", "640", "800"], &long[1..]),
        (0, vec![], String::new())
    );
    // A translation too long: 600 bytes for each `w`.
    let mut rows = b"\x1b*b1m4w\xFF\xFF\xFF\xFF3m".to_vec();
    rows.extend(vec![b'w'; 4_000]);
    assert_eq!(call(&["plain", "4800", "800"], &rows), on_error("15"));
}

#[test]
fn faults_of_the_words() {
    let faults: [&[&str]; 29] = [
        &[],
        &[""],
        &["reports"],
        &["Report"],
        &["report", "640"],
        &["pages"],
        &["pages", "640"],
        &["pages", "640", "800", "1"],
        &["pages", "", "800"],
        &["pages", "+640", "800"],
        &["pages", "-640", "800"],
        &["pages", "640", "0x10"],
        &["plain", "640", " 800"],
        &["plain", "640.0", "800"],
        &["trace", "w", "h"],
        &["trace", "640", "eight"],
        &["marks"],
        &["marks", "640"],
        &["marks", "640", "800", "1"],
        &["marks", "w", "h"],
        &["mark", "640", "800"],
        &["cases"],
        &["cases", "a", "b"],
        &["cases", "no-such-file-of-cases"],
        &["cases", "."],
        &["leaves"],
        &["leaves", "a", "b"],
        &["leaves", "no-such-file-of-cases"],
        &["leaves", "."],
    ];
    for words in faults {
        let (status, out, error) = call(words, b"A");
        assert_eq!((status, out.len()), (1, 0), "{words:?}");
        assert_eq!(error.lines().count(), 1, "{words:?}: {error}");
        assert!(error.ends_with('\n'), "{words:?}: {error}");
    }
}

#[test]
fn cases_from_standard_input() {
    let (status, out, error) = call_for_text(&["cases", "-"], b"T 8 8 0 07 -\nbad\nT 8 8 0 07 -\n");
    assert_eq!(status, 1);
    assert_eq!(out, "1 plain 0 cbf29ce484222325\n");
    assert_eq!(error, "second: line 2 is not of the form of a case\n");
    assert_eq!(call(&["cases", "-"], b""), (0, vec![], String::new()));
}

#[test]
fn leaves_from_standard_input_and_from_a_file() {
    let input = b"V 0 2D30\nN 2 12500\nV 0\nN 0 0\n";
    let (status, out, error) = call_for_text(&["leaves", "-"], input);
    assert_eq!((status, out.as_str()), (1, "2 0 2\n-1.25\n"));
    assert_eq!(error, "second: line 3 is not of the form of a case\n");
    assert_eq!(call(&["leaves", "-"], b""), (0, vec![], String::new()));
    // Bytes that are no text.
    let (status, out, error) = call_for_text(&["leaves", "-"], b"\xFF\x00\x80");
    assert_eq!((status, out.as_str()), (1, ""));
    assert_eq!(error, "second: line 1 is not of the form of a case\n");
    let name = format!("second-leaves-{}", std::process::id());
    let file = std::env::temp_dir().join(name);
    std::fs::write(&file, b"I 0 0 0 1B45\nD 0 1 - 0A").expect("a file");
    let answer = call_for_text(&["leaves", file.to_str().expect("text")], b"");
    std::fs::remove_file(&file).expect("the file removed");
    assert_eq!(answer, (0, "2 2 0 0 69\n1 0A\n".to_string(), String::new()));
}
