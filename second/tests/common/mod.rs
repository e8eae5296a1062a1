//! What the tests share: a stream read to its end, item by item; the program as
//! it is called; numbers that look random.

#![allow(dead_code)]

use second::dots::{count_dots, Sheet};
use second::measure::{Measure, LONGEST_STREAM};
use second::plain::translate;
use second::run::{has_item, run};
use second::state::State;
use std::io::Write;
use std::process::{Command, Stdio};

/// What a whole stream gave.
pub struct Outcome {
    /// Place, bytes and finding (0 for none) of each item.
    pub items: Vec<(u64, u64, u8)>,
    /// Each page handed over.
    pub pages: Vec<Vec<u8>>,
    /// The page as it is at the end.
    pub page: Vec<u8>,
    pub state: State,
}

impl Outcome {
    /// The findings alone, in order.
    pub fn findings(&self) -> Vec<u8> {
        self.items
            .iter()
            .map(|item| item.2)
            .filter(|finding| *finding != 0)
            .collect()
    }

    pub fn cursor(&self) -> (u32, u32) {
        (self.state.x, self.state.y)
    }

    /// The first bytes of the seed row.
    pub fn seed(&self, bytes: usize) -> Vec<u8> {
        self.state.seed.iter().take(bytes).copied().collect()
    }

    pub fn dots(&self) -> u64 {
        count_dots(&self.page)
    }
}

pub fn measure(width: u64, height: u64) -> Measure {
    Measure::allowed(width, height).expect("an allowed measure")
}

pub fn afresh() -> State {
    State::afresh(&measure(640, 800))
}

/// Reads on a page of this measure, from a state.
pub fn read_from(width: u64, height: u64, start: State, stream: &[u8]) -> Outcome {
    let mut page = vec![0; measure(width, height).page_bytes()];
    let mut state = start;
    let (mut items, mut pages, mut place) = (Vec::new(), Vec::new(), 0);
    while has_item(stream, &state, place) {
        let began = place;
        let mut sheet = Sheet::new(&mut page);
        let ran = run(width, height, &mut sheet, stream, &mut state, &mut place, 1)
            .expect("a call not refused");
        assert_eq!(ran.done, 1);
        if let Some(found) = ran.found {
            assert_eq!(found.place as u64, began);
        }
        let finding = ran.found.map_or(0, |found| found.finding.number());
        items.push((began, place - began, finding));
        if ran.page_ended {
            pages.push(page.clone());
        }
    }
    Outcome {
        items,
        pages,
        page,
        state,
    }
}

pub fn read_on(width: u64, height: u64, stream: &[u8]) -> Outcome {
    let state = State::afresh(&measure(width, height));
    read_from(width, height, state, stream)
}

/// Reads on 640 x 800, afresh.
pub fn read(stream: &[u8]) -> Outcome {
    read_on(640, 800, stream)
}

/// Items and findings of a stream on 640 x 800.
pub fn items(stream: &[u8]) -> Vec<(u64, u64, u8)> {
    read(stream).items
}

pub fn findings(stream: &[u8]) -> Vec<u8> {
    read(stream).findings()
}

pub fn plain_on(width: u64, height: u64, stream: &[u8]) -> Vec<u8> {
    let mut room = vec![0; LONGEST_STREAM];
    let length = translate(width, height, stream, &mut room).expect("a translation");
    room.truncate(length);
    room
}

/// The plain stream on 640 x 800.
pub fn plain(stream: &[u8]) -> Vec<u8> {
    plain_on(640, 800, stream)
}

/// The parts of a stream put together.
pub fn join(parts: &[&[u8]]) -> Vec<u8> {
    parts.concat()
}

/// Exit status, standard output, standard error.
pub fn call(words: &[&str], input: &[u8]) -> (i32, Vec<u8>, String) {
    let mut child = Command::new(env!("CARGO_BIN_EXE_second"))
        .args(words)
        .stdin(Stdio::piped())
        .stdout(Stdio::piped())
        .stderr(Stdio::piped())
        .spawn()
        .expect("the program starts");
    let mut stdin = child.stdin.take().expect("its standard input");
    // The program may stop reading a long input before its end.
    let _ = stdin.write_all(input);
    drop(stdin);
    let done = child.wait_with_output().expect("the program ends");
    let error = String::from_utf8(done.stderr).expect("text");
    (done.status.code().unwrap_or(-1), done.stdout, error)
}

pub fn call_for_text(words: &[&str], input: &[u8]) -> (i32, String, String) {
    let (status, out, error) = call(words, input);
    (status, String::from_utf8(out).expect("text"), error)
}

/// Numbers that are the same every time.
pub struct Random(pub u64);

impl Random {
    pub fn next(&mut self) -> u64 {
        self.0 = self
            .0
            .wrapping_mul(6_364_136_223_846_793_005)
            .wrapping_add(1_442_695_040_888_963_407);
        self.0 >> 33
    }

    pub fn below(&mut self, end: usize) -> usize {
        self.next() as usize % end
    }

    pub fn byte(&mut self) -> u8 {
        self.next() as u8
    }
}
