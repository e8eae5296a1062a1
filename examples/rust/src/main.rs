//! A job in slices of time, as examples/pieces.c: the power goes after every turn, and the next turn has only what was kept: the state parked as a
//! text, the place, and the page if it is used. A state has no text while a sequence is open: then there is a turn of one item more before the power
//! goes. At the end the job is run again in one go: the same findings, pages and end must come out.
//!
//!     pieces JOB [W H [ITEMS]]     W and H are dots, 640 and 800 if not given; at most ITEMS items to a turn, 1000 if not given
//!
//! Exit status: 0 the job was read to its end; 1 a word or a file is wrong, or both runs differ; 2 the call was refused, or the kept text was.
use rovinuset::{Finding, Measure, Refusal, State};
use std::num::NonZeroUsize;
use std::process::ExitCode;
use std::{env, fs};

/// What came out so far: findings with their places, pages with their bytes. If `aloud`, each is printed as it comes.
#[derive(Default)]
struct Outcome {
    aloud: bool,
    turns: usize,
    items: usize,
    findings: Vec<(usize, Finding)>,
    pages: Vec<Vec<u8>>,
}

impl Outcome {
    /// `place` is where the item began that is at fault: what to say, log or send on is the controller's choice.
    fn report(&mut self, place: usize, finding: Finding) {
        self.findings.push((place, finding));
        if self.aloud {
            println!("place {place}: finding {}", finding.number());
        }
    }

    /// The page must be taken from the buffer now: the next turn that has an item to do zeroes it.
    fn hand_over(&mut self, measure: Measure, page: &[u8]) {
        self.pages.push(page.to_vec());
        if self.aloud {
            println!("page {}: {} dots", self.pages.len(), measure.dots(page));
        }
    }
}

/// A job between two turns: all of it is the caller's.
struct Engine<'a> {
    measure: Measure,
    job: &'a [u8],
    place: usize,
    state: State,
    page: Vec<u8>,
}

/// What outlasts a power cut. The text holds the measure and the state; unlike the state's bytes it outlasts a change of the library's version too. A
/// page that is not used need not be kept: the next item zeroes it.
struct Kept {
    place: usize,
    text: Vec<u8>,
    page: Option<Vec<u8>>,
}

impl<'a> Engine<'a> {
    fn new(measure: Measure, job: &'a [u8]) -> Result<Self, Refusal> {
        let state = State::afresh(measure)?;
        let page = vec![0; measure.page_bytes()];
        Ok(Engine { measure, job, place: 0, state, page })
    }

    /// A turn of at most so many items. Gives whether there may be more to do: a run that did fewer items than it might, with no finding
    /// and no page end, has come to the job's end.
    fn turn(&mut self, items: usize, out: &mut Outcome) -> Result<bool, Refusal> {
        let ran = self.state.run(self.measure, &mut self.page, self.job, &mut self.place, items)?;
        out.turns += 1;
        out.items += ran.done;
        if let Some((finding, place)) = ran.finding {
            out.report(place, finding);
        }
        if ran.page_ended {
            out.hand_over(self.measure, &self.page);
        }
        Ok(ran.finding.is_some() || ran.page_ended || ran.done == items)
    }

    /// Refused where a sequence is open.
    fn kept(&self) -> Result<Kept, Refusal> {
        let mut room = [0; State::PARKED];
        let text = self.state.park(self.measure, &mut room)?.to_vec();
        let page = self.state.page_used().then(|| self.page.clone());
        Ok(Kept { place: self.place, text, page })
    }

    /// Switched off: what is not kept is lost. While a sequence is open nothing can be kept, and the job goes on by one item and one again. That comes
    /// to an end, at the latest at the job's end, which closes every sequence. Gives also whether there may be more to do.
    fn switched_off(mut self, mut more: bool, out: &mut Outcome) -> Result<(Kept, bool), Refusal> {
        loop {
            match self.kept() {
                Err(Refusal::SEQUENCE_OPEN) => more = self.turn(1, out)?,
                kept => return Ok((kept?, more)),
            }
        }
    }

    /// Nothing needs to be tested but what the call gives: a text that is cut short or garbled is refused, and then there is no state, and the job is
    /// to be started again. What is read is a state that a run takes; it refuses what is no place of this job. A text that is damaged can still
    /// be one, as a digit is as good as another: a controller keeps a checksum beside it.
    fn restored(job: &'a [u8], kept: Kept) -> Result<Self, Refusal> {
        let (measure, state) = State::unpark(&kept.text).inspect_err(|_| println!("the kept text holds no state"))?;
        let page = kept.page.unwrap_or_else(|| vec![0xFF; measure.page_bytes()]);
        Ok(Engine { measure, job, place: kept.place, state, page })
    }
}

/// The job from its start, so many items to a turn, with a power cut behind each turn or without. A job need not end its last page.
fn run_job(measure: Measure, job: &[u8], items: usize, cuts: bool) -> Result<(Outcome, State), Refusal> {
    let mut out = Outcome { aloud: cuts, ..Outcome::default() };
    let mut engine = Engine::new(measure, job)?;
    let mut more = true;
    while more {
        more = engine.turn(items, &mut out)?;
        if cuts {
            let kept;
            (kept, more) = engine.switched_off(more, &mut out)?;
            engine = Engine::restored(job, kept)?;
        }
    }
    if engine.state.page_used() {
        out.hand_over(measure, &engine.page);
    }
    Ok((out, engine.state))
}

fn both(measure: Measure, job: &[u8], items: usize) -> Result<bool, Refusal> {
    let (pieces, end) = run_job(measure, job, items, true)?;
    println!("end: x {}, y {}, stack depth {}", end.x(), end.y(), end.stack_depth());
    let (once, end_once) = run_job(measure, job, usize::MAX, false)?;
    let same = (pieces.items, &pieces.findings, &pieces.pages, end) == (once.items, &once.findings, &once.pages, end_once);
    let (found, pages) = (pieces.findings.len(), pieces.pages.len());
    let told = if same { "as in one go" } else { "NOT as in one go" };
    println!("{} items, {found} findings, {pages} pages in {} turns: {told}", pieces.items, pieces.turns);
    Ok(same)
}

fn words() -> Option<(String, Measure, usize)> {
    let words: Vec<String> = env::args().skip(1).collect();
    let number = |at: usize, otherwise: usize| words.get(at).map_or(Some(otherwise), |word| word.parse().ok());
    let items = NonZeroUsize::new(number(3, 1000)?)?;
    let measure = Measure { wide: number(1, 640)?, high: number(2, 800)? };
    matches!(words.len(), 1 | 3 | 4).then(|| (words[0].clone(), measure, items.get()))
}

/// The job that the words name; what is wrong with them, or with the file, in words.
fn asked() -> Result<(Vec<u8>, Measure, usize), String> {
    let (name, measure, items) = words().ok_or("usage: pieces JOB [W H [ITEMS]]")?;
    let job = fs::read(&name).map_err(|why| format!("{name}: {why}"))?;
    Ok((job, measure, items))
}

fn main() -> ExitCode {
    match asked().map(|(job, measure, items)| both(measure, &job, items)) {
        Ok(Ok(same)) => ExitCode::from(u8::from(!same)),
        Ok(Err(refusal)) => {
            println!("refused {}", refusal.number());
            ExitCode::from(2)
        }
        Err(wrong) => {
            eprintln!("{wrong}");
            ExitCode::from(1)
        }
    }
}
