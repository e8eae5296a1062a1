//! Rovinuset for Rust: include/rovinuset.h as safe functions. docs/DOOR.md has the tables. To use it elsewhere, take this file and build.rs.
//!
//! Nothing is tested here that the library tests: any measure, any bytes, any place and any allowance may be handed in, and what cannot
//! be carried out comes back as a `Refusal`. What C leaves to its caller is left to the language: a slice has the bytes it says it has, and what is
//! lent for writing is lent to nobody else, so nothing that is lent to one call overlaps. So each `unsafe` block below is one call, with no condition.
#![no_std]

/// The library for C. Nothing but the eye compares this with include/rovinuset.h.
mod door {
    extern "C" {
        pub fn rov_afresh(w: usize, h: usize, state: *mut u8, n: usize) -> u32;
        pub fn rov_sound(w: usize, h: usize, state: *const u8, n: usize) -> bool;
        pub fn rov_dots(w: usize, h: usize, page: *const u8, n: usize) -> usize;
        pub fn rov_run(
            w: usize,
            h: usize,
            page: *mut u8,
            page_n: usize,
            stream: *const u8,
            stream_n: usize,
            state: *mut u8,
            state_n: usize,
            allowance: usize,
            place: *mut usize,
            done: *mut usize,
            finding: *mut u32,
            found: *mut usize,
            ended: *mut usize,
        ) -> u32;
        pub fn rov_translate(
            w: usize,
            h: usize,
            stream: *const u8,
            stream_n: usize,
            room: *mut u8,
            room_n: usize,
            length: *mut usize,
        ) -> u32;
        pub fn rov_park(w: usize, h: usize, state: *const u8, state_n: usize, room: *mut u8, room_n: usize, length: *mut usize) -> u32;
        pub fn rov_unpark(text: *const u8, text_n: usize, w: *mut usize, h: *mut usize, state: *mut u8, state_n: usize) -> u32;
    }
}

/// What was found at a place of the stream, by its number. The item is taken and the run stopped behind it; it goes on if it is called again.
/// Those of this version have names. A later one adds to them, so a `match` has an arm for some other finding.
#[derive(Clone, Copy, Debug, PartialEq, Eq)]
pub struct Finding(u32);

impl Finding {
    pub const ENDS_INSIDE: Finding = Finding(1);
    pub const CANNOT_STAND: Finding = Finding(2);
    pub const NOT_CARRIED: Finding = Finding(3);
    pub const NOT_ALLOWED: Finding = Finding(4);
    pub const STACK_LIMIT: Finding = Finding(5);
    pub const NOT_NOW: Finding = Finding(6);
    pub const DAMAGED_ROW: Finding = Finding(7);

    pub const fn number(self) -> u32 {
        self.0
    }
}

/// Why a call was refused, by its number; these are not the numbers of findings. Nothing was done, and nothing that was lent was written. A later
/// version adds to the names.
#[derive(Clone, Copy, Debug, PartialEq, Eq)]
pub struct Refusal(u32);

impl Refusal {
    pub const PAGE_MEASURE: Refusal = Refusal(10);
    pub const PAGE_BUFFER: Refusal = Refusal(11);
    pub const STREAM_LENGTH: Refusal = Refusal(12);
    pub const UNSOUND_STATE: Refusal = Refusal(13);
    pub const START_PLACE: Refusal = Refusal(14);
    pub const ROOM: Refusal = Refusal(15);
    pub const SEQUENCE_OPEN: Refusal = Refusal(16);
    pub const TEXT_FORM: Refusal = Refusal(17);
    pub const TEXT_STATE: Refusal = Refusal(18);

    pub const fn number(self) -> u32 {
        self.0
    }
}

/// What a call gives back: 0, or the refusal.
fn carried_out(number: u32) -> Result<(), Refusal> {
    match number {
        0 => Ok(()),
        refusal => Err(Refusal(refusal)),
    }
}

/// A page's width and height in dots. Those that are not allowed are refused by the calls.
#[derive(Clone, Copy, Debug, PartialEq, Eq)]
pub struct Measure {
    pub wide: usize,
    pub high: usize,
}

impl Measure {
    /// The bytes of a page, H rows of W/8; a buffer may be longer, and is not touched behind them.
    pub const fn page_bytes(self) -> usize {
        (self.wide / 8).saturating_mul(self.high)
    }

    /// The dots set on a page; 0 where the measure is not allowed or the buffer is too short.
    pub fn dots(self, page: &[u8]) -> usize {
        unsafe { door::rov_dots(self.wide, self.high, page.as_ptr(), page.len()) }
    }

    /// The plain stream of a stream: the front of the room, which is not touched behind it.
    pub fn translate<'a>(self, stream: &[u8], room: &'a mut [u8]) -> Result<&'a mut [u8], Refusal> {
        let mut length = 0;
        let number =
            unsafe { door::rov_translate(self.wide, self.high, stream.as_ptr(), stream.len(), room.as_mut_ptr(), room.len(), &mut length) };
        carried_out(number)?;
        Ok(&mut room[..length])
    }
}

/// What a run tells that was carried out.
#[derive(Clone, Copy, Debug, PartialEq, Eq)]
pub struct Ran {
    pub done: usize,
    /// The finding that the run stopped behind, and the place where its item began.
    pub finding: Option<(Finding, usize)>,
    /// The page in the buffer is to be handed over, before the next run.
    pub page_ended: bool,
}

/// A state between calls. It is its bytes: they may be stored and come back as they like, for a run refuses those that are no state. They are of this
/// version of the library only: keep none across a change of version. What is kept over a power cut and over versions is the state parked as a text.
#[derive(Clone, Debug, PartialEq, Eq)]
pub struct State(pub [u8; State::BYTES]);

impl State {
    pub const BYTES: usize = 808;
    /// No parked text is longer: a room of so many bytes is always enough.
    pub const PARKED: usize = 1905;

    /// The state at a job's start.
    pub fn afresh(page: Measure) -> Result<State, Refusal> {
        let mut bytes = [0; State::BYTES];
        let number = unsafe { door::rov_afresh(page.wide, page.high, bytes.as_mut_ptr(), bytes.len()) };
        carried_out(number)?;
        Ok(State(bytes))
    }

    pub fn is_sound(&self, page: Measure) -> bool {
        unsafe { door::rov_sound(page.wide, page.high, self.0.as_ptr(), self.0.len()) }
    }

    /// The state's text: the front of the room, which is not touched behind it. The measure is in it; the page is not, and is to be kept beside it if
    /// it is used, and so is the place. While a sequence is open there is none, by `Refusal::SEQUENCE_OPEN`: a run of one item more, and again, comes
    /// to where there is, at the latest at the stream's end.
    pub fn park<'a>(&self, page: Measure, room: &'a mut [u8]) -> Result<&'a mut [u8], Refusal> {
        let mut length = 0;
        let number =
            unsafe { door::rov_park(page.wide, page.high, self.0.as_ptr(), self.0.len(), room.as_mut_ptr(), room.len(), &mut length) };
        carried_out(number)?;
        Ok(&mut room[..length])
    }

    /// A parked text, of any bytes, read back: the page's measure, which is allowed, and a state that is sound on it, with no sequence open. Of any other
    /// text there is no state.
    pub fn unpark(text: &[u8]) -> Result<(Measure, State), Refusal> {
        let (mut wide, mut high, mut bytes) = (0, 0, [0; State::BYTES]);
        let number = unsafe { door::rov_unpark(text.as_ptr(), text.len(), &mut wide, &mut high, bytes.as_mut_ptr(), bytes.len()) };
        carried_out(number)?;
        Ok((Measure { wide, high }, State(bytes)))
    }

    /// At most `allowance` items of the stream, from `place` on; it is moved behind them.
    pub fn run(&mut self, measure: Measure, page: &mut [u8], stream: &[u8], place: &mut usize, allowance: usize) -> Result<Ran, Refusal> {
        let (mut done, mut finding, mut found, mut ended) = (0, 0, 0, 0);
        let number = unsafe {
            door::rov_run(
                measure.wide,
                measure.high,
                page.as_mut_ptr(),
                page.len(),
                stream.as_ptr(),
                stream.len(),
                self.0.as_mut_ptr(),
                self.0.len(),
                allowance,
                place,
                &mut done,
                &mut finding,
                &mut found,
                &mut ended,
            )
        };
        carried_out(number)?;
        let finding = (finding != 0).then_some((Finding(finding), found));
        Ok(Ran { done, finding, page_ended: ended == 1 })
    }

    pub fn x(&self) -> u32 {
        u32::from_le_bytes(self.member(0))
    }

    pub fn y(&self) -> u32 {
        u32::from_le_bytes(self.member(4))
    }

    /// Whether there is something on the page: if so, the page belongs to the state, and is to be kept with it.
    pub fn page_used(&self) -> bool {
        self.0[37] == 1
    }

    pub fn stack_depth(&self) -> u64 {
        u64::from_le_bytes(self.member(40))
    }

    fn member<const N: usize>(&self, at: usize) -> [u8; N] {
        core::array::from_fn(|i| self.0[at + i])
    }
}
