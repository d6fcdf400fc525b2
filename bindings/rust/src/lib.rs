//! A package resolver whose answers come with proofs: what to install for a catalogue and a request, or why nothing can be.
//!
//! The work is done by proved code, linked from `libresolve.a`. Texts are bytes, as docs/FORMATS.md of the repository has them.
//! No call keeps anything, so all of them may run in several threads at once.
//!
//! ```
//! let catalogue = b"version app 1\nversion app 2\n";
//! let report = resolve::solve(catalogue, b"needs app\n").unwrap();
//! assert_eq!(report, resolve::Answer::Installed(b"install\napp=2 for request line 1\n".to_vec()));
//! assert_eq!(resolve::judge(catalogue, b"needs app\n", report.text()), Ok(resolve::Verdict::Yes));
//! ```

use std::fmt;

mod c {
    #[repr(C)]
    #[derive(Clone, Copy)]
    pub struct CallResult {
        pub ending: u32,
        pub length: u64,
    }

    extern "C" {
        pub fn resolve_solve(catalogue: *const u8, catalogue_length: usize, request: *const u8, request_length: usize, out: *mut u8, room: usize) -> CallResult;
        pub fn resolve_solve_within(catalogue: *const u8, catalogue_length: usize, request: *const u8, request_length: usize, budget: u64, out: *mut u8, room: usize) -> CallResult;
        pub fn resolve_judge(catalogue: *const u8, catalogue_length: usize, request: *const u8, request_length: usize, report: *const u8, report_length: usize, out: *mut u8, room: usize) -> CallResult;
    }
}

/// The room that is taken for a text at first. A longer text takes a second call.
const ROOM: usize = 65_536;

/// What `solve` says: each with the whole text that the program `resolve` prints.
#[derive(Clone, Debug, PartialEq, Eq)]
pub enum Answer {
    /// A report `install`.
    Installed(Vec<u8>),
    /// A report `refused`: no choice of versions obeys the lines that it names.
    Refused(Vec<u8>),
    /// The first line outside the grammar.
    Faulty(Vec<u8>),
}

impl Answer {
    pub fn text(&self) -> &[u8] {
        match self {
            Answer::Installed(text) | Answer::Refused(text) | Answer::Faulty(text) => text,
        }
    }
}

/// What the judge says of a report.
#[derive(Clone, Debug, PartialEq, Eq)]
pub enum Verdict {
    /// The report holds, so what it claims is true.
    Yes,
    /// It doesn't, from this line on.
    No(u32),
    /// The first line of the catalogue or the request that is outside the grammar, as the program prints it.
    Faulty(Vec<u8>),
}

/// Why there is no text.
#[derive(Clone, Copy, Debug, PartialEq, Eq)]
pub enum Lack {
    /// A catalogue or a request has more than 2^24 bytes, or a report 2^30.
    TooLong,
    /// `malloc` or `realloc` gave no memory, or there is none for the text.
    Memory,
    /// More numbers of a kind would be needed than there are.
    Ids,
    /// The budget was used up.
    GivenUp,
}

impl fmt::Display for Lack {
    fn fmt(&self, f: &mut fmt::Formatter<'_>) -> fmt::Result {
        f.write_str(match self {
            Lack::TooLong => "too long",
            Lack::Memory => "no memory",
            Lack::Ids => "no ids",
            Lack::GivenUp => "given up",
        })
    }
}

impl std::error::Error for Lack {}

/// The ending 0, 1 or 2 and the whole text of a call that is given a room.
fn whole(mut room: usize, call: impl Fn(*mut u8, usize) -> c::CallResult) -> Result<(u32, Vec<u8>), Lack> {
    loop {
        let mut text = Vec::new();
        text.try_reserve_exact(room).map_err(|_| Lack::Memory)?;
        text.resize(room, 0);
        let result = call(text.as_mut_ptr(), room);
        match result.ending {
            0..=2 => {}
            4 => return Err(Lack::TooLong),
            5 => return Err(Lack::Memory),
            6 => return Err(Lack::Ids),
            8 => return Err(Lack::GivenUp),
            other => unreachable!("resolve ended with {}", other),
        }
        let length = usize::try_from(result.length).map_err(|_| Lack::Memory)?;
        if length <= room {
            text.truncate(length);
            return Ok((result.ending, text));
        }
        room = length;
    }
}

/// What to install for a request over a catalogue, or why nothing can be: what `resolve solve` prints.
pub fn solve(catalogue: &[u8], request: &[u8]) -> Result<Answer, Lack> {
    solve_in(ROOM, catalogue, request)
}

/// As `solve`, with room for so many bytes at first.
pub fn solve_in(room: usize, catalogue: &[u8], request: &[u8]) -> Result<Answer, Lack> {
    // SAFETY: each pointer is valid for its length, `out` is no other text's, and the call keeps none of them.
    let (ending, text) = whole(room, |out, room| unsafe {
        c::resolve_solve(catalogue.as_ptr(), catalogue.len(), request.as_ptr(), request.len(), out, room)
    })?;
    Ok(answer_of(ending, text))
}

/// As `solve`, or it gives up: the solver asks whether to stop before each step of its search, and before each new query for a
/// package's versions or a version's needs. It goes on `budget` times, and gives up at the next one.
pub fn solve_within(budget: u64, catalogue: &[u8], request: &[u8]) -> Result<Answer, Lack> {
    // SAFETY: each pointer is valid for its length, `out` is no other text's, and the call keeps none of them.
    let (ending, text) = whole(ROOM, |out, room| unsafe {
        c::resolve_solve_within(catalogue.as_ptr(), catalogue.len(), request.as_ptr(), request.len(), budget, out, room)
    })?;
    Ok(answer_of(ending, text))
}

fn answer_of(ending: u32, text: Vec<u8>) -> Answer {
    match ending {
        0 => Answer::Installed(text),
        1 => Answer::Refused(text),
        _ => Answer::Faulty(text),
    }
}

/// The line that `no line N` names.
fn line_in(text: &[u8]) -> u32 {
    text.iter().filter(|byte| byte.is_ascii_digit()).fold(0, |number, digit| 10 * number + u32::from(digit - b'0'))
}

/// Whether a report holds, whoever wrote it: what `resolve judge` says.
pub fn judge(catalogue: &[u8], request: &[u8], report: &[u8]) -> Result<Verdict, Lack> {
    // SAFETY: each pointer is valid for its length, `out` is no other text's, and the call keeps none of them.
    let (ending, text) = whole(64, |out, room| unsafe {
        c::resolve_judge(catalogue.as_ptr(), catalogue.len(), request.as_ptr(), request.len(), report.as_ptr(), report.len(), out, room)
    })?;
    Ok(match ending {
        0 => Verdict::Yes,
        1 => Verdict::No(line_in(&text)),
        _ => Verdict::Faulty(text),
    })
}
