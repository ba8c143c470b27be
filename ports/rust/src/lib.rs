//! The proved seL4 MCS simulator and its tools from Rust: texts in, texts out.
//!
//! ```text
//! script ── replay ──> trace          script ── check ──> verdicts
//! script ── why, state, draw ──> what did nothing, JSON, SVG
//! plan ── compile ──> script          script of users ── explore, search ──> report, with scripts
//! plan ── check_plan, why_plan, .. ──> the same in the plan's words
//! Run: lines ── take ──> what each adds to the trace; entries ── enter ──> also answer, records
//! script, core ── pick ──> the thread that runs next
//! ```
//!
//! The calls are those of `ports/c/mcs.h`, which `ports/README.md` describes. They are proved; this
//! crate is not, and its tests are in `tests/`.

mod entry;
pub mod raw;
mod run;

pub use entry::{Answer, Brought, Entry, Key};
pub use run::Run;

use std::fmt;

/// How a call ended that wrote its text.
#[derive(Clone, Copy, Debug, PartialEq, Eq)]
pub enum Ended {
    /// All that was wanted holds.
    Done,
    /// Something that is wanted does not hold.
    Unmet,
    /// A line is refused; lines count from 1. `mcs.h` has the numbers of faults.
    Refused { line: u64, fault: u64 },
    /// The budget ended the search, and nothing failed so far.
    Stopped,
    /// The book is full at a step.
    BookFull,
}

/// Why a call wrote no text.
#[derive(Clone, Copy, Debug, PartialEq, Eq)]
pub enum Error {
    /// Memory was refused.
    OutOfMemory,
    /// The library returned this status, which it never does.
    Wrong(u32),
}

impl fmt::Display for Error {
    fn fmt(&self, f: &mut fmt::Formatter<'_>) -> fmt::Result {
        match self {
            Error::OutOfMemory => f.write_str("out of memory"),
            Error::Wrong(status) => write!(f, "the library returned {status}"),
        }
    }
}

impl std::error::Error for Error {}

/// A text, and how the call ended that wrote it.
#[derive(Clone, Debug, PartialEq, Eq)]
pub struct Report {
    pub text: Vec<u8>,
    pub ended: Ended,
}

/// Returns how a call ended, by its status and its end.
fn ended(status: u32, end: raw::mcs_end) -> Result<Ended, Error> {
    match status {
        raw::MCS_OK => Ok(Ended::Done),
        raw::MCS_UNMET => Ok(Ended::Unmet),
        raw::MCS_REFUSED => Ok(Ended::Refused {
            line: end.line,
            fault: end.fault,
        }),
        raw::MCS_STOPPED => Ok(Ended::Stopped),
        raw::MCS_BOOK_FULL => Ok(Ended::BookFull),
        raw::MCS_NO_MEMORY => Err(Error::OutOfMemory),
        status => Err(Error::Wrong(status)),
    }
}

/// Returns the whole text of a call that is given a buffer and the place of its end: it is called
/// once more where the first buffer was too small.
fn whole(room: usize, call: impl Fn(&mut [u8], &mut raw::mcs_end) -> u32) -> Result<Report, Error> {
    let mut text = vec![0; room];
    loop {
        let mut end = raw::mcs_end::default();
        let ended = ended(call(&mut text, &mut end), end)?;
        if end.length <= text.len() {
            text.truncate(end.length);
            return Ok(Report { text, ended });
        }
        text.resize(end.length, 0);
    }
}

/// Returns how much room most texts need that come of a text of this length: traces of short steps
/// are five to six times as long as their scripts.
fn room_for(length: usize) -> usize {
    length.saturating_mul(8).saturating_add(1 << 12)
}

/// A call of `mcs.h` that reads one text.
type Call = unsafe extern "C" fn(*const u8, usize, *mut u8, usize, *mut raw::mcs_end) -> u32;

/// Returns what a call of `mcs.h` writes of a text.
fn called(call: Call, text: &[u8]) -> Result<Report, Error> {
    // SAFETY: each pointer is that of a slice with the length beside it, or of an end; as `out` and
    // `end` are borrowed alone, they lie in nothing that is read.
    whole(room_for(text.len()), |out, end| unsafe {
        call(text.as_ptr(), text.len(), out.as_mut_ptr(), out.len(), end)
    })
}

/// Replays a script of steps, and returns its trace, as `mcssim replay` does.
pub fn replay(script: &[u8]) -> Result<Report, Error> {
    called(raw::mcs_replay, script)
}

/// Returns the thread that a core runs next after a script, by its serial, if there is one; and how
/// the replay of the script ended.
pub fn pick(script: &[u8], core: u8) -> Result<(Option<u32>, Ended), Error> {
    let mut thread = 0;
    let mut end = raw::mcs_end::default();
    // SAFETY: as in `called`.
    let status =
        unsafe { raw::mcs_pick(script.as_ptr(), script.len(), core, &mut thread, &mut end) };
    let ended = ended(status, end)?;
    Ok((Some(thread).filter(|thread| *thread != 0), ended))
}

/// Checks what a script says of its steps, and returns the verdicts, as `mcslab check` does.
pub fn check(script: &[u8]) -> Result<Report, Error> {
    called(raw::mcs_check, script)
}

/// Explains each step of a script that did nothing, and what is stuck, as `mcslab why` does.
pub fn why(script: &[u8]) -> Result<Report, Error> {
    called(raw::mcs_why, script)
}

/// Returns the state at the end of a script, as `mcslab state --json` does.
pub fn state(script: &[u8]) -> Result<Report, Error> {
    called(raw::mcs_state, script)
}

/// Draws a script as SVG, as `mcslab draw` does.
pub fn draw(script: &[u8]) -> Result<Report, Error> {
    called(raw::mcs_draw, script)
}

/// Returns for each line of the script of a plan the number of the plan's line of which it came.
pub fn number(plan: &[u8]) -> Result<Report, Error> {
    called(raw::mcs_number, plan)
}

/// Compiles a plan, and returns its script, as `mcslab compile` does; or a line that says why there
/// is none.
pub fn compile(plan: &[u8]) -> Result<Report, Error> {
    called(raw::mcs_compile, plan)
}

/// Goes through all orders of the users of a script, finding no more than so many states, and
/// returns the report, as `mcslab explore` does; or a line that says why there is none.
pub fn explore(script: &[u8], states: u64) -> Result<Report, Error> {
    sought(raw::mcs_explore, script, states)
}

/// Does the same, and returns behind the report the shortest script of steps to each thing that it
/// tells, each behind a line `== NAME`.
pub fn search(script: &[u8], states: u64) -> Result<Report, Error> {
    sought(raw::mcs_search, script, states)
}

/// Checks a plan, and returns the verdicts in its own words, as `mcslab check` does.
pub fn check_plan(plan: &[u8]) -> Result<Report, Error> {
    called(raw::mcs_check_plan, plan)
}

/// Explains each step of a plan that did nothing, and what is stuck, in its own words, as
/// `mcslab why` does.
pub fn why_plan(plan: &[u8]) -> Result<Report, Error> {
    called(raw::mcs_why_plan, plan)
}

/// Returns the state after a line of a plan, or after its last one for line 0, as
/// `mcslab state --json` does.
pub fn state_plan(plan: &[u8], line: u64) -> Result<Report, Error> {
    sought(raw::mcs_state_plan, plan, line)
}

/// Draws a plan as SVG in its own words, as `mcslab draw` does.
pub fn draw_plan(plan: &[u8]) -> Result<Report, Error> {
    called(raw::mcs_draw_plan, plan)
}

/// Goes through all orders of the users of a plan, finding no more than so many states, and returns
/// the report in the plan's words, as `mcslab explore` does; or a line that says why there is none.
pub fn explore_plan(plan: &[u8], states: u64) -> Result<Report, Error> {
    sought(raw::mcs_explore_plan, plan, states)
}

/// Does the same, and returns behind the report the shortest script of steps to each thing that it
/// tells, each behind a line `== NAME`.
pub fn search_plan(plan: &[u8], states: u64) -> Result<Report, Error> {
    sought(raw::mcs_search_plan, plan, states)
}

/// A call of `mcs.h` that reads one text and a number, as that of the states of a search.
type Numbered =
    unsafe extern "C" fn(*const u8, usize, u64, *mut u8, usize, *mut raw::mcs_end) -> u32;

/// Returns what such a call writes.
fn sought(call: Numbered, text: &[u8], number: u64) -> Result<Report, Error> {
    // SAFETY: as in `called`.
    whole(room_for(text.len()), |out, end| unsafe {
        call(
            text.as_ptr(),
            text.len(),
            number,
            out.as_mut_ptr(),
            out.len(),
            end,
        )
    })
}

#[cfg(test)]
mod tests {
    use super::*;

    /// A call that has `text` to write.
    fn writes(text: &'static [u8], status: u32) -> impl Fn(&mut [u8], &mut raw::mcs_end) -> u32 {
        move |out, end| {
            let n = text.len().min(out.len());
            out[..n].copy_from_slice(&text[..n]);
            *end = raw::mcs_end {
                length: text.len(),
                line: 3,
                fault: 4,
            };
            status
        }
    }

    #[test]
    fn buffers_grow_to_the_whole_text() {
        for room in 0..8 {
            let report = whole(room, writes(b"trace", raw::MCS_OK)).unwrap();
            assert_eq!(report.text, b"trace");
            assert_eq!(report.ended, Ended::Done);
        }
    }

    #[test]
    fn each_status_is_told() {
        let of = |status| whole(9, writes(b"trace", status)).map(|report| report.ended);
        assert_eq!(of(raw::MCS_UNMET), Ok(Ended::Unmet));
        assert_eq!(
            of(raw::MCS_REFUSED),
            Ok(Ended::Refused { line: 3, fault: 4 })
        );
        assert_eq!(of(raw::MCS_STOPPED), Ok(Ended::Stopped));
        assert_eq!(of(raw::MCS_BOOK_FULL), Ok(Ended::BookFull));
        assert_eq!(of(raw::MCS_NO_MEMORY), Err(Error::OutOfMemory));
        assert_eq!(of(raw::MCS_WRONG), Err(Error::Wrong(7)));
        assert_eq!(of(4), Err(Error::Wrong(4)));
    }
}
