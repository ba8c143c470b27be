//! A script that is taken line by line.
use crate::{Answer, Brought, Ended, Entry, Error, Report, pick, raw, room_for, whole};
use std::cell::RefCell;

/// How many records a step may bring.
const RECORDS: usize = 4 * 256 + 32;

/// A run of the simulator: the lines that it took. Each call replays them, so that a run of n lines
/// costs the square of n.
#[derive(Clone, Debug, Default)]
pub struct Run {
    script: Vec<u8>,
}

impl Run {
    /// Returns a run that has taken nothing.
    pub fn new() -> Run {
        Run::default()
    }

    /// Returns the lines that were taken.
    pub fn script(&self) -> &[u8] {
        &self.script
    }

    /// Returns what a line more, or the end of the input where it is empty, adds to the trace.
    fn added(&self, line: &[u8]) -> Result<Report, Error> {
        let script = &self.script;
        // SAFETY: as in `called`.
        whole(room_for(line.len()), |out, end| unsafe {
            raw::mcs_step(
                script.as_ptr(),
                script.len(),
                line.as_ptr(),
                line.len(),
                out.as_mut_ptr(),
                out.len(),
                end,
            )
        })
    }

    /// Takes a line, and returns what it adds to the trace. A line that is refused, or for which the
    /// book is full, is not taken.
    pub fn take(&mut self, line: &str) -> Result<Report, Error> {
        let mut bytes = line.as_bytes().to_vec();
        if !bytes.ends_with(b"\n") {
            bytes.push(b'\n');
        }
        let report = self.added(&bytes)?;
        if report.ended == Ended::Done {
            self.script.extend_from_slice(&bytes);
        }
        Ok(report)
    }

    /// Takes the step that an entry says, and returns what it adds to the trace, and what it
    /// brought. An entry that is refused, or for which the book is full, is not taken.
    pub fn enter(&mut self, entry: &Entry<'_>) -> Result<(Report, Brought), Error> {
        let script = &self.script;
        let entry = entry.raw();
        let empty = raw::mcs_answer {
            kind: 0,
            count: 0,
            records: 0,
            words: [0; raw::MCS_ANSWER_WORDS],
        };
        let kept = RefCell::new((empty, vec![raw::mcs_record::default(); RECORDS]));
        // SAFETY: as in `called`; the answer and the records are borrowed alone, too.
        let report = whole(room_for(0), |out, end| unsafe {
            let (answer, records) = &mut *kept.borrow_mut();
            raw::mcs_step_entry(
                script.as_ptr(),
                script.len(),
                &entry,
                answer,
                records.as_mut_ptr(),
                records.len(),
                out.as_mut_ptr(),
                out.len(),
                end,
            )
        })?;
        if report.ended == Ended::Done {
            // SAFETY: as in `called`.
            let line = whole(room_for(0), |out, end| unsafe {
                raw::mcs_step_line(&entry, out.as_mut_ptr(), out.len(), end)
            })?;
            self.script.extend_from_slice(&line.text);
        }
        let (answer, mut records) = kept.into_inner();
        records.truncate(answer.records);
        let answer = Answer::of(&answer);
        Ok((report, Brought { answer, records }))
    }

    /// Returns the thread that a core runs next, by its serial, if there is one.
    pub fn pick(&self, core: u8) -> Result<Option<u32>, Error> {
        pick(&self.script, core).map(|(thread, _)| thread)
    }

    /// Returns how the script ends here, and what its end adds to the trace: the boot, where no step
    /// came.
    pub fn end(&self) -> Result<Report, Error> {
        self.added(&[])
    }
}
