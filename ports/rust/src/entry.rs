//! Entries, answers and records as values, by the structs of `mcs.h`.
use crate::raw;

/// What an entry asks for: the numbers of the keys of `mcs.h`.
#[derive(Clone, Copy, Debug, PartialEq, Eq)]
#[repr(u32)]
pub enum Key {
    Send = 1,
    NbSend,
    Call,
    Recv,
    NbRecv,
    Wait,
    NbWait,
    ReplyRecv,
    Signal,
    SetPrio,
    Suspend,
    Resume,
    BindNtfn,
    UnbindNtfn,
    Bind,
    Unbind,
    Cancel,
    Copy,
    Mint,
    Move,
    Delete,
    MakeEndpoint,
    MakeNotification,
    MakeReply,
    MakeContext,
    NbSendRecv,
    NbSendWait,
}

/// An entry by a thread on a core. The words are the numbers that its form has behind the key, in
/// their order; rights are a sum of bits.
#[derive(Clone, Copy, Debug, PartialEq, Eq)]
pub struct Entry<'a> {
    pub core: u32,
    pub thread: u32,
    pub key: Key,
    pub words: &'a [u64],
}

impl Entry<'_> {
    /// Returns the entry as the library takes it. Words beyond the most that an entry may have are
    /// counted and left out, so that the library refuses it.
    pub(crate) fn raw(&self) -> raw::mcs_entry {
        let mut words = [0; raw::MCS_ENTRY_WORDS];
        let n = self.words.len().min(words.len());
        words[..n].copy_from_slice(&self.words[..n]);
        raw::mcs_entry {
            core: self.core,
            thread: self.thread,
            key: self.key as u32,
            count: u32::try_from(self.words.len()).unwrap_or(u32::MAX),
            words,
        }
    }
}

/// The answer of a step.
#[derive(Clone, Debug, PartialEq, Eq)]
pub enum Answer {
    Done,
    Got {
        badge: u64,
        label: u64,
        words: Vec<u64>,
    },
    Heard(u64),
    Empty,
    Waits,
    /// Refused, with K of `docs/FORMS.md`.
    Refused(u64),
}

impl Answer {
    /// Returns what an answer of the library says; `None` if the step was skipped, or is none.
    pub(crate) fn of(answer: &raw::mcs_answer) -> Option<Answer> {
        let numbers = &answer.words[..answer.count as usize];
        match (answer.kind, numbers) {
            (1, []) => Some(Answer::Done),
            (2, [badge, label, words @ ..]) => Some(Answer::Got {
                badge: *badge,
                label: *label,
                words: words.to_vec(),
            }),
            (3, [word]) => Some(Answer::Heard(*word)),
            (4, []) => Some(Answer::Empty),
            (5, []) => Some(Answer::Waits),
            (6, [why]) => Some(Answer::Refused(*why)),
            _ => None,
        }
    }
}

/// What an entry brought.
#[derive(Clone, Debug, PartialEq, Eq)]
pub struct Brought {
    /// `None` if the step was skipped, or is none.
    pub answer: Option<Answer>,
    pub records: Vec<raw::mcs_record>,
}
