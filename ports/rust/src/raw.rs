//! What `ports/c/mcs.h` declares, in its order; `tests/header.rs` compares the two.

pub const MCS_OK: u32 = 0;
pub const MCS_UNMET: u32 = 1;
pub const MCS_REFUSED: u32 = 2;
pub const MCS_STOPPED: u32 = 3;
pub const MCS_BOOK_FULL: u32 = 5;
pub const MCS_NO_MEMORY: u32 = 6;
pub const MCS_WRONG: u32 = 7;

/// How a call ended.
#[repr(C)]
#[derive(Clone, Copy, Debug, Default, PartialEq, Eq)]
#[allow(non_camel_case_types)]
pub struct mcs_end {
    pub length: usize,
    pub line: u64,
    pub fault: u64,
}

/// How many words an entry and an answer have.
pub const MCS_ENTRY_WORDS: usize = 124;
pub const MCS_ANSWER_WORDS: usize = 122;

/// An entry of a thread on a core.
#[repr(C)]
#[derive(Clone, Copy, Debug, PartialEq, Eq)]
#[allow(non_camel_case_types)]
pub struct mcs_entry {
    pub core: u32,
    pub thread: u32,
    pub key: u32,
    pub count: u32,
    pub words: [u64; MCS_ENTRY_WORDS],
}

/// The answer of a step.
#[repr(C)]
#[derive(Clone, Copy, Debug, PartialEq, Eq)]
#[allow(non_camel_case_types)]
pub struct mcs_answer {
    pub kind: u32,
    pub count: u32,
    pub records: usize,
    pub words: [u64; MCS_ANSWER_WORDS],
}

/// A record of a step.
#[repr(C)]
#[derive(Clone, Copy, Debug, Default, PartialEq, Eq)]
#[allow(non_camel_case_types)]
pub struct mcs_record {
    pub kind: u32,
    pub thread: u32,
    pub letter: u32,
    pub object: u32,
}

unsafe extern "C" {
    pub fn mcs_replay(
        script: *const u8,
        script_length: usize,
        out: *mut u8,
        room: usize,
        end: *mut mcs_end,
    ) -> u32;

    pub fn mcs_step(
        script: *const u8,
        script_length: usize,
        line: *const u8,
        line_length: usize,
        out: *mut u8,
        room: usize,
        end: *mut mcs_end,
    ) -> u32;

    pub fn mcs_step_line(
        entry: *const mcs_entry,
        out: *mut u8,
        room: usize,
        end: *mut mcs_end,
    ) -> u32;

    pub fn mcs_step_entry(
        script: *const u8,
        script_length: usize,
        entry: *const mcs_entry,
        answer: *mut mcs_answer,
        records: *mut mcs_record,
        record_room: usize,
        out: *mut u8,
        room: usize,
        end: *mut mcs_end,
    ) -> u32;

    pub fn mcs_pick(
        script: *const u8,
        script_length: usize,
        core: u8,
        thread: *mut u32,
        end: *mut mcs_end,
    ) -> u32;

    pub fn mcs_check(
        script: *const u8,
        script_length: usize,
        out: *mut u8,
        room: usize,
        end: *mut mcs_end,
    ) -> u32;

    pub fn mcs_compile(
        plan: *const u8,
        plan_length: usize,
        out: *mut u8,
        room: usize,
        end: *mut mcs_end,
    ) -> u32;

    pub fn mcs_explore(
        script: *const u8,
        script_length: usize,
        states: u64,
        out: *mut u8,
        room: usize,
        end: *mut mcs_end,
    ) -> u32;

    pub fn mcs_search(
        script: *const u8,
        script_length: usize,
        states: u64,
        out: *mut u8,
        room: usize,
        end: *mut mcs_end,
    ) -> u32;

    pub fn mcs_number(
        plan: *const u8,
        plan_length: usize,
        out: *mut u8,
        room: usize,
        end: *mut mcs_end,
    ) -> u32;

    pub fn mcs_why(
        script: *const u8,
        script_length: usize,
        out: *mut u8,
        room: usize,
        end: *mut mcs_end,
    ) -> u32;

    pub fn mcs_state(
        script: *const u8,
        script_length: usize,
        out: *mut u8,
        room: usize,
        end: *mut mcs_end,
    ) -> u32;

    pub fn mcs_draw(
        script: *const u8,
        script_length: usize,
        out: *mut u8,
        room: usize,
        end: *mut mcs_end,
    ) -> u32;

    pub fn mcs_check_plan(
        plan: *const u8,
        plan_length: usize,
        out: *mut u8,
        room: usize,
        end: *mut mcs_end,
    ) -> u32;

    pub fn mcs_why_plan(
        plan: *const u8,
        plan_length: usize,
        out: *mut u8,
        room: usize,
        end: *mut mcs_end,
    ) -> u32;

    pub fn mcs_state_plan(
        plan: *const u8,
        plan_length: usize,
        line: u64,
        out: *mut u8,
        room: usize,
        end: *mut mcs_end,
    ) -> u32;

    pub fn mcs_draw_plan(
        plan: *const u8,
        plan_length: usize,
        out: *mut u8,
        room: usize,
        end: *mut mcs_end,
    ) -> u32;

    pub fn mcs_explore_plan(
        plan: *const u8,
        plan_length: usize,
        states: u64,
        out: *mut u8,
        room: usize,
        end: *mut mcs_end,
    ) -> u32;

    pub fn mcs_search_plan(
        plan: *const u8,
        plan_length: usize,
        states: u64,
        out: *mut u8,
        room: usize,
        end: *mut mcs_end,
    ) -> u32;
}
