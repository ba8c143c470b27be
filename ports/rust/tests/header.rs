//! `raw` declares what `mcs.h` does.
use mcs_sys::{Key, raw};
use std::mem::{offset_of, size_of};

const HEADER: &str = include_str!("../../c/mcs.h");
const RAW: &str = include_str!("../src/raw.rs");

#[test]
fn statuses_are_those_of_the_header() {
    let statuses = HEADER.split("} mcs_end;").next().unwrap();
    let all: Vec<(&str, u32)> = statuses
        .lines()
        .filter_map(|line| line.trim().trim_end_matches(',').split_once(" = "))
        .map(|(name, value)| (name, value.parse().unwrap()))
        .collect();
    let declared = [
        ("MCS_OK", raw::MCS_OK),
        ("MCS_UNMET", raw::MCS_UNMET),
        ("MCS_REFUSED", raw::MCS_REFUSED),
        ("MCS_STOPPED", raw::MCS_STOPPED),
        ("MCS_BOOK_FULL", raw::MCS_BOOK_FULL),
        ("MCS_NO_MEMORY", raw::MCS_NO_MEMORY),
        ("MCS_WRONG", raw::MCS_WRONG),
    ];
    assert_eq!(all, declared);
}

/// Returns the parameters' names of each function of a text, by what stands before each.
fn functions<'a>(
    text: &'a str,
    before: &str,
    name_of: fn(&'a str) -> &'a str,
) -> Vec<(&'a str, Vec<&'a str>)> {
    let mut all = Vec::new();
    for declared in text.split(before).skip(1) {
        let (name, rest) = declared.split_once('(').unwrap();
        let (parameters, _) = rest.split_once(')').unwrap();
        let names = parameters
            .split(',')
            .map(|p| name_of(p.trim()))
            .filter(|p| !p.is_empty());
        all.push((name, names.collect()));
    }
    all
}

#[test]
fn functions_are_those_of_the_header() {
    let declared = HEADER.split("} mcs_record;").nth(1).unwrap();
    let in_c = functions(declared, "\nuint32_t ", |p| {
        p.rsplit([' ', '*']).next().unwrap()
    });
    let in_rust = functions(RAW, "pub fn ", |p| p.split(':').next().unwrap());
    assert_eq!(in_c.len(), 19);
    assert_eq!(in_c, in_rust);
}

#[test]
fn an_end_lies_as_in_c() {
    assert_eq!(size_of::<raw::mcs_end>(), 24);
    assert_eq!(offset_of!(raw::mcs_end, length), 0);
    assert_eq!(offset_of!(raw::mcs_end, line), 8);
    assert_eq!(offset_of!(raw::mcs_end, fault), 16);
}

#[test]
fn keys_are_those_of_the_header() {
    let keys = HEADER.split("MCS_SEND = 1,").nth(1).unwrap();
    let keys = keys.split("};").next().unwrap();
    assert_eq!(keys.matches("MCS_").count() + 1, Key::NbSendWait as usize);
    assert!(
        keys.trim_end()
            .rsplit("MCS_")
            .next()
            .unwrap()
            .starts_with("NBSENDWAIT")
    );
}

#[test]
fn structs_lie_as_in_c() {
    assert_eq!(size_of::<raw::mcs_entry>(), 16 + 8 * 124);
    assert_eq!(offset_of!(raw::mcs_entry, words), 16);
    assert_eq!(size_of::<raw::mcs_answer>(), 16 + 8 * 122);
    assert_eq!(offset_of!(raw::mcs_answer, records), 8);
    assert_eq!(offset_of!(raw::mcs_answer, words), 16);
    assert_eq!(size_of::<raw::mcs_record>(), 16);
    assert_eq!(offset_of!(raw::mcs_record, letter), 8);
}
