//! The calls of the library, each once where all is well, and where a line is refused.
use mcs_sys::{
    Answer, Ended, Entry, Error, Key, Report, Run, check, check_plan, compile, draw_plan, explore,
    explore_plan, replay, search_plan, state_plan, why_plan,
};

const BOOT: &str = "cores 1
cnode 1
cnode 2
endpoint
reply
context 0
context 0
thread 1 255 c1 63 0 run s1
thread 2 255 c2 62 0 run s2
slot c1 1 e1 wp 42
slot c2 1 e1 r 0
slot c2 2 r1
";

/// The steps, and what each adds to the trace.
const STEPS: [(&str, &str); 3] = [
    ("0 t2 recv 1 2\n", "= waits\n+ joins t2 e1.recv r1\n"),
    (
        "0 t1 call 1 1 16\n",
        "= waits\n+ sent m0 t1 e1 call 42 1 16\n+ took m0 t2\n+ parts t2 e1.recv\n+ owes r1 t1 -\n+ turns t2 running\n",
    ),
    (
        "0 t2 replyrecv 1 2 7 17\n",
        "= waits\n+ paid r1 t1 7 17\n+ turns t1 running\n+ joins t2 e1.recv r1\n",
    ),
];

/// Returns a text that was written, and how its call ended.
fn told(report: Result<Report, Error>) -> (String, Ended) {
    let Report { text, ended } = report.unwrap();
    (String::from_utf8(text).unwrap(), ended)
}

fn script() -> String {
    STEPS
        .iter()
        .fold(BOOT.to_string(), |text, (step, _)| text + step)
}

fn trace() -> String {
    STEPS
        .iter()
        .fold(BOOT.to_string(), |text, (step, added)| text + step + added)
}

#[test]
fn a_script_is_replayed() {
    assert_eq!(told(replay(script().as_bytes())), (trace(), Ended::Done));
}

#[test]
fn a_trace_is_replayed_to_itself_and_checks_itself() {
    assert_eq!(told(replay(trace().as_bytes())), (trace(), Ended::Done));
    assert_eq!(check(trace().as_bytes()).unwrap().ended, Ended::Done);
}

#[test]
fn a_line_that_is_refused_is_named() {
    let report = replay(b"cores 1\nbad\n").unwrap();
    assert_eq!(report.ended, Ended::Refused { line: 2, fault: 2 });
    assert_eq!(
        replay(b"").unwrap().ended,
        Ended::Refused { line: 1, fault: 1 }
    );
}

#[test]
fn a_run_goes_line_by_line() {
    let mut run = Run::new();
    for line in BOOT.lines() {
        assert_eq!(told(run.take(line)), (String::new(), Ended::Done));
    }
    let mut before = BOOT;
    for (step, added) in STEPS {
        assert_eq!(
            told(run.take(step)),
            (format!("{before}{step}{added}"), Ended::Done)
        );
        before = "";
    }
    assert_eq!(run.script(), script().as_bytes());
    assert_eq!(told(run.end()), (String::new(), Ended::Done));
}

#[test]
fn a_run_goes_entry_by_entry() {
    let mut run = Run::new();
    for line in BOOT.lines() {
        run.take(line).unwrap();
    }
    assert_eq!(run.pick(0), Ok(Some(2)));
    let entries: [(u32, Key, &[u64]); 3] = [
        (2, Key::Recv, &[1, 2]),
        (1, Key::Call, &[1, 1, 16]),
        (2, Key::ReplyRecv, &[1, 2, 7, 17]),
    ];
    let mut before = BOOT;
    for ((thread, key, words), (step, added)) in entries.into_iter().zip(STEPS) {
        let entry = Entry {
            core: 0,
            thread,
            key,
            words,
        };
        let (report, brought) = run.enter(&entry).unwrap();
        assert_eq!(
            told(Ok(report)),
            (format!("{before}{step}{added}"), Ended::Done)
        );
        assert_eq!(brought.answer, Some(Answer::Waits));
        assert_eq!(brought.records.len(), added.matches('+').count());
        before = "";
    }
    assert_eq!(run.script(), script().as_bytes());
    assert_eq!(run.pick(0), Ok(Some(1)));
    let entry = Entry {
        core: 0,
        thread: 1,
        key: Key::Send,
        words: &[0; 125],
    };
    let (report, brought) = run.enter(&entry).unwrap();
    assert_eq!(report.ended, Ended::Refused { line: 0, fault: 15 });
    assert_eq!((brought.answer, brought.records.len()), (None, 0));
    assert_eq!(run.script(), script().as_bytes());
}

#[test]
fn a_line_that_is_refused_is_not_taken() {
    let mut run = Run::new();
    run.take("cores 1").unwrap();
    assert_eq!(
        run.take("bad").unwrap().ended,
        Ended::Refused { line: 2, fault: 2 }
    );
    assert_eq!(run.script(), b"cores 1\n");
    assert_eq!(run.take("endpoint").unwrap().ended, Ended::Done);
}

#[test]
fn what_does_not_hold_is_unmet() {
    let script = format!("{BOOT}0 t2 recv 1 2\n= waits\n#? t1 waits e1.send\n");
    let (text, ended) = told(check(script.as_bytes()));
    assert_eq!(ended, Ended::Unmet);
    assert!(
        text.starts_with("ok 1 - line 14: = waits\nnot ok 2 - line 15: "),
        "{text}"
    );
    assert!(text.ends_with("\n1..2\n"), "{text}");
}

const PLAN: &str = "endpoint work\nreply work.reply\nthread client prio 10\nthread server prio 20\nclient has work:wp=42\n\
     server has work:r work.reply\nserver: recv work work.reply\nclient: call work 7\n? server got 42 7\n";

#[test]
fn a_plan_is_told_in_its_own_words() {
    let plan = PLAN.as_bytes();
    let verdicts = "ok 1 - line 9: server got 42 7\n1..1\n";
    assert_eq!(told(check_plan(plan)), (verdicts.to_string(), Ended::Done));
    assert_eq!(told(why_plan(plan)), (String::new(), Ended::Done));
    assert!(told(draw_plan(plan)).0.contains("client: call work 7"));
    assert_eq!(state_plan(plan, 0).unwrap(), state_plan(plan, 9).unwrap());
    let steps = Ended::Refused { line: 7, fault: 14 };
    assert_eq!(explore_plan(plan, 1000).unwrap().ended, steps);
    assert_eq!(search_plan(plan, 1000).unwrap().ended, steps);
}

#[test]
fn a_plan_becomes_a_script_that_holds() {
    let made = compile(PLAN.as_bytes()).unwrap();
    assert_eq!(made.ended, Ended::Done);
    assert_eq!(check(&made.text).unwrap().ended, Ended::Done);
    let refused = compile(b"endpoint work\nendpoint work\n").unwrap();
    assert_eq!(refused.ended, Ended::Refused { line: 2, fault: 13 });
}

#[test]
fn all_orders_are_explored_within_a_budget() {
    let users = "cores 1\ncnode 2\nnotification\ncontext 0\ncontext 0\nthread 20 255 c1 62 0 run s1\n\
                 thread 10 255 c1 62 0 run s2\nslot c1 1 n1 r 0\nslot c1 2 n1 w 4\nuser t1 wait 1\nuser t2 signal 2\n\
                 #! answer t1 1 heard 4\n";
    assert_eq!(explore(users.as_bytes(), 1000).unwrap().ended, Ended::Done);
    assert_eq!(explore(users.as_bytes(), 1).unwrap().ended, Ended::Stopped);
    let fails = format!("{users}#! never + heard t1 **\n");
    assert_eq!(explore(fails.as_bytes(), 1000).unwrap().ended, Ended::Unmet);
}
