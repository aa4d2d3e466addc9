//! The stack that a thread needs: with as much as the crate's documentation says every operation
//! answers; with less the thread meets its guard page, and the process ends without an answer.

use std::env;
use std::os::unix::process::ExitStatusExt;
use std::process::{Command, ExitStatus};
use std::thread;

use quayladle::{check, judge, read, same, write, Reader, Reply, Verdict, STRIDE};

/// What an idle thread has, its thread-local storage with it: the least that a thread is started with.
const IDLE: usize = 16 << 10;
/// What an operation takes, and the thread that runs it.
const STACK: usize = (504 << 10) + IDLE;

/// How many components a library has, and one that is gone through in parts to be judged by; the
/// lines of its header and of each.
const COMPONENTS: u64 = 4_000;
const MANY: u64 = 60_000;
const HEADER_LINES: u64 = 3;
const LINES: u64 = 5;
/// How many placements the board has, so that it is over 1 MiB, and its other lines.
const PLACEMENTS: u64 = 15_000;
const OTHER_LINES: u64 = 11;

const fn done(count: u64) -> Reply {
    Reply { number: 0, line: 0, count }
}

/// What stands in a library for the component of a number, or in a placement of it.
fn name(number: u64) -> String {
    format!("geometry{number:06} part{number:06}")
}

/// A library of so many components; the last is of this number.
fn library(components: u64, last: u64) -> Vec<u8> {
    let mut text = ".HEADER\nLIBRARY_FILE 3.0 s 2024/05/06.07:08:09 1\n.END_HEADER\n".to_string();
    for number in (1..components).chain([last]) {
        text += &format!(".ELECTRICAL\n{} MM 1\n", name(number));
        text += "0 0 0 0\n0 1 0 360\n.END_ELECTRICAL\n";
    }
    text.into_bytes()
}

/// A board, in canonical text, on which each component of the library is placed.
fn board() -> Vec<u8> {
    let mut text = ".HEADER\nBOARD_FILE 3.0 s 2024/05/06.07:08:09 1\nb MM\n.END_HEADER\n\
                    .BOARD_OUTLINE MCAD\n1.60000\n0 0.00000 0.00000 0.00000\n\
                    0 1.00000 0.00000 360.00000\n.END_BOARD_OUTLINE\n.PLACEMENT\n"
        .to_string();
    for number in 0..PLACEMENTS {
        text += &format!("{} U{number}\n", name(1 + number % COMPONENTS));
        text += "-0.00001 999999.99999 0.00000 -359.99999 TOP PLACED\n";
    }
    text += ".END_PLACEMENT\n";
    text.into_bytes()
}

/// What work gives in a thread with a stack of this size.
fn within<T: Send>(stack: usize, work: impl FnOnce() -> T + Send) -> T {
    thread::scope(|scope| {
        let thread = thread::Builder::new().stack_size(stack).spawn_scoped(scope, work);
        thread.expect("a thread").join().expect("an answer")
    })
}

/// Hands out every line of a file and gives how many fields there are.
fn fields_in(file: &[u8], lent: &mut [i64]) -> u64 {
    let mut reader = Reader::open(file);
    let mut count = 0;
    loop {
        match reader.next(lent) {
            Reply { number: 0, count: fields, .. } => count += fields,
            _ => return count,
        }
    }
}

#[test]
fn a_library_is_checked_on_the_stack_that_is_asked_for() {
    let rows = HEADER_LINES + COMPONENTS * LINES;
    let whole = library(COMPONENTS, COMPONENTS);
    assert_eq!(within(STACK, || check(&whole)), done(rows));
    // A name that comes again takes a second walk.
    let again = library(COMPONENTS, 1);
    let refused = Reply { number: 12, line: rows - 3, count: 0 };
    assert_eq!(within(STACK, || check(&again)), refused);
}

#[test]
fn a_board_is_read_written_and_compared_on_the_stack_that_is_asked_for() {
    let board = board();
    assert!(board.len() > 1 << 20);
    let count = OTHER_LINES + 2 * PLACEMENTS;
    let mut rows = vec![0; STRIDE * count as usize];
    assert_eq!(within(STACK, || read(&board, &mut rows)), done(count));
    let mut text = vec![0; board.len()];
    assert_eq!(within(STACK, || write(&rows, &board, &mut text)), done(board.len() as u64));
    assert!(text == board, "the text of the board's rows");
    let verdict = within(STACK, || same(&board, &text));
    assert_eq!(verdict, Verdict { reply: done(1), which: 0 });
}

#[test]
fn a_board_is_judged_on_the_stack_that_is_asked_for() {
    let board = board();
    for components in [COMPONENTS, MANY] {
        let library = library(components, components);
        let verdict = within(STACK, || judge(&board, &library));
        assert_eq!(verdict, Verdict { reply: done(PLACEMENTS), which: 0 });
    }
}

#[test]
fn lines_are_handed_out_on_an_idle_threads_stack() {
    let library = library(COMPONENTS, COMPONENTS);
    let mut lent = [0; 12];
    let fields = within(IDLE, || fields_in(&library, &mut lent));
    assert_eq!(fields, 7 + COMPONENTS * 14);
}

/// Tells the process that it is a child: an operation, and the KiB of its thread's stack.
const CHILD: &str = "QUAYLADLE_STACK_OF";
/// What a child says once it has an answer.
const ANSWERED: &str = "answered";

/// Asks for an operation on nothing at all, and says so if there is an answer.
fn be_a_child(operation: &str, kib: usize) {
    within(kib << 10, || match operation {
        "check" => assert_eq!(check(b"").number, 13),
        "read" => assert_eq!(read(b"", &mut []).number, 13),
        "write" => assert_eq!(write(&[], b"", &mut []).number, 15),
        "same" => assert_eq!(same(b"", b"").reply.number, 13),
        "judge" => assert_eq!(judge(b"", b"").reply.number, 13),
        _ => unreachable!("no such operation"),
    });
    println!("{ANSWERED}");
}

/// How a child ends, and whether it had an answer.
fn child(operation: &str, kib: usize) -> (ExitStatus, bool) {
    let program = env::current_exe().expect("this program's place").into_os_string();
    let mut words = env::var_os("QUAY_RUNNER").into_iter().chain([program]);
    let output = Command::new(words.next().expect("a program"))
        .args(words)
        .args(["--exact", "with_less_stack_the_process_ends_without_an_answer", "--nocapture"])
        .env(CHILD, format!("{operation} {kib}"))
        .current_dir(env::temp_dir())
        .output()
        .expect("the program starts");
    (output.status, String::from_utf8_lossy(&output.stdout).contains(ANSWERED))
}

#[test]
fn with_less_stack_the_process_ends_without_an_answer() {
    if let Ok(words) = env::var(CHILD) {
        let (operation, kib) = words.split_once(' ').expect("an operation and a number");
        return be_a_child(operation, kib.parse().expect("a number"));
    }
    for operation in ["check", "read", "write", "same", "judge"] {
        let (status, answered) = child(operation, STACK >> 10);
        assert!(status.success() && answered, "{operation} on enough: {status}");
        for kib in [64, 480] {
            let (status, answered) = child(operation, kib);
            assert!(status.signal().is_some() && !answered, "{operation} on {kib} KiB: {status}");
        }
    }
}
