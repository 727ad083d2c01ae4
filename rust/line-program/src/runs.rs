//! Whole runs over readers and writers that stop, wait and watch: when a run ends, and what it reads and
//! writes until then. No clause says it: no contract sees a reader or a writer fail, orders the reads and the
//! writes, or says what is left of the input.

use crate::descriptor_lines::{Exit, run_lines};
use crate::kit::alloc::Global;
use std::cell::Cell;
use std::io::{self, ErrorKind, Read, Write};

/// A line with its end, and all that it is answered.
type Exchange = (&'static str, &'static str);

/// Whole runs (rust/line-program/LINES.md has the commands). `pool s 1 10/54`: it has ten sets out, and 54 free places.
const DIALOGUES: [&[Exchange]; 4] = [
    // Sizes of pools, between a comment and carriage returns.
    &[
        (
            "layout a plain sampler=1 uniform_buffer=2\n",
            "layout a total 3\n",
        ),
        ("# note\r\n", ""),
        ("size a 0 1\r\n", "size 64 sampler=64 uniform_buffer=128\n"),
        (
            "\tlayout b mark sampler=4294967295\n",
            "layout b total 4294967295\n",
        ),
        ("size b 0 3\n", "size 1 sampler=4294967295\n"),
    ],
    // A pool that refuses, and a set that goes back to it.
    &[
        ("layout s plain sampler=1\n", "layout s total 1\n"),
        ("alloc s 60\n", "sets 0-59: 0*60\n"),
        ("script frag\n", "script 1\n"),
        ("alloc s 10\n", "sets 60-69: 1*10\n"),
        (
            "show\n",
            "pool s 0 60/0\npool s 1 10/54\ndevice created 2 destroyed 0 asked 3 released 0\n\
             held 70 marked 0\n",
        ),
        ("free 0\n", "freed 1\n"),
        (
            "show\n",
            "pool s 0 59/1\npool s 1 10/54\ndevice created 2 destroyed 0 asked 3 released 1\n\
             held 69 marked 0\n",
        ),
    ],
    // A request that takes what a pool has, and then from a new one.
    &[
        ("layout s plain sampler=1\n", "layout s total 1\n"),
        ("alloc s 60\n", "sets 0-59: 0*60\n"),
        ("alloc s 10\n", "sets 60-69: 0*4 1*6\n"),
        (
            "show\n",
            "pool s 0 64/0\npool s 1 6/58\ndevice created 2 destroyed 0 asked 3 released 0\n\
             held 70 marked 0\n",
        ),
    ],
    // Pools that are destroyed, a set that takes a known place, and a key that begins again.
    &[
        ("layout s plain sampler=1\n", "layout s total 1\n"),
        ("alloc s 64\n", "sets 0-63: 0*64\n"),
        ("alloc s 64\n", "sets 64-127: 1*64\n"),
        ("free 64-127\n", "freed 64\n"),
        ("cleanup\n", "clean\n"),
        (
            "show\n",
            "pool s 0 64/0\npool s 1 0/64\ndevice created 2 destroyed 0 asked 2 released 1\n\
             held 64 marked 0\n",
        ),
        ("alloc s 1\n", "sets 128-128: 1*1\n"),
        ("free 0-63 128\n", "freed 65\n"),
        ("cleanup\n", "clean\n"),
        ("alloc s 1\n", "sets 129-129: 2*1\n"),
        (
            "show\n",
            "pool s 0 1/63\ndevice created 3 destroyed 2 asked 4 released 3\nheld 1 marked 0\n",
        ),
    ],
];

fn lines_of(dialogue: &[Exchange]) -> String {
    dialogue.iter().map(|it| it.0).collect()
}

/// The answers of the lines that end within so many bytes.
fn answers_within(dialogue: &[Exchange], bytes: usize) -> String {
    let mut length = 0;
    let ends_within = |it: &&Exchange| {
        length += it.0.len();
        length <= bytes
    };
    dialogue.iter().filter(ends_within).map(|it| it.1).collect()
}

fn answers_of(dialogue: &[Exchange]) -> String {
    answers_within(dialogue, usize::MAX)
}

/// Where a reader or a writer stops: behind so many bytes one call fails, or moves none. Then it goes on.
#[derive(Clone, Copy)]
struct Stop {
    behind: usize,
    failure: Option<ErrorKind>,
}

/// It goes on to the end.
const NEVER: Stop = Stop {
    behind: usize::MAX,
    failure: None,
};

impl Stop {
    /// How many bytes a call may move: at most so many.
    fn most(&mut self, count: usize) -> io::Result<usize> {
        if self.behind == 0 {
            self.behind = usize::MAX;
            return self.failure.map_or(Ok(0), |kind| Err(kind.into()));
        }
        let most = count.min(self.behind);
        self.behind -= most;
        Ok(most)
    }
}

/// Gives its bytes, at most `step` a call.
struct Source<'a> {
    rest: &'a [u8],
    step: usize,
    stop: Stop,
}

impl<'a> Source<'a> {
    fn new(rest: &'a [u8]) -> Self {
        Source {
            rest,
            step: usize::MAX,
            stop: NEVER,
        }
    }
}

impl Read for Source<'_> {
    fn read(&mut self, bytes: &mut [u8]) -> io::Result<usize> {
        let count = self.rest.len().min(self.step).min(bytes.len());
        let count = self.stop.most(count)?;
        let (given, rest) = self.rest.split_at(count);
        bytes[..count].copy_from_slice(given);
        self.rest = rest;
        Ok(count)
    }
}

/// Takes at most `step` bytes a call.
struct Sink {
    text: Vec<u8>,
    step: usize,
    stop: Stop,
}

impl Sink {
    fn new() -> Self {
        Sink {
            text: Vec::new(),
            step: usize::MAX,
            stop: NEVER,
        }
    }
}

impl Write for Sink {
    fn write(&mut self, bytes: &[u8]) -> io::Result<usize> {
        let count = self.stop.most(bytes.len().min(self.step))?;
        self.text.extend_from_slice(&bytes[..count]);
        Ok(count)
    }

    fn flush(&mut self) -> io::Result<()> {
        Ok(())
    }
}

fn run(input: &mut impl Read, output: &mut impl Write) -> Exit {
    run_lines(Global, input, output)
}

/// Runs the input and compares all of the output.
fn expect(input: &[u8], wanted: &str, exit: Exit) {
    let mut output = Sink::new();
    let ended = run(&mut Source::new(input), &mut output);
    let seen = (output.text.as_slice(), ended);
    assert_eq!(seen, (wanted.as_bytes(), exit), "{input:?}");
}

/// How a read may fail. None of these is tried again.
const KINDS: [ErrorKind; 6] = [
    ErrorKind::Other,
    ErrorKind::Interrupted,
    ErrorKind::UnexpectedEof,
    ErrorKind::WouldBlock,
    ErrorKind::TimedOut,
    ErrorKind::BrokenPipe,
];

// ---- input that is cut, reads and writes that fail, and few bytes a call ----

/// A read gives nothing there, or fails. The complete lines are answered. What is left is a line too if the
/// input ended, and may be faulty; if it failed, that isn't run.
fn cut_anywhere(dialogue: &[Exchange], failure: Option<ErrorKind>) {
    let lines = lines_of(dialogue);
    for behind in 0..lines.len() + usize::from(failure.is_some()) {
        let mut input = Source::new(lines.as_bytes());
        input.stop = Stop { behind, failure };
        let mut output = Sink::new();
        let ended = run(&mut input, &mut output);
        assert_eq!(input.rest.len(), lines.len() - behind);
        let answers = answers_within(dialogue, behind);
        if failure.is_some() {
            assert_eq!(ended, Exit::ReadFault, "at {behind}");
            assert_eq!(output.text, answers.as_bytes(), "at {behind}");
        } else {
            let is_ended = matches!(ended, Exit::Done | Exit::BadLine);
            assert!(is_ended, "at {behind}");
            assert!(output.text.starts_with(answers.as_bytes()), "at {behind}");
        }
    }
}

#[test]
fn input_cut_anywhere() {
    for dialogue in DIALOGUES {
        cut_anywhere(dialogue, None);
    }
}

#[test]
fn read_that_fails_anywhere() {
    for dialogue in DIALOGUES {
        for kind in KINDS {
            cut_anywhere(dialogue, Some(kind));
        }
    }
}

#[test]
fn last_line_without_an_end() {
    let bytes = b"layout s plain sampler=1\nalloc s";
    let output = "layout s total 1\nline 2: bad word count\n";
    expect(bytes, output, Exit::BadLine);
    let mut input = Source::new(bytes);
    input.stop = Stop {
        behind: bytes.len(),
        failure: Some(ErrorKind::Other),
    };
    let mut output = Sink::new();
    assert_eq!(run(&mut input, &mut output), Exit::ReadFault);
    assert_eq!(output.text, b"layout s total 1\n");
}

/// A line that comes in pieces, or an answer that is taken in pieces, is the same.
#[test]
fn few_bytes_a_call() {
    for dialogue in DIALOGUES {
        for (read, write) in [(1, usize::MAX), (usize::MAX, 1), (1, 1), (7, 3)] {
            let lines = lines_of(dialogue);
            let (mut input, mut output) = (Source::new(lines.as_bytes()), Sink::new());
            (input.step, output.step) = (read, write);
            assert_eq!(run(&mut input, &mut output), Exit::Done);
            assert_eq!(output.text, answers_of(dialogue).as_bytes());
        }
    }
}

/// The run ends at the first byte that isn't taken, be it of an answer or of the fault.
#[test]
fn write_that_stops_anywhere() {
    let failures = [
        Some(ErrorKind::Other),
        Some(ErrorKind::Interrupted),
        Some(ErrorKind::WouldBlock),
        Some(ErrorKind::BrokenPipe),
        None,
    ];
    for dialogue in [DIALOGUES[0], DIALOGUES[1], &[]] {
        let lines = lines_of(dialogue) + "alloc x 1";
        let fault = format!("line {}: no such layout\n", dialogue.len() + 1);
        let answers = answers_of(dialogue) + &fault;
        for failure in failures {
            for behind in 0..answers.len() {
                let mut output = Sink::new();
                output.stop = Stop { behind, failure };
                let ended = run(&mut Source::new(lines.as_bytes()), &mut output);
                assert_eq!(ended, Exit::WriteFault, "at {behind}");
                assert_eq!(output.text, &answers.as_bytes()[..behind], "at {behind}");
            }
        }
    }
}

// ---- nothing is read after the end of a run, so nobody at a terminal is waited for ----

/// Runs lines at which the run ends, a byte a read call, and compares all of the output. The line after them
/// is not read.
fn unread_behind(lines: &str, of_input: Stop, of_output: Stop, wanted: &str, exit: Exit) {
    let all = format!("{lines}show\n");
    let (mut input, mut output) = (Source::new(all.as_bytes()), Sink::new());
    (input.step, input.stop, output.stop) = (1, of_input, of_output);
    let ended = run(&mut input, &mut output);
    let seen = (output.text.as_slice(), ended, input.rest);
    let wanted = (wanted.as_bytes(), exit, b"show\n".as_slice());
    assert_eq!(seen, wanted, "{lines}");
}

#[test]
fn end_of_the_input() {
    for (lines, output, exit) in [
        ("", "", Exit::Done),
        ("layout s plain\n", "layout s total 0\n", Exit::Done),
        ("layout s plain", "layout s total 0\n", Exit::Done),
        ("alloc x 1", "line 1: no such layout\n", Exit::BadLine),
    ] {
        let stop = Stop {
            behind: lines.len(),
            failure: None,
        };
        unread_behind(lines, stop, NEVER, output, exit);
    }
}

#[test]
fn faulty_line() {
    for (lines, output) in [
        ("layout s both\n", "line 1: bad mark\n"),
        ("# note\n\nalloc s 1\n", "line 3: no such layout\n"),
        (
            "limit 9\nlimit 1\n",
            "limit 9\nline 2: limit must come first\n",
        ),
    ] {
        unread_behind(lines, NEVER, NEVER, output, Exit::BadLine);
    }
}

#[test]
fn read_that_fails() {
    for kind in [ErrorKind::Other, ErrorKind::Interrupted] {
        for (lines, output) in [("", ""), ("layout s plain\nalloc s", "layout s total 0\n")] {
            let stop = Stop {
                behind: lines.len(),
                failure: Some(kind),
            };
            unread_behind(lines, stop, NEVER, output, Exit::ReadFault);
        }
    }
}

#[test]
fn write_that_stops() {
    for failure in [Some(ErrorKind::Other), Some(ErrorKind::Interrupted), None] {
        // An answer, and a fault.
        for (line, output) in [("layout s plain\n", "lay"), ("alloc x 1\n", "line 1: no")] {
            let stop = Stop {
                behind: output.len(),
                failure,
            };
            unread_behind(line, NEVER, stop, output, Exit::WriteFault);
        }
    }
}

// ---- an answer is written before the next line is read ----

/// Gives what its source gives, and notes at each call how much was given and written by then.
struct Watcher<'a> {
    source: Source<'a>,
    given: usize,
    written: &'a Cell<usize>,
    calls: Vec<(usize, usize)>,
}

impl Read for Watcher<'_> {
    fn read(&mut self, bytes: &mut [u8]) -> io::Result<usize> {
        self.calls.push((self.given, self.written.get()));
        let count = self.source.read(bytes)?;
        self.given += count;
        Ok(count)
    }
}

/// Takes all, and tells how much that was after each call.
struct Teller<'a> {
    written: &'a Cell<usize>,
    ends: Vec<usize>,
}

impl Write for Teller<'_> {
    fn write(&mut self, bytes: &[u8]) -> io::Result<usize> {
        self.written.set(self.written.get() + bytes.len());
        self.ends.push(self.written.get());
        Ok(bytes.len())
    }

    fn flush(&mut self) -> io::Result<()> {
        Ok(())
    }
}

/// At each read call the lines that were complete have their answers. Each answer ends with a write call, so
/// none takes bytes of two.
#[test]
fn answer_before_the_next_line() {
    for dialogue in DIALOGUES {
        for step in [1, 7, 11, usize::MAX] {
            let (lines, written) = (lines_of(dialogue), Cell::new(0));
            let mut input = Watcher {
                source: Source::new(lines.as_bytes()),
                given: 0,
                written: &written,
                calls: Vec::new(),
            };
            input.source.step = step;
            let mut output = Teller {
                written: &written,
                ends: Vec::new(),
            };
            assert_eq!(run(&mut input, &mut output), Exit::Done);
            for (given, written) in input.calls {
                let answers = answers_within(dialogue, given);
                assert_eq!(written, answers.len(), "after {given} bytes");
            }
            let mut end = 0;
            for (line, answer) in dialogue {
                end += answer.len();
                assert!(answer.is_empty() || output.ends.contains(&end), "of {line}");
            }
        }
    }
}

// ---- how many read calls a run makes ----

/// The max number of read calls in a run.
const MAX_CALLS: u64 = 100_000_000;

/// Gives long comments, a byte a call, without an end.
struct Endless(u64);

impl Read for Endless {
    fn read(&mut self, bytes: &mut [u8]) -> io::Result<usize> {
        bytes[0] = if self.0 % 4096 < 4095 { b'#' } else { b'\n' };
        self.0 += 1;
        Ok(1)
    }
}

/// Gives so many empty lines, as many bytes a call as it is asked for.
struct EmptyLines(u64);

impl Read for EmptyLines {
    fn read(&mut self, bytes: &mut [u8]) -> io::Result<usize> {
        bytes.fill(b'\n');
        let count = self.0.min(bytes.len() as u64);
        self.0 -= count;
        Ok(count as usize)
    }
}

/// A line that never ends is refused once it is too long.
#[test]
fn line_without_an_end() {
    let mut output = Sink::new();
    assert_eq!(run(&mut io::repeat(b'a'), &mut output), Exit::BadLine);
    assert_eq!(output.text, b"line 1: line too long\n");
}

/// After so many read calls the run ends, though there would be more.
#[test]
fn as_many_calls_as_may_be() {
    let (mut input, mut output) = (Endless(0), Sink::new());
    assert_eq!(run(&mut input, &mut output), Exit::ReadFault);
    assert_eq!((input.0, output.text.len()), (MAX_CALLS, 0));
}

/// Calls count, and not bytes.
#[test]
fn more_bytes_than_calls() {
    let (mut input, mut output) = (EmptyLines(MAX_CALLS + 1), Sink::new());
    assert_eq!(run(&mut input, &mut output), Exit::Done);
    assert_eq!((input.0, output.text.len()), (0, 0));
}

// ---- a thousand layouts, and long lines ----

/// There may be 1024 layouts. Of the next one faults in its words are found first.
#[test]
fn as_many_layouts_as_may_be() {
    let input: String = (0..1024)
        .map(|it| format!("layout n{it} plain\n"))
        .collect();
    let output: String = (0..1024)
        .map(|it| format!("layout n{it} total 0\n"))
        .collect();
    for (line, words) in [
        ("layout more plain", "too many layouts"),
        ("layout more plain sampler", "bad kind"),
        ("layout n1023 plain", "name is taken"),
    ] {
        let output = format!("{output}line 1025: {words}\n");
        expect(
            format!("{input}{line}\n").as_bytes(),
            &output,
            Exit::BadLine,
        );
    }
}

/// A line of this length, with an end: its bytes and then blanks.
fn padded(line: &str, length: usize) -> Vec<u8> {
    let mut bytes = line.as_bytes().to_vec();
    bytes.resize(length, b' ');
    bytes.push(b'\n');
    bytes
}

const TOO_LONG: &str = "line 1: line too long\n";

/// A line has 4096 bytes at most, a comment too. Its line feed doesn't count.
#[test]
fn long_lines() {
    for (line, length, output, exit) in [
        ("layout s plain", 4096, "layout s total 0\n", Exit::Done),
        ("layout s plain", 4097, TOO_LONG, Exit::BadLine),
        ("# note", 4096, "", Exit::Done),
        ("# note", 4097, TOO_LONG, Exit::BadLine),
        ("unknown", 4097, TOO_LONG, Exit::BadLine),
        ("# note", 70000, TOO_LONG, Exit::BadLine),
    ] {
        let input = padded(line, length);
        expect(&input, output, exit);
        expect(&input[..length], output, exit);
    }
}

#[test]
fn return_counts_to_the_length() {
    let line = format!("{:4095}\r\n", "# note");
    expect(line.as_bytes(), "", Exit::Done);
    expect(format!(" {line}").as_bytes(), TOO_LONG, Exit::BadLine);
}

/// The byte after the 4096th is the last one that is read.
#[test]
fn rest_of_a_long_line_is_not_read() {
    let bytes = padded("# note", 4097);
    for (behind, exit) in [(4096, Exit::ReadFault), (4097, Exit::BadLine)] {
        let mut input = Source::new(&bytes);
        input.step = 1;
        input.stop = Stop {
            behind,
            failure: Some(ErrorKind::Other),
        };
        assert_eq!(run(&mut input, &mut Sink::new()), exit);
    }
}
