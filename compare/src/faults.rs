//! The program `sheet` where its input or its output fails. What it has printed
//! is then the beginning of the sheet, in whole lines and without the last one,
//! and standard error has one line that says why.

use crate::harness::{Check, Run};
use crate::sheet::{program, removals, sheet_of};
use std::fs::{File, OpenOptions};
use std::io::{PipeReader, PipeWriter, Read, Write, pipe};
use std::os::fd::{AsRawFd, FromRawFd, RawFd};
use std::os::unix::fs::OpenOptionsExt;
use std::os::unix::process::{CommandExt, ExitStatusExt};
use std::process::{Child, Command, Stdio};
use std::time::{Duration, Instant};

mod c {
    use std::ffi::{c_char, c_int};

    unsafe extern "C" {
        pub safe fn posix_openpt(flags: c_int) -> c_int;
        pub safe fn grantpt(fd: c_int) -> c_int;
        pub safe fn unlockpt(fd: c_int) -> c_int;
        pub fn ptsname_r(fd: c_int, name: *mut c_char, len: usize) -> c_int;
        pub fn tcgetattr(fd: c_int, settings: *mut [u64; 8]) -> c_int;
        pub fn cfmakeraw(settings: *mut [u64; 8]);
        pub fn tcsetattr(fd: c_int, when: c_int, settings: *const [u64; 8]) -> c_int;
        pub safe fn fcntl(fd: c_int, command: c_int, value: c_int) -> c_int;
        pub safe fn close(fd: c_int) -> c_int;
        pub safe fn signal(signal: c_int, handler: usize) -> usize;
    }
    pub const O_RDWR: c_int = 2;
    pub const O_NOCTTY: c_int = 0o400;
    pub const O_CLOEXEC: c_int = 0o2_000_000;
    pub const O_NONBLOCK: c_int = 0o4000;
    pub const F_SETFL: c_int = 4;
    pub const SIGPIPE: c_int = 13;
    pub const SIG_IGN: usize = 1;
    pub const EIO: i32 = 5;
    pub const EBADF: i32 = 9;
    pub const EAGAIN: i32 = 11;
    pub const EISDIR: i32 = 21;
    pub const ENOSPC: i32 = 28;
    pub const EPIPE: i32 = 32;
}

const INPUT: &str = "standard input";
const OUTPUT: &str = "standard output";
/// No wait is longer.
const PATIENCE: Duration = Duration::from_secs(30);

pub fn run(run: &mut Run) {
    run.check("sheet, writes that fail", writes_that_fail);
    run.check("sheet, reads that fail", reads_that_fail);
    run.check("sheet, terminals that hang up", terminals_that_hang_up);
    run.check("sheet, input byte by byte", input_byte_by_byte);
    run.check("sheet, lines as they are made", lines_as_they_are_made);
}

// ---- terminals

/// A terminal's two ends: what is typed and seen, and what a program has.
struct Terminal {
    user: File,
    program: File,
}

fn terminal(raw: bool) -> Terminal {
    let user = c::posix_openpt(c::O_RDWR | c::O_NOCTTY | c::O_CLOEXEC);
    assert!(user >= 0 && c::grantpt(user) == 0 && c::unlockpt(user) == 0);
    let mut name = [0; 64];
    // SAFETY: `name` has the length that is told.
    assert_eq!(0, unsafe {
        c::ptsname_r(user, name.as_mut_ptr(), name.len())
    });
    let name: Vec<u8> = name
        .iter()
        .map(|&b| b as u8)
        .take_while(|&b| b != 0)
        .collect();
    let program = OpenOptions::new()
        .read(true)
        .write(true)
        .custom_flags(c::O_NOCTTY)
        .open(String::from_utf8(name).expect("a path"))
        .expect("the terminal opens");
    if raw {
        let mut settings = [0; 8];
        // SAFETY: a `termios` has 60 bytes.
        let set = unsafe {
            c::tcgetattr(program.as_raw_fd(), &mut settings);
            c::cfmakeraw(&mut settings);
            c::tcsetattr(program.as_raw_fd(), 0, &settings)
        };
        assert_eq!(0, set);
    }
    // SAFETY: `user` was just opened, and nobody else has it.
    let user = unsafe { File::from_raw_fd(user) };
    Terminal { user, program }
}

fn never_wait(fd: RawFd) {
    assert_eq!(0, c::fcntl(fd, c::F_SETFL, c::O_NONBLOCK));
}

/// Reads so many bytes, or fewer where they don't come; `file` never waits.
fn wait_for(file: &mut impl Read, bytes: usize) -> Vec<u8> {
    let (start, mut all) = (Instant::now(), Vec::new());
    while all.len() < bytes && start.elapsed() < PATIENCE {
        let mut some = [0; 256];
        match file.read(&mut some) {
            Ok(0) => break,
            Ok(n) => all.extend(&some[..n]),
            Err(_) => std::thread::sleep(Duration::from_millis(1)),
        }
    }
    all
}

// ---- the program

fn sheet(input: impl Into<Stdio>, output: impl Into<Stdio>) -> Command {
    let mut command = Command::new(program("sheet"));
    command.stdin(input).stdout(output).stderr(Stdio::piped());
    command
}

/// With something done between its start and its first instruction.
fn prepared(mut command: Command, prepare: fn()) -> Command {
    // SAFETY: what is done is a call of `close` or `signal`.
    unsafe {
        command.pre_exec(move || {
            prepare();
            Ok(())
        });
    }
    command
}

fn start(mut command: Command) -> Child {
    // The pipes' ends that the command holds are closed with it.
    command.spawn().expect("the program starts")
}

/// What it says on standard error once it has ended, and the signal that ended it.
fn ended(mut child: Child) -> (String, Option<i32>) {
    let start = Instant::now();
    let status = loop {
        if let Some(status) = child.try_wait().expect("its status is known") {
            break status;
        }
        if start.elapsed() > PATIENCE {
            drop(child.kill());
            panic!("the program doesn't end");
        }
        std::thread::sleep(Duration::from_millis(1));
    };
    let mut said = String::new();
    let mut pipe = child.stderr.take().expect("standard error is piped");
    pipe.read_to_string(&mut said).expect("it says text");
    (said, status.signal())
}

/// The line that says why a read or a write failed.
fn line(side: &str, error: i32) -> String {
    let error = std::io::Error::from_raw_os_error(error).to_string();
    let (text, _) = error.split_once(" (os").expect("the error has a number");
    format!("sheet: {side}: {text}\n")
}

/// A card, what was printed of its sheet, and what was said.
struct Seen<'a> {
    what: &'a str,
    card: &'a [u8],
    printed: Vec<u8>,
    said: String,
}

impl Seen<'_> {
    /// What was printed is the beginning of the sheet in whole lines, at least
    /// so many, without the last one; and the line of this failure was said.
    fn is_cut(&self, check: &mut Check, lines: usize, side: &str, error: i32) {
        let (whole, expected) = (sheet_of(self.card), line(side, error));
        let printed = String::from_utf8_lossy(&self.printed);
        let last = whole.trim_end().rfind('\n').expect("it has two lines") + 1;
        let is_cut = whole[..last].starts_with(&*printed)
            && (printed.is_empty() || printed.ends_with('\n'))
            && printed.lines().count() >= lines;
        check.holds(is_cut && self.said == expected, || {
            let Self { what, said, .. } = self;
            format!("  {what}\n  printed {printed:?}\n  said {said:?}, expected {expected:?}\n")
        });
    }

    /// What was printed is the sheet, and nothing was said.
    fn is_whole(&self, check: &mut Check) {
        let is_whole = self.printed == sheet_of(self.card).as_bytes() && self.said.is_empty();
        check.holds(is_whole, || {
            let printed = String::from_utf8_lossy(&self.printed);
            let Self { what, said, .. } = self;
            format!("  {what}\n  printed {printed:?}\n  said {said:?}\n")
        });
    }
}

/// A pipe that has a short card, and what keeps it open.
fn piped(card: &[u8]) -> (PipeReader, PipeWriter) {
    let (reader, mut writer) = pipe().expect("a pipe");
    writer.write_all(card).expect("the pipe takes it");
    (reader, writer)
}

fn all_of(mut reader: impl Read) -> Vec<u8> {
    let mut printed = Vec::new();
    reader.read_to_end(&mut printed).expect("the pipe is read");
    printed
}

/// The program on this input, its output read afterwards.
fn seen<'a>(what: &'a str, card: &'a [u8], command: impl FnOnce(Stdio) -> Command) -> Seen<'a> {
    let (from, to) = pipe().expect("a pipe");
    let (said, _) = ended(start(command(to.into())));
    let printed = all_of(from);
    Seen {
        what,
        card,
        printed,
        said,
    }
}

// ---- writes

/// The program on a short card, with an output that takes nothing.
fn nothing_taken(
    check: &mut Check,
    what: &str,
    output: impl Into<Stdio>,
    prepare: fn(),
    error: i32,
) {
    let card = removals(3);
    let (said, _) = ended(start(prepared(sheet(piped(&card).0, output), prepare)));
    let (card, printed) = (&card[..], Vec::new());
    let seen = Seen {
        what,
        card,
        printed,
        said,
    };
    seen.is_cut(check, 0, OUTPUT, error);
}

/// The end for writing of a pipe that nobody reads.
fn unread() -> PipeWriter {
    let (reader, writer) = pipe().expect("a pipe");
    drop(reader);
    // Another thread's child may hold it until it is started.
    std::thread::sleep(Duration::from_millis(20));
    writer
}

/// A pipe that doesn't wait is full before the sheet ends.
fn full_pipe(check: &mut Check, records: usize) {
    let card = removals(records);
    let (input, mut feed) = pipe().expect("a pipe");
    let bytes = card.clone();
    let feeder = std::thread::spawn(move || drop(feed.write_all(&bytes)));
    let (from, to) = pipe().expect("a pipe");
    never_wait(to.as_raw_fd());
    let (said, _) = ended(start(sheet(input, to)));
    feeder.join().expect("the card was handed over");
    let (what, card, printed) = ("full pipe", &card[..], all_of(from));
    let seen = Seen {
        what,
        card,
        printed,
        said,
    };
    seen.is_cut(check, 100, OUTPUT, c::EAGAIN);
}

fn writes_that_fail(check: &mut Check) {
    let full = OpenOptions::new().write(true).open("/dev/full");
    let full = full.expect("/dev/full opens");
    nothing_taken(check, "/dev/full", full, || (), c::ENOSPC);
    let close: fn() = || {
        c::close(1);
    };
    nothing_taken(check, "closed", Stdio::null(), close, c::EBADF);
    let ignore: fn() = || {
        c::signal(c::SIGPIPE, c::SIG_IGN);
    };
    nothing_taken(check, "unread pipe", unread(), ignore, c::EPIPE);
    // A program of today's kit ignores that signal from its start, so by default it says the same.
    nothing_taken(check, "unread pipe, by default", unread(), || (), c::EPIPE);
    let Terminal { user, program } = terminal(true);
    drop(user);
    nothing_taken(check, "terminal", program, || (), c::EIO);
    full_pipe(check, 20_000);
    full_pipe(check, 60_000);
}

// ---- reads

/// The lines that the first bytes of a card of removals make, with the header.
fn lines_of(length: usize) -> usize {
    1 + length.saturating_sub(1) / 9
}

fn reads_that_fail(check: &mut Check) {
    let folder = File::open("/").expect("a folder opens");
    let seen_folder = seen("folder", &[], |to| sheet(folder, to));
    seen_folder.is_cut(check, 1, INPUT, c::EISDIR);
    let close: fn() = || {
        c::close(0);
    };
    let closed = seen("closed", &[], |to| {
        prepared(sheet(Stdio::null(), to), close)
    });
    closed.is_cut(check, 1, INPUT, c::EBADF);
    // A pipe that doesn't wait, with the beginning of a card: every length of it.
    let card = removals(3);
    for length in 0..=card.len() {
        let (reader, held) = piped(&card[..length]);
        never_wait(reader.as_raw_fd());
        let seen = seen("empty pipe", &card, |to| sheet(reader, to));
        drop(held);
        seen.is_cut(check, lines_of(length), INPUT, c::EAGAIN);
    }
}

/// A terminal hangs up behind so many bytes: once so many lines have come.
fn hangs_up(check: &mut Check, card: &[u8], length: usize, lines: usize) {
    let Terminal { mut user, program } = terminal(true);
    let (mut from, to) = pipe().expect("a pipe");
    never_wait(from.as_raw_fd());
    user.write_all(&card[..length]).expect("it is typed");
    let child = start(sheet(program, to));
    let whole = sheet_of(card);
    let first = whole.split_inclusive('\n').take(lines).map(str::len).sum();
    let mut printed = wait_for(&mut from, first);
    drop(user);
    let (said, _) = ended(child);
    printed.extend(wait_for(&mut from, usize::MAX));
    let what = "terminal";
    let seen = Seen {
        what,
        card,
        printed,
        said,
    };
    seen.is_cut(check, lines, INPUT, c::EIO);
}

/// A terminal hangs up behind every number of a card's bytes: while the program
/// waits for more, at some moment after its start, and before it.
fn terminals_that_hang_up(check: &mut Check) {
    let card = removals(3);
    for length in 0..=card.len() {
        hangs_up(check, &card, length, lines_of(length));
        hangs_up(check, &card, length, 1);
        let Terminal { user, program } = terminal(true);
        drop(user);
        let seen = seen("no terminal", &card, |to| sheet(program, to));
        seen.is_cut(check, 1, INPUT, c::EIO);
    }
}

// ---- whole sheets

fn input_byte_by_byte(check: &mut Check) {
    for (card, pause) in [(removals(4), 2), (removals(300), 0)] {
        let (input, mut feed) = pipe().expect("a pipe");
        let (mut from, to) = pipe().expect("a pipe");
        never_wait(from.as_raw_fd());
        let child = start(sheet(input, to));
        // It has started, and waits for the first byte.
        let mut printed = wait_for(&mut from, "sheet 1\n".len());
        for byte in &card {
            feed.write_all(&[*byte]).expect("the program reads");
            std::thread::sleep(Duration::from_millis(pause));
        }
        drop(feed);
        printed.extend(wait_for(&mut from, usize::MAX));
        let (said, _) = ended(child);
        let (what, card) = ("byte by byte", &card[..]);
        let seen = Seen {
            what,
            card,
            printed,
            said,
        };
        seen.is_whole(check);
    }
    // A terminal whose user types the version byte and ends the input.
    let Terminal { mut user, program } = terminal(false);
    user.write_all(&[1, 4, 4]).expect("it is typed");
    let typed = seen("typed", &[1], |to| sheet(program, to));
    drop(user);
    typed.is_whole(check);
}

/// Each record is handed over only when the lines before it have come.
fn lines_as_they_are_made(check: &mut Check) {
    let card = removals(5);
    let expected = sheet_of(&card);
    for to_terminal in [false, true] {
        let (input, mut feed) = pipe().expect("a pipe");
        let (child, mut from): (Child, Box<dyn Read>) = if to_terminal {
            let Terminal { user, program } = terminal(true);
            never_wait(user.as_raw_fd());
            (start(sheet(input, program)), Box::new(user))
        } else {
            let (from, to) = pipe().expect("a pipe");
            never_wait(from.as_raw_fd());
            (start(sheet(input, to)), Box::new(from))
        };
        let (mut lines, mut printed) = (expected.split_inclusive('\n'), Vec::new());
        let mut next = |check: &mut Check| {
            let line = lines.next().expect("a line more");
            let came = wait_for(&mut from, line.len());
            check.holds(came == line.as_bytes(), || {
                let came = String::from_utf8_lossy(&came);
                format!("  line by line: {came:?} came, expected {line:?}\n")
            });
            printed.extend(came);
        };
        next(check);
        feed.write_all(&card[..1]).expect("the program reads");
        for record in card[1..].chunks(9) {
            feed.write_all(record).expect("the program reads");
            next(check);
        }
        drop(feed);
        next(check);
        let (said, _) = ended(child);
        let (what, card) = ("line by line", &card[..]);
        let seen = Seen {
            what,
            card,
            printed,
            said,
        };
        seen.is_whole(check);
    }
}
