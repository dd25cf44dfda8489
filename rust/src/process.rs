//! Runs a program on a script, and trusts it in nothing: it has a process group of its own, so that it is ended with all
//! that it started; it has so much time; and only so much of its output is kept. Ctrl-C, or a request to end, ends it too.

use std::fs::File;
use std::io::{self, Read};
use std::os::unix::process::{CommandExt, ExitStatusExt};
use std::process::{Command, ExitStatus, Stdio};
use std::sync::atomic::{AtomicBool, Ordering};
use std::sync::mpsc::{channel, Receiver};
use std::thread;
use std::time::{Duration, Instant};

/// Far more than a script can make a machine print, 48,986 bytes.
pub const MOST_PRINTED: usize = 1 << 20;

/// How often a request to end is looked for, and how long what was killed may take to go.
const LOOK: Duration = Duration::from_millis(50);
const GOING: Duration = Duration::from_secs(5);

const INTERRUPT: i32 = 2;
const KILL: i32 = 9;
const TERMINATE: i32 = 15;

// What std has no name for; it links the C library that does.
extern "C" {
    fn kill(process: i32, signal: i32) -> i32;
    fn setpgid(process: i32, group: i32) -> i32;
    fn signal(number: i32, handler: extern "C" fn(i32)) -> usize;
}

static INTERRUPTED: AtomicBool = AtomicBool::new(false);

extern "C" fn interrupt(_: i32) {
    INTERRUPTED.store(true, Ordering::SeqCst);
}

/// From now on Ctrl-C and a request to end are only noted, so that what was found so far can still be told.
pub fn note_interrupts() {
    for number in [INTERRUPT, TERMINATE] {
        // the handler only stores, which a handler may do
        unsafe { signal(number, interrupt) };
    }
}

pub fn interrupted() -> bool {
    INTERRUPTED.load(Ordering::SeqCst)
}

#[derive(Clone, Copy, Debug, PartialEq)]
pub enum Ending {
    Status(i32),
    Signal(i32),
    OutOfTime,
    TooMuch,
    Interrupted,
}

pub struct Played {
    pub printed: Vec<u8>,
    pub ending: Ending,
}

type Ended = (Vec<u8>, io::Result<ExitStatus>);

fn end(group: i32) {
    // the group is the program's own, so nothing else is ended
    unsafe { kill(-group, KILL) };
}

fn start(command: &[String], script: File) -> io::Result<(i32, Receiver<Ended>)> {
    let mut program = Command::new(&command[0]);
    program.args(&command[1..]).stdin(script).stdout(Stdio::piped());
    // a plain system call, which is allowed between the new process's start and its program's
    unsafe { program.pre_exec(|| if setpgid(0, 0) == 0 { Ok(()) } else { Err(io::Error::last_os_error()) }) };
    let mut child = program.spawn()?;
    let group = child.id() as i32;
    let output = child.stdout.take().expect("its output is piped");
    let (tell, told) = channel();
    thread::spawn(move || {
        let mut printed = Vec::new();
        // what was read before an error counts, and shows as a difference
        let _ = output.take(MOST_PRINTED as u64 + 1).read_to_end(&mut printed);
        if printed.len() > MOST_PRINTED {
            end(group);
        }
        let _ = tell.send((printed, child.wait()));
    });
    Ok((group, told))
}

fn ending_of(printed: &[u8], status: ExitStatus) -> Ending {
    match status.code() {
        _ if printed.len() > MOST_PRINTED => Ending::TooMuch,
        Some(code) => Ending::Status(code),
        None => Ending::Signal(status.signal().unwrap_or(0)),
    }
}

/// What a program prints on a script, and how it ended.
pub fn play(command: &[String], script: File, limit: Duration) -> io::Result<Played> {
    let (group, told) = start(command, script)?;
    let started = Instant::now();
    loop {
        if let Ok((printed, status)) = told.recv_timeout(LOOK) {
            return Ok(Played { ending: ending_of(&printed, status?), printed });
        }
        let out_of_time = started.elapsed() >= limit;
        if out_of_time || interrupted() {
            end(group);
            let printed = told.recv_timeout(GOING).map_or(Vec::new(), |(printed, _)| printed);
            return Ok(Played { printed, ending: if out_of_time { Ending::OutOfTime } else { Ending::Interrupted } });
        }
    }
}
