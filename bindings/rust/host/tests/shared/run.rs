//! Runs a program.

use std::io::Read;
use std::path::Path;
use std::process::{Child, Command, ExitStatus, Stdio};
use std::thread;
use std::time::{Duration, Instant};

use super::built;
use super::difference::first_difference;
use super::input::Input;

/// How long a program may run.
const DEADLINE: Duration = Duration::from_secs(60);
/// How long to wait between two looks whether it has ended.
const PAUSE: Duration = Duration::from_micros(200);

/// What a run of a program came to.
pub struct Run {
    /// How the program ended.
    pub status: ExitStatus,
    time: Duration,
    output: String,
    errors: String,
    /// Whether the input could be written to its end.
    pub input_taken: bool,
}

impl Run {
    /// Fails unless the program ended well and said just this; gives the number of lines.
    pub fn must_say(&self, second: &str, what: &str) -> usize {
        self.must_have_ended(what);
        assert!(self.errors.is_empty(), "{what}: standard error {:?}", self.errors);
        if let Some(difference) = first_difference(second, &self.output) {
            panic!("{what}: {difference}");
        }
        assert!(self.status.success(), "{what}: {}", self.status);
        second.lines().count()
    }

    /// Fails unless the program said one line only, on standard error, that starts so.
    pub fn must_complain(&self, start: &str, what: &str) {
        self.must_have_ended(what);
        let Run { output, errors, .. } = self;
        assert!(output.is_empty(), "{what}: standard output {output:?}, standard error {errors:?}");
        let one_line = errors.ends_with('\n') && errors.lines().count() == 1;
        assert!(
            one_line && errors.starts_with(start),
            "{what}: standard error {errors:?}, which is not one line that starts with {start:?}"
        );
    }

    /// The same, and the program must have ended with status 0.
    #[allow(dead_code)]
    pub fn must_complain_with_status_0(&self, start: &str, what: &str) {
        self.must_complain(start, what);
        assert!(self.status.success(), "{what}: {}", self.status);
    }

    /// Fails if a signal ended the program, among them the one at the deadline.
    fn must_have_ended(&self, what: &str) {
        let Run { status, time, .. } = self;
        assert!(status.code().is_some(), "{what}: {status} after {time:.1?}");
    }
}

/// A program of this repository with its arguments.
pub fn program(name: &str, arguments: &[&str]) -> Command {
    let mut command =
        Command::new(built::program(name).unwrap_or_else(|missing| panic!("{missing}")));
    command.args(arguments);
    command
}

/// The same, run in a folder.
pub fn program_in(folder: &Path, name: &str, arguments: &[&str]) -> Command {
    let mut command = program(name, arguments);
    command.current_dir(folder);
    command
}

/// Runs a program on an input.
pub fn run(command: Command, input: Input) -> Run {
    run_into(Stdio::piped(), command, input)
}

/// Runs a program on an input, with its standard output elsewhere.
pub fn run_into(output: Stdio, mut command: Command, input: Input) -> Run {
    let start = Instant::now();
    command.stdin(input.end).stdout(output).stderr(Stdio::piped());
    let mut child = command.spawn().expect("the program can be started");
    // it holds the program's end of the input: writing would go on after the program's end
    drop(command);
    let (output, errors) = (child.stdout.take(), child.stderr.take());
    thread::scope(|scope| {
        let feed = scope.spawn(input.feed);
        let output = scope.spawn(|| text(output));
        let errors = scope.spawn(|| text(errors));
        Run {
            status: wait(&mut child, start + DEADLINE),
            time: start.elapsed(),
            output: output.join().expect("standard output can be read"),
            errors: errors.join().expect("standard error can be read"),
            input_taken: feed.join().expect("the input can be written").is_ok(),
        }
    })
}

/// All that comes from there.
fn text(from: Option<impl Read>) -> String {
    let mut bytes = Vec::new();
    if let Some(mut from) = from {
        from.read_to_end(&mut bytes).expect("a pipe can be read");
    }
    String::from_utf8_lossy(&bytes).into_owned()
}

/// Waits for the program's end, and ends it at the deadline.
fn wait(child: &mut Child, deadline: Instant) -> ExitStatus {
    while Instant::now() < deadline {
        if let Some(status) = child.try_wait().expect("the program was started") {
            return status;
        }
        thread::sleep(PAUSE);
    }
    child.kill().and_then(|()| child.wait()).expect("the program can be ended")
}
