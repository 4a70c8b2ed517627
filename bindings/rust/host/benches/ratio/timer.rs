//! The times of the checkers on one sheet, taken in a process of their own.

use std::hint::black_box;
use std::io::{self, BufRead, BufReader, Read, Write};
use std::process::{Child, Command, Stdio};
use std::sync::mpsc::{self, Receiver, RecvTimeoutError};
use std::time::{Duration, Instant};
use std::{env, thread};

use sheet::{fast, second};

/// A checker that takes longer on one sheet isn't waited for.
pub const LIMIT: Duration = Duration::from_secs(20);
/// Calls are repeated until they take so long together: short, so that some rounds pass without
/// another program on the core.
const ROUND: Duration = Duration::from_millis(2);
/// A checker's turn: rounds for so long, one at least, of which the least time counts.
const TURN: Duration = Duration::from_millis(40);
/// The first argument of the process that times one sheet, which it reads from standard input, and
/// the list after it.
const TIME_ONE: &str = "--time-one";

/// The least time of each checker, where it keeps to the limit.
pub struct Times {
    pub proved: Option<Duration>,
    pub fast: Option<Duration>,
    pub plain: Option<Duration>,
}

/// A time to print.
pub fn shown(time: Option<Duration>) -> String {
    time.map_or(format!("over {LIMIT:?}"), |time| format!("{time:.1?}"))
}

/// The proved checker's time by another's, to print.
pub fn quotient(proved: Option<Duration>, other: Option<Duration>) -> String {
    let quotient = |other: Duration| proved.unwrap_or(LIMIT).as_secs_f64() / other.as_secs_f64();
    match (proved, other) {
        (Some(_), Some(other)) => format!("{:.1}", quotient(other)),
        (None, Some(other)) => format!("over {:.0}", quotient(other)),
        (_, None) => "unknown".to_string(),
    }
}

/// The times on a sheet and its list, the least that each checker takes in its turns.
pub fn least_times(
    sheet: &[u8],
    langs: &[u8],
    turns: Duration,
    with_proved: bool,
) -> io::Result<Times> {
    let request = Request { turns, with_proved, sheet_len: sheet.len() };
    let mut timer = start_timer(&[sheet, langs].concat(), request)?;
    let said = times_said(&mut timer);
    let mut least: [Option<Duration>; 3] = [None; 3];
    loop {
        match said.recv_timeout(LIMIT) {
            Ok((checker, time)) => {
                least[checker] = Some(least[checker].map_or(time, |least| least.min(time)));
            }
            Err(RecvTimeoutError::Timeout) => {
                timer.kill()?;
                timer.wait()?;
                break;
            }
            Err(RecvTimeoutError::Disconnected) => {
                assert!(timer.wait()?.success(), "the timing process has failed");
                break;
            }
        }
    }
    let [fast, plain, proved] = least;
    Ok(Times { proved, fast, plain })
}

/// What the timing process is asked: for how long to take turns, whether with the proved checker,
/// and how many bytes the sheet has.
#[derive(Clone, Copy)]
pub struct Request {
    turns: Duration,
    with_proved: bool,
    sheet_len: usize,
}

/// What this process is asked, if it is one that times.
pub fn request() -> Option<Request> {
    let mut arguments = env::args().skip_while(|argument| argument != TIME_ONE).skip(1);
    let turns = Duration::from_millis(arguments.next()?.parse().ok()?);
    let with_proved = arguments.next()?.parse().ok()?;
    Some(Request { turns, with_proved, sheet_len: arguments.next()?.parse().ok()? })
}

fn start_timer(sheet_and_langs: &[u8], request: Request) -> io::Result<Child> {
    let mut timer = Command::new(env::current_exe()?)
        .arg(TIME_ONE)
        .arg(request.turns.as_millis().to_string())
        .arg(request.with_proved.to_string())
        .arg(request.sheet_len.to_string())
        .stdin(Stdio::piped())
        .stdout(Stdio::piped())
        .spawn()?;
    timer.stdin.take().expect("standard input is piped").write_all(sheet_and_langs)?;
    Ok(timer)
}

/// The checkers and times that the process prints, as it prints them.
fn times_said(timer: &mut Child) -> Receiver<(usize, Duration)> {
    let output = timer.stdout.take().expect("standard output is piped");
    let (sender, receiver) = mpsc::channel();
    thread::spawn(move || {
        let lines = BufReader::new(output).lines().map_while(Result::ok);
        let times = lines.map_while(|line| read_time(&line));
        times.map_while(|time| sender.send(time).ok()).count()
    });
    receiver
}

fn read_time(line: &str) -> Option<(usize, Duration)> {
    let (checker, nanoseconds) = line.split_once(' ')?;
    Some((checker.parse().ok()?, Duration::from_nanos(nanoseconds.parse().ok()?)))
}

/// Prints the number of a checker and its nanoseconds per sheet: of the two in Rust in turn, then
/// of all three, as the proved one may not come back in time.
pub fn time_one(request: Request) -> io::Result<()> {
    let mut sheet = Vec::new();
    io::stdin().read_to_end(&mut sheet)?;
    let langs = sheet.split_off(request.sheet_len);
    let lent = (&sheet[..], &langs[..]);
    let in_rust: [fn(Lent) -> Duration; 2] =
        [|lent| turn(lent, fast::check), |lent| turn(lent, second::check)];
    let proved: fn(Lent) -> Duration = |lent| turn(lent, host::check);
    take_turns(lent, &in_rust, request.turns / 2);
    if request.with_proved {
        take_turns(lent, &[in_rust[0], in_rust[1], proved], request.turns);
    }
    Ok(())
}

/// A sheet and the list lent beside it.
type Lent<'a> = (&'a [u8], &'a [u8]);

fn take_turns(lent: Lent, checkers: &[fn(Lent) -> Duration], turns: Duration) {
    let start = Instant::now();
    while start.elapsed() < turns {
        for (number, time) in checkers.iter().enumerate() {
            println!("{number} {}", time(lent).as_nanos());
        }
    }
}

/// The least time per sheet in one turn.
fn turn<Verdict>(lent: Lent, check: fn(&[u8], &[u8]) -> Verdict) -> Duration {
    let start = Instant::now();
    let mut least = Duration::MAX;
    while least == Duration::MAX || start.elapsed() < TURN {
        least = least.min(round(lent, check));
    }
    least
}

/// The time per sheet in one round: twice as many calls each time, until they take long enough.
fn round<Verdict>((sheet, langs): Lent, check: fn(&[u8], &[u8]) -> Verdict) -> Duration {
    let mut calls = 1;
    loop {
        let start = Instant::now();
        for _ in 0..calls {
            black_box(check(black_box(sheet), black_box(langs)));
        }
        let time = start.elapsed();
        if time >= ROUND {
            return time / calls;
        }
        calls *= 2;
    }
}
