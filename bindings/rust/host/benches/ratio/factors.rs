//! The time of the gain of a plain factor: of the host call and of the second computation written
//! for speed, on the same factors in one process.

use std::hint::black_box;
use std::time::{Duration, Instant};

use sheet::fast;
use sheet::generate::factors::spread;
use sheet::generate::random::Random;
use sheet::second::factors::LARGEST;

use crate::timer::{quotient, shown};

/// The two take turns until so much time is gone.
const TURNS: Duration = Duration::from_secs(2);
/// How many factors a turn has.
const FACTORS: usize = 1_000_000;

/// Prints a row for factors of which all tenths have as many, and one for factors of which all
/// numbers have as many. Neither are in order.
pub fn print_table() {
    println!("\nleast time for {FACTORS} factors");
    print_row("gains of plain factors", ["proved", "fast", "to fast"].map(String::from));
    let mut random = Random::new(2168);
    let by_tenths: Vec<u32> = (0..FACTORS).map(|_| spread(&mut random)).collect();
    let by_numbers = (0..FACTORS).map(|_| random.between(0, LARGEST as usize) as u32).collect();
    for (name, factors) in [("all tenths alike", by_tenths), ("all numbers alike", by_numbers)] {
        let [proved, fast] = least_times(&factors).map(Some);
        print_row(name, [shown(proved), shown(fast), quotient(proved, fast)]);
    }
}

fn print_row(name: &str, times: [String; 3]) {
    println!("{name:<60}{}", times.map(|time| format!(" {time:>11}")).concat());
}

/// The least time of each in its turns.
fn least_times(factors: &[u32]) -> [Duration; 2] {
    let (mut least, start) = ([Duration::MAX; 2], Instant::now());
    while start.elapsed() < TURNS {
        let times =
            [turn(factors, host::gain_of_factor), turn(factors, fast::factors::gain_of_factor)];
        for (least, time) in least.iter_mut().zip(times) {
            *least = time.min(*least);
        }
    }
    least
}

fn turn<Gain>(factors: &[u32], gain_of_factor: impl Fn(u32) -> Gain) -> Duration {
    let start = Instant::now();
    for &factor in factors {
        black_box(gain_of_factor(black_box(factor)));
    }
    start.elapsed()
}
