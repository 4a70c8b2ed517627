//! The host call against the second computation.

use std::ops::Range;
use std::thread;

use sheet::generate::factors::{around_powers_of_two, EXAMPLES};
use sheet::generate::random::Random;
use sheet::second::factors::{gain_of_factor, table, TooLarge, LARGEST, TENTHS};
use sheet::second::values::Gain;

use crate::met::{Answer, Met};

/// How many threads compare factors.
const THREADS: u32 = 2;
/// Up to here every factor is compared: some beyond the largest.
const FACTORS: u32 = LARGEST + 20_000;
/// How many numbers of 32 bits are compared at random.
const RANDOM: usize = 500_000;

/// What the host call gives.
fn proved(factor: u32) -> Answer {
    match host::gain_of_factor(factor) {
        Ok(host::Gain::Silent) => Ok(Gain::Silent),
        Ok(host::Gain::Tenths(tenths)) => Ok(Gain::Tenths(tenths)),
        Err(refusal) => Err(refusal.number()),
    }
}

/// The answer to a factor, which both must give.
fn compared(factor: u32) -> Answer {
    let (proved, second) = (proved(factor), gain_of_factor(factor).map_err(TooLarge::number));
    assert!(proved == second, "factor {factor}: proved {proved:?}, second {second:?}");
    second
}

/// What the factors met; those with one answer, which follow one another, are counted together.
fn compare(factors: Range<u32>) -> Met {
    let mut met = Met::default();
    let mut run = (compared(factors.start), 0);
    for factor in factors {
        let answer = compared(factor);
        if answer != run.0 {
            met.add(run.0, run.1);
            run = (answer, 0);
        }
        run.1 += 1;
    }
    met.add(run.0, run.1);
    met
}

#[test]
fn every_factor() {
    let part = FACTORS / THREADS + 1;
    let mut met = Met::default();
    thread::scope(|scope| {
        let of_thread = |number| scope.spawn(move || compare(number * part..(number + 1) * part));
        let threads: Vec<_> = (0..THREADS).map(of_thread).collect();
        for thread in threads {
            met.add_all(thread.join().expect("a difference, which is said above"));
        }
    });
    let (factors, answers, never_met) = (met.factors(), met.answers(), met.never_met());
    println!("every factor: {factors}, {answers} answers, no difference, never met: {never_met:?}");
    assert!(factors > FACTORS as usize);
    assert_eq!((answers, never_met.len()), (811 + 2, 0), "an answer was never met");
}

/// The entry of each tenth has that tenth, the factor after it the next.
#[test]
fn each_entry_and_the_factor_after_it() {
    for (tenth, &entry) in TENTHS.zip(table()) {
        let next = if tenth < 210 { Ok(Gain::Tenths(tenth + 1)) } else { Err(34) };
        assert_eq!(compared(entry), Ok(Gain::Tenths(tenth)), "{entry}");
        assert_eq!(compared(entry + 1), next, "{entry} + 1");
    }
    println!("entries and the factors after them: {} tenths, no difference", TENTHS.count());
}

#[test]
fn examples_powers_of_two_and_random_numbers() {
    let mut random = Random::new(2168);
    let chosen = [&EXAMPLES[..], &around_powers_of_two()].concat();
    let factors = chosen.into_iter().chain((0..RANDOM).map(|_| random.bits() as u32));
    let number = factors.map(compared).count();
    println!("examples, powers of two and random numbers: {number} factors, no difference");
}
