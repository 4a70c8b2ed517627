//! The time of the check of block times: of the host call, of the second implementation written for
//! speed and of the plain one, on the same lists in one process.

use std::hint::black_box;
use std::time::{Duration, Instant};

use sheet::generate::frames::many;
use sheet::{fast, second};

use crate::timer::{quotient, shown};

/// The three take turns on a list until so much time is gone.
const TURNS: Duration = Duration::from_millis(500);
/// A turn calls until it had about so many blocks.
const BLOCKS: usize = 200_000;

/// A frame length and numbers.
type List = (u32, Vec<u32>);

/// Prints a row for each list.
pub fn print_table() {
    println!("\nleast time for a list of blocks, warm");
    let heads = ["proved", "fast", "plain", "to fast", "to plain"];
    print_row("block times of a live frame", heads.map(String::from));
    for blocks in [1, 12, 1_000, 100_000] {
        for (name, list) in lists(blocks) {
            let calls = BLOCKS.div_ceil(blocks) as u32;
            let turns = least_times(calls, &list);
            let [proved, fast, plain] = turns.map(|turn| shown(Some(turn / calls)));
            let [to_fast, to_plain] =
                [turns[1], turns[2]].map(|other| quotient(Some(turns[0]), Some(other)));
            print_row(
                &format!("{blocks} blocks, {name}"),
                [proved, fast, plain, to_fast, to_plain],
            );
        }
    }
}

fn print_row(name: &str, cells: [String; 5]) {
    println!("{name:<60}{}", cells.map(|cell| format!(" {cell:>11}")).concat());
}

/// Accepted, and broken at the end and near the start.
fn lists(blocks: usize) -> Vec<(&'static str, List)> {
    let (plan, last) = (many(blocks), blocks - 1);
    let start = plan.blocks[last].start + 1;
    let mut lists = vec![
        ("accepted", plan.clone()),
        ("a bad last start", plan.clone().with_start(last, start)),
        ("another total", plan.clone().in_frame(plan.frame + 1)),
    ];
    if blocks > 1 {
        let shorter = many(last);
        lists.push(("an initialising block last", shorter.clone().with_block(last, 0, 0, 1)));
        lists.push(("an initialising block second", shorter.with_block(1, 0, 0, 1)));
    }
    lists.into_iter().map(|(name, plan)| (name, (plan.frame, plan.numbers()))).collect()
}

/// The least time of each for so many calls: proved, fast, plain.
fn least_times(calls: u32, list: &List) -> [Duration; 3] {
    let (mut least, start) = ([Duration::MAX; 3], Instant::now());
    while start.elapsed() < TURNS {
        let times = [
            turn(calls, list, host::check_frame),
            turn(calls, list, fast::frames::check),
            turn(calls, list, second::frames::check),
        ];
        for (least, time) in least.iter_mut().zip(times) {
            *least = time.min(*least);
        }
    }
    least
}

fn turn<Verdict>(
    calls: u32,
    (frame, numbers): &List,
    check: impl Fn(u32, &[u32]) -> Verdict,
) -> Duration {
    let start = Instant::now();
    for _ in 0..calls {
        black_box(check(black_box(*frame), black_box(numbers)));
    }
    start.elapsed()
}
