//! Which classes lists of blocks met, and how often.

use std::fmt;

use crate::second::frames::{check, most_blocks, Broken, LEAST_LENGTH};

/// A class, and whether a list is of it.
type Class = (&'static str, bool);

/// How many lists met each class.
pub struct Met(Vec<(&'static str, usize)>);

impl Default for Met {
    fn default() -> Met {
        let all = classes(&Facts::of(0, &[]));
        Met(all.into_iter().map(|(class, _)| (class, 0)).collect())
    }
}

impl Met {
    /// Adds a list.
    pub fn add(&mut self, frame: u32, numbers: &[u32]) {
        let classes = classes(&Facts::of(frame, numbers));
        for ((_, count), (_, met)) in self.0.iter_mut().zip(classes) {
            *count += usize::from(met);
        }
    }

    /// The classes that no list met.
    pub fn never_met(&self) -> Vec<&'static str> {
        self.0.iter().filter(|(_, count)| *count == 0).map(|(class, _)| *class).collect()
    }
}

/// A row for each class.
impl fmt::Display for Met {
    fn fmt(&self, formatter: &mut fmt::Formatter) -> fmt::Result {
        self.0.iter().try_for_each(|(class, number)| writeln!(formatter, "{number:8}  {class}"))
    }
}

/// What there is to say about a list.
struct Facts<'a> {
    frame: u32,
    blocks: &'a [[u32; 3]],
    left_over: &'a [u32],
    verdict: Result<(), Broken>,
    /// The sum before each block, and that of all.
    sums: Vec<u64>,
    /// The blocks that are bad.
    bad: Vec<usize>,
    /// The initialising blocks that aren't first.
    misplaced: Vec<usize>,
    as_many_as_may_be: bool,
}

impl Facts<'_> {
    fn of(frame: u32, numbers: &[u32]) -> Facts<'_> {
        let (blocks, left_over) = numbers.as_chunks();
        let mut sums = vec![0];
        for [_, length, third] in blocks {
            let counted = if *third == 0 { u64::from(*length) } else { 0 };
            sums.push(sums[sums.len() - 1] + counted);
        }
        let is_bad = |&place: &usize| {
            let [start, length, third] = blocks[place];
            third == 0 && (u64::from(start) != sums[place] || is_short(length))
        };
        let places = || 0..blocks.len();
        Facts {
            frame,
            blocks,
            left_over,
            verdict: check(frame, numbers),
            bad: places().filter(is_bad).collect(),
            misplaced: places().skip(1).filter(|&place| blocks[place][2] != 0).collect(),
            as_many_as_may_be: blocks.len() as u128 == most_blocks(frame, numbers),
            sums,
        }
    }

    fn is_accepted(&self) -> bool {
        self.verdict.is_ok()
    }

    fn is(&self, broken: Broken) -> bool {
        self.verdict == Err(broken)
    }

    /// The initialising block that is first.
    fn first(&self) -> Option<&[u32; 3]> {
        self.blocks.first().filter(|[_, _, third]| *third != 0)
    }

    fn total(&self) -> u64 {
        self.sums[self.blocks.len()]
    }

    fn is_total_right(&self) -> bool {
        self.total() == u64::from(self.frame)
    }

    /// Whether one bad block is all that is wrong.
    fn only_bad(&self, is_meant: impl Fn(usize) -> bool) -> bool {
        let alone = self.misplaced.is_empty() && self.left_over.is_empty() && self.is_total_right();
        alone && self.bad.len() == 1 && is_meant(self.bad[0])
    }

    /// The same with a start that is off by this.
    fn only_start_off(&self, off: i128) -> bool {
        let start_less_sum =
            |place: usize| i128::from(self.blocks[place][0]) - i128::from(self.sums[place]);
        self.only_bad(|place| !is_short(self.blocks[place][1]) && start_less_sum(place) == off)
    }

    /// The same with a length.
    fn only_length(&self, length: u32) -> bool {
        self.only_bad(|place| self.is_start_right(place) && self.blocks[place][1] == length)
    }

    fn is_start_right(&self, place: usize) -> bool {
        u64::from(self.blocks[place][0]) == self.sums[place]
    }

    /// Whether an accepted list but for what is left over.
    fn only_left_over(&self, numbers: usize) -> bool {
        let others = self.misplaced.is_empty() && self.bad.is_empty() && self.is_total_right();
        others && !self.blocks.is_empty() && self.left_over.len() == numbers
    }

    /// Whether an accepted list but for the total, which is off by this.
    fn total_off(&self, off: i128) -> bool {
        let total_less_frame = i128::from(self.total()) - i128::from(self.frame);
        self.is(Broken::BadTotal) && !self.blocks.is_empty() && total_less_frame == off
    }

    /// How many blocks that aren't initialising have no length.
    fn zeros(&self) -> usize {
        self.blocks.iter().filter(|[_, length, third]| *length == 0 && *third == 0).count()
    }

    fn has(&self, length: u32) -> bool {
        self.blocks.iter().any(|block| block[1] == length && block[2] == 0)
    }
}

fn is_short(length: u32) -> bool {
    length != 0 && length < LEAST_LENGTH
}

fn is_unusual(third: u32) -> bool {
    third > 1
}

fn classes(facts: &Facts) -> Vec<Class> {
    let kinds = [answers(facts), accepted(facts), misplaced(facts), left_over(facts)];
    let others = [lengths(facts), starts(facts), totals(facts)];
    kinds.into_iter().chain(others).flatten().collect()
}

fn answers(facts: &Facts) -> Vec<Class> {
    vec![
        ("accepted", facts.is_accepted()),
        ("35", facts.is(Broken::InitialisingNotFirst)),
        ("36", facts.is(Broken::BadBlock)),
        ("37", facts.is(Broken::BadTotal)),
    ]
}

fn accepted(facts: &Facts) -> Vec<Class> {
    let (accepted, blocks) = (facts.is_accepted(), facts.blocks.len());
    let first = facts.first();
    let any = |is_meant: &dyn Fn(&[u32; 3]) -> bool| first.is_some_and(is_meant);
    let edge = |block: Option<&[u32; 3]>| block.is_some_and(|block| block[1..] == [0, 0]);
    let has_lengths = facts.frame > 0;
    vec![
        ("accepted: an initialising block first", accepted && first.is_some() && blocks > 1),
        ("accepted: no initialising block", accepted && first.is_none()),
        ("accepted: an initialising block alone", accepted && first.is_some() && blocks == 1),
        (
            "accepted: an initialising start of no meaning",
            accepted && any(&|[start, ..]| *start > 0),
        ),
        ("accepted: a short initialising length", accepted && any(&|block| is_short(block[1]))),
        ("accepted: a third number above 1", accepted && any(&|block| is_unusual(block[2]))),
        ("accepted: a length of 5,000", accepted && facts.has(LEAST_LENGTH)),
        ("accepted: a zero length first", accepted && has_lengths && edge(facts.blocks.first())),
        ("accepted: a zero length last", accepted && has_lengths && edge(facts.blocks.last())),
        ("accepted: 100 zero lengths", accepted && facts.zeros() >= 100),
        ("accepted: 10,000 zero lengths", accepted && facts.zeros() >= 10_000),
        (
            "accepted: a frame of 0 without initialising block",
            accepted && !has_lengths && first.is_none(),
        ),
        ("accepted: a frame of 4,294,967,295", accepted && facts.frame == u32::MAX),
        ("accepted: as many blocks as may be", accepted && has_lengths && facts.as_many_as_may_be),
    ]
}

fn misplaced(facts: &Facts) -> Vec<Class> {
    let is_meant =
        |is_meant: &dyn Fn(usize) -> bool| facts.misplaced.iter().any(|&place| is_meant(place));
    let behind_bad = |is_bad: &dyn Fn(usize) -> bool| {
        is_meant(&|place| facts.bad.iter().any(|&bad| bad < place && is_bad(bad)))
    };
    let length = |place: usize| facts.blocks[place][1];
    let others_right = facts.bad.is_empty() && facts.left_over.is_empty();
    let any = !facts.misplaced.is_empty();
    vec![
        ("35: nothing else is wrong", any && others_right && facts.is_total_right()),
        ("35: behind a bad length", behind_bad(&|bad| is_short(length(bad)))),
        ("35: behind a bad start", behind_bad(&|bad| !is_short(length(bad)))),
        ("35: before a bad block", is_meant(&|place| facts.bad.iter().any(|&bad| bad > place))),
        ("35: in second place", is_meant(&|place| place == 1)),
        ("35: in last place", is_meant(&|place| place > 1 && place + 1 == facts.blocks.len())),
        ("35: one that is first besides", any && facts.first().is_some()),
        ("35: a third number above 1", is_meant(&|place| is_unusual(facts.blocks[place][2]))),
        ("35: numbers left over", any && !facts.left_over.is_empty()),
        ("35: another total", any && others_right && !facts.is_total_right()),
    ]
}

fn left_over(facts: &Facts) -> Vec<Class> {
    let alone = |numbers| facts.blocks.is_empty() && facts.left_over.len() == numbers;
    let no_mark = facts.left_over.iter().all(|number| *number == 0);
    vec![
        ("36: only one number left over", facts.only_left_over(1)),
        ("36: only two numbers left over", facts.only_left_over(2)),
        ("36: two numbers left over that could be marks", facts.only_left_over(2) && !no_mark),
        ("36: one number and no block", alone(1)),
        ("36: two numbers and no block", alone(2)),
        (
            "36: numbers left over behind a bad block",
            facts.is(Broken::BadBlock) && !facts.bad.is_empty() && facts.left_over.len() == 2,
        ),
    ]
}

fn lengths(facts: &Facts) -> Vec<Class> {
    let last = facts.blocks.len().wrapping_sub(1);
    let short = |place: usize| is_short(facts.blocks[place][1]) && facts.is_start_right(place);
    vec![
        ("36: only a length of 4,999", facts.only_length(LEAST_LENGTH - 1)),
        ("36: only a length of 1", facts.only_length(1)),
        (
            "36: only a short length, the last",
            facts.only_bad(|place| place == last && short(place)),
        ),
        ("36: only a short length, the first", facts.only_bad(|place| place == 0 && short(place))),
        ("36: another total", facts.is(Broken::BadBlock) && !facts.is_total_right()),
    ]
}

fn starts(facts: &Facts) -> Vec<Class> {
    let initialising = facts.first().map_or(0, |block| i128::from(block[1]));
    let own = |place: usize| u64::from(facts.blocks[place][1]);
    let start = |place: usize| u64::from(facts.blocks[place][0]);
    let sum = |place: usize| facts.sums[place];
    let counts_itself =
        |place| !is_short(own(place) as u32) && start(place) == sum(place) + own(place);
    let low_bits = |place| start(place) != sum(place) && start(place) == sum(place) % (1 << 32);
    let all_low_bits = facts.bad.iter().all(|&place| low_bits(place));
    let past = facts.is(Broken::BadBlock) && facts.left_over.is_empty();
    vec![
        ("36: only a start one too large", facts.only_start_off(1)),
        ("36: only a start one too small", facts.only_start_off(-1)),
        ("36: only a first start of 1", facts.only_start_off(1) && facts.bad == [0]),
        ("36: only a start that counts the block itself", facts.only_bad(counts_itself)),
        (
            "36: only a start that counts the initialising length",
            initialising > 0 && facts.only_start_off(initialising),
        ),
        ("36: starts of which 32 bits are right", past && all_low_bits),
        ("36: a sum far past 32 bits", past && facts.total() >> 40 > 0),
    ]
}

fn totals(facts: &Facts) -> Vec<Class> {
    let no_block = facts.is(Broken::BadTotal) && facts.blocks.is_empty();
    let initialising = facts.first().map_or(0, |block| i128::from(block[1]));
    let alone = facts.is(Broken::BadTotal) && facts.first().is_some() && facts.blocks.len() == 1;
    vec![
        ("37: no block, frame of 0", no_block && facts.frame == 0),
        ("37: no block, another frame", no_block && facts.frame != 0),
        ("37: a total one too large", facts.total_off(1)),
        ("37: a total one too small", facts.total_off(-1)),
        ("37: a total of which 32 bits are right", facts.total_off(1 << 32)),
        ("37: a total past 32 bits", facts.is(Broken::BadTotal) && facts.total() >> 32 > 0),
        (
            "37: a frame that counts the initialising length",
            initialising > 0 && facts.total_off(-initialising),
        ),
        ("37: an initialising block alone", alone),
        (
            "37: an initialising block alone, of the frame's length",
            alone && facts.total_off(-initialising),
        ),
        (
            "37: zero lengths in a frame under 5,000",
            facts.is(Broken::BadTotal)
                && facts.zeros() > 0
                && facts.total() == 0
                && facts.frame < LEAST_LENGTH,
        ),
    ]
}
