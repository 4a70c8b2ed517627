//! The tables of one check, all in one stretch of memory.

use super::sections::Sections;

/// In `names`: a content names the object, and nothing else does.
pub const TOP: u32 = 1;
/// In `names`: a child list names the object, and nothing else does. More than the number
/// of contents, so that both can be counted in one number.
pub const CHILD: u32 = 1 << 16;

/// The tables, zeros until a rule fills them. A stamp is the number of a programme
/// counted from 1, so that nothing needs clearing between programmes.
pub struct Tables<'a> {
    /// For each object how often contents and child lists name it.
    pub names: &'a mut [u32],
    /// For each object of a group its leader, counted from 1.
    pub leaders: &'a mut [u32],
    /// For each content the stamp of the last programme that names it.
    pub programmes: &'a mut [u32],
    /// For each value set the number of spans that hold it, later its object; one longer.
    pub spans: &'a mut [u32],
    /// For each object the stamp of the last programme that includes it.
    pub included: &'a mut [u32],
    /// For each object the stamp of the last programme that names a set of it.
    pub named: &'a mut [u32],
    /// For each leader how many of its group are included.
    pub members: Tallies<'a>,
    /// For each leader how many of its group have a set.
    pub sets: Tallies<'a>,
    /// For each leader the first set that a programme names in its group.
    pub first_sets: &'a mut [u32],
}

impl<'a> Tables<'a> {
    /// Tables on the stack where they fit, else on the heap.
    pub fn over(stack: &'a mut [u32], heap: &'a mut Vec<u32>, sheet: &Sections) -> Tables<'a> {
        let [contents, objects] = [sheet.contents.len(), sheet.objects.len()];
        let spans = sheet.value_sets.len() + 1;
        let size = contents + 7 * objects + spans;
        let mut rest = stack;
        if size > rest.len() {
            *heap = vec![0; size];
            rest = heap;
        }
        Tables {
            names: take(&mut rest, objects),
            leaders: take(&mut rest, objects),
            programmes: take(&mut rest, contents),
            spans: take(&mut rest, spans),
            included: take(&mut rest, objects),
            named: take(&mut rest, objects),
            members: Tallies(take(&mut rest, objects)),
            sets: Tallies(take(&mut rest, objects)),
            first_sets: take(&mut rest, objects),
        }
    }
}

fn take<'a>(rest: &mut &'a mut [u32], length: usize) -> &'a mut [u32] {
    rest.split_off_mut(..length).expect("the memory has the size of all tables")
}

/// Counts of one programme: its stamp in the high half, the count in the low one. A count
/// under another stamp is none.
pub struct Tallies<'a>(&'a mut [u32]);

impl Tallies<'_> {
    /// Counts one more, and gives the count.
    #[inline(always)]
    pub fn add(&mut self, index: usize, stamp: u32) -> usize {
        let count = self.count(index, stamp) + 1;
        self.0[index] = (stamp << 16) + count as u32;
        count
    }

    /// The count of a programme.
    #[inline(always)]
    pub fn count(&self, index: usize, stamp: u32) -> usize {
        let tally = self.0[index];
        if tally >> 16 == stamp {
            (tally & 0xffff) as usize
        } else {
            0
        }
    }
}
