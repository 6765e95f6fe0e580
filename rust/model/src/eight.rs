//! A table of eight places with a number on each item, and the set of the store's sheets.

use crate::{Sheets, SHEETS};

/// At most eight items, found by number. Nothing here keeps the numbers distinct: damaged tables can
/// have one number twice, and then the first place counts.
#[derive(Clone, Copy, Debug)]
pub(crate) struct Eight<T> {
    /// One bit for each place that is in use.
    live: u8,
    numbers: [u16; 8],
    items: [T; 8],
}

impl<T: Copy> Eight<T> {
    /// A table without items; `blank` fills the free places and is never seen.
    pub fn new(blank: T) -> Self {
        Eight { live: 0, numbers: [0; 8], items: [blank; 8] }
    }

    pub fn is_full(&self) -> bool {
        self.live == u8::MAX
    }

    /// The place of the item with this number. All eight are compared at once, without a branch.
    #[inline]
    pub fn find(&self, number: u16) -> Option<usize> {
        let mut equal = [0; 8];
        for (equal, kept) in equal.iter_mut().zip(&self.numbers) {
            *equal = u8::from(*kept == number);
        }
        // The product moves the eight lowest bits of the bytes into the top byte.
        let hits = (u64::from_le_bytes(equal).wrapping_mul(0x0102_0408_1020_4080) >> 56) as u8 & self.live;
        (hits != 0).then_some(hits.trailing_zeros() as usize)
    }

    #[inline]
    pub fn get(&self, number: u16) -> Option<&T> {
        self.find(number).map(|place| &self.items[place])
    }

    pub fn item(&self, place: usize) -> &T {
        &self.items[place]
    }

    pub fn number(&self, place: usize) -> u16 {
        self.numbers[place]
    }

    /// The places in use, lowest first.
    #[inline]
    pub fn places(&self) -> Bits {
        Bits(self.live)
    }

    /// Puts an item into the lowest free place; false where there is none.
    pub fn insert(&mut self, number: u16, item: T) -> bool {
        let place = (!self.live).trailing_zeros() as usize;
        if place < 8 {
            self.live |= 1 << place;
            self.numbers[place] = number;
            self.items[place] = item;
        }
        place < 8
    }

    /// Frees a place. Number and item can still be read until the next `insert`.
    pub fn remove(&mut self, place: usize) {
        self.live &= !(1 << place);
    }
}

/// The bits of a byte that are set, lowest first.
pub(crate) struct Bits(u8);

impl Iterator for Bits {
    type Item = usize;

    #[inline]
    fn next(&mut self) -> Option<usize> {
        if self.0 == 0 {
            return None;
        }
        let place = self.0.trailing_zeros() as usize;
        self.0 &= self.0 - 1;
        Some(place)
    }
}

/// A set of sheets of the store, one bit for each.
#[derive(Default)]
pub(crate) struct SheetSet([u64; 4]);

impl SheetSet {
    /// Adds a run that lies in the store; false where it shares a sheet with the set.
    pub fn add(&mut self, run: Sheets) -> bool {
        let (mut at, end) = (u32::from(run.first), u32::from(run.first) + u32::from(run.count));
        let mut apart = true;
        while at < end {
            let stop = end.min((at / 64 + 1) * 64);
            let mask = (u64::MAX >> (64 - (stop - at))) << (at % 64);
            let word = &mut self.0[at as usize / 64];
            apart &= *word & mask == 0;
            *word |= mask;
            at = stop;
        }
        apart
    }

    /// How many sheets are in the set.
    pub fn count(&self) -> u16 {
        self.0.iter().map(|word| word.count_ones() as u16).sum()
    }

    /// Where the smallest gap with room for `count` sheets begins; of equals the lowest. A gap is a run of sheets
    /// outside the set that can't be made longer.
    pub fn smallest_gap(&self, count: u16) -> Option<u16> {
        let count = u32::from(count);
        let (mut found, mut size) = (None, u32::MAX);
        let mut at = self.next(0, false);
        while at + count <= SHEETS as u32 {
            let end = self.next(at, true);
            if (count..size).contains(&(end - at)) {
                (found, size) = (Some(at as u16), end - at);
            }
            at = self.next(end, false);
        }
        found
    }

    /// The first sheet from `at` on that is in the set, or that is outside it; 256 where there is none.
    fn next(&self, mut at: u32, inside: bool) -> u32 {
        while at < SHEETS as u32 {
            let word = self.0[at as usize / 64];
            let rest = (if inside { word } else { !word }) >> (at % 64);
            if rest != 0 {
                return at + rest.trailing_zeros();
            }
            at = (at / 64 + 1) * 64;
        }
        SHEETS as u32
    }
}

#[cfg(test)]
mod tests {
    use super::*;

    /// Each run of sheets that are not used, from its first sheet to behind its last.
    fn gaps(used: &[bool; SHEETS]) -> Vec<(usize, usize)> {
        let free = |sheet: usize| sheet < SHEETS && !used[sheet];
        let begins = (0..SHEETS).filter(|&sheet| free(sheet) && (sheet == 0 || !free(sheet - 1)));
        let ends = (1..=SHEETS).filter(|&sheet| free(sheet - 1) && !free(sheet));
        begins.zip(ends).collect()
    }

    #[test]
    fn gaps_are_found_as_a_sheet_by_sheet_search_finds_them() {
        let (mut seed, mut choices) = (1u32, 0);
        for round in 0..3000 {
            let (mut set, mut plain) = (SheetSet::default(), [false; SHEETS]);
            // Few long runs, or many short ones.
            let (runs, longest) = [(8, 70), (24, 12), (70, 4)][round % 3];
            for _ in 0..runs {
                seed = seed.wrapping_mul(1_664_525).wrapping_add(1_013_904_223);
                let (first, most) = ((seed >> 24) as u16, (seed >> 8) as u16 % longest);
                let run = Sheets { first, count: most.min(SHEETS as u16 - first) };
                let span = run.first as usize..(run.first + run.count) as usize;
                assert_eq!(set.add(run), !plain[span.clone()].contains(&true));
                plain[span].fill(true);
            }
            assert_eq!(usize::from(set.count()), plain.iter().filter(|&&used| used).count());
            for count in (1..=20).chain([63, 64, 65, 255, 256]) {
                let enough: Vec<_> = gaps(&plain).into_iter().filter(|(at, end)| end - at >= count).collect();
                let best = enough.iter().min_by_key(|(at, end)| (end - at, *at));
                assert_eq!(set.smallest_gap(count as u16).map(usize::from), best.map(|(at, _)| *at));
                choices += usize::from(best != enough.first());
            }
        }
        // Often the smallest is not the lowest.
        assert!(choices > 10_000, "{choices}");
    }

    /// The set of all sheets but these runs, each of which is its first sheet and how many.
    fn all_but(gaps: &[(u16, u16)]) -> SheetSet {
        let (mut set, mut at) = (SheetSet::default(), 0);
        for &(first, count) in gaps {
            set.add(Sheets { first: at, count: first - at });
            at = first + count;
        }
        set.add(Sheets { first: at, count: SHEETS as u16 - at });
        set
    }

    #[test]
    fn of_the_gaps_with_room_the_smallest_and_of_equals_the_lowest() {
        let finds = |gaps: &[(u16, u16)], count| all_but(gaps).smallest_gap(count);
        // An exact fit, below and above a larger gap.
        assert_eq!(finds(&[(10, 5), (100, 20)], 5), Some(10));
        assert_eq!(finds(&[(10, 20), (100, 5)], 5), Some(100));
        // Equal gaps.
        assert_eq!(finds(&[(10, 5), (100, 5), (200, 5)], 5), Some(10));
        assert_eq!(finds(&[(10, 9), (100, 5), (200, 5)], 4), Some(100));
        // At the store's first sheet and at its last.
        assert_eq!(finds(&[(0, 3), (50, 9)], 3), Some(0));
        assert_eq!(finds(&[(0, 3), (255, 1)], 1), Some(255));
        assert_eq!(finds(&[(0, 3), (255, 1)], 2), Some(0));
        // One too short beside one too long.
        assert_eq!(finds(&[(10, 4), (20, 6)], 5), Some(20));
        assert_eq!(finds(&[(10, 6), (20, 4)], 5), Some(10));
        // Over the edges of words.
        assert_eq!(finds(&[(60, 9), (120, 8), (190, 66)], 8), Some(120));
        assert_eq!(finds(&[(0, 130), (131, 64), (200, 56)], 60), Some(131));
        // Everything free, nothing free, nothing long enough.
        assert_eq!(finds(&[(0, 256)], 256), Some(0));
        assert_eq!(finds(&[(0, 256)], 1), Some(0));
        assert_eq!(finds(&[], 1), None);
        assert_eq!(finds(&[(0, 255)], 256), None);
        assert_eq!(finds(&[(10, 4), (20, 6)], 7), None);
    }
}
