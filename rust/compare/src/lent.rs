//! Lent buffers: filled with a pattern, guarded on both ends, and held to what may have been written.

/// What a buffer holds.
pub trait Cell: Copy + PartialEq + std::fmt::Debug {
    fn of(pattern: u64) -> Self;

    fn same(self, other: Self) -> bool {
        self == other
    }
}

macro_rules! cells {
    ($($of:ty),*) => { $(impl Cell for $of {
        fn of(pattern: u64) -> Self {
            pattern as $of
        }
    })* };
}
cells!(u8, i8, u16, i16, u32, i32, u64);

/// Cells on each side of the buffer that nobody may touch.
const GUARD: usize = 64;

/// A buffer to lend. Before the call it holds a pattern that depends on the seed, so that an untouched cell is known
/// and that no fixed value could be taken for one.
pub struct Lent<T> {
    cells: Vec<T>,
    seed: u64,
}

impl<T: Cell> Lent<T> {
    pub fn new(len: usize, seed: u64) -> Lent<T> {
        Lent { cells: (0..len + 2 * GUARD).map(|i| pattern(seed, i)).collect(), seed }
    }

    /// The part that is lent.
    pub fn buffer(&mut self) -> &mut [T] {
        let end = self.cells.len() - GUARD;
        &mut self.cells[GUARD..end]
    }

    /// `Err` where a cell on either side was touched. The buffer itself may hold anything: a work buffer.
    pub fn check_guards(&self) -> Result<(), String> {
        let end = self.cells.len() - GUARD;
        let touched = |&i: &usize| !self.cells[i].same(pattern(self.seed, i));
        match (0..GUARD).chain(end..self.cells.len()).find(touched) {
            Some(i) => Err(format!("cell {} of {} was touched", i as isize - GUARD as isize, end - GUARD)),
            None => Ok(()),
        }
    }

    /// `Err` with the first cell that is neither as `written` says (from the buffer's start) nor as it was before.
    /// A refusal is checked with nothing written.
    pub fn check(&self, written: &[T]) -> Result<(), String> {
        self.check_parts(&[(0, written)])
    }

    /// Likewise where parts were written, each from its place on; they rise and do not overlap.
    pub fn check_parts(&self, written: &[(usize, &[T])]) -> Result<(), String> {
        let len = self.cells.len() - 2 * GUARD;
        let mut from = 0;
        for (at, part) in written {
            self.untouched(from, GUARD + at)?;
            let end = at + part.len();
            if end > len {
                return Err(format!("{end} cells are to be written, {len} were lent"));
            }
            if let Some(i) = (0..part.len()).find(|&i| !self.cells[GUARD + at + i].same(part[i])) {
                return Err(self.wrong(GUARD + at + i, part[i], "written"));
            }
            from = GUARD + end;
        }
        self.untouched(from, self.cells.len())
    }

    fn untouched(&self, from: usize, to: usize) -> Result<(), String> {
        match (from..to).find(|&i| !self.cells[i].same(pattern(self.seed, i))) {
            Some(i) => Err(self.wrong(i, pattern(self.seed, i), "untouched")),
            None => Ok(()),
        }
    }

    fn wrong(&self, i: usize, expected: T, what: &str) -> String {
        let (at, len) = (i as isize - GUARD as isize, self.cells.len() - 2 * GUARD);
        format!("cell {at} of {len} holds {:?}, expected {expected:?} ({what})", self.cells[i])
    }
}

fn pattern<T: Cell>(seed: u64, i: usize) -> T {
    T::of(crate::random::Random::new(seed.wrapping_add(i as u64)).u64())
}

#[cfg(test)]
mod tests {
    use super::*;

    #[test]
    fn an_untouched_buffer_passes_with_nothing_written() {
        let lent = Lent::<u8>::new(10, 1);
        assert_eq!(lent.check(&[]), Ok(()));
    }

    #[test]
    fn what_was_written_passes_and_the_rest_must_be_untouched() {
        let mut lent = Lent::<u16>::new(5, 2);
        lent.buffer()[..2].copy_from_slice(&[7, 8]);
        assert_eq!(lent.check(&[7, 8]), Ok(()));
        assert!(lent.check(&[7, 9]).is_err());
        assert!(lent.check(&[7]).is_err(), "a cell too many");
        lent.buffer()[4] ^= 1;
        assert!(lent.check(&[7, 8]).is_err(), "a cell past what was written");
        assert_eq!(lent.check_guards(), Ok(()));
    }

    #[test]
    fn parts_are_checked_and_what_lies_between() {
        let mut lent = Lent::<u32>::new(6, 5);
        lent.buffer()[0] = 1;
        lent.buffer()[3..5].copy_from_slice(&[2, 3]);
        assert_eq!(lent.check_parts(&[(0, &[1]), (2, &[]), (3, &[2, 3])]), Ok(()));
        assert!(lent.check_parts(&[(0, &[1]), (3, &[2])]).is_err(), "a cell too many");
        assert!(lent.check_parts(&[(0, &[1]), (3, &[2, 4])]).is_err());
        assert!(lent.check_parts(&[(3, &[2, 3])]).is_err(), "a cell before");
        assert!(lent.check_parts(&[(5, &[0, 0])]).is_err(), "more than was lent");
        lent.buffer()[2] ^= 1;
        assert!(lent.check_parts(&[(0, &[1]), (3, &[2, 3])]).is_err(), "a cell between");
    }

    #[test]
    fn a_write_on_either_side_is_found() {
        for at in [GUARD - 1, GUARD + 3] {
            let mut lent = Lent::<u32>::new(3, 3);
            lent.cells[at] ^= 1;
            assert!(lent.check(&[]).is_err());
            assert!(lent.check_guards().is_err());
        }
    }

    #[test]
    fn more_than_was_lent_cannot_be_written() {
        assert!(Lent::<u8>::new(1, 4).check(&[1, 2]).is_err());
    }
}
