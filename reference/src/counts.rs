//! Counts of the sorts of calls that random lists draw.

use std::ops::AddAssign;

/// How many of each of N sorts; a call may be of several.
#[derive(Clone, Copy, Debug)]
pub struct Counts<const N: usize>(pub [u64; N]);

impl<const N: usize> Default for Counts<N> {
    fn default() -> Counts<N> {
        Counts([0; N])
    }
}

impl<const N: usize> Counts<N> {
    /// Counts a call by the sorts that it is of.
    pub fn add(&mut self, is: [bool; N]) {
        self.0.iter_mut().zip(is).for_each(|(count, is)| *count += u64::from(is));
    }
}

impl<const N: usize> AddAssign for Counts<N> {
    fn add_assign(&mut self, other: Counts<N>) {
        self.0.iter_mut().zip(other.0).for_each(|(sum, count)| *sum += count);
    }
}
