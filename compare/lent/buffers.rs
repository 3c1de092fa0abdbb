//! Memory to lend: filled with a pattern, with more of the pattern before and behind.

use crate::invent::Random;

/// Elements before and behind that belong to nobody.
const AROUND: usize = 64;

pub struct Pattern<T>(Vec<T>);

impl<T: Copy + PartialEq> Pattern<T> {
    pub fn new(r: &mut Random, longest: usize, one: impl Fn(&mut Random) -> T) -> Self {
        Pattern((0..longest * 2 + 2 * AROUND).map(|_| one(r)).collect())
    }
    /// Memory with the pattern from some place on.
    pub fn lend(&self, r: &mut Random, length: usize) -> Lent<'_, T> {
        let start = r.below(self.0.len() - length - 2 * AROUND + 1);
        let before = &self.0[start..start + length + 2 * AROUND];
        Lent { before, now: before.to_vec() }
    }
}

impl Pattern<u8> {
    /// Memory that has these bytes, with the pattern around them.
    pub fn filled(&self, r: &mut Random, bytes: &[u8]) -> Lent<'_, u8> {
        let mut lent = self.lend(r, bytes.len());
        lent.slice().copy_from_slice(bytes);
        lent
    }
}

pub struct Lent<'a, T> {
    before: &'a [T],
    now: Vec<T>,
}

impl<T: Copy + PartialEq> Lent<'_, T> {
    pub fn slice(&mut self) -> &mut [T] {
        let end = self.now.len() - AROUND;
        &mut self.now[AROUND..end]
    }
    pub fn len(&self) -> usize {
        self.now.len() - 2 * AROUND
    }
    /// Whether `front` stands at the front and everything else is as it was, before and behind too.
    pub fn holds(&self, front: &[T]) -> bool {
        let end = AROUND + front.len();
        front.len() <= self.len()
            && self.now[..AROUND] == self.before[..AROUND]
            && self.now[AROUND..end] == *front
            && self.now[end..] == self.before[end..]
    }
}
