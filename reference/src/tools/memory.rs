//! Memory to lend, in which writes outside the lent piece are noticed, under valgrind reads too.

use std::ops::Range;

use super::valgrind;

/// Bytes, or other numbers, in the middle of a larger piece of memory.
pub struct Lent<T> {
    memory: Vec<T>,
    middle: Range<usize>,
    around: T,
}

impl<T: Copy + PartialEq + From<u8> + Into<usize>> Lent<T> {
    /// Surroundings, and the alignment of bytes, differ with the items.
    pub fn new(items: &[T]) -> Lent<T> {
        let add = |sum: usize, &item: &T| sum.wrapping_add(item.into());
        let sum = items.iter().fold(items.len(), add);
        let around = T::from((sum % 251) as u8);
        let middle = 8 + sum % 8..8 + sum % 8 + items.len();
        let mut memory = vec![around; middle.end + 16];
        memory[middle.clone()].copy_from_slice(items);
        let lent = Lent {
            memory,
            middle,
            around,
        };
        lent.outside().into_iter().for_each(valgrind::forbid);
        lent
    }

    pub fn items(&mut self) -> &mut [T] {
        &mut self.memory[self.middle.clone()]
    }

    /// What the items are may decide nothing until they are written. Only valgrind notices.
    pub fn forget(self) -> Lent<T> {
        self.forget_after(0)
    }

    /// The same of those after the first so many.
    pub fn forget_after(mut self, kept: usize) -> Lent<T> {
        let later = self.items().get(kept..).unwrap_or_default();
        valgrind::forget(later);
        self
    }

    /// The memory before and after the items.
    fn outside(&self) -> [&[T]; 2] {
        let Range { start, end } = self.middle;
        [&self.memory[..start], &self.memory[end..]]
    }

    /// The items as they are now. Those around them must be as they were.
    #[track_caller]
    pub fn back(self) -> Vec<T> {
        valgrind::allow(&self.memory);
        let kept = |item: &T| *item == self.around;
        let all_kept = self.outside().concat().iter().all(kept);
        assert!(all_kept, "memory outside the lent piece was written");
        self.memory[self.middle].to_vec()
    }
}

/// Bytes for a message.
pub fn hex(bytes: &[u8]) -> String {
    let digits: String = bytes.iter().map(|byte| format!("{byte:02x}")).collect();
    format!("{} bytes {digits}", bytes.len())
}
