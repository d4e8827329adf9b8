//! Requests to valgrind's memory checker about pieces of memory. Outside valgrind they do nothing.

use std::arch::asm;

const RUNNING_ON_VALGRIND: usize = 0x1001;

/// The first of the memory checker's own numbers.
const MEMORY_CHECKER: usize = (b'M' as usize) << 24 | (b'C' as usize) << 16;

pub fn is_running() -> bool {
    request::<u8>(RUNNING_ON_VALGRIND, &[]) != 0
}

/// From now on it is an error to read or write these items.
pub fn forbid<T>(items: &[T]) {
    request(MEMORY_CHECKER, items);
}

/// From now on it is an error to decide anything by these items, until they are written.
pub fn forget<T>(items: &[T]) {
    request(MEMORY_CHECKER + 1, items);
}

/// All is allowed again. The items are as they were.
pub fn allow<T>(items: &[T]) {
    request(MEMORY_CHECKER + 2, items);
}

/// A request in the form that valgrind knows (valgrind.h, x86-64).
fn request<T>(number: usize, items: &[T]) -> usize {
    let (from, len) = (items.as_ptr() as usize, size_of_val(items));
    let words = [number, from, len, 0, 0, 0];
    let mut answer = 0;
    // SAFETY: the rotations add up to 128 bits and the exchange is one of a register with itself,
    // so that nothing changes outside valgrind; inside it `answer` and the checker's own tables do.
    unsafe {
        asm!(
            "rol rdi, 3",
            "rol rdi, 13",
            "rol rdi, 61",
            "rol rdi, 51",
            "xchg rbx, rbx",
            in("rax") words.as_ptr(),
            inout("rdx") answer,
            options(nostack)
        );
    }
    answer
}
