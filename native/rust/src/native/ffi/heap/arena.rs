//! The arena of a thread: memory on the stack of the running call of the archive, which is taken in
//! ascending order. What is freed is lost until the call returns, unless it was taken last.

use core::cell::Cell;
use core::mem::MaybeUninit;
use core::ptr;

/// The size of an arena, in bytes.
const SIZE: usize = 4096;

/// What each allocation is aligned to, as by `malloc`.
const ALIGN: usize = 16;

/// The memory of an arena.
#[repr(align(16))]
struct Memory {
    _bytes: [MaybeUninit<u8>; SIZE],
}

/// The pointers of an arena, of which all but `last` are null where no call is running.
struct Arena {
    start: Cell<*mut u8>,
    /// The start of what was taken last, or null where that was freed.
    last: Cell<*mut u8>,
    /// The start of what is free.
    next: Cell<*mut u8>,
    end: Cell<*mut u8>,
}

thread_local! {
    static ARENA: Arena = const {
        Arena {
            start: Cell::new(ptr::null_mut()),
            last: Cell::new(ptr::null_mut()),
            next: Cell::new(ptr::null_mut()),
            end: Cell::new(ptr::null_mut()),
        }
    };
}

/// Makes a call of the archive, which allocates from an arena. The archive calls nothing of a user,
/// so no call is made inside another one, and none of its memory is used once it has returned.
#[inline]
pub(crate) fn with_arena<R>(call: impl FnOnce() -> R) -> R {
    let mut memory = MaybeUninit::<Memory>::uninit();
    let start: *mut u8 = memory.as_mut_ptr().cast();
    ARENA.with(|arena| {
        arena.last.set(ptr::null_mut());
        arena.set(start, start.wrapping_add(SIZE));
    });
    let result = call();
    ARENA.with(|arena| arena.set(ptr::null_mut(), ptr::null_mut()));
    result
}

/// Takes memory, if there is room.
#[inline]
pub(super) fn allocate(size: usize) -> Option<*mut u8> {
    ARENA.with(|arena| {
        let start = arena.next.get();
        arena.take(start, size).then_some(start)
    })
}

/// Returns true for memory of the arena.
#[inline]
pub(super) fn has(memory: *mut u8) -> bool {
    // No memory is in the first bytes of the address space, where a null arena would be.
    ARENA.with(|arena| (memory as usize).wrapping_sub(arena.start.get() as usize) < SIZE)
}

/// Changes the size of memory of the arena in its place, if it was taken last and there is room.
#[inline]
pub(super) fn resize(memory: *mut u8, size: usize) -> bool {
    ARENA.with(|arena| memory == arena.last.get() && arena.take(memory, size))
}

/// Frees memory of the arena.
#[inline]
pub(super) fn free(memory: *mut u8) {
    ARENA.with(|arena| {
        if memory == arena.last.get() {
            arena.last.set(ptr::null_mut());
            arena.next.set(memory);
        }
    });
}

impl Arena {
    #[inline]
    fn set(&self, start: *mut u8, end: *mut u8) {
        self.start.set(start);
        self.next.set(start);
        self.end.set(end);
    }

    /// Takes memory from a byte on, if there is room, and returns whether there is.
    #[inline]
    fn take(&self, start: *mut u8, size: usize) -> bool {
        let room = self.end.get() as usize - start as usize;
        if size.max(1) > room {
            return false;
        }
        // The room is a multiple of the alignment, so it is not exceeded.
        let size = size.max(1).next_multiple_of(ALIGN);
        self.last.set(start);
        self.next.set(start.wrapping_add(size));
        true
    }
}

#[cfg(test)]
mod tests {
    use super::*;

    #[test]
    fn memory_is_taken_in_order_and_is_aligned() {
        with_arena(|| {
            let first = allocate(0).unwrap();
            let second = allocate(17).unwrap();
            let third = allocate(1).unwrap();
            assert_eq!(first as usize % ALIGN, 0);
            assert_eq!(second as usize, first as usize + 16);
            assert_eq!(third as usize, second as usize + 32);
        });
    }

    #[test]
    fn what_was_taken_last_is_resized_and_freed() {
        with_arena(|| {
            let first = allocate(16).unwrap();
            let second = allocate(16).unwrap();
            assert!(!resize(first, 8));
            assert!(resize(second, 1_000));
            assert!(!resize(second, SIZE));
            free(first);
            free(second);
            assert_eq!(allocate(SIZE - 16), Some(second));
            assert_eq!(allocate(0), None);
        });
    }

    #[test]
    fn memory_is_of_the_arena_during_the_call_alone() {
        assert_eq!(allocate(1), None);
        let memory = with_arena(|| {
            assert_eq!(allocate(SIZE + 1), None);
            assert_eq!(allocate(usize::MAX), None);
            let memory = allocate(SIZE).unwrap();
            assert!(has(memory) && has(memory.wrapping_add(SIZE - 1)));
            assert!(!has(memory.wrapping_add(SIZE)) && !has(memory.wrapping_sub(1)));
            memory
        });
        assert!(!has(memory));
    }
}
