//! The heap that the archive allocates from: an arena on the stack of a call, and `malloc` where
//! the arena has no room. Without `std` there are no thread-local variables, and so no arena.

use core::ptr;

#[cfg(feature = "std")]
mod arena;

#[cfg(feature = "std")]
pub(super) use arena::with_arena;

/// Makes a call of the archive.
#[cfg(not(feature = "std"))]
pub(super) fn with_arena<R>(call: impl FnOnce() -> R) -> R {
    call()
}

// The archive refers to these three by name. Hidden, they are no names of a shared object that is
// made with this crate inside.
core::arch::global_asm!(
    ".hidden rattle_alloc",
    ".hidden rattle_realloc",
    ".hidden rattle_dealloc",
);

/// What an allocation returns: whether it succeeded, and a pointer that is never null.
#[repr(C)]
pub struct Allocation {
    ok: bool,
    memory: *mut u8,
}

extern "C" {
    fn malloc(size: usize) -> *mut u8;
    fn realloc(memory: *mut u8, size: usize) -> *mut u8;
    fn free(memory: *mut u8);
}

impl Allocation {
    /// Returns that memory was allocated.
    fn of(memory: *mut u8) -> Allocation {
        Allocation { ok: true, memory }
    }

    /// Returns what one of these functions has returned, which is null where it failed.
    fn from_c(memory: *mut u8) -> Allocation {
        match ptr::NonNull::new(memory) {
            Some(memory) => Allocation::of(memory.as_ptr()),
            None => Allocation {
                ok: false,
                memory: ptr::NonNull::dangling().as_ptr(),
            },
        }
    }
}

/// Allocates memory for the archive.
///
/// # Safety
///
/// Only the archive calls it. No type of the archive is aligned to more than `malloc` aligns to.
#[no_mangle]
unsafe extern "C" fn rattle_alloc(size: usize, _align: usize) -> Allocation {
    #[cfg(feature = "std")]
    if let Some(memory) = arena::allocate(size) {
        return Allocation::of(memory);
    }
    allocate_by_c(size)
}

/// Allocates memory by `malloc`, for an output that is larger than the arena.
///
/// # Safety
///
/// That of `rattle_alloc`.
#[cold]
#[inline(never)]
unsafe extern "C" fn allocate_by_c(size: usize) -> Allocation {
    Allocation::from_c(malloc(size.max(1)))
}

/// Changes the size of memory of the archive, whose first `kept` bytes stay.
///
/// # Safety
///
/// Only the archive calls it, with memory of these functions.
#[no_mangle]
unsafe extern "C" fn rattle_realloc(
    memory: *mut u8,
    kept: usize,
    size: usize,
    align: usize,
) -> Allocation {
    #[cfg(feature = "std")]
    if arena::has(memory) {
        if arena::resize(memory, size) {
            return Allocation::of(memory);
        }
        let moved = rattle_alloc(size, align);
        if moved.ok {
            ptr::copy_nonoverlapping(memory, moved.memory, kept.min(size));
        }
        return moved;
    }
    let (_, _) = (kept, align);
    Allocation::from_c(realloc(memory, size.max(1)))
}

/// Frees memory of the archive.
///
/// # Safety
///
/// Only the archive calls it, with memory of these functions, once.
#[no_mangle]
unsafe extern "C" fn rattle_dealloc(memory: *mut u8) {
    #[cfg(feature = "std")]
    if arena::has(memory) {
        return arena::free(memory);
    }
    free(memory);
}
