//! Atomics and locks with points for chosen schedules, to be imported by a queue in place of those of `std`, as Loom's
//! are:
//!
//! ```ignore
//! #[cfg(not(fifobench_schedule))]
//! use std::sync::{atomic::{AtomicUsize, Ordering}, Mutex};
//! #[cfg(fifobench_schedule)]
//! use crate::schedule::sync::{atomic::{AtomicUsize, Ordering}, Mutex};
//! ```
//!
//! For a stable compiler; with nightly flags the queue has points without a change, and this file isn't needed
//! (`schedule_runs.rs` has both commands). What `std` blocks on gives way without a change here too: Condvar, RwLock,
//! Once, Barrier, parking, sleeping, yielding. Plain data have no points: a race of plain data shows by the points of
//! the atomics beside it alone.

#![allow(dead_code, unused_imports)] // A queue uses a part of it.

// What schedule.h declares.
extern "C" {
    fn fifobench_point(writes: std::ffi::c_int);
    fn fifobench_relax();
}

/// A point at which another thread may go on, before an access to what threads share.
#[inline(always)]
pub fn point(writes: bool) {
    unsafe { fifobench_point(writes.into()) }
}

/// A point in a loop that waits for another thread.
#[inline(always)]
pub fn relax() {
    unsafe { fifobench_relax() }
}

/// Stands in for `std::sync`: what isn't here is that of `std`.
pub mod sync {
    pub use std::sync::{Arc, Condvar, LockResult, MutexGuard, OnceLock, RwLock, TryLockResult};

    /// A `std::sync::Mutex` with a point before it is locked.
    #[derive(Debug, Default)]
    pub struct Mutex<T: ?Sized>(std::sync::Mutex<T>);

    impl<T> Mutex<T> {
        pub const fn new(value: T) -> Mutex<T> {
            Mutex(std::sync::Mutex::new(value))
        }

        pub fn into_inner(self) -> LockResult<T> {
            self.0.into_inner()
        }
    }

    impl<T: ?Sized> Mutex<T> {
        #[inline(always)]
        pub fn lock(&self) -> LockResult<MutexGuard<'_, T>> {
            super::point(true);
            self.0.lock()
        }

        #[inline(always)]
        pub fn try_lock(&self) -> TryLockResult<MutexGuard<'_, T>> {
            super::point(true);
            self.0.try_lock()
        }

        pub fn get_mut(&mut self) -> LockResult<&mut T> {
            self.0.get_mut()
        }
    }

    /// Stands in for `std::sync::atomic`.
    pub mod atomic {
        use super::super::point;
        use std::sync::atomic as of_std;
        pub use std::sync::atomic::{compiler_fence, Ordering};

        #[inline(always)]
        pub fn fence(order: Ordering) {
            point(true);
            of_std::fence(order);
        }

        // The methods that all atomics have.
        macro_rules! methods {
            ($type:ty) => {
                #[inline(always)]
                pub fn load(&self, order: Ordering) -> $type {
                    point(false);
                    self.0.load(order)
                }

                #[inline(always)]
                pub fn store(&self, value: $type, order: Ordering) {
                    point(true);
                    self.0.store(value, order)
                }

                #[inline(always)]
                pub fn swap(&self, value: $type, order: Ordering) -> $type {
                    point(true);
                    self.0.swap(value, order)
                }

                #[inline(always)]
                pub fn compare_exchange(
                    &self,
                    current: $type,
                    new: $type,
                    success: Ordering,
                    failure: Ordering,
                ) -> Result<$type, $type> {
                    point(true);
                    self.0.compare_exchange(current, new, success, failure)
                }

                /// Fails only if the value is another: a schedule has no failures of its own.
                #[inline(always)]
                pub fn compare_exchange_weak(
                    &self,
                    current: $type,
                    new: $type,
                    success: Ordering,
                    failure: Ordering,
                ) -> Result<$type, $type> {
                    self.compare_exchange(current, new, success, failure)
                }

                pub fn get_mut(&mut self) -> &mut $type {
                    self.0.get_mut()
                }

                pub fn into_inner(self) -> $type {
                    self.0.into_inner()
                }
            };
        }

        // Methods that read, change and write.
        macro_rules! changes {
            ($type:ty: $($name:ident)*) => {$(
                #[inline(always)]
                pub fn $name(&self, value: $type, order: Ordering) -> $type {
                    point(true);
                    self.0.$name(value, order)
                }
            )*};
        }

        macro_rules! atomic {
            ($($name:ident $type:ty: $($change:ident)*;)*) => {$(
                #[derive(Debug, Default)]
                #[repr(transparent)]
                pub struct $name(of_std::$name);

                impl $name {
                    pub const fn new(value: $type) -> $name {
                        $name(of_std::$name::new(value))
                    }

                    methods!($type);
                    changes!($type: $($change)*);
                }
            )*};
        }

        atomic! {
            AtomicBool bool: fetch_and fetch_nand fetch_or fetch_xor;
            AtomicI32 i32: fetch_add fetch_sub fetch_and fetch_or fetch_xor fetch_max fetch_min;
            AtomicI64 i64: fetch_add fetch_sub fetch_and fetch_or fetch_xor fetch_max fetch_min;
            AtomicIsize isize: fetch_add fetch_sub fetch_and fetch_or fetch_xor fetch_max fetch_min;
            AtomicU8 u8: fetch_add fetch_sub fetch_and fetch_or fetch_xor fetch_max fetch_min;
            AtomicU16 u16: fetch_add fetch_sub fetch_and fetch_or fetch_xor fetch_max fetch_min;
            AtomicU32 u32: fetch_add fetch_sub fetch_and fetch_or fetch_xor fetch_max fetch_min;
            AtomicU64 u64: fetch_add fetch_sub fetch_and fetch_or fetch_xor fetch_max fetch_min;
            AtomicUsize usize: fetch_add fetch_sub fetch_and fetch_or fetch_xor fetch_max fetch_min;
        }

        #[derive(Debug)]
        #[repr(transparent)]
        pub struct AtomicPtr<T>(of_std::AtomicPtr<T>);

        impl<T> AtomicPtr<T> {
            pub const fn new(value: *mut T) -> AtomicPtr<T> {
                AtomicPtr(of_std::AtomicPtr::new(value))
            }

            methods!(*mut T);
        }

        impl<T> Default for AtomicPtr<T> {
            fn default() -> AtomicPtr<T> {
                AtomicPtr::new(std::ptr::null_mut())
            }
        }
    }
}

/// Stands in for `std::hint`.
pub mod hint {
    #[inline(always)]
    pub fn spin_loop() {
        super::relax();
    }
}
