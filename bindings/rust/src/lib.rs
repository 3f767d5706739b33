//! Deferred work with the behaviour of RCU callback offloading, over the proved library librcuo.
//!
//! A [`Runtime`] has a helper thread, which runs jobs. A thread that reads registers, which gives it a [`Thread`], and reads within
//! a [`Guard`]: what it loads from an [`Atomic`] stays where it is as long as the guard lives. Who replaced something retires the
//! old by [`Guard::defer`] or [`Guard::defer_destroy`], and the job runs once all guards that lived at that moment are gone and
//! their threads have said so. Those who know crossbeam-epoch find its names here; what differs stands in `docs/from-crossbeam.md`.
//!
//! ```
//! use rcuo::{Atomic, Owned, Runtime};
//! use std::sync::atomic::Ordering::{Acquire, SeqCst};
//!
//! let runtime = Runtime::start()?;
//! let mut thread = runtime.register()?;
//! let config = Atomic::new(String::from("old"));
//!
//! let guard = thread.pin();
//! let old = config.swap(Owned::new(String::from("new")), SeqCst, &guard);
//! // SAFETY: the guard lives, and `old` was published before.
//! assert_eq!(unsafe { old.deref() }, "old");
//! // SAFETY: no thread that pins from now on gets at `old`, and it is retired this once.
//! unsafe { guard.defer_destroy(old) };
//! drop(guard);
//!
//! thread.barrier(); // the old one was dropped, by the helper
//! # drop(unsafe { config.into_owned() });
//! # Ok::<(), Box<dyn std::error::Error>>(())
//! ```
//!
//! # What a program owes
//!
//! **Reports.** A grace period waits for each registered thread that is online: until it says, between two guards, that it reads
//! nothing. It does so by [`Thread::quiescent_state`], and by each 64th outermost [`Thread::pin`]. A thread that does neither, or
//! keeps a guard, holds all jobs of the runtime back; so before it blocks it goes [`Thread::offline`]. Where a guard is forgotten
//! (`mem::forget`) pins report no more, and `quiescent_state` does.
//!
//! **C on the same thread.** Code in C that chooses a runtime by `rcuo_use` chooses the one back that was chosen before it returns.
//!
//! # What doesn't compile
//!
//! A `Thread` stays with the thread that registered:
//!
//! ```compile_fail,E0277
//! let runtime = rcuo::Runtime::start().unwrap();
//! let thread = runtime.register().unwrap();
//! std::thread::spawn(move || drop(thread));
//! ```
//!
//! While a guard lives its thread makes no report, and isn't offline:
//!
//! ```compile_fail,E0502
//! # let runtime = rcuo::Runtime::start().unwrap();
//! # let mut thread = runtime.register().unwrap();
//! let guard = thread.pin();
//! thread.quiescent_state();
//! drop(guard);
//! ```
//!
//! ```compile_fail,E0502
//! # let runtime = rcuo::Runtime::start().unwrap();
//! # let mut thread = runtime.register().unwrap();
//! let guard = thread.pin();
//! thread.offline(|| ());
//! drop(guard);
//! ```
//!
//! While it is offline it has no guard:
//!
//! ```compile_fail,E0502
//! # let runtime = rcuo::Runtime::start().unwrap();
//! # let mut thread = runtime.register().unwrap();
//! thread.offline(|| drop(thread.pin()));
//! ```
//!
//! What was loaded lives no longer than the guard:
//!
//! ```compile_fail,E0505
//! # use rcuo::{Atomic, Runtime};
//! # let runtime = Runtime::start().unwrap();
//! # let thread = runtime.register().unwrap();
//! # let number = Atomic::new(1);
//! let guard = thread.pin();
//! let shared = number.load(std::sync::atomic::Ordering::Acquire, &guard);
//! drop(guard);
//! assert!(!shared.is_null());
//! ```
//!
//! A job may run in another thread, and after what its maker borrows is gone:
//!
//! ```compile_fail,E0277
//! # let runtime = rcuo::Runtime::start().unwrap();
//! # let thread = runtime.register().unwrap();
//! let here = std::rc::Rc::new(1);
//! thread.pin().defer(move || drop(here));
//! ```
//!
//! ```compile_fail,E0597
//! # let runtime = rcuo::Runtime::start().unwrap();
//! # let thread = runtime.register().unwrap();
//! let number = 1;
//! let borrowed = &number;
//! thread.pin().defer(move || println!("{borrowed}"));
//! ```

#![deny(missing_docs, missing_debug_implementations, unsafe_op_in_unsafe_fn)]

mod atomic;
mod error;
mod guard;
mod job;
mod runtime;
mod thread;

pub mod parts;

pub use atomic::{Atomic, CompareExchangeError, Owned, Pointer, Shared};
pub use error::{RegisterError, StartError, StopError, WaitError};
pub use guard::{unprotected, Guard};
pub use job::{Helper, Job};
pub use runtime::{Builder, Refused, Runtime, Stopped};
pub use thread::Thread;

/// The version of the library that was linked or loaded, as `0.1.0`.
pub fn version() -> String {
    // SAFETY: the function has no premise.
    let number = unsafe { rcuo_sys::rcuo_version() };
    format!("{}.{}.{}", number / 1_000_000, number / 1000 % 1000, number % 1000)
}
