//! The declarations of librcuo (`rcuo.h`) and of its managed runtime (`rcuo/runtime.h`), under their names in C, whose meaning and
//! whose premises stand in these headers. Safe types over them are those of the crate `rcuo`.
//!
//! Of the functions that a header in C defines inline, those of `rcuo.h` aren't here: what they call is ([`rcuo_slot_call`] and so
//! on). Of `rcuo/runtime.h` the report is [`rcuo_report_all`], and read sections have no call: whoever reads doesn't report.
//!
//! The build script finds the libraries:
//!
//! 1. the archives `librcuo-runtime.a` and `librcuo.a` in the folder that the environment variable `RCUO_LIB` names;
//! 2. else, within the repository, those in its folder `out`, and within what `make dist` made of it, those in its folder `lib`;
//! 3. else what `pkg-config --libs rcuo-runtime` says of an installed library (`PKG_CONFIG` names another program).
//!
//! ```
//! // The library that was linked belongs to this crate.
//! assert_eq!(unsafe { rcuo_sys::rcuo_version() }, rcuo_sys::RCUO_VERSION_NUMBER);
//! ```

#![deny(missing_docs, missing_debug_implementations)]
#![allow(non_camel_case_types)]

use std::ffi::{c_char, c_ulong, c_void};
use std::ptr;

#[cfg(not(all(target_os = "linux", target_env = "gnu")))]
compile_error!("the managed runtime is for Linux with the GNU C library");

/// How many processors a runtime has at most.
pub const RCUO_PROCESSORS: usize = 1024;

/// How many words hold a bit for each processor.
pub const RCUO_WORDS: usize = RCUO_PROCESSORS / 64;

/// How many threads may be registered with a managed runtime at once.
pub const RCUO_THREADS: u32 = RCUO_PROCESSORS as u32 - 2;

/// How many threads may be registered at once where [`rcuo_options::threads`] is 0.
pub const RCUO_THREADS_DEFAULT: u32 = 62;

/// The version of the headers that these declarations are of, as [`rcuo_version`] answers it.
pub const RCUO_VERSION_NUMBER: u32 = 1000;

/// What calls answer: an `enum rcuo_answer`.
pub type rcuo_answer = u32;

/// Done.
pub const RCUO_OK: rcuo_answer = 0;
/// A grace period is needed that can't be numbered.
pub const RCUO_SPENT: rcuo_answer = 1;
/// Memory was refused.
pub const RCUO_MEMORY: rcuo_answer = 2;
/// The processor was shut, or the runtime stops.
pub const RCUO_CLOSED: rcuo_answer = 3;
/// The processor accepted as many callbacks as its limit allows.
pub const RCUO_LIMIT: rcuo_answer = 4;
/// The processor isn't offloadable.
pub const RCUO_NOT_OFFLOADABLE: rcuo_answer = 5;
/// There is no such processor; or there is no runtime, or the thread isn't registered.
pub const RCUO_NO_PROCESSOR: rcuo_answer = 6;
/// The ticket's callback isn't counted by this barrier.
pub const RCUO_AHEAD: rcuo_answer = 7;
/// The slot is empty.
pub const RCUO_EMPTY: rcuo_answer = 8;
/// The slot has a part of another kind.
pub const RCUO_OTHER: rcuo_answer = 9;
/// A callback was begun and isn't finished; or the call isn't for callbacks.
pub const RCUO_RUNNING: rcuo_answer = 10;
/// No callback was begun.
pub const RCUO_NOT_RUNNING: rcuo_answer = 11;
/// A slot has a part already; or the thread is registered already, or one is still.
pub const RCUO_FULL: rcuo_answer = 12;
/// A slot's part is of another open, or of another place.
pub const RCUO_FOREIGN: rcuo_answer = 13;
/// A number is outside the limits.
pub const RCUO_SHAPE: rcuo_answer = 14;
/// There are fewer slots than parts; or as many threads are registered as may be.
pub const RCUO_FEW: rcuo_answer = 15;
/// A read section is open.
pub const RCUO_READING: rcuo_answer = 16;
/// No callback is ready here; after a close, no further record or job is left.
pub const RCUO_NONE_LEFT: rcuo_answer = 17;
/// It isn't the turn of the first callback here, or, of a hand, its wait isn't over.
pub const RCUO_TURN: rcuo_answer = 18;
/// Another thread's step was in the way: begin again.
pub const RCUO_AGAIN: rcuo_answer = 19;
/// A pointer is null.
pub const RCUO_NULL: rcuo_answer = 20;
/// The processor is away, or the thread offline.
pub const RCUO_AWAY: rcuo_answer = 21;
/// The processor isn't away.
pub const RCUO_NOT_AWAY: rcuo_answer = 22;

/// A place for one part of a runtime. Opaque.
#[repr(C)]
#[derive(Clone, Copy, Debug)]
pub struct rcuo_slot {
    /// 1 where it has a part, else 0.
    pub full: u64,
    part: *mut c_void,
    reading: u64,
    filling: [u64; 5],
}

impl rcuo_slot {
    /// A slot without a part.
    pub const EMPTY: rcuo_slot = rcuo_slot { full: 0, part: ptr::null_mut(), reading: 0, filling: [0; 5] };
}

/// The slots of a runtime.
#[repr(C)]
#[derive(Clone, Copy, Debug)]
pub struct rcuo_parts {
    /// Control's.
    pub control: rcuo_slot,
    /// The driver's.
    pub driver: rcuo_slot,
    /// One for each processor.
    pub processors: [rcuo_slot; RCUO_PROCESSORS],
    /// One for each group with an offloadable processor.
    pub groups: [rcuo_slot; RCUO_PROCESSORS],
    /// One for each offloadable processor.
    pub hands: [rcuo_slot; RCUO_PROCESSORS],
}

impl rcuo_parts {
    /// Slots without parts.
    pub const EMPTY: rcuo_parts = rcuo_parts {
        control: rcuo_slot::EMPTY,
        driver: rcuo_slot::EMPTY,
        processors: [rcuo_slot::EMPTY; RCUO_PROCESSORS],
        groups: [rcuo_slot::EMPTY; RCUO_PROCESSORS],
        hands: [rcuo_slot::EMPTY; RCUO_PROCESSORS],
    };
}

/// What a runtime is opened with.
#[repr(C)]
#[derive(Clone, Copy, Debug)]
pub struct rcuo_shape {
    /// How many processors, 1 to 1024.
    pub processors: u64,
    /// How many neighbours make a group, 1 to 1024.
    pub stride: u64,
    /// How many callbacks a group gives a hand in one turn at most.
    pub blimit: u64,
    /// At how many callbacks a bypass list is released at once.
    pub qhimark: u64,
    /// How many callbacks a processor accepts in its life; 0 is 2^53.
    pub limit: u64,
    /// Bit p % 64 of word p / 64: processor p is offloadable.
    pub offloadable: [u64; RCUO_WORDS],
    /// Each processor is offloadable, whatever the words say.
    pub all: bool,
    /// The record of each callback that ran is kept.
    pub records: bool,
}

/// A callback's function.
pub type rcuo_function = unsafe extern "C" fn(argument: *mut c_void);

/// A callback: a key, and what is to be called.
#[repr(C)]
#[derive(Clone, Copy, Debug)]
pub struct rcuo_job {
    /// What the program alone knows the meaning of.
    pub key: u64,
    /// The function.
    pub function: Option<rcuo_function>,
    /// Its argument.
    pub argument: *mut c_void,
}

impl rcuo_job {
    /// No callback.
    pub const NONE: rcuo_job = rcuo_job { key: 0, function: None, argument: ptr::null_mut() };
}

/// An accepted callback.
#[repr(C)]
#[derive(Clone, Copy, Debug, Default)]
pub struct rcuo_ticket {
    /// Its processor.
    pub processor: u64,
    /// Its number there, from 0 in the order of acceptance.
    pub number: u64,
}

/// A number for each processor.
#[repr(C)]
#[derive(Clone, Copy, Debug)]
pub struct rcuo_counts {
    /// How many processors there are.
    pub processors: u64,
    /// The number of each of these, and then what means nothing.
    pub counts: [u64; RCUO_PROCESSORS],
}

impl rcuo_counts {
    /// Those of no processor.
    pub const NONE: rcuo_counts = rcuo_counts { processors: 0, counts: [0; RCUO_PROCESSORS] };
}

/// What a turn of the driver did.
#[repr(C)]
#[derive(Clone, Copy, Debug, Default)]
pub struct rcuo_driver_turn {
    /// 0: no grace period is needed; 1: it started one; 2: it ended one; 3: it waits for a processor.
    pub step: u64,
    /// The number of the grace period, or of the processor.
    pub number: u64,
}

/// What a turn of a group did.
#[repr(C)]
#[derive(Clone, Copy, Debug, Default)]
pub struct rcuo_group_turn {
    /// How many callbacks it drew.
    pub took: u64,
    /// How many it gave to hands.
    pub gave: u64,
    /// How many wait with it in batches.
    pub held: u64,
}

/// What is kept of a callback that ran.
#[repr(C)]
#[derive(Clone, Copy, Debug)]
pub struct rcuo_record {
    /// Its number.
    pub number: u64,
    /// The grace-period number that its processor saw after it was accepted.
    pub stamp: u64,
    /// The number by which it ran.
    pub ready: u64,
    /// What ran.
    pub job: rcuo_job,
}

impl rcuo_record {
    /// No record.
    pub const NONE: rcuo_record = rcuo_record { number: 0, stamp: 0, ready: 0, job: rcuo_job::NONE };
}

#[allow(missing_docs)] // (`rcuo.h` says what each does: `rcuo_slot_call` what `rcuo_call` does there, and so on)
extern "C" {
    pub fn rcuo_version() -> u32;
    pub fn rcuo_slot_open(shape: *const rcuo_shape, number: u64, parts: *mut rcuo_parts) -> rcuo_answer;
    pub fn rcuo_slot_close(parts: *mut rcuo_parts) -> rcuo_answer;
    pub fn rcuo_slot_call(
        slot: *mut rcuo_slot,
        lazy: bool,
        moment: u64,
        key: u64,
        function: Option<rcuo_function>,
        argument: *mut c_void,
        ticket: *mut rcuo_ticket,
    ) -> rcuo_answer;
    pub fn rcuo_slot_quiescent(slot: *mut rcuo_slot, counted: *mut u64) -> rcuo_answer;
    pub fn rcuo_slot_start_poll(slot: *mut rcuo_slot, cookie: *mut u64) -> rcuo_answer;
    pub fn rcuo_slot_poll_state(slot: *mut rcuo_slot, cookie: u64, elapsed: *mut bool) -> rcuo_answer;
    pub fn rcuo_slot_leave(slot: *mut rcuo_slot) -> rcuo_answer;
    pub fn rcuo_slot_return(slot: *mut rcuo_slot) -> rcuo_answer;
    pub fn rcuo_slot_begin(slot: *mut rcuo_slot, moment: u64, job: *mut rcuo_job) -> rcuo_answer;
    pub fn rcuo_slot_finish(slot: *mut rcuo_slot) -> rcuo_answer;
    pub fn rcuo_slot_next(slot: *mut rcuo_slot, moment: u64, job: *mut rcuo_job) -> rcuo_answer;
    pub fn rcuo_slot_driver_turn(slot: *mut rcuo_slot, turn: *mut rcuo_driver_turn) -> rcuo_answer;
    pub fn rcuo_slot_group_turn(slot: *mut rcuo_slot, turn: *mut rcuo_group_turn) -> rcuo_answer;
    pub fn rcuo_slot_switch(slot: *mut rcuo_slot, processor: u64, on: bool) -> rcuo_answer;
    pub fn rcuo_slot_barrier(slot: *mut rcuo_slot, barrier: *mut rcuo_counts) -> rcuo_answer;
    pub fn rcuo_slot_poll(slot: *mut rcuo_slot, barrier: *const rcuo_counts, passed: *mut bool) -> rcuo_answer;
    pub fn rcuo_slot_shut(slot: *mut rcuo_slot, counts: *mut rcuo_counts) -> rcuo_answer;
    pub fn rcuo_slot_halt(slot: *mut rcuo_slot) -> rcuo_answer;
    pub fn rcuo_slot_halted(slot: *mut rcuo_slot, halted: *mut bool) -> rcuo_answer;
    pub fn rcuo_slot_accepted(slot: *mut rcuo_slot, accepted: *mut u64) -> rcuo_answer;
    pub fn rcuo_slot_left(slot: *mut rcuo_slot, left: *mut u64) -> rcuo_answer;
    pub fn rcuo_slot_record(slot: *mut rcuo_slot, processor: u64, at: u64, record: *mut rcuo_record) -> rcuo_answer;
    pub fn rcuo_slot_back(slot: *mut rcuo_slot, processor: u64, at: u64, job: *mut rcuo_job) -> rcuo_answer;
    pub fn rcuo_slot_reports(slot: *mut rcuo_slot, processor: u64, reports: *mut u64) -> rcuo_answer;
    pub fn rcuo_slot_end(slot: *mut rcuo_slot) -> rcuo_answer;
}

/// A managed runtime. Opaque.
#[repr(C)]
#[derive(Debug)]
pub struct rcuo_runtime {
    opaque: [u8; 0],
}

/// The function of a head.
pub type rcuo_head_function = unsafe extern "C" fn(head: *mut rcuo_head);

/// A callback's place, within the object that it is called for.
#[repr(C)]
#[derive(Debug)]
pub struct rcuo_head {
    /// The next one, of a list that [`rcuo_stop`] hands back.
    pub next: *mut rcuo_head,
    /// What is called.
    pub function: Option<rcuo_head_function>,
}

impl rcuo_head {
    /// One that waits for no call.
    pub const NONE: rcuo_head = rcuo_head { next: ptr::null_mut(), function: None };
}

/// What a helper has of its own.
#[repr(C)]
#[derive(Clone, Copy, Debug)]
pub struct rcuo_helper {
    /// Its name; null: that of the options, with its number.
    pub name: *const c_char,
    /// Its attributes, a `pthread_attr_t`; null: those of the options.
    pub attributes: *const c_void,
}

/// How a runtime is started.
#[repr(C)]
#[derive(Clone, Copy, Debug)]
pub struct rcuo_options {
    /// How many threads may be registered at once; 0: [`RCUO_THREADS_DEFAULT`].
    pub threads: u32,
    /// The helper's name; null: `rcuo`.
    pub name: *const c_char,
    /// The helpers' attributes, a `pthread_attr_t`; null: as the starting thread.
    pub attributes: *const c_void,
    /// How many helpers there are at first; 0: one.
    pub helpers: u32,
    /// What each of so many has of its own; null: nothing.
    pub each: *const rcuo_helper,
    /// How many there may be with those that are added; 0: `helpers`.
    pub helpers_most: u32,
}

#[allow(missing_docs)] // (`rcuo/runtime.h` says what each does)
extern "C" {
    pub fn rcuo_start(runtime: *mut *mut rcuo_runtime, options: *const rcuo_options) -> rcuo_answer;
    pub fn rcuo_stop(runtime: *mut rcuo_runtime, back: *mut *mut rcuo_head) -> rcuo_answer;
    pub fn rcuo_use(runtime: *mut rcuo_runtime) -> rcuo_answer;
    pub fn rcuo_register() -> rcuo_answer;
    pub fn rcuo_unregister() -> rcuo_answer;
    pub fn rcuo_thread_offline() -> rcuo_answer;
    pub fn rcuo_thread_online() -> rcuo_answer;
    pub fn rcuo_thread_is_online() -> bool;
    pub fn rcuo_report_all() -> rcuo_answer;
    pub fn rcuo_synchronize() -> rcuo_answer;
    pub fn rcuo_start_poll_synchronize(cookie: *mut u64) -> rcuo_answer;
    pub fn rcuo_poll_state_synchronize(cookie: u64, elapsed: *mut bool) -> rcuo_answer;
    pub fn rcuo_call_rcu(head: *mut rcuo_head, function: rcuo_head_function);
    pub fn rcuo_defer(function: Option<rcuo_function>, argument: *mut c_void) -> rcuo_answer;
    pub fn rcuo_runtime_barrier() -> rcuo_answer;
    pub fn rcuo_helper_thread() -> c_ulong;
    pub fn rcuo_add_helper(own: *const rcuo_helper, number: *mut u32) -> rcuo_answer;
    pub fn rcuo_call_rcu_in(helper: u32, head: *mut rcuo_head, function: rcuo_head_function);
    pub fn rcuo_get_helper_thread(number: u32, thread: *mut c_ulong) -> rcuo_answer;
    pub fn rcuo_before_fork();
    pub fn rcuo_after_fork_parent();
    pub fn rcuo_after_fork_child();
}
