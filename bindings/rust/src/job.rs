//! Jobs: closures in objects that have a head, by which the library calls them.

use crate::runtime::Home;
use rcuo_sys as ffi;
use std::any::Any;
use std::cell::{Cell, RefCell};
use std::collections::VecDeque;
use std::fmt;
use std::mem;
use std::panic::{catch_unwind, AssertUnwindSafe};
use std::ptr::{self, NonNull};

/// A job that didn't run, and comes back from [`Runtime::stop`](crate::Runtime::stop). Where it is dropped, what it owns is.
pub struct Job(Box<dyn FnOnce(&Helper<'_>) + Send + 'static>);

impl Job {
    /// Runs it in this thread. Answers the jobs that it deferred, which nobody else has.
    pub fn run(self) -> Vec<Job> {
        run_with(self.0)
    }
}

impl fmt::Debug for Job {
    fn fmt(&self, out: &mut fmt::Formatter<'_>) -> fmt::Result {
        out.debug_struct("Job").finish_non_exhaustive()
    }
}

/// Runs a closure, and answers the jobs that it deferred.
fn run_with(job: impl FnOnce(&Helper<'_>)) -> Vec<Job> {
    let deferred = RefCell::new(Vec::new());
    job(&Helper { takes: Takes::List(&deferred) });
    deferred.into_inner()
}

/// Runs a closure, and then the jobs that it deferred, and so on.
pub(crate) fn run_now(job: impl FnOnce(&Helper<'_>)) {
    let mut deferred = VecDeque::from(run_with(job));
    while let Some(job) = deferred.pop_front() {
        deferred.extend(job.run());
    }
}

thread_local! {
    /// The runtime whose helper this thread is.
    static HELPS: Cell<*const ffi::rcuo_runtime> = const { Cell::new(ptr::null()) };
    /// The runtime that this thread has chosen by `rcuo_use`.
    static CHOSEN: Cell<*const ffi::rcuo_runtime> = const { Cell::new(ptr::null()) };
}

/// Whether this thread is the helper of a runtime, in a job.
pub(crate) fn is_helper_of(runtime: *const ffi::rcuo_runtime) -> bool {
    HELPS.get() == runtime
}

/// Has the library's calls of this thread mean a runtime.
///
/// # Safety
///
/// The runtime is not stopped.
pub(crate) unsafe fn choose(runtime: *mut ffi::rcuo_runtime) {
    if CHOSEN.get() != runtime.cast_const() {
        // SAFETY: the caller's.
        unsafe { ffi::rcuo_use(runtime) };
        CHOSEN.set(runtime);
    }
}

/// Whatever this thread chose may be gone.
pub(crate) fn forget_choice() {
    CHOSEN.set(ptr::null());
}

/// What a job sees of the thread that runs it: it calls again by this.
pub struct Helper<'a> {
    takes: Takes<'a>,
}

/// Who takes what a job defers.
enum Takes<'a> {
    /// The runtime that runs it.
    Runtime(&'a Home),
    /// The program, which runs a job that came back.
    List(&'a RefCell<Vec<Job>>),
}

impl Helper<'_> {
    /// As [`Guard::defer`](crate::Guard::defer): the job runs after a further grace period. Where the program runs a job that came
    /// back, it gets what that defers by [`Job::run`].
    pub fn defer<F, R>(&self, job: F)
    where
        F: FnOnce() -> R + Send + 'static,
    {
        self.defer_with(move |_| drop(job()));
    }

    /// As [`Helper::defer`], for a job that calls again.
    pub fn defer_with<F>(&self, job: F)
    where
        F: FnOnce(&Helper<'_>) + Send + 'static,
    {
        match self.takes {
            // SAFETY: the job is `Send` and `'static`, and the runtime runs.
            Takes::Runtime(home) => unsafe { call(NonNull::from(home), job) },
            Takes::List(jobs) => jobs.borrow_mut().push(Job(Box::new(job))),
        }
    }
}

impl fmt::Debug for Helper<'_> {
    fn fmt(&self, out: &mut fmt::Formatter<'_>) -> fmt::Result {
        out.debug_struct("Helper").finish_non_exhaustive()
    }
}

/// What each callback begins with, whatever its closure is.
#[repr(C)]
struct Prefix {
    /// (first, so that the head's address is that of the callback)
    head: ffi::rcuo_head,
    /// Takes the closure out of the callback that begins here.
    take: unsafe fn(*mut Prefix) -> Job,
    home: NonNull<Home>,
}

#[repr(C)]
struct Callback<F> {
    prefix: Prefix,
    closure: F,
}

/// Hands a closure to a runtime, as a call of this thread.
///
/// # Safety
///
/// The home is that of a runtime that runs. The closure may be called, or dropped, by any thread, at any time until the runtime
/// was stopped and what came back was dropped.
pub(crate) unsafe fn call<F: FnOnce(&Helper<'_>)>(home: NonNull<Home>, closure: F) {
    let prefix = Prefix { head: ffi::rcuo_head::NONE, take: take::<F>, home };
    let callback = Box::into_raw(Box::new(Callback { prefix, closure }));
    // SAFETY: the home is there (the caller's), and so is its runtime. The callback is the library's until it enters `run`, or
    // hands its head back.
    unsafe {
        choose(home.as_ref().runtime);
        ffi::rcuo_call_rcu(callback.cast(), run::<F>);
    }
}

/// What the helper enters. No panic leaves it.
unsafe extern "C" fn run<F: FnOnce(&Helper<'_>)>(head: *mut ffi::rcuo_head) {
    // SAFETY: the head is that of a callback which `call` made of this type, and it is entered once.
    let callback = unsafe { Box::from_raw(head.cast::<Callback<F>>()) };
    let Callback { prefix, closure } = *callback;
    // SAFETY: the home is let go after the runtime was stopped, which waits for this.
    let home = unsafe { prefix.home.as_ref() };
    HELPS.set(home.runtime);
    CHOSEN.set(home.runtime); // (the library chooses it before each callback)
    let helper = Helper { takes: Takes::Runtime(home) };
    if let Err(payload) = catch_unwind(AssertUnwindSafe(|| closure(&helper))) {
        home.tell_panic(payload);
    }
}

/// The job of a callback that comes back.
///
/// # Safety
///
/// It begins a callback which `call` made of this type, and that the library has no more.
unsafe fn take<F: FnOnce(&Helper<'_>)>(prefix: *mut Prefix) -> Job {
    // SAFETY: the caller's.
    let callback = unsafe { Box::from_raw(prefix.cast::<Callback<F>>()) };
    let job: Box<dyn FnOnce(&Helper<'_>) + '_> = Box::new(callback.closure);
    // SAFETY: only the lifetime and `Send` are added, which `call` asks for.
    Job(unsafe { mem::transmute::<Box<dyn FnOnce(&Helper<'_>) + '_>, Box<dyn FnOnce(&Helper<'_>) + Send>>(job) })
}

/// The jobs of a list of heads that the library handed back.
///
/// # Safety
///
/// Each head is that of a callback which `call` made, and the library has none of them any more.
pub(crate) unsafe fn take_all(mut head: *mut ffi::rcuo_head) -> Vec<Job> {
    let mut jobs = Vec::new();
    while !head.is_null() {
        let prefix = head.cast::<Prefix>();
        // SAFETY: the caller's. The list goes on where the head, which goes with its callback, says.
        unsafe {
            head = (*prefix).head.next;
            jobs.push(((*prefix).take)(prefix));
        }
    }
    jobs
}

/// Drops what a panic left, which may panic as it is dropped, and so may what that left.
pub(crate) fn drop_quietly(payload: Box<dyn Any + Send>) {
    let drops = |payload| catch_unwind(AssertUnwindSafe(|| drop(payload)));
    if let Err(last) = drops(payload).or_else(drops) {
        mem::forget(last);
    }
}
