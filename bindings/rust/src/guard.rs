//! Read sections.

use crate::atomic::Shared;
use crate::job::{self, Helper};
use crate::thread::Local;
use std::fmt;

/// A read section of a [`Thread`](crate::Thread), which lasts as long as this lives: what was loaded under it stays where it is.
#[must_use = "the read section ends where its guard is dropped"]
pub struct Guard<'t> {
    /// None: nothing is guarded, and jobs run at once.
    local: Option<&'t Local>,
}

impl fmt::Debug for Guard<'_> {
    fn fmt(&self, out: &mut fmt::Formatter<'_>) -> fmt::Result {
        out.debug_struct("Guard").field("protects", &self.local.is_some()).finish()
    }
}

impl<'t> Guard<'t> {
    /// # Safety
    ///
    /// `local` has counted this guard, and its thread is registered as long as the borrow lasts.
    #[inline]
    pub(crate) unsafe fn of(local: &'t Local) -> Guard<'t> {
        Guard { local: Some(local) }
    }

    /// Runs a job in the helper, once each guard is gone that lives now, and its thread has said so. What it answers is dropped
    /// there.
    ///
    /// Jobs of one thread run in the order in which it deferred them, and with one helper one at a time in all. Where a job panics the next one
    /// runs, and [`Builder::on_panic`](crate::Builder::on_panic) is told. Each has an allocation of its own.
    pub fn defer<F, R>(&self, job: F)
    where
        F: FnOnce() -> R + Send + 'static,
    {
        self.defer_with(move |_| drop(job()));
    }

    /// As [`Guard::defer`], for a job that calls again.
    ///
    /// ```
    /// # let runtime = rcuo::Runtime::start()?;
    /// # let mut thread = runtime.register()?;
    /// thread.pin().defer_with(|helper| helper.defer(|| println!("two grace periods have passed")));
    /// # thread.barrier();
    /// # Ok::<(), Box<dyn std::error::Error>>(())
    /// ```
    pub fn defer_with<F>(&self, job: F)
    where
        F: FnOnce(&Helper<'_>) + Send + 'static,
    {
        // SAFETY: the job is `Send` and `'static`.
        unsafe { self.call(job) };
    }

    /// As [`Guard::defer`], for a job that needn't be `Send` and `'static`.
    ///
    /// # Safety
    ///
    /// The job, and what it answers, may be run and dropped by another thread, and at any time until the runtime was stopped and
    /// what came back from that was dropped: what it borrows lives so long.
    pub unsafe fn defer_unchecked<F, R>(&self, job: F)
    where
        F: FnOnce() -> R,
    {
        // SAFETY: the caller's.
        unsafe { self.call(move |_: &Helper<'_>| drop(job())) };
    }

    /// Drops what `retired` points to, as a job. Where the job comes back from [`Runtime::stop`](crate::Runtime::stop), that is
    /// where it is run or dropped.
    ///
    /// # Safety
    ///
    /// - `retired` isn't null, and points to what an [`Owned`](crate::Owned) had.
    /// - No thread that pins from now on gets at it, each guard under which it is reached is of this guard's runtime, and it is
    ///   retired once.
    /// - It may be dropped by another thread, and as late as [`Guard::defer_unchecked`] says.
    pub unsafe fn defer_destroy<T>(&self, retired: Shared<'_, T>) {
        // SAFETY: the caller's: after the grace period it has no other owner. So too where the job is dropped, which owns it.
        unsafe {
            let owned = retired.into_owned();
            self.call(move |_: &Helper<'_>| drop(owned));
        }
    }

    /// # Safety
    ///
    /// As of [`Guard::defer_unchecked`].
    unsafe fn call<F: FnOnce(&Helper<'_>)>(&self, job: F) {
        match self.local {
            // SAFETY: the caller's, and a thread's runtime runs as long as it is there.
            Some(local) => unsafe { job::call(local.home, job) },
            None => job::run_now(job),
        }
    }

    /// Ends this read section and begins another. Where no other guard of the thread lives, or was forgotten, a quiescent state is
    /// reported between them.
    pub fn repin(&mut self) {
        if let Some(local) = self.local {
            local.report_alone();
        }
    }
}

impl Drop for Guard<'_> {
    #[inline]
    fn drop(&mut self) {
        if let Some(local) = self.local {
            local.end_guard();
        }
    }
}

/// A guard that guards nothing: jobs that it defers run at once, and then those that they defer. For what no other thread gets at, as in the `drop` of a
/// structure, or before it is published.
///
/// # Safety
///
/// What is loaded under it isn't retired or changed by another thread meanwhile, and what is retired by it isn't read.
pub unsafe fn unprotected() -> &'static Guard<'static> {
    struct Unprotected(Guard<'static>);
    // SAFETY: it has no thread.
    unsafe impl Sync for Unprotected {}
    static UNPROTECTED: Unprotected = Unprotected(Guard { local: None });
    &UNPROTECTED.0
}
