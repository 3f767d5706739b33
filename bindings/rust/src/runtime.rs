//! A runtime: how it starts, what any thread may ask of it, and how it stops.

use crate::error::{RegisterError, StartError, StopError, WaitError};
use crate::job::{self, Helper, Job};
use crate::thread::Thread;
use rcuo_sys as ffi;
use std::any::Any;
use std::error::Error;
use std::ffi::CString;
use std::fmt;
use std::mem;
use std::os::unix::thread::RawPthread;
use std::panic::{catch_unwind, AssertUnwindSafe};
use std::ptr::{self, NonNull};
use std::sync::atomic::{AtomicU64, Ordering};
use std::sync::Arc;

type PanicHandler = Box<dyn Fn(Box<dyn Any + Send>) + Send + Sync>;

/// What handles and jobs share. It is there until the library's runtime was stopped.
pub(crate) struct Home {
    pub(crate) runtime: *mut ffi::rcuo_runtime,
    panics: AtomicU64,
    on_panic: Option<PanicHandler>,
}

// SAFETY: the library's runtime may be used by any thread, and the rest is so by its types.
unsafe impl Send for Home {}
// SAFETY: as above.
unsafe impl Sync for Home {}

impl Home {
    /// A job panicked.
    pub(crate) fn tell_panic(&self, payload: Box<dyn Any + Send>) {
        self.panics.fetch_add(1, Ordering::Relaxed);
        let told = match &self.on_panic {
            Some(handler) => catch_unwind(AssertUnwindSafe(|| handler(payload))),
            None => Err(payload),
        };
        if let Err(payload) = told {
            job::drop_quietly(payload);
        }
    }
}

/// How a runtime is started: [`Runtime::builder`].
#[derive(Default)]
pub struct Builder {
    threads: u32,
    helpers: u32,
    name: Option<String>,
    on_panic: Option<PanicHandler>,
}

impl fmt::Debug for Builder {
    fn fmt(&self, out: &mut fmt::Formatter<'_>) -> fmt::Result {
        let mut fields = out.debug_struct("Builder");
        fields.field("threads", &self.threads).field("helpers", &self.helpers).field("name", &self.name).finish_non_exhaustive()
    }
}

impl Builder {
    /// How many threads may be registered at once, up to 1,022; 0 is 62, as by default. Each takes memory from the start on, some
    /// 60 KB, and a look in each grace period, registered or not.
    pub fn threads(mut self, threads: u32) -> Builder {
        self.threads = threads;
        self
    }

    /// How many helper threads run jobs, among which the threads are shared out as they register; 0 is one, as by default. Jobs of one
    /// thread run in one helper, in order and one at a time; those of two may run at once. Each helper after the first takes the
    /// place of two threads.
    pub fn helpers(mut self, helpers: u32) -> Builder {
        self.helpers = helpers;
        self
    }

    /// The helper thread's name, of which the system keeps 15 bytes; `rcuo` by default. Of several each has its number behind it.
    pub fn name(mut self, name: impl Into<String>) -> Builder {
        self.name = Some(name.into());
        self
    }

    /// Has the helper hand what a job panicked with to this function. The next job runs after it. What the function itself panics
    /// with is dropped.
    pub fn on_panic(mut self, handler: impl Fn(Box<dyn Any + Send>) + Send + Sync + 'static) -> Builder {
        self.on_panic = Some(Box::new(handler));
        self
    }

    /// Starts the runtime with its helper thread.
    ///
    /// # Errors
    ///
    /// As of [`StartError`]. Then nothing is left of it.
    pub fn start(self) -> Result<Runtime, StartError> {
        let name = self.name.map(CString::new).transpose().map_err(|_| StartError::Name)?;
        let name = name.as_ref().map_or(ptr::null(), |name| name.as_ptr());
        let options = ffi::rcuo_options {
            threads: self.threads,
            name,
            attributes: ptr::null(),
            helpers: self.helpers,
            each: ptr::null(),
            helpers_most: 0,
        };
        let mut runtime = ptr::null_mut();
        // SAFETY: both pointers are of this frame, and the library copies the name.
        match unsafe { ffi::rcuo_start(&mut runtime, &options) } {
            ffi::RCUO_OK => (),
            ffi::RCUO_SHAPE => return Err(StartError::Threads),
            _ => return Err(StartError::Memory),
        }
        let home = Box::new(Home { runtime, panics: AtomicU64::new(0), on_panic: self.on_panic });
        Ok(Runtime { owner: Arc::new(Owner { home: NonNull::from(Box::leak(home)) }) })
    }
}

/// A runtime with a helper thread, which runs the jobs, one at a time; or with several ([`Builder::helpers`]).
///
/// It is a handle: clones, and the [`Thread`]s that were registered, mean the same runtime. When the last of them is dropped, the
/// runtime stops: that waits until the jobs have run, and drops those that jobs still defer after sixteen rounds. Where a job dropped
/// it, another thread waits. [`Runtime::stop`] does so by name, and says what came back.
#[derive(Clone)]
pub struct Runtime {
    owner: Arc<Owner>,
}

impl fmt::Debug for Runtime {
    fn fmt(&self, out: &mut fmt::Formatter<'_>) -> fmt::Result {
        out.debug_struct("Runtime").field("panics", &self.panics()).finish_non_exhaustive()
    }
}

impl Runtime {
    /// Starts a runtime as by default. `Runtime::builder` has what may be chosen.
    ///
    /// # Errors
    ///
    /// [`StartError::Memory`].
    pub fn start() -> Result<Runtime, StartError> {
        Runtime::builder().start()
    }

    /// What a runtime may be started with.
    ///
    /// ```
    /// let runtime = rcuo::Runtime::builder().threads(4).name("callbacks").start()?;
    /// # Ok::<(), rcuo::StartError>(())
    /// ```
    pub fn builder() -> Builder {
        Builder::default()
    }

    pub(crate) fn home(&self) -> &Home {
        // SAFETY: the home is there as long as a handle is.
        unsafe { self.owner.home.as_ref() }
    }

    pub(crate) fn home_pointer(&self) -> NonNull<Home> {
        self.owner.home
    }

    /// Has the library's calls of this thread mean this runtime.
    pub(crate) fn choose(&self) {
        // SAFETY: it isn't stopped as long as a handle is there.
        unsafe { job::choose(self.home().runtime) };
    }

    /// Registers this thread, which may read from now on. Once for each runtime.
    ///
    /// # Errors
    ///
    /// As of [`RegisterError`].
    pub fn register(&self) -> Result<Thread, RegisterError> {
        if job::is_helper_of(self.home().runtime) {
            return Err(RegisterError::InJob);
        }
        self.choose();
        // SAFETY: this runtime was chosen, which runs.
        match unsafe { ffi::rcuo_register() } {
            ffi::RCUO_OK => Ok(Thread::of(self.clone())),
            ffi::RCUO_FULL => Err(RegisterError::Registered),
            ffi::RCUO_FEW => Err(RegisterError::TooMany),
            ffi::RCUO_CLOSED => Err(RegisterError::Stopping),
            _ => Err(RegisterError::Memory),
        }
    }

    /// Runs a job after a grace period, in the helper, as [`Guard::defer`](crate::Guard::defer) does: by any thread, registered or
    /// not. The jobs of threads that aren't registered run in the order in which these calls took a lock.
    pub fn defer<F, R>(&self, job: F)
    where
        F: FnOnce() -> R + Send + 'static,
    {
        self.defer_with(move |_| drop(job()));
    }

    /// As [`Runtime::defer`], for a job that calls again.
    pub fn defer_with<F>(&self, job: F)
    where
        F: FnOnce(&Helper<'_>) + Send + 'static,
    {
        // SAFETY: the job is `Send` and `'static`, and the runtime runs.
        unsafe { job::call(self.owner.home, job) };
    }

    /// Waits for a grace period: until all guards that live now are gone, and their threads have said so. In a job too.
    ///
    /// # Errors
    ///
    /// [`WaitError::Registered`], of a thread that could have a guard: [`Thread::synchronize`] is for it.
    pub fn synchronize(&self) -> Result<(), WaitError> {
        if !job::is_helper_of(self.home().runtime) {
            self.has_no_guard()?;
        }
        self.choose();
        // SAFETY: this runtime was chosen, and this thread has no guard of it.
        unsafe { ffi::rcuo_synchronize() };
        Ok(())
    }

    /// Waits until all jobs have run that any thread deferred before.
    ///
    /// # Errors
    ///
    /// [`WaitError::Registered`]: [`Thread::barrier`] is for this thread. [`WaitError::InJob`].
    pub fn barrier(&self) -> Result<(), WaitError> {
        if job::is_helper_of(self.home().runtime) {
            return Err(WaitError::InJob);
        }
        self.has_no_guard()?;
        // SAFETY: this runtime was chosen, and this thread has no guard of it.
        unsafe { ffi::rcuo_runtime_barrier() };
        Ok(())
    }

    /// Whether a wait, by which this thread would be offline, leaves no guard of it without what it guards.
    fn has_no_guard(&self) -> Result<(), WaitError> {
        self.choose();
        // SAFETY: this runtime was chosen.
        match unsafe { ffi::rcuo_thread_is_online() } {
            true => Err(WaitError::Registered),
            false => Ok(()),
        }
    }

    /// How many jobs have panicked. [`Builder::on_panic`] gets what they panicked with.
    pub fn panics(&self) -> u64 {
        self.home().panics.load(Ordering::Relaxed)
    }

    /// The helper thread that runs this thread's jobs, as for `pthread_setaffinity_np`. It is there as long as a handle of the runtime is.
    pub fn helper_thread(&self) -> RawPthread {
        self.choose();
        // SAFETY: this runtime was chosen, which runs.
        unsafe { ffi::rcuo_helper_thread() }
    }

    /// Waits until the jobs have run, ends the helper, and lets the runtime go. Jobs that jobs defer meanwhile run too, for sixteen
    /// rounds; those that are deferred then come back.
    ///
    /// # Errors
    ///
    /// The runtime comes back, and runs as before. [`StopError::InUse`]: there is a clone of it, or a registered thread.
    /// [`StopError::InJob`]. [`StopError::Memory`]: stop again.
    pub fn stop(self) -> Result<Stopped, Refused> {
        if job::is_helper_of(self.home().runtime) {
            return Err(Refused { error: StopError::InJob, back: self });
        }
        let owner = Arc::try_unwrap(self.owner).map_err(|owner| Refused { error: StopError::InUse, back: Runtime { owner } })?;
        // SAFETY: this was the only handle, and its drop isn't run where the home is gone.
        match unsafe { stop_home(owner.home) } {
            Ok(stopped) => {
                mem::forget(owner);
                Ok(stopped)
            }
            Err(error) => Err(Refused { error, back: Runtime { owner: Arc::new(owner) } }),
        }
    }
}

/// What is left of a runtime that was stopped.
pub struct Stopped {
    /// The jobs that didn't run, in the order in which they were handed back: those that jobs deferred again and again.
    pub back: Vec<Job>,
    /// How many jobs panicked.
    pub panics: u64,
}

impl fmt::Debug for Stopped {
    fn fmt(&self, out: &mut fmt::Formatter<'_>) -> fmt::Result {
        out.debug_struct("Stopped").field("back", &self.back.len()).field("panics", &self.panics).finish()
    }
}

/// A runtime that wasn't stopped, with the reason.
#[derive(Debug)]
pub struct Refused {
    /// The reason.
    pub error: StopError,
    /// The runtime, which runs as before.
    pub back: Runtime,
}

impl fmt::Display for Refused {
    fn fmt(&self, out: &mut fmt::Formatter<'_>) -> fmt::Result {
        self.error.fmt(out)
    }
}

impl Error for Refused {}

/// What all handles have together.
struct Owner {
    home: NonNull<Home>,
}

// SAFETY: what it points to is `Sync` and `Send`.
unsafe impl Send for Owner {}
// SAFETY: as above.
unsafe impl Sync for Owner {}

impl Drop for Owner {
    fn drop(&mut self) {
        // SAFETY: the home is there until it is stopped, here.
        let runtime = unsafe { self.home.as_ref() }.runtime;
        let last = Last(self.home);
        if job::is_helper_of(runtime) {
            // A job dropped the last handle, and can't wait for itself. Where no thread is had for it, the runtime lives as long as
            // the process.
            let _ = std::thread::Builder::new().name("rcuo-stop".into()).spawn(move || last.stop());
        } else {
            last.stop();
        }
    }
}

/// A home whose last handle is gone.
struct Last(NonNull<Home>);

// SAFETY: as of `Owner`.
unsafe impl Send for Last {}

impl Last {
    /// Stops the runtime, and drops what comes back. Where it is refused the runtime lives as long as the process.
    fn stop(self) {
        // SAFETY: no handle is left.
        let _ = unsafe { stop_home(self.0) };
    }
}

/// Stops a runtime, and lets its home go.
///
/// # Safety
///
/// The home is there, and no handle but the caller's is. Where this answers Ok, it is gone.
unsafe fn stop_home(home: NonNull<Home>) -> Result<Stopped, StopError> {
    let mut back = ptr::null_mut();
    // SAFETY: the caller's. What isn't registered by a `Thread`, which is a handle, makes the library refuse this.
    let answer = unsafe { ffi::rcuo_stop(home.as_ref().runtime, &mut back) };
    match answer {
        ffi::RCUO_OK | ffi::RCUO_CLOSED => (),
        ffi::RCUO_FULL => return Err(StopError::InUse),
        ffi::RCUO_RUNNING => return Err(StopError::InJob),
        _ => return Err(StopError::Memory),
    }
    job::forget_choice();
    // SAFETY: the helper has ended, so no job uses the home any more; the heads that came back are the caller's.
    let (home, back) = unsafe { (Box::from_raw(home.as_ptr()), job::take_all(back)) };
    Ok(Stopped { back, panics: home.panics.into_inner() })
}
