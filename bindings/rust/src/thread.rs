//! A registered thread.

use crate::guard::Guard;
use crate::job;
use crate::runtime::{Home, Runtime};
use rcuo_sys as ffi;
use std::cell::Cell;
use std::fmt;
use std::marker::PhantomData;
use std::ptr::NonNull;

/// How many outermost pins there are for each report that they make.
const PINS_FOR_A_REPORT: u32 = 64;

/// What a guard needs of its thread.
pub(crate) struct Local {
    pub(crate) home: NonNull<Home>,
    /// How many guards live, or were forgotten.
    guards: Cell<usize>,
    /// How many outermost pins there were.
    pins: Cell<u32>,
}

impl Local {
    /// Reports a quiescent state.
    ///
    /// # Safety
    ///
    /// This thread is registered with the runtime of its home, and no guard of it lives.
    #[inline(never)]
    unsafe fn report(&self) {
        // SAFETY: the caller's. What a registered, online thread reports isn't refused, since no section is counted.
        unsafe {
            job::choose(self.home.as_ref().runtime);
            ffi::rcuo_report_all();
        }
    }

    #[inline]
    fn begin_guard(&self) {
        let guards = self.guards.get();
        if guards == 0 {
            let pins = self.pins.get().wrapping_add(1);
            self.pins.set(pins);
            if pins % PINS_FOR_A_REPORT == 0 {
                // SAFETY: no guard lives, and a `Local` is made for guards of a thread that is registered as long as it is there.
                unsafe { self.report() };
            }
        }
        // (where it began anew at 0, it would count none of those that live)
        self.guards.set(guards.checked_add(1).expect("there are fewer guards than numbers"));
    }

    /// No guard lives: those that are counted were forgotten.
    fn forget_guards(&mut self) {
        self.guards.set(0);
    }

    #[inline]
    pub(crate) fn end_guard(&self) {
        self.guards.set(self.guards.get() - 1);
    }

    /// Reports, where no guard lives but that of the caller, which guards nothing.
    pub(crate) fn report_alone(&self) {
        if self.guards.get() == 1 {
            // SAFETY: no other guard lives.
            unsafe { self.report() };
        }
    }
}

/// A thread that is registered with a [`Runtime`], and may read. Where it is dropped the thread is unregistered.
///
/// It stays with its thread, and there is one for each runtime: so what takes `&mut` of it knows that no guard lives.
pub struct Thread {
    local: Local,
    runtime: Runtime,
    /// (it stays with its thread)
    stays: PhantomData<*mut ()>,
}

impl fmt::Debug for Thread {
    fn fmt(&self, out: &mut fmt::Formatter<'_>) -> fmt::Result {
        out.debug_struct("Thread").field("is_pinned", &self.is_pinned()).finish_non_exhaustive()
    }
}

impl Thread {
    /// This thread, which was just registered.
    pub(crate) fn of(runtime: Runtime) -> Thread {
        let local = Local { home: runtime.home_pointer(), guards: Cell::new(0), pins: Cell::new(0) };
        Thread { local, runtime, stays: PhantomData }
    }

    /// The runtime that it is registered with.
    pub fn runtime(&self) -> &Runtime {
        &self.runtime
    }

    /// Begins a read section, which ends where the guard is dropped. Sections may nest.
    ///
    /// It costs a few instructions, and so does the end; each 64th outermost pin reports a quiescent state before.
    #[inline]
    pub fn pin(&self) -> Guard<'_> {
        self.local.begin_guard();
        // SAFETY: the guard was counted, and borrows this thread.
        unsafe { Guard::of(&self.local) }
    }

    /// Whether a guard of this thread lives, or was forgotten since the last report by name.
    pub fn is_pinned(&self) -> bool {
        self.local.guards.get() != 0
    }

    /// Says that this thread reads nothing now. Where no grace period started since the last report it is a call and a look at a
    /// few words.
    ///
    /// It also hands over jobs that were deferred so fast that they wait here to be handed over together.
    pub fn quiescent_state(&mut self) {
        self.local.forget_guards();
        // SAFETY: this thread is registered, and no guard borrows it.
        unsafe { self.local.report() };
    }

    /// Calls a function while no grace period waits for this thread, as for what may block. In it this thread has no guard of
    /// this runtime.
    ///
    /// ```
    /// # let runtime = rcuo::Runtime::start()?;
    /// # let mut thread = runtime.register()?;
    /// # let (sender, receiver) = std::sync::mpsc::channel();
    /// # sender.send(1)?;
    /// let message = thread.offline(|| receiver.recv())?;
    /// # assert_eq!(message, 1);
    /// # Ok::<(), Box<dyn std::error::Error>>(())
    /// ```
    pub fn offline<R>(&mut self, wait: impl FnOnce() -> R) -> R {
        self.local.forget_guards();
        let offline = Offline::begin(&mut self.runtime);
        let answer = wait();
        drop(offline);
        answer
    }

    /// Waits for a grace period: until all guards that live now are gone, and their threads have said so. Nobody waits for this
    /// thread meanwhile.
    pub fn synchronize(&mut self) {
        self.local.forget_guards();
        self.runtime.choose();
        // SAFETY: this thread is registered with the runtime that was chosen, and no guard borrows it.
        unsafe { ffi::rcuo_synchronize() };
    }

    /// Waits until all jobs have run that any thread deferred before. Nobody waits for this thread meanwhile.
    pub fn barrier(&mut self) {
        self.local.forget_guards();
        self.runtime.choose();
        // SAFETY: as of `synchronize`.
        unsafe { ffi::rcuo_runtime_barrier() };
    }
}

impl Drop for Thread {
    fn drop(&mut self) {
        self.runtime.choose();
        // SAFETY: no guard borrows this thread. Where the thread has ended meanwhile, which unregisters it, this is refused.
        unsafe { ffi::rcuo_unregister() };
    }
}

/// While this lives its thread is offline.
struct Offline<'a>(&'a mut Runtime);

impl Offline<'_> {
    fn begin(runtime: &mut Runtime) -> Offline<'_> {
        runtime.choose();
        // SAFETY: no guard borrows the thread, whose runtime this is.
        unsafe { ffi::rcuo_thread_offline() };
        Offline(runtime)
    }
}

impl Drop for Offline<'_> {
    fn drop(&mut self) {
        self.0.choose();
        // SAFETY: this thread is registered with the runtime that was chosen.
        unsafe { ffi::rcuo_thread_online() };
    }
}
