//! The parts of a runtime by hand: slots, turns and moments of the program's own, in threads of its own.
//!
//! For programs that can't have a helper thread, or that decide themselves where callbacks run. All others are better off with
//! [`Runtime`](crate::Runtime).
//!
//! [`open`] makes the parts of a runtime, each for a thread of its own. A thread reads shared data by its [`Processor`],
//! retires what it replaced by [`Processor::call`], and reports quiescent states between its read sections. A callback is a
//! boxed `FnOnce`, which runs once each processor has reported since it was called. [`Parts::close`] gives back what ran and
//! what didn't. Where a part was dropped, as by a thread that panicked, no job is lost: [`Parts::recover`] takes it up again.
//!
//! ```
//! use rcuo::parts::{open, Settings};
//! use std::sync::atomic::{AtomicU64, Ordering};
//! use std::sync::Arc;
//!
//! let mut parts = open(&Settings { processors: 1, records: true, ..Settings::default() })?;
//! let freed = Arc::new(AtomicU64::new(0));
//!
//! let told = Arc::clone(&freed);
//! let ticket = parts.processors[0].call(0, move || {
//!     told.fetch_add(1, Ordering::SeqCst);
//! })?;
//! assert_eq!(ticket.number, 0);
//!
//! while freed.load(Ordering::SeqCst) == 0 {
//!     parts.processors[0].quiescent()?;
//!     parts.processors[0].run(0, 16)?;
//!     parts.driver.turn()?;
//! }
//! let closed = parts.close()?;
//! assert_eq!(closed.ran[0].len(), 1);
//! assert!(closed.back[0].is_empty());
//! # Ok::<(), rcuo::parts::Error>(())
//! ```
//!
//! A *moment* is a time of the program's own clock, in any unit, by which an offloaded processor decides which callbacks it
//! holds back, to release several together. It has to move on: after sixteen calls in one moment each further one waits for a
//! tick ([`Processor::run`]) or a call in another moment, or for a barrier. A local processor heeds no moment, and 0 will do.
//!
//! While a read section lives, its processor makes no report:
//!
//! ```compile_fail
//! # let mut parts = rcuo::parts::open(&rcuo::parts::Settings::default()).unwrap();
//! let processor = &mut parts.processors[0];
//! let section = processor.read();
//! processor.quiescent();
//! drop(section);
//! ```
//!
//! A processor may go to another thread, but two threads can't share one:
//!
//! ```compile_fail
//! fn is_sync<T: Sync>() {}
//! is_sync::<rcuo::parts::Processor>();
//! ```

use rcuo_sys as ffi;
use std::cell::{Cell, UnsafeCell};
use std::fmt;
use std::marker::PhantomData;
use std::mem;
use std::sync::{Arc, Mutex, MutexGuard, PoisonError};

/// Why a call did nothing: `enum rcuo_answer` of `include/rcuo.h`.
#[derive(Clone, Copy, Debug, PartialEq, Eq)]
#[non_exhaustive]
pub enum Error {
    /// No further grace period can be numbered.
    Spent,
    /// Memory was refused.
    Memory,
    /// The processor was shut.
    Closed,
    /// The processor accepted as many callbacks as its limit allows.
    Limit,
    /// The processor isn't offloadable.
    NotOffloadable,
    /// There is no such processor.
    NoProcessor,
    /// A part is missing: it was dropped, or is held elsewhere. See [`Parts::recover`].
    Missing,
    /// A part is of another open.
    Foreign,
    /// A setting is outside its limits.
    Shape,
    /// Another answer, by its number.
    Other(u32),
}

impl fmt::Display for Error {
    fn fmt(&self, out: &mut fmt::Formatter<'_>) -> fmt::Result {
        match self {
            Error::Spent => out.write_str("no further grace period can be numbered"),
            Error::Memory => out.write_str("memory was refused"),
            Error::Closed => out.write_str("the processor was shut"),
            Error::Limit => out.write_str("the processor accepted as many callbacks as its limit allows"),
            Error::NotOffloadable => out.write_str("the processor isn't offloadable"),
            Error::NoProcessor => out.write_str("there is no such processor"),
            Error::Missing => out.write_str("a part is missing: it was dropped, or is held elsewhere"),
            Error::Foreign => out.write_str("a part is of another open"),
            Error::Shape => out.write_str("a setting is outside its limits"),
            Error::Other(answer) => write!(out, "answer {answer} of the library"),
        }
    }
}

impl std::error::Error for Error {}

fn answer(number: u32) -> Result<(), Error> {
    match number {
        ffi::RCUO_OK => Ok(()),
        ffi::RCUO_SPENT => Err(Error::Spent),
        ffi::RCUO_MEMORY => Err(Error::Memory),
        ffi::RCUO_CLOSED => Err(Error::Closed),
        ffi::RCUO_LIMIT => Err(Error::Limit),
        ffi::RCUO_NOT_OFFLOADABLE => Err(Error::NotOffloadable),
        ffi::RCUO_NO_PROCESSOR => Err(Error::NoProcessor),
        ffi::RCUO_EMPTY => Err(Error::Missing),
        ffi::RCUO_FOREIGN => Err(Error::Foreign),
        ffi::RCUO_SHAPE => Err(Error::Shape),
        other => Err(Error::Other(other)),
    }
}

/// What a runtime is opened with.
#[derive(Clone, Copy, Debug)]
pub struct Settings<'a> {
    /// How many processors, 1 to 1024.
    pub processors: u64,
    /// How many neighbours make a group, 1 to 1024.
    pub stride: u64,
    /// How many callbacks a group gives a hand in one turn at most, 1 to 1000000.
    pub blimit: u64,
    /// At how many callbacks a bypass list is released at once, 1 to 1000000.
    pub qhimark: u64,
    /// How many callbacks a processor accepts in its life, up to 2^53; 0 is 2^53, which no program reaches.
    pub limit: u64,
    /// Bit p % 64 of word p / 64: processor p starts offloaded, has a hand, and may be switched. Words that aren't given are 0.
    /// None: all processors.
    pub offloadable: Option<&'a [u64]>,
    /// Whether the record of each callback that ran is kept for [`Closed::ran`]. Where none is kept, memory doesn't grow with what
    /// ran.
    pub records: bool,
}

impl Default for Settings<'_> {
    fn default() -> Settings<'static> {
        Settings { processors: 1, stride: 1, blimit: 10, qhimark: 10000, limit: 0, offloadable: Some(&[]), records: false }
    }
}

impl Settings<'_> {
    /// What the library is asked for; none where a processor is named that no runtime has.
    fn shape(&self) -> Result<ffi::rcuo_shape, Error> {
        let named = self.offloadable.unwrap_or_default();
        let (named, above) = named.split_at(named.len().min(ffi::RCUO_WORDS));
        if above.iter().any(|word| *word != 0) {
            return Err(Error::Shape);
        }
        let mut offloadable = [0; ffi::RCUO_WORDS];
        offloadable[..named.len()].copy_from_slice(named);
        Ok(ffi::rcuo_shape {
            processors: self.processors,
            stride: self.stride,
            blimit: self.blimit,
            qhimark: self.qhimark,
            limit: self.limit,
            offloadable,
            all: self.offloadable.is_none(),
            records: self.records,
        })
    }
}

/// A callback.
pub type Job = Box<dyn FnOnce() + Send + 'static>;

/// A job or parts that come back with the reason.
///
/// `?` hands it on as it is in a function that answers `Box<dyn std::error::Error>`. In one that answers [`Error`] it hands on the
/// reason, and what came back is dropped: a job doesn't run then, and parts are as [`Parts`] says of dropped ones.
pub struct Refused<T> {
    /// The reason.
    pub error: Error,
    /// What was refused.
    pub back: T,
}

impl<T> fmt::Debug for Refused<T> {
    fn fmt(&self, out: &mut fmt::Formatter<'_>) -> fmt::Result {
        out.debug_struct("Refused").field("error", &self.error).finish_non_exhaustive()
    }
}

impl<T> fmt::Display for Refused<T> {
    fn fmt(&self, out: &mut fmt::Formatter<'_>) -> fmt::Result {
        self.error.fmt(out)
    }
}

impl<T> std::error::Error for Refused<T> {}

impl<T> From<Refused<T>> for Error {
    fn from(refused: Refused<T>) -> Error {
        refused.error
    }
}

/// A grace period that was asked for by `start_poll` of a processor or of control, whose `poll_state` says whether it has ended.
#[derive(Clone, Copy, Debug, PartialEq, Eq)]
pub struct Cookie(u64);

/// An accepted callback: its processor, and its number there.
#[derive(Clone, Copy, Debug, PartialEq, Eq)]
pub struct Ticket {
    /// The number of its processor.
    pub processor: u64,
    /// Its number there, from 0 in the order of acceptance.
    pub number: u64,
}

/// What is kept of a callback that ran.
#[derive(Clone, Copy, Debug, PartialEq, Eq)]
pub struct Record {
    /// Its number.
    pub number: u64,
    /// The grace-period number that its processor saw after it was accepted.
    pub stamp: u64,
    /// The number by which it ran.
    pub ready: u64,
}

/// Which parts of one kind: bit n % 64 of word n / 64 stands for the one in place n.
#[derive(Clone, Copy, Default, PartialEq, Eq)]
struct PlaceSet([u64; ffi::RCUO_WORDS]);

impl PlaceSet {
    fn has(&self, at: usize) -> bool {
        self.0[at / 64] >> (at % 64) & 1 == 1
    }

    fn insert(&mut self, at: usize) {
        self.0[at / 64] |= 1 << (at % 64);
    }

    fn remove(&mut self, at: usize) {
        self.0[at / 64] &= !(1 << (at % 64));
    }

    fn len(&self) -> u64 {
        self.0.iter().map(|word| u64::from(word.count_ones())).sum()
    }
}

impl FromIterator<usize> for PlaceSet {
    fn from_iter<I: IntoIterator<Item = usize>>(places: I) -> PlaceSet {
        let mut set = PlaceSet::default();
        places.into_iter().for_each(|at| set.insert(at));
        set
    }
}

/// Which parts of a runtime.
#[derive(Clone, Copy, Default, PartialEq, Eq)]
struct Places {
    processors: PlaceSet,
    groups: PlaceSet,
    hands: PlaceSet,
    driver: PlaceSet,
    control: PlaceSet,
}

/// The slots of one runtime, which stay where they are while a handle of a part lives.
struct Slots {
    slots: UnsafeCell<ffi::rcuo_parts>,
    /// The parts that the open made.
    opened: Places,
    /// Those of them that there is a handle for. There never are two for one part, so the slot of a part is reached by one
    /// thread at a time, by the handle; and all slots by the thread that has all handles.
    held: Mutex<Places>,
}

// SAFETY: a slot's part may go to another thread, and one thread at a time reaches it: see `held`.
unsafe impl Send for Slots {}
// SAFETY: as above.
unsafe impl Sync for Slots {}

impl Slots {
    fn held(&self) -> MutexGuard<'_, Places> {
        self.held.lock().unwrap_or_else(PoisonError::into_inner)
    }

    /// Handles of all parts that have none.
    fn recover(self: &Arc<Slots>) -> Recovered {
        let mut held = self.held();
        let without = |opened: PlaceSet, held: PlaceSet| (0..ffi::RCUO_PROCESSORS).filter(move |at| opened.has(*at) && !held.has(*at));
        let recovered = Recovered {
            processors: without(self.opened.processors, held.processors).map(|at| Processor::back(self, at)).collect(),
            groups: without(self.opened.groups, held.groups).map(|at| Group::of(self, at)).collect(),
            hands: without(self.opened.hands, held.hands).map(|at| Hand::of(self, at)).collect(),
            driver: without(self.opened.driver, held.driver).map(|at| Driver::of(self, at)).next(),
            control: without(self.opened.control, held.control).map(|at| Control::of(self, at)).next(),
        };
        *held = self.opened;
        recovered
    }

    fn control(&self) -> *mut ffi::rcuo_slot {
        // SAFETY: the slots are there, and no reference to them is made.
        unsafe { &raw mut (*self.slots.get()).control }
    }

    /// Closes all parts.
    ///
    /// # Safety
    ///
    /// The caller has all handles, or there are none.
    unsafe fn close(&self) -> Result<Closed, Error> {
        // SAFETY: the caller's: so no other thread has a slot.
        answer(unsafe { ffi::rcuo_slot_close(self.slots.get()) })?;
        let processors = 0..self.opened.processors.len();
        // SAFETY: the close was made, and the end wasn't; each processor is asked for its jobs once.
        let (ran, back) = unsafe {
            (
                processors.clone().map(|processor| self.records_of(processor)).collect(),
                processors.map(|processor| self.jobs_of(processor)).collect(),
            )
        };
        // SAFETY: as of the close.
        answer(unsafe { ffi::rcuo_slot_end(self.control()) })?;
        Ok(Closed { ran, back })
    }

    /// The records of the callbacks of a processor that ran.
    ///
    /// # Safety
    ///
    /// As of [`Slots::close`], between the close and the end.
    unsafe fn records_of(&self, processor: u64) -> Vec<Record> {
        let mut records = Vec::new();
        let mut record = ffi::rcuo_record::NONE;
        // SAFETY: the caller's.
        while unsafe { ffi::rcuo_slot_record(self.control(), processor, records.len() as u64, &mut record) } == ffi::RCUO_OK {
            records.push(Record { number: record.number, stamp: record.stamp, ready: record.ready });
        }
        records
    }

    /// The jobs of a processor that didn't run.
    ///
    /// # Safety
    ///
    /// As of [`Slots::close`], between the close and the end, and once for each processor.
    unsafe fn jobs_of(&self, processor: u64) -> Vec<Job> {
        let mut jobs = Vec::new();
        let mut job = ffi::rcuo_job::NONE;
        // SAFETY: the caller's.
        while unsafe { ffi::rcuo_slot_back(self.control(), processor, jobs.len() as u64, &mut job) } == ffi::RCUO_OK {
            // SAFETY: each job that comes back was made by `Processor::call`, and comes back once.
            jobs.push(unsafe { job_of(&job) });
        }
        jobs
    }
}

impl Drop for Slots {
    fn drop(&mut self) {
        // A runtime all of whose parts were dropped: the jobs that didn't run are dropped too.
        if self.slots.get_mut().control.full != 0 {
            // SAFETY: each handle has the slots, so there is none.
            let _ = unsafe { self.close() };
        }
    }
}

fn words_of(job: Job) -> ffi::rcuo_job {
    ffi::rcuo_job { argument: Box::into_raw(Box::new(job)).cast(), ..ffi::rcuo_job::NONE }
}

/// The job of words that [`words_of`] made.
///
/// # Safety
///
/// Once for each.
unsafe fn job_of(words: &ffi::rcuo_job) -> Job {
    // SAFETY: the caller's.
    *unsafe { Box::from_raw(words.argument.cast::<Job>()) }
}

macro_rules! part {
    ($(#[$doc:meta])* $name:ident, $slot:ident $(, $shown:ident)?) => {
        $(#[$doc])*
        pub struct $name {
            slots: Arc<Slots>,
            at: usize,
            // (a part may go to another thread, but isn't shared)
            alone: PhantomData<Cell<()>>,
        }

        impl $name {
            /// The handle of a part that has no other, and is now marked as held.
            fn of(slots: &Arc<Slots>, at: usize) -> $name {
                $name { slots: Arc::clone(slots), at, alone: PhantomData }
            }

            fn slot(&self) -> *mut ffi::rcuo_slot {
                // SAFETY: the slots are there, with one in this place, and no reference to them is made.
                unsafe { (&raw mut (*self.slots.slots.get()).$slot).cast::<ffi::rcuo_slot>().add(self.at) }
            }

            /// Takes up again those parts of this runtime that were dropped, as by threads that panicked, with all their jobs.
            pub fn recover(&self) -> Recovered {
                self.slots.recover()
            }
        }

        impl Drop for $name {
            fn drop(&mut self) {
                self.slots.held().$slot.remove(self.at);
            }
        }

        impl fmt::Debug for $name {
            fn fmt(&self, out: &mut fmt::Formatter<'_>) -> fmt::Result {
                out.debug_tuple(stringify!($name))$(.field(&self.$shown))?.finish()
            }
        }
    };
}

part!(
    /// A processor: it accepts callbacks, reports quiescent states, and runs the callbacks of its own list.
    Processor, processors, at
);
part!(
    /// The hand of an offloadable processor: it runs the callbacks of an offloaded one.
    Hand, hands, at
);
part!(
    /// A group: it waits for the grace periods of its offloaded processors.
    Group, groups, at
);
part!(
    /// The driver: it starts and ends all grace periods.
    Driver, driver
);
part!(
    /// Control: it switches processors, shuts them, and opens barriers.
    Control, control
);

/// All parts of a runtime.
///
/// Where a part is dropped, the runtime keeps it with its jobs, and [`Parts::recover`], or `recover` of any part that is left,
/// takes it up again. Until then a dropped processor makes no report, so no callback runs that waits for one. Once the last part
/// was dropped the runtime is closed, and its jobs that didn't run are dropped.
#[derive(Debug)]
pub struct Parts {
    /// In rising order.
    pub processors: Vec<Processor>,
    /// One for each group with an offloadable processor, in rising order.
    pub groups: Vec<Group>,
    /// One for each offloadable processor, in rising order.
    pub hands: Vec<Hand>,
    /// The one driver.
    pub driver: Driver,
    /// The one control.
    pub control: Control,
}

/// Those parts of a runtime that were dropped, and are taken up again.
#[derive(Debug)]
pub struct Recovered {
    /// In rising order.
    pub processors: Vec<Processor>,
    /// In rising order.
    pub groups: Vec<Group>,
    /// In rising order.
    pub hands: Vec<Hand>,
    /// The driver, if it was dropped.
    pub driver: Option<Driver>,
    /// Control, if it was dropped.
    pub control: Option<Control>,
}

/// What is left of a runtime that was closed, by processor.
pub struct Closed {
    /// The records of the callbacks that ran, numbered 0, 1, 2, .., where [`Settings::records`] had them kept.
    pub ran: Vec<Vec<Record>>,
    /// The jobs of the remaining numbers, in order.
    pub back: Vec<Vec<Job>>,
}

impl fmt::Debug for Closed {
    fn fmt(&self, out: &mut fmt::Formatter<'_>) -> fmt::Result {
        let many: Vec<usize> = self.back.iter().map(Vec::len).collect();
        out.debug_struct("Closed").field("ran", &self.ran).field("back", &many).finish()
    }
}

/// The places whose slots are full.
fn full(slots: &[ffi::rcuo_slot]) -> PlaceSet {
    slots.iter().enumerate().filter(|(_, slot)| slot.full != 0).map(|(at, _)| at).collect()
}

/// Opens a runtime.
///
/// # Errors
///
/// [`Error::Shape`]: a setting is outside its limits. [`Error::Memory`].
pub fn open(settings: &Settings<'_>) -> Result<Parts, Error> {
    let asked = settings.shape()?;
    let mut slots = Arc::new(Slots {
        slots: UnsafeCell::new(ffi::rcuo_parts::EMPTY),
        opened: Places::default(),
        held: Mutex::new(Places::default()),
    });
    let number = Arc::as_ptr(&slots) as u64;
    let whole = Arc::get_mut(&mut slots).expect("the slots have one owner");
    let filled = whole.slots.get_mut();
    // SAFETY: the slots are empty, and nobody else has them.
    answer(unsafe { ffi::rcuo_slot_open(&asked, number, filled) })?;
    whole.opened = Places {
        processors: full(&filled.processors),
        groups: full(&filled.groups),
        hands: full(&filled.hands),
        driver: PlaceSet::from_iter([0]),
        control: PlaceSet::from_iter([0]),
    };
    let Recovered { processors, groups, hands, driver, control } = slots.recover();
    let (driver, control) = (driver.expect("it was opened"), control.expect("it was opened"));
    Ok(Parts { processors, groups, hands, driver, control })
}

impl Parts {
    /// Closes the runtime. All parts of one [`open`] must be there.
    ///
    /// # Errors
    ///
    /// The parts come back, and nothing was lost. [`Error::Missing`]: a part isn't there; where it was dropped,
    /// [`Parts::recover`] takes it up again. [`Error::Foreign`]: a part is of another open. [`Error::Memory`]: close again.
    pub fn close(self) -> Result<Closed, Refused<Parts>> {
        // SAFETY: these are all handles.
        match self.are_all().and_then(|()| unsafe { self.control.slots.close() }) {
            Ok(closed) => Ok(closed),
            Err(error) => Err(Refused { error, back: self }),
        }
    }

    /// Takes up again those processors, groups and hands of control's open that were dropped, as by threads that panicked, with
    /// all their jobs. Answers how many.
    ///
    /// ```
    /// use rcuo::parts::{open, Error, Settings};
    ///
    /// let mut parts = open(&Settings { processors: 2, ..Settings::default() })?;
    /// let mut processor = parts.processors.pop().unwrap();
    /// processor.call(0, || ())?;
    /// let thread = std::thread::spawn(move || {
    ///     processor.quiescent().unwrap();
    ///     panic!("a fault, by which the processor is dropped");
    /// });
    /// assert!(thread.join().is_err());
    ///
    /// let refused = parts.close().unwrap_err();
    /// assert_eq!(refused.error, Error::Missing);
    /// let mut parts = refused.back;
    /// assert_eq!(parts.recover(), 1);
    /// let closed = parts.close()?;
    /// assert_eq!(closed.back[1].len(), 1);
    /// # Ok::<(), Error>(())
    /// ```
    pub fn recover(&mut self) -> usize {
        // (a driver or a control that was dropped, where another open's is in its place, is dropped again)
        let Recovered { processors, groups, hands, .. } = self.control.recover();
        let many = processors.len() + groups.len() + hands.len();
        self.processors.extend(processors);
        self.processors.sort_by_key(|part| part.at);
        self.groups.extend(groups);
        self.groups.sort_by_key(|part| part.at);
        self.hands.extend(hands);
        self.hands.sort_by_key(|part| part.at);
        many
    }

    /// Which parts these are, of one open.
    fn places(&self) -> Result<Places, Error> {
        let slots = &self.control.slots;
        let mut others = vec![&self.driver.slots];
        others.extend(self.processors.iter().map(|part| &part.slots));
        others.extend(self.groups.iter().map(|part| &part.slots));
        others.extend(self.hands.iter().map(|part| &part.slots));
        if !others.iter().all(|other| Arc::ptr_eq(slots, other)) {
            return Err(Error::Foreign);
        }
        Ok(Places {
            processors: self.processors.iter().map(|part| part.at).collect(),
            groups: self.groups.iter().map(|part| part.at).collect(),
            hands: self.hands.iter().map(|part| part.at).collect(),
            driver: PlaceSet::from_iter([self.driver.at]),
            control: PlaceSet::from_iter([self.control.at]),
        })
    }

    /// Whether these are all parts of one open.
    fn are_all(&self) -> Result<(), Error> {
        if self.places()? == self.control.slots.opened {
            Ok(())
        } else {
            Err(Error::Missing)
        }
    }
}

/// A read section of a processor, which makes no report while this lives.
#[derive(Debug)]
#[must_use = "the read section ends where its guard is dropped"]
pub struct ReadGuard<'a> {
    processor: PhantomData<&'a Processor>,
}

/// Ends a begun callback, also where it panics.
struct Running(*mut ffi::rcuo_slot);

impl Drop for Running {
    fn drop(&mut self) {
        // SAFETY: the slot is this thread's as long as this lives: `run`.
        unsafe { ffi::rcuo_slot_finish(self.0) };
    }
}

/// Whether the part of a slot sees that control was told to halt.
///
/// # Safety
///
/// The slot is this thread's.
unsafe fn is_halted(slot: *mut ffi::rcuo_slot) -> Result<bool, Error> {
    let mut halted = false;
    // SAFETY: the caller's.
    answer(unsafe { ffi::rcuo_slot_halted(slot, &mut halted) })?;
    Ok(halted)
}

/// Opens a barrier by the part of a slot.
///
/// # Safety
///
/// The slot is this thread's.
unsafe fn barrier(slot: *mut ffi::rcuo_slot) -> Result<Barrier, Error> {
    let mut counts = ffi::rcuo_counts::NONE;
    // SAFETY: the caller's.
    answer(unsafe { ffi::rcuo_slot_barrier(slot, &mut counts) })?;
    Ok(Barrier(counts))
}

/// Asks for a grace period.
///
/// # Safety
///
/// As of [`poll`].
unsafe fn start_poll(slot: *mut ffi::rcuo_slot) -> Result<Cookie, Error> {
    let mut cookie = 0;
    // SAFETY: the caller's.
    answer(unsafe { ffi::rcuo_slot_start_poll(slot, &mut cookie) })?;
    Ok(Cookie(cookie))
}

/// Whether a grace period has ended.
///
/// # Safety
///
/// As of [`poll`].
unsafe fn poll_state(slot: *mut ffi::rcuo_slot, cookie: Cookie) -> Result<bool, Error> {
    let mut elapsed = false;
    // SAFETY: the caller's.
    answer(unsafe { ffi::rcuo_slot_poll_state(slot, cookie.0, &mut elapsed) })?;
    Ok(elapsed)
}

/// Whether a barrier has passed, as the part of a slot sees it.
///
/// # Safety
///
/// The slot is this thread's.
unsafe fn poll(slot: *mut ffi::rcuo_slot, barrier: &Barrier) -> Result<bool, Error> {
    let mut passed = false;
    // SAFETY: the caller's.
    answer(unsafe { ffi::rcuo_slot_poll(slot, &barrier.0, &mut passed) })?;
    Ok(passed)
}

/// Runs callbacks of a processor or a hand, at most so many. Answers how many ran.
///
/// # Safety
///
/// The slot is this thread's.
unsafe fn run(slot: *mut ffi::rcuo_slot, moment: u64, most: u64) -> Result<u64, Error> {
    let mut words = ffi::rcuo_job::NONE;
    for ran in 0..most {
        // SAFETY: the caller's.
        let begun = match ran {
            0 => unsafe { ffi::rcuo_slot_begin(slot, moment, &mut words) },
            _ => unsafe { ffi::rcuo_slot_next(slot, moment, &mut words) },
        };
        match begun {
            ffi::RCUO_OK => {
                let running = Running(slot);
                // SAFETY: the callback was made by `Processor::call`, and is begun once.
                let job = unsafe { job_of(&words) };
                job();
                // (what comes next ends it, without a call of its own)
                mem::forget(running);
            }
            ffi::RCUO_NONE_LEFT | ffi::RCUO_TURN | ffi::RCUO_AGAIN => return Ok(ran),
            other => answer(other)?,
        }
    }
    if most > 0 {
        drop(Running(slot));
    }
    Ok(most)
}

/// A processor that is away: no grace period waits for it, and nobody reads as it. One that is dropped is away still, and back
/// once it is taken up again ([`Parts::recover`]).
#[derive(Debug)]
pub struct Away {
    processor: Processor,
}

impl Away {
    /// Its number.
    pub fn number(&self) -> u64 {
        self.processor.number()
    }

    /// The processor, which is back: from now on grace periods wait for its reports again.
    pub fn come_back(self) -> Processor {
        let Away { processor } = self;
        // SAFETY: the slot is this handle's, which nobody else uses meanwhile.
        unsafe { ffi::rcuo_slot_return(processor.slot()) };
        processor
    }
}

impl Processor {
    /// Takes up the processor in this place, which is back if it was away.
    fn back(slots: &Arc<Slots>, at: usize) -> Processor {
        let processor = Processor::of(slots, at);
        // SAFETY: the slot is this handle's, which nobody else uses meanwhile.
        unsafe { ffi::rcuo_slot_return(processor.slot()) };
        processor
    }

    /// Its number.
    pub fn number(&self) -> u64 {
        self.at as u64
    }

    fn call_job(&mut self, lazy: bool, moment: u64, job: Job) -> Result<Ticket, Refused<Job>> {
        let words = words_of(job);
        let mut ticket = ffi::rcuo_ticket::default();
        // SAFETY: the slot is this handle's, which nobody else uses meanwhile.
        let answered = unsafe { ffi::rcuo_slot_call(self.slot(), lazy, moment, words.key, words.function, words.argument, &mut ticket) };
        match answer(answered) {
            Ok(()) => Ok(Ticket { processor: ticket.processor, number: ticket.number }),
            // SAFETY: a refused job is still the caller's.
            Err(error) => Err(Refused { error, back: unsafe { job_of(&words) } }),
        }
    }

    /// Accepts a callback, at a moment of the program's clock. It runs once each processor has reported since.
    ///
    /// # Errors
    ///
    /// [`Error::Limit`], [`Error::Closed`], [`Error::Memory`]: the job comes back, and nothing changed.
    pub fn call(&mut self, moment: u64, job: impl FnOnce() + Send + 'static) -> Result<Ticket, Refused<Job>> {
        self.call_job(false, moment, Box::new(job))
    }

    /// As [`Processor::call`], but an offloaded processor may hold the callback back longer: for ten moments.
    ///
    /// # Errors
    ///
    /// As of [`Processor::call`].
    pub fn call_lazy(&mut self, moment: u64, job: impl FnOnce() + Send + 'static) -> Result<Ticket, Refused<Job>> {
        self.call_job(true, moment, Box::new(job))
    }

    /// Begins a read section. While it lives no call on `&mut` of this processor compiles, so it reports no quiescent state.
    pub fn read(&self) -> ReadGuard<'_> {
        ReadGuard { processor: PhantomData }
    }

    /// Reports a quiescent state. Answers the number of the grace period that counted it.
    pub fn quiescent(&mut self) -> Result<Option<u64>, Error> {
        let mut counted = 0;
        // SAFETY: the slot is this handle's, which nobody else uses meanwhile.
        answer(unsafe { ffi::rcuo_slot_quiescent(self.slot(), &mut counted) })?;
        Ok((counted != 0).then_some(counted))
    }

    /// Asks for a grace period that begins after this call.
    pub fn start_poll(&mut self) -> Result<Cookie, Error> {
        // SAFETY: the slot is this handle's, which nobody else uses meanwhile.
        unsafe { start_poll(self.slot()) }
    }

    /// Whether the grace period of a cookie of this runtime has ended: then each processor reported since, or was away.
    pub fn poll_state(&mut self, cookie: Cookie) -> Result<bool, Error> {
        // SAFETY: the slot is this handle's, which nobody else uses meanwhile.
        unsafe { poll_state(self.slot(), cookie) }
    }

    /// The processor is away, as before its thread blocks: no grace period waits for it until it comes back. What its bypass list
    /// holds is released first; its own list waits.
    ///
    /// # Errors
    ///
    /// [`Error::Memory`], where there is no room to release what its bypass list holds: the processor comes back, and is not away.
    ///
    /// ```
    /// # use rcuo::parts::{Error, Settings};
    /// let mut parts = rcuo::parts::open(&Settings { processors: 2, records: true, ..Default::default() })?;
    /// let away = parts.processors.pop().unwrap().leave()?;
    /// parts.processors[0].call(0, || ())?;
    /// while parts.processors[0].run(0, 10)? == 0 {
    ///     parts.processors[0].quiescent()?;
    ///     parts.driver.turn()?;
    /// }
    /// parts.processors.push(away.come_back());
    /// assert_eq!(parts.close()?.ran[0].len(), 1);
    /// # Ok::<(), Error>(())
    /// ```
    pub fn leave(self) -> Result<Away, Refused<Processor>> {
        // SAFETY: the slot is this handle's, which nobody else uses meanwhile.
        match answer(unsafe { ffi::rcuo_slot_leave(self.slot()) }) {
            Ok(()) => Ok(Away { processor: self }),
            Err(error) => Err(Refused { error, back: self }),
        }
    }

    /// Its tick, in which it runs its own callbacks that may run now, at most so many. Answers how many ran.
    pub fn run(&mut self, moment: u64, most: u64) -> Result<u64, Error> {
        // SAFETY: the slot is this handle's, which nobody else uses meanwhile.
        unsafe { run(self.slot(), moment, most) }
    }

    /// How many callbacks it accepted.
    pub fn accepted(&mut self) -> Result<u64, Error> {
        let mut accepted = 0;
        // SAFETY: the slot is this handle's, which nobody else uses meanwhile.
        answer(unsafe { ffi::rcuo_slot_accepted(self.slot(), &mut accepted) })?;
        Ok(accepted)
    }

    /// How many callbacks it still accepts at most.
    pub fn left(&mut self) -> Result<u64, Error> {
        let mut left = 0;
        // SAFETY: the slot is this handle's, which nobody else uses meanwhile.
        answer(unsafe { ffi::rcuo_slot_left(self.slot(), &mut left) })?;
        Ok(left)
    }

    /// Opens a barrier for all callbacks accepted before this call.
    pub fn barrier(&mut self) -> Result<Barrier, Error> {
        // SAFETY: the slot is this handle's, which nobody else uses meanwhile.
        unsafe { barrier(self.slot()) }
    }

    /// Whether a barrier's callbacks have all run, whoever opened it.
    pub fn poll(&mut self, barrier: &Barrier) -> Result<bool, Error> {
        // SAFETY: the slot is this handle's, which nobody else uses meanwhile.
        unsafe { poll(self.slot(), barrier) }
    }

    /// Whether control was told to halt.
    pub fn is_halted(&mut self) -> Result<bool, Error> {
        // SAFETY: the slot is this handle's, which nobody else uses meanwhile.
        unsafe { is_halted(self.slot()) }
    }
}

impl Hand {
    /// The processor whose callbacks it runs.
    pub fn processor(&self) -> u64 {
        self.at as u64
    }

    /// Runs callbacks that may run now, at most so many. Answers how many ran.
    pub fn run(&mut self, most: u64) -> Result<u64, Error> {
        // SAFETY: the slot is this handle's, which nobody else uses meanwhile.
        unsafe { run(self.slot(), 0, most) }
    }

    /// Whether control was told to halt.
    pub fn is_halted(&mut self) -> Result<bool, Error> {
        // SAFETY: the slot is this handle's, which nobody else uses meanwhile.
        unsafe { is_halted(self.slot()) }
    }
}

/// What a turn of a group did.
#[derive(Clone, Copy, Debug, PartialEq, Eq)]
pub struct GroupTurn {
    /// How many callbacks it drew from its processors.
    pub took: u64,
    /// How many it gave to hands.
    pub gave: u64,
    /// How many wait with it in batches.
    pub held: u64,
}

impl Group {
    /// Its number.
    pub fn number(&self) -> u64 {
        self.at as u64
    }

    /// A turn.
    pub fn turn(&mut self) -> Result<GroupTurn, Error> {
        let mut turn = ffi::rcuo_group_turn::default();
        // SAFETY: the slot is this handle's, which nobody else uses meanwhile.
        answer(unsafe { ffi::rcuo_slot_group_turn(self.slot(), &mut turn) })?;
        Ok(GroupTurn { took: turn.took, gave: turn.gave, held: turn.held })
    }

    /// Whether control was told to halt.
    pub fn is_halted(&mut self) -> Result<bool, Error> {
        // SAFETY: the slot is this handle's, which nobody else uses meanwhile.
        unsafe { is_halted(self.slot()) }
    }
}

/// What a turn of the driver did.
#[derive(Clone, Copy, Debug, PartialEq, Eq)]
pub enum DriverTurn {
    /// No grace period is in progress, and none is needed.
    Idle,
    /// It started the grace period of this number.
    Started(u64),
    /// It ended one; the number is this one now.
    Ended(u64),
    /// The processor of this number is the first that still owes a report.
    Waits(u64),
}

impl Driver {
    /// A turn.
    pub fn turn(&mut self) -> Result<DriverTurn, Error> {
        let mut turn = ffi::rcuo_driver_turn::default();
        // SAFETY: the slot is this handle's, which nobody else uses meanwhile.
        answer(unsafe { ffi::rcuo_slot_driver_turn(self.slot(), &mut turn) })?;
        Ok(match turn.step {
            1 => DriverTurn::Started(turn.number),
            2 => DriverTurn::Ended(turn.number),
            3 => DriverTurn::Waits(turn.number),
            _ => DriverTurn::Idle,
        })
    }

    /// Whether control was told to halt.
    pub fn is_halted(&mut self) -> Result<bool, Error> {
        // SAFETY: the slot is this handle's, which nobody else uses meanwhile.
        unsafe { is_halted(self.slot()) }
    }
}

/// An open barrier: how many callbacks of each processor it counts.
#[derive(Clone, Copy)]
pub struct Barrier(ffi::rcuo_counts);

/// The numbers of the processors that there are.
fn counts_of(counts: &ffi::rcuo_counts) -> &[u64] {
    &counts.counts[..counts.processors as usize]
}

impl Barrier {
    /// How many callbacks of each processor it counts.
    pub fn counts(&self) -> &[u64] {
        counts_of(&self.0)
    }
}

impl fmt::Debug for Barrier {
    fn fmt(&self, out: &mut fmt::Formatter<'_>) -> fmt::Result {
        out.debug_tuple("Barrier").field(&self.counts()).finish()
    }
}

impl Control {
    /// Asks for a grace period that begins after this call.
    pub fn start_poll(&mut self) -> Result<Cookie, Error> {
        // SAFETY: the slot is this handle's, which nobody else uses meanwhile.
        unsafe { start_poll(self.slot()) }
    }

    /// Whether the grace period of a cookie of this runtime has ended: then each processor reported since, or was away.
    pub fn poll_state(&mut self, cookie: Cookie) -> Result<bool, Error> {
        // SAFETY: the slot is this handle's, which nobody else uses meanwhile.
        unsafe { poll_state(self.slot(), cookie) }
    }

    /// Asks that a processor be offloaded, which its next tick heeds.
    pub fn offload(&mut self, processor: u64) -> Result<(), Error> {
        // SAFETY: the slot is this handle's, which nobody else uses meanwhile.
        answer(unsafe { ffi::rcuo_slot_switch(self.slot(), processor, true) })
    }

    /// Asks that a processor be local, which its next tick heeds.
    pub fn deoffload(&mut self, processor: u64) -> Result<(), Error> {
        // SAFETY: the slot is this handle's, which nobody else uses meanwhile.
        answer(unsafe { ffi::rcuo_slot_switch(self.slot(), processor, false) })
    }

    /// Opens a barrier for all callbacks accepted before this call.
    pub fn barrier(&mut self) -> Result<Barrier, Error> {
        // SAFETY: the slot is this handle's, which nobody else uses meanwhile.
        unsafe { barrier(self.slot()) }
    }

    /// Whether a barrier's callbacks have all run, whoever opened it.
    pub fn poll(&mut self, barrier: &Barrier) -> Result<bool, Error> {
        // SAFETY: the slot is this handle's, which nobody else uses meanwhile.
        unsafe { poll(self.slot(), barrier) }
    }

    /// Shuts every processor: from now on each call is refused. Answers how many callbacks each accepted.
    pub fn shut(&mut self) -> Result<Vec<u64>, Error> {
        let mut counts = ffi::rcuo_counts::NONE;
        // SAFETY: the slot is this handle's, which nobody else uses meanwhile.
        answer(unsafe { ffi::rcuo_slot_shut(self.slot(), &mut counts) })?;
        Ok(counts_of(&counts).to_vec())
    }

    /// Sets the halt word, which `is_halted` of the other parts reads. No call heeds it by itself.
    pub fn halt(&mut self) -> Result<(), Error> {
        // SAFETY: the slot is this handle's, which nobody else uses meanwhile.
        answer(unsafe { ffi::rcuo_slot_halt(self.slot()) })
    }
}
