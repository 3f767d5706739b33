//! Threads that register, pin, report, wait and go.

use rcuo::{RegisterError, Runtime, StartError, StopError, Thread, WaitError};
use std::cell::RefCell;
use std::mem;
use std::panic::{catch_unwind, AssertUnwindSafe};
use std::sync::atomic::{AtomicBool, AtomicU64, Ordering::SeqCst};
use std::sync::mpsc::channel;
use std::sync::Arc;
use std::thread;
use std::time::Duration;

/// Says whether it was dropped.
#[derive(Clone, Default)]
struct Flag(Arc<AtomicBool>);

impl Flag {
    fn is_set(&self) -> bool {
        self.0.load(SeqCst)
    }

    /// A job that sets it.
    fn job(&self) -> impl FnOnce() + Send + 'static {
        let flag = self.clone();
        move || flag.0.store(true, SeqCst)
    }

    /// That it isn't set for a while, in which the helper would have set it.
    fn stays_clear(&self) {
        thread::sleep(Duration::from_millis(30));
        assert!(!self.is_set());
    }
}

#[test]
fn a_thread_registers_once_for_each_runtime() {
    let runtime = Runtime::start().unwrap();
    let thread = runtime.register().unwrap();
    assert_eq!(runtime.register().unwrap_err(), RegisterError::Registered);
    drop(thread);
    drop(runtime.register().unwrap());
}

#[test]
fn threads_are_shared_out_among_helpers() {
    let runtime = Runtime::builder().helpers(2).name("two").start().unwrap();
    let mut thread = runtime.register().unwrap();
    let (sender, helpers) = channel();
    let tells = |sender: std::sync::mpsc::Sender<_>| move || sender.send(thread::current().id()).unwrap();
    thread.pin().defer(tells(sender.clone()));
    thread::scope(|scope| {
        let other = sender.clone();
        scope.spawn(|| runtime.register().unwrap().pin().defer(tells(other)));
    });
    thread.pin().defer(tells(sender));
    thread.barrier();
    let helpers = Vec::from_iter(helpers.try_iter());
    assert_eq!(helpers.len(), 3);
    assert_eq!(2, std::collections::HashSet::<_>::from_iter(helpers).len());
}

#[test]
fn as_many_threads_as_asked_for() {
    let runtime = Runtime::builder().threads(1).start().unwrap();
    let thread = runtime.register().unwrap();
    thread::scope(|scope| {
        let other = scope.spawn(|| runtime.register().map(drop));
        assert_eq!(other.join().unwrap(), Err(RegisterError::TooMany));
    });
    drop(thread);
    for _ in 0..100 {
        thread::scope(|scope| {
            scope.spawn(|| runtime.register().unwrap().pin().defer(|| ()));
        });
    }
}

#[test]
fn what_can_not_be_started_is_said() {
    assert_eq!(Runtime::builder().threads(1023).start().unwrap_err(), StartError::Threads);
    assert_eq!(Runtime::builder().name("a\0b").start().unwrap_err(), StartError::Name);
    let runtime = Runtime::builder().threads(1022).name("a helper's long name").start().unwrap();
    let (sender, name) = channel();
    runtime.defer(move || sender.send(std::fs::read_to_string("/proc/thread-self/comm")));
    assert_eq!(name.recv().unwrap().unwrap(), "a helper's long\n");
}

#[test]
fn a_job_waits_for_each_guard() {
    let runtime = Runtime::start().unwrap();
    let mut thread = runtime.register().unwrap();
    let ran = Flag::default();
    let guard = thread.pin();
    guard.defer(ran.job());
    let inner = thread.pin();
    drop(guard);
    (0..1000).for_each(|_| drop(thread.pin()));
    ran.stays_clear();
    assert!(thread.is_pinned());
    drop(inner);
    assert!(!thread.is_pinned());
    thread.barrier();
    assert!(ran.is_set());
}

#[test]
fn pins_report_every_so_often() {
    let runtime = Runtime::start().unwrap();
    let thread = runtime.register().unwrap();
    let ran = Flag::default();
    thread.pin().defer(ran.job());
    while !ran.is_set() {
        drop(thread.pin());
    }
}

#[test]
fn a_quiescent_state_is_reported_by_name() {
    let runtime = Runtime::start().unwrap();
    let mut thread = runtime.register().unwrap();
    let ran = Flag::default();
    thread.pin().defer(ran.job());
    while !ran.is_set() {
        thread.quiescent_state();
    }
}

#[test]
fn a_guard_that_is_the_only_one_is_pinned_anew() {
    let runtime = Runtime::start().unwrap();
    let thread = runtime.register().unwrap();
    let ran = Flag::default();
    let outer = thread.pin();
    let mut guard = thread.pin();
    guard.defer(ran.job());
    (0..100).for_each(|_| guard.repin());
    ran.stays_clear();
    drop(outer);
    while !ran.is_set() {
        guard.repin();
    }
}

#[test]
fn after_a_forgotten_guard_only_reports_by_name_count() {
    let runtime = Runtime::start().unwrap();
    let mut thread = runtime.register().unwrap();
    let ran = Flag::default();
    mem::forget(thread.pin());
    thread.pin().defer(ran.job());
    (0..1000).for_each(|_| {
        let mut guard = thread.pin();
        guard.repin();
    });
    ran.stays_clear();
    assert!(thread.is_pinned());
    while !ran.is_set() {
        thread.quiescent_state();
    }
    assert!(!thread.is_pinned());
}

#[test]
fn nobody_waits_for_a_thread_that_is_offline() {
    let runtime = Runtime::start().unwrap();
    let mut thread = runtime.register().unwrap();
    thread::scope(|scope| {
        let other = || {
            let mut thread = runtime.register().unwrap();
            let ran = Flag::default();
            thread.pin().defer(ran.job());
            thread.barrier();
            ran.is_set()
        };
        assert!(thread.offline(|| scope.spawn(other).join().unwrap()));
    });
}

#[test]
fn a_thread_is_online_again_after_a_panic() {
    let runtime = Runtime::start().unwrap();
    let mut thread = runtime.register().unwrap();
    assert_eq!(runtime.synchronize(), Err(WaitError::Registered));
    let wait = |thread: &mut Thread| {
        thread.offline(|| {
            runtime.synchronize().unwrap();
            runtime.barrier().unwrap();
            panic!("a fault");
        })
    };
    assert!(catch_unwind(AssertUnwindSafe(|| wait(&mut thread))).is_err());
    assert_eq!(runtime.synchronize(), Err(WaitError::Registered));
    assert_eq!(runtime.barrier(), Err(WaitError::Registered));
}

#[test]
fn who_has_a_guard_does_not_wait_by_the_runtime() {
    let runtime = Runtime::start().unwrap();
    let thread = runtime.register().unwrap();
    let guard = thread.pin();
    assert_eq!(runtime.synchronize(), Err(WaitError::Registered));
    assert_eq!(runtime.barrier(), Err(WaitError::Registered));
    drop(guard);
    thread::scope(|scope| {
        scope.spawn(|| {
            // (this thread isn't registered, and waits for one that goes)
            thread::scope(|inner| inner.spawn(|| drop(runtime.register().unwrap())).join()).unwrap();
        });
    });
    drop(thread);
    runtime.synchronize().unwrap();
    runtime.barrier().unwrap();
}

#[test]
fn synchronize_waits_for_a_guard_that_lived() {
    let runtime = Runtime::start().unwrap();
    let waited = AtomicBool::new(false);
    let (pinned, is_pinned) = channel();
    thread::scope(|scope| {
        let (runtime, waited) = (&runtime, &waited);
        scope.spawn(move || {
            let thread = runtime.register().unwrap();
            let guard = thread.pin();
            pinned.send(()).unwrap();
            thread::sleep(Duration::from_millis(30));
            assert!(!waited.load(SeqCst));
            drop(guard);
        });
        is_pinned.recv().unwrap();
        runtime.register().unwrap().synchronize();
        waited.store(true, SeqCst);
    });
}

#[test]
fn a_thread_uses_several_runtimes() {
    let names = ["one", "other"];
    let runtimes = names.map(|name| Runtime::builder().name(name).start().unwrap());
    let mut threads = runtimes.each_ref().map(|runtime| runtime.register().unwrap());
    let (sender, found) = channel();
    for _ in 0..100 {
        for (thread, name) in threads.iter().zip(names) {
            let sender = sender.clone();
            thread.pin().defer(move || sender.send((name, std::fs::read_to_string("/proc/thread-self/comm").unwrap())));
        }
        threads.iter_mut().for_each(Thread::quiescent_state);
    }
    threads.iter_mut().for_each(Thread::barrier);
    drop(sender);
    let found = Vec::from_iter(found);
    assert_eq!(found.len(), 200);
    found.iter().for_each(|(name, comm)| assert_eq!(*name, comm.trim_end()));
    drop(threads);
    runtimes.into_iter().for_each(|runtime| drop(runtime.stop().unwrap()));
}

/// A runtime may be where one was that this thread had chosen.
#[test]
fn runtimes_come_one_after_another() {
    let other = Runtime::start().unwrap();
    for _ in 0..20 {
        let runtime = Runtime::builder().threads(2).start().unwrap();
        let ran = Flag::default();
        let mut thread = runtime.register().unwrap();
        thread.pin().defer(ran.job());
        other.defer(|| ());
        thread.barrier();
        assert!(ran.is_set());
        drop(thread);
        runtime.stop().unwrap();
    }
}

/// Defers as it is dropped.
struct Defers(Runtime, Arc<AtomicU64>);

impl Drop for Defers {
    fn drop(&mut self) {
        let ran = Arc::clone(&self.1);
        self.0.defer(move || ran.fetch_add(1, SeqCst));
    }
}

thread_local! {
    static KEPT: RefCell<Option<Thread>> = const { RefCell::new(None) };
    static DEFERS: RefCell<Option<Defers>> = const { RefCell::new(None) };
}

#[test]
fn what_a_thread_keeps_goes_with_it() {
    let runtime = Runtime::builder().threads(1).start().unwrap();
    let ran = Arc::new(AtomicU64::new(0));
    for _ in 0..10 {
        thread::scope(|scope| {
            scope.spawn(|| {
                DEFERS.set(Some(Defers(runtime.clone(), Arc::clone(&ran))));
                KEPT.set(Some(runtime.register().unwrap()));
            });
        });
        // (a scope's threads may still drop what they keep)
        while Arc::strong_count(&ran) > 1 {
            thread::yield_now();
        }
    }
    runtime.barrier().unwrap();
    assert_eq!(ran.load(SeqCst), 10);
}

#[test]
fn a_forgotten_thread_is_unregistered_as_it_ends() {
    let runtime = Runtime::builder().threads(1).start().unwrap();
    thread::spawn({
        let runtime = runtime.clone();
        move || {
            let thread = runtime.register().unwrap();
            mem::forget(thread.pin());
            mem::forget(thread);
        }
    })
    .join()
    .unwrap();
    runtime.synchronize().unwrap();
    let mut thread = runtime.register().unwrap();
    thread.barrier();
    drop(thread);
    // (the forgotten thread is a handle still)
    let refused = runtime.stop().unwrap_err();
    assert_eq!(refused.error, StopError::InUse);
    assert_eq!(refused.to_string(), "the runtime has other handles");
    refused.back.barrier().unwrap();
}
