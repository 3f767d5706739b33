//! Jobs: their order, panics, jobs that call again, and that none is lost.

use rcuo::{Atomic, Helper, Owned, RegisterError, Runtime, StopError, WaitError};
use std::panic::{self, panic_any};
use std::sync::atomic::{AtomicU64, Ordering::SeqCst};
use std::sync::mpsc::channel;
use std::sync::{Arc, Mutex};
use std::thread;

#[test]
fn jobs_of_a_thread_run_in_order() {
    let runtime = Runtime::start().unwrap();
    let ran = Arc::new(Mutex::new(vec![Vec::new(); 4]));
    thread::scope(|scope| {
        for number in 0..4 {
            let (runtime, ran) = (&runtime, &ran);
            scope.spawn(move || {
                let thread = runtime.register().unwrap();
                for job in 0..5000 {
                    let ran = Arc::clone(ran);
                    thread.pin().defer(move || ran.lock().unwrap()[number].push(job));
                }
            });
        }
    });
    runtime.barrier().unwrap();
    ran.lock().unwrap().iter().for_each(|ran| assert!(ran.iter().copied().eq(0..5000)));
}

#[test]
fn threads_that_are_not_registered_defer_too() {
    let runtime = Runtime::start().unwrap();
    let ran = Arc::new(AtomicU64::new(0));
    thread::scope(|scope| {
        for _ in 0..4 {
            scope.spawn(|| {
                for _ in 0..1000 {
                    let ran = Arc::clone(&ran);
                    runtime.defer(move || ran.fetch_add(1, SeqCst));
                }
            });
        }
    });
    runtime.barrier().unwrap();
    assert_eq!(ran.load(SeqCst), 4000);
}

/// Has no panic be written of threads without a name, as helpers are.
fn silence_helpers() {
    let before = panic::take_hook();
    panic::set_hook(Box::new(move |info| {
        if thread::current().name().is_some() {
            before(info);
        }
    }));
}

/// Panics as it is dropped.
struct Bad;

impl Drop for Bad {
    fn drop(&mut self) {
        if !thread::panicking() {
            panic_any("dropped");
        }
    }
}

#[test]
fn after_a_panic_the_next_job_runs_and_who_asked_is_told() {
    silence_helpers();
    let told = Arc::new(Mutex::new(Vec::new()));
    let tells = Arc::clone(&told);
    let runtime = Runtime::builder()
        .on_panic(move |payload| {
            let text = payload.downcast_ref::<&str>().map(ToString::to_string);
            tells.lock().unwrap().push(text);
            panic!("the handler's own, of {:?}", payload.downcast_ref::<Bad>().map(|_| ()));
        })
        .start()
        .unwrap();
    let ran = Arc::new(AtomicU64::new(0));
    for number in 0..10 {
        let ran = Arc::clone(&ran);
        runtime.defer(move || match number {
            3 => panic!("at three"),
            5 => panic_any(Bad),
            7 => drop(Bad),
            _ => drop(ran.fetch_add(1, SeqCst)),
        });
    }
    runtime.barrier().unwrap();
    assert_eq!(ran.load(SeqCst), 7);
    assert_eq!(*told.lock().unwrap(), [Some("at three".into()), None, Some("dropped".into())]);
    assert_eq!(runtime.panics(), 3);
    assert_eq!(runtime.stop().unwrap().panics, 3);
}

#[test]
fn what_panics_without_a_handler_is_counted() {
    silence_helpers();
    let runtime = Runtime::start().unwrap();
    runtime.defer(|| panic_any(Bad));
    runtime.barrier().unwrap();
    assert_eq!(runtime.panics(), 1);
}

#[test]
fn a_job_calls_again() {
    fn chain(left: u64, ran: Arc<AtomicU64>) -> impl FnOnce(&Helper<'_>) + Send + 'static {
        move |helper: &Helper<'_>| {
            ran.fetch_add(1, SeqCst);
            if left > 0 {
                helper.defer_with(boxed(left - 1, ran));
            }
        }
    }
    fn boxed(left: u64, ran: Arc<AtomicU64>) -> Box<dyn FnOnce(&Helper<'_>) + Send> {
        Box::new(chain(left, ran))
    }
    let runtime = Runtime::start().unwrap();
    let ran = Arc::new(AtomicU64::new(0));
    runtime.register().unwrap().pin().defer_with(chain(9, Arc::clone(&ran)));
    let stopped = runtime.stop().unwrap();
    assert!(stopped.back.is_empty());
    assert_eq!(ran.load(SeqCst), 10);
}

/// A job that defers itself for ever, and has a share of a count while it is there.
fn endless(there: Arc<AtomicU64>) -> Box<dyn FnOnce(&Helper<'_>) + Send> {
    Box::new(move |helper| {
        there.fetch_add(1, SeqCst);
        helper.defer_with(endless(there));
    })
}

#[test]
fn a_job_that_calls_again_for_ever_comes_back() {
    let runtime = Runtime::start().unwrap();
    let ran = Arc::new(AtomicU64::new(0));
    runtime.defer_with(endless(Arc::clone(&ran)));
    let mut stopped = runtime.stop().unwrap();
    let before = ran.load(SeqCst);
    assert!(before >= 16);
    assert_eq!(stopped.back.len(), 1);
    assert_eq!(Arc::strong_count(&ran), 2);
    let deferred = stopped.back.pop().unwrap().run();
    assert_eq!(ran.load(SeqCst), before + 1);
    assert_eq!(deferred.len(), 1);
    drop(deferred);
    assert_eq!(Arc::strong_count(&ran), 1);
}

#[test]
fn what_a_job_asks_of_its_own_runtime_is_answered() {
    let runtime = Runtime::start().unwrap();
    let (sender, answers) = channel();
    let mine = runtime.clone();
    runtime.defer(move || {
        mine.synchronize().unwrap();
        let register = mine.register().unwrap_err();
        let barrier = mine.barrier().unwrap_err();
        mine.defer({
            let sender = sender.clone();
            move || sender.send(None).unwrap()
        });
        let stop = mine.stop().unwrap_err();
        sender.send(Some((register, barrier, stop.error))).unwrap();
    });
    assert_eq!(answers.recv().unwrap(), Some((RegisterError::InJob, WaitError::InJob, StopError::InJob)));
    assert_eq!(answers.recv().unwrap(), None);
}

#[test]
fn a_job_uses_another_runtime() {
    let (one, other) = (Runtime::start().unwrap(), Runtime::start().unwrap());
    let (sender, ran) = channel();
    one.defer_with({
        let other = other.clone();
        move |helper| {
            let mut thread = other.register().unwrap();
            thread.pin().defer({
                let sender = sender.clone();
                move || sender.send(1).unwrap()
            });
            thread.barrier();
            helper.defer(move || sender.send(2).unwrap());
        }
    });
    assert_eq!(Vec::from_iter(ran), [1, 2]);
    one.barrier().unwrap();
    other.stop().unwrap();
    one.stop().unwrap();
}

#[test]
fn a_dropped_runtime_runs_what_it_has() {
    let ran = Arc::new(AtomicU64::new(0));
    let runtime = Runtime::start().unwrap();
    let thread = runtime.register().unwrap();
    drop(runtime);
    for _ in 0..1000 {
        let ran = Arc::clone(&ran);
        thread.pin().defer(move || ran.fetch_add(1, SeqCst));
    }
    drop(thread);
    assert_eq!(ran.load(SeqCst), 1000);
}

/// The runtime's last handle is that of a job: another thread stops it, and lets its handler go.
#[test]
fn the_last_handle_may_go_in_a_job() {
    let kept = Arc::new(());
    let keeps = Arc::clone(&kept);
    let runtime = Runtime::builder().on_panic(move |_| drop(Arc::clone(&keeps))).start().unwrap();
    let (go, going) = channel::<()>();
    runtime.defer({
        let runtime = runtime.clone();
        move || {
            let _ = going.recv();
            drop(runtime);
        }
    });
    drop(runtime);
    drop(go);
    while Arc::strong_count(&kept) > 1 {
        thread::yield_now();
    }
}

#[test]
fn a_runtime_with_other_handles_is_not_stopped() {
    let runtime = Runtime::start().unwrap();
    let thread = runtime.register().unwrap();
    let refused = runtime.stop().unwrap_err();
    assert_eq!(refused.error, StopError::InUse);
    drop(thread);
    refused.back.stop().unwrap();
}

/// Counts as it is dropped.
struct Counted(Arc<AtomicU64>);

impl Drop for Counted {
    fn drop(&mut self) {
        self.0.fetch_add(1, SeqCst);
    }
}

#[test]
fn what_is_retired_is_dropped_once() {
    let dropped = Arc::new(AtomicU64::new(0));
    let runtime = Runtime::start().unwrap();
    let mut thread = runtime.register().unwrap();
    let place = Atomic::new(Counted(Arc::clone(&dropped)));
    for _ in 0..1000 {
        let guard = thread.pin();
        let old = place.swap(Owned::new(Counted(Arc::clone(&dropped))), SeqCst, &guard);
        // SAFETY: it was taken out just now.
        unsafe { guard.defer_destroy(old) };
    }
    thread.barrier();
    assert_eq!(dropped.load(SeqCst), 1000);
    // SAFETY: nobody else has it.
    drop(unsafe { place.into_owned() });
    assert_eq!(dropped.load(SeqCst), 1001);
}

#[test]
fn a_job_may_borrow_where_the_program_says_that_it_waits() {
    let counter = AtomicU64::new(0);
    let runtime = Runtime::start().unwrap();
    let mut thread = runtime.register().unwrap();
    // SAFETY: the barrier waits for it, before the counter goes.
    unsafe { thread.pin().defer_unchecked(|| counter.fetch_add(1, SeqCst)) };
    thread.barrier();
    assert_eq!(counter.load(SeqCst), 1);
}
