//! What crossbeam-epoch's users write, over the runtime: each value that was made is dropped once, and none is read after that.
//!
//! With RCUO_SLOWER=N the rounds are N times fewer, as under valgrind.

mod map;
mod queue;
mod stack;

use map::Map;
use queue::Queue;
use rcuo::{Atomic, Owned, Runtime, Thread};
use stack::Stack;
use std::sync::atomic::{AtomicU64, Ordering::Acquire, Ordering::SeqCst};
use std::sync::Arc;
use std::thread;

const THREADS: usize = 4;

/// How many rounds are made in place of so many.
fn rounds(many: usize) -> usize {
    let slower = std::env::var("RCUO_SLOWER").map_or(1, |text| text.parse().expect("RCUO_SLOWER is a number"));
    (many / slower).max(10)
}

/// How many values were made, and how many were dropped.
#[derive(Default)]
struct Counts {
    made: AtomicU64,
    dropped: AtomicU64,
}

impl Counts {
    fn make(self: &Arc<Counts>, number: usize) -> Counted {
        self.made.fetch_add(1, SeqCst);
        Counted { number, twice: Box::new(number * 2), counts: Arc::clone(self) }
    }
}

/// A value that is counted, and says whether it is whole.
struct Counted {
    number: usize,
    twice: Box<usize>,
    counts: Arc<Counts>,
}

impl Counted {
    fn number(&self) -> usize {
        assert_eq!(*self.twice, self.number * 2, "a value was read after it was dropped");
        self.number
    }
}

impl Drop for Counted {
    fn drop(&mut self) {
        self.number();
        *self.twice += 1;
        self.counts.dropped.fetch_add(1, SeqCst);
    }
}

/// Has four registered threads do this, each with its number, and stops the runtime: all that was made is dropped, once the
/// structure is.
fn stress<S: Sync>(structure: S, counts: &Counts, work: impl Fn(&S, &mut Thread, usize) + Sync) {
    let runtime = Runtime::builder().threads(THREADS as u32).start().unwrap();
    thread::scope(|scope| {
        for number in 0..THREADS {
            let (runtime, structure, work) = (&runtime, &structure, &work);
            scope.spawn(move || work(structure, &mut runtime.register().unwrap(), number));
        }
    });
    let stopped = runtime.stop().unwrap();
    assert!(stopped.back.is_empty());
    assert_eq!(stopped.panics, 0);
    drop(structure);
    assert!(counts.made.load(SeqCst) > 0);
    assert_eq!(counts.made.load(SeqCst), counts.dropped.load(SeqCst));
}

#[test]
fn a_stack_of_one_thread_is_last_in_first_out() {
    let runtime = Runtime::start().unwrap();
    let thread = runtime.register().unwrap();
    let (stack, guard) = (Stack::new(), thread.pin());
    assert_eq!(stack.pop(&guard), None);
    (0..5).for_each(|number| stack.push(number, &guard));
    assert_eq!(Vec::from_iter(std::iter::from_fn(|| stack.pop(&guard))), [4, 3, 2, 1, 0]);
}

#[test]
fn four_threads_push_and_pop_a_stack() {
    let counts = Arc::new(Counts::default());
    let taken = AtomicU64::new(0);
    let each = rounds(100_000);
    stress(Stack::new(), &counts, |stack, thread, number| {
        for round in 0..each {
            stack.push(counts.make(number * each + round), &thread.pin());
            let value = stack.pop(&thread.pin()).expect("each thread has put one more than it took");
            taken.fetch_add(value.number() as u64, SeqCst);
        }
    });
    let all = (THREADS * each) as u64;
    assert_eq!(taken.into_inner(), all * (all - 1) / 2);
}

#[test]
fn values_left_on_a_stack_are_dropped_with_it() {
    let counts = Arc::new(Counts::default());
    stress(Stack::new(), &counts, |stack, thread, number| {
        for round in 0..rounds(10_000) {
            stack.push(counts.make(number), &thread.pin());
            if round % 3 == 0 {
                stack.pop(&thread.pin()).expect("there are more than were taken").number();
            }
        }
    });
}

#[test]
fn each_thread_s_values_leave_a_queue_in_order() {
    let counts = Arc::new(Counts::default());
    let each = rounds(50_000);
    stress(Queue::new(), &counts, |queue, thread, number| {
        let mut last = [None; THREADS];
        for round in 0..each {
            queue.push(counts.make(number * each + round), &thread.pin());
            let value = queue.pop(&thread.pin()).expect("each thread has put one more than it took").number();
            let before = last[value / each].replace(value % each);
            assert!(before < Some(value % each));
        }
    });
}

#[test]
fn values_left_in_a_queue_are_dropped_with_it() {
    let counts = Arc::new(Counts::default());
    stress(Queue::new(), &counts, |queue, thread, number| {
        (0..rounds(1000)).for_each(|_| queue.push(counts.make(number), &thread.pin()));
        thread.quiescent_state();
        queue.pop(&thread.pin()).expect("there are more than were taken").number();
    });
}

/// Each thread changes keys of its own, and reads all.
#[test]
fn readers_of_a_map_see_whole_values_while_it_changes() {
    const KEYS: usize = 64;
    let counts = Arc::new(Counts::default());
    stress(Map::new(), &counts, |map, thread, number| {
        for round in 0..rounds(20_000) {
            let own = round % KEYS / THREADS * THREADS + number;
            let guard = thread.pin();
            if round % 3 == 0 {
                let was_there = map.get(own, &guard).is_some();
                assert_eq!(map.remove(own, &guard), was_there);
                assert!(map.get(own, &guard).is_none());
            } else {
                map.insert(own, counts.make(own), &guard);
                assert!(map.get(own, &guard).is_some());
            }
            for key in 0..KEYS {
                let value = map.get(key, &guard).map(Counted::number);
                assert!(value.is_none() || value == Some(key));
            }
        }
    });
}

/// What a race is: the value is dropped at once, by who took it out, while others may read it. ThreadSanitizer has to see it.
#[test]
#[ignore = "it has a data race"]
fn a_value_that_is_dropped_at_once() {
    let place = Atomic::new(1);
    let runtime = Runtime::start().unwrap();
    thread::scope(|scope| {
        for number in 0..THREADS {
            let (runtime, place) = (&runtime, &place);
            scope.spawn(move || {
                let thread = runtime.register().unwrap();
                for _ in 0..100_000 {
                    let guard = thread.pin();
                    // SAFETY: none.
                    assert!(unsafe { place.load(Acquire, &guard).deref() } >= &0);
                    let old = place.swap(Owned::new(number), SeqCst, &guard);
                    // SAFETY: none.
                    drop(unsafe { old.into_owned() });
                }
            });
        }
    });
}

/// All three under the guards of the same four threads, with reads in nested sections and waits between.
#[test]
fn four_threads_work_on_everything() {
    let counts = Arc::new(Counts::default());
    let all = (Stack::new(), Queue::new(), Map::new());
    stress(all, &counts, |(stack, queue, map), thread, _| {
        for round in 0..rounds(10_000) {
            let guard = thread.pin();
            stack.push(counts.make(round), &guard);
            if let Some(value) = stack.pop(&thread.pin()) {
                queue.push(value, &guard);
            }
            if let Some(value) = queue.pop(&guard) {
                map.insert(value.number() % 32, value, &guard);
            }
            if let Some(value) = map.get(round % 32, &guard) {
                assert_eq!(value.number() % 32, round % 32);
            }
            drop(guard);
            match round % 1000 {
                10 => thread.synchronize(),
                20 => thread.barrier(),
                30 => thread.offline(thread::yield_now),
                _ => (),
            }
        }
    });
}
