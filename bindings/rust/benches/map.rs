//! The same map, read much more than it is changed, under a lock of std and under guards: `cargo bench --bench map -- [SECONDS]`.
//! For each number of threads a line says how many lookups there were in a second.

use rcuo::{Atomic, Guard, Owned, Runtime};
use std::collections::HashMap;
use std::hint::black_box;
use std::sync::atomic::{AtomicBool, AtomicU64, Ordering::Acquire, Ordering::Relaxed, Ordering::SeqCst};
use std::sync::{Barrier, Mutex, RwLock};
use std::thread;
use std::time::{Duration, Instant};

const KEYS: u64 = 64;
/// One operation in so many puts a value into the map.
const CHANGES: u64 = 1000;
/// After so many operations a thread looks whether the time is over.
const BATCH: u64 = 1000;

type Entries = HashMap<u64, u64>;

fn entries() -> Entries {
    (0..KEYS).map(|key| (key, key)).collect()
}

/// A thread's operations.
trait Session {
    fn get(&mut self, key: u64) -> Option<u64>;
    fn put(&mut self, key: u64, value: u64);
}

struct Locked<'a>(&'a RwLock<Entries>);

impl Session for Locked<'_> {
    fn get(&mut self, key: u64) -> Option<u64> {
        self.0.read().unwrap().get(&key).copied()
    }

    fn put(&mut self, key: u64, value: u64) {
        self.0.write().unwrap().insert(key, value);
    }
}

/// Readers read the version that is there; a writer puts a changed copy in its place.
struct Versions {
    current: Atomic<Entries>,
    writers: Mutex<()>,
}

impl Versions {
    fn read<'g>(&self, guard: &'g Guard<'_>) -> &'g Entries {
        // SAFETY: there always is a version, which is published whole, and retired by a guard of the one runtime.
        unsafe { self.current.load(Acquire, guard).deref() }
    }
}

struct Guarded<'a> {
    versions: &'a Versions,
    thread: rcuo::Thread,
}

impl Session for Guarded<'_> {
    fn get(&mut self, key: u64) -> Option<u64> {
        self.versions.read(&self.thread.pin()).get(&key).copied()
    }

    fn put(&mut self, key: u64, value: u64) {
        let guard = self.thread.pin();
        let writes = self.versions.writers.lock().unwrap();
        let mut changed = self.versions.read(&guard).clone();
        changed.insert(key, value);
        let old = self.versions.current.swap(Owned::new(changed), SeqCst, &guard);
        drop(writes);
        // SAFETY: it was taken out, by one writer at a time.
        unsafe { guard.defer_destroy(old) };
    }
}

/// How many lookups threads make in a second.
fn measure<S: Session>(threads: usize, seconds: f64, session: impl Fn() -> S + Sync) -> f64 {
    let (stop, lookups, ready) = (AtomicBool::new(false), AtomicU64::new(0), Barrier::new(threads + 1));
    let spent = thread::scope(|scope| {
        for number in 0..threads as u64 {
            let (stop, lookups, ready, session) = (&stop, &lookups, &ready, &session);
            scope.spawn(move || {
                let mut session = session();
                ready.wait();
                lookups.fetch_add(work(&mut session, stop, number), Relaxed);
            });
        }
        ready.wait();
        let began = Instant::now();
        thread::sleep(Duration::from_secs_f64(seconds));
        stop.store(true, Relaxed);
        began.elapsed()
    });
    lookups.into_inner() as f64 / spent.as_secs_f64()
}

/// Makes operations until told to stop. Answers how many lookups it made.
fn work(session: &mut impl Session, stop: &AtomicBool, number: u64) -> u64 {
    let mut random = number * 2 + 1;
    let mut lookups = 0;
    while !stop.load(Relaxed) {
        for round in 0..BATCH {
            random = random.wrapping_mul(6364136223846793005).wrapping_add(1442695040888963407);
            let key = (random >> 33) % KEYS;
            if round % CHANGES == CHANGES - 1 {
                session.put(key, random);
            } else {
                black_box(session.get(key));
                lookups += 1;
            }
        }
    }
    lookups
}

fn main() {
    // (cargo adds a word of its own)
    let seconds = std::env::args().skip(1).find_map(|word| word.parse().ok()).unwrap_or(1.0);
    for threads in [1, 2, 4] {
        let map = RwLock::new(entries());
        println!("rwlock {threads} {:.0}", measure(threads, seconds, || Locked(&map)));
        let runtime = Runtime::builder().threads(threads as u32).start().unwrap();
        let versions = Versions { current: Atomic::new(entries()), writers: Mutex::new(()) };
        let rate = measure(threads, seconds, || Guarded { versions: &versions, thread: runtime.register().unwrap() });
        println!("rcuo {threads} {rate:.0}");
        runtime.stop().unwrap();
        // SAFETY: no thread has it any more.
        drop(unsafe { versions.current.into_owned() });
    }
}
