//! A map that is read much more than it is changed: lists of entries, which readers follow without a lock, and writers change
//! under one.

use rcuo::{unprotected, Atomic, Guard, Owned, Shared};
use std::array;
use std::sync::atomic::Ordering::{Acquire, Relaxed, Release};
use std::sync::{Mutex, MutexGuard, PoisonError};

const LISTS: usize = 16;

pub struct Map<V> {
    lists: [Atomic<Entry<V>>; LISTS],
    writers: Mutex<()>,
}

struct Entry<V> {
    key: usize,
    value: V,
    next: Atomic<Entry<V>>,
}

impl<V> Entry<V> {
    /// The entry behind this one, as a writer moves it on to another link.
    ///
    /// The lock orders writers, so Relaxed would do. But ThreadSanitizer doesn't see that order where a thread slept for std's lock,
    /// and would take the entry for one that this writer publishes before it is made.
    fn behind<'g>(&self, guard: &'g Guard<'_>) -> Shared<'g, Entry<V>> {
        self.next.load(Acquire, guard)
    }
}

impl<V> Map<V> {
    pub fn new() -> Map<V> {
        Map { lists: array::from_fn(|_| Atomic::null()), writers: Mutex::new(()) }
    }

    /// The link that leads to the entry of a key, or to the end of its list; and where it leads.
    fn find<'g>(&'g self, key: usize, guard: &'g Guard<'_>) -> (&'g Atomic<Entry<V>>, Shared<'g, Entry<V>>) {
        let mut link = &self.lists[key % LISTS];
        loop {
            let found = link.load(Acquire, guard);
            // SAFETY: an entry is retired by a guard of the same runtime, after it was taken out.
            match unsafe { found.as_ref() } {
                Some(entry) if entry.key != key => link = &entry.next,
                _ => return (link, found),
            }
        }
    }

    pub fn get<'g>(&'g self, key: usize, guard: &'g Guard<'_>) -> Option<&'g V> {
        let (_, found) = self.find(key, guard);
        // SAFETY: as of `find`.
        unsafe { found.as_ref() }.map(|entry| &entry.value)
    }

    fn write(&self) -> MutexGuard<'_, ()> {
        self.writers.lock().unwrap_or_else(PoisonError::into_inner)
    }

    /// Puts a value in the place of that of the key, or behind all entries.
    pub fn insert(&self, key: usize, value: V, guard: &Guard<'_>) {
        let writes = self.write();
        let (link, found) = self.find(key, guard);
        // SAFETY: as of `find`.
        let next = unsafe { found.as_ref() }.map_or(Shared::null(), |old| old.behind(guard));
        link.store(Owned::new(Entry { key, value, next: Atomic::from(next) }), Release);
        drop(writes);
        if !found.is_null() {
            // SAFETY: the link doesn't lead to it any more, and writers are one at a time.
            unsafe { guard.defer_destroy(found) };
        }
    }

    /// Whether the key had an entry, which is taken out.
    pub fn remove(&self, key: usize, guard: &Guard<'_>) -> bool {
        let writes = self.write();
        let (link, found) = self.find(key, guard);
        // SAFETY: as of `find`.
        let Some(entry) = (unsafe { found.as_ref() }) else { return false };
        link.store(entry.behind(guard), Release);
        drop(writes);
        // SAFETY: as of `insert`.
        unsafe { guard.defer_destroy(found) };
        true
    }
}

impl<V> Drop for Map<V> {
    fn drop(&mut self) {
        // SAFETY: `&mut`: no other thread gets at the map.
        let guard = unsafe { unprotected() };
        for list in &self.lists {
            let mut next = list.load(Relaxed, guard);
            while !next.is_null() {
                // SAFETY: as above, and an entry is in one list.
                let entry = unsafe { next.into_owned() };
                next = entry.next.load(Relaxed, guard);
            }
        }
    }
}
