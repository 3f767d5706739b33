//! The queue of Michael and Scott, as crossbeam-epoch has it for its own garbage.

use rcuo::{unprotected, Atomic, Guard, Owned, Shared};
use std::mem::MaybeUninit;
use std::sync::atomic::Ordering::{Acquire, Relaxed, Release};

pub struct Queue<T> {
    /// The node before the first value.
    head: Atomic<Node<T>>,
    /// The last node, or one before it.
    tail: Atomic<Node<T>>,
}

// SAFETY: a value goes in by one thread and out by another, and is in none's hands meanwhile.
unsafe impl<T: Send> Send for Queue<T> {}
// SAFETY: as above.
unsafe impl<T: Send> Sync for Queue<T> {}

struct Node<T> {
    /// Whose value was taken out, or never was there.
    value: MaybeUninit<T>,
    next: Atomic<Node<T>>,
}

impl<T> Queue<T> {
    pub fn new() -> Queue<T> {
        let queue = Queue { head: Atomic::null(), tail: Atomic::null() };
        // SAFETY: nobody else has the queue yet.
        let guard = unsafe { unprotected() };
        let first = Owned::new(Node { value: MaybeUninit::uninit(), next: Atomic::null() }).into_shared(guard);
        queue.head.store(first, Relaxed);
        queue.tail.store(first, Relaxed);
        queue
    }

    pub fn push(&self, value: T, guard: &Guard<'_>) {
        let node = Owned::new(Node { value: MaybeUninit::new(value), next: Atomic::null() }).into_shared(guard);
        while !self.push_behind(self.tail.load(Acquire, guard), node, guard) {}
    }

    /// Puts a node behind the last one, or moves the tail on.
    fn push_behind(&self, last: Shared<'_, Node<T>>, node: Shared<'_, Node<T>>, guard: &Guard<'_>) -> bool {
        // SAFETY: the tail is never null, and a node is retired after it was taken out and the tail has left it.
        let next = &unsafe { last.deref() }.next;
        let behind = next.load(Acquire, guard);
        if !behind.is_null() {
            let _ = self.tail.compare_exchange(last, behind, Release, Relaxed, guard);
            return false;
        }
        let pushed = next.compare_exchange(Shared::null(), node, Release, Relaxed, guard).is_ok();
        if pushed {
            let _ = self.tail.compare_exchange(last, node, Release, Relaxed, guard);
        }
        pushed
    }

    pub fn pop(&self, guard: &Guard<'_>) -> Option<T> {
        loop {
            let head = self.head.load(Acquire, guard);
            // SAFETY: the head is never null, and a node is retired by a guard of the same runtime, after it was taken out.
            let next = unsafe { head.deref() }.next.load(Acquire, guard);
            // SAFETY: as above.
            let node = unsafe { next.as_ref() }?;
            if self.head.compare_exchange(head, next, Release, Relaxed, guard).is_err() {
                continue;
            }
            let tail = self.tail.load(Relaxed, guard);
            if tail == head {
                let _ = self.tail.compare_exchange(tail, next, Release, Relaxed, guard);
            }
            // SAFETY: who takes a node out has the value of the next one, and retires it, which drops no value.
            unsafe {
                let value = node.value.as_ptr().read();
                guard.defer_destroy(head);
                return Some(value);
            }
        }
    }
}

impl<T> Drop for Queue<T> {
    fn drop(&mut self) {
        // SAFETY: `&mut`: no other thread gets at the queue.
        let guard = unsafe { unprotected() };
        while self.pop(guard).is_some() {}
        // SAFETY: as above, and the node before the first value is always there.
        drop(unsafe { self.head.load(Relaxed, guard).into_owned() });
    }
}
