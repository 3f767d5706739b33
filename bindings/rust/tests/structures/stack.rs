//! Treiber's stack, as crossbeam-epoch's example has it.

use rcuo::{unprotected, Atomic, Guard, Owned};
use std::mem::ManuallyDrop;
use std::ptr;
use std::sync::atomic::Ordering::{Acquire, Relaxed, Release};

pub struct Stack<T> {
    head: Atomic<Node<T>>,
}

// SAFETY: a value goes in by one thread and out by another, and is in none's hands meanwhile.
unsafe impl<T: Send> Send for Stack<T> {}
// SAFETY: as above.
unsafe impl<T: Send> Sync for Stack<T> {}

struct Node<T> {
    value: ManuallyDrop<T>,
    next: Atomic<Node<T>>,
}

impl<T> Stack<T> {
    pub const fn new() -> Stack<T> {
        Stack { head: Atomic::null() }
    }

    pub fn push(&self, value: T, guard: &Guard<'_>) {
        let mut node = Owned::new(Node { value: ManuallyDrop::new(value), next: Atomic::null() });
        loop {
            let head = self.head.load(Relaxed, guard);
            node.next.store(head, Relaxed);
            match self.head.compare_exchange(head, node, Release, Relaxed, guard) {
                Ok(_) => return,
                Err(refused) => node = refused.new,
            }
        }
    }

    pub fn pop(&self, guard: &Guard<'_>) -> Option<T> {
        loop {
            let head = self.head.load(Acquire, guard);
            // SAFETY: a node is retired by a guard of the same runtime, after it was taken out.
            let node = unsafe { head.as_ref() }?;
            let next = node.next.load(Relaxed, guard);
            if self.head.compare_exchange(head, next, Relaxed, Relaxed, guard).is_ok() {
                // SAFETY: who takes a node out has its value and retires it, which drops no value.
                unsafe {
                    let value = ptr::read(&node.value);
                    guard.defer_destroy(head);
                    return Some(ManuallyDrop::into_inner(value));
                }
            }
        }
    }
}

impl<T> Drop for Stack<T> {
    fn drop(&mut self) {
        // SAFETY: `&mut`: no other thread gets at the stack.
        let guard = unsafe { unprotected() };
        while self.pop(guard).is_some() {}
    }
}
