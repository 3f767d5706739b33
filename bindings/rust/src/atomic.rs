//! Pointers that threads share: what one replaces stays readable for the others' guards.
//!
//! The low bits of a pointer that its type's alignment leaves free are a tag, for marks of the program's own.

use crate::guard::Guard;
use std::borrow::{Borrow, BorrowMut};
use std::fmt;
use std::marker::PhantomData;
use std::mem;
use std::ops::{Deref, DerefMut};
use std::ptr::{self, NonNull};
use std::sync::atomic::{AtomicPtr, Ordering};

/// The bits that a tag may have.
const fn tags<T>() -> usize {
    mem::align_of::<T>() - 1
}

fn tag_of<T>(tagged: *mut T) -> usize {
    tagged.addr() & tags::<T>()
}

fn without_tag<T>(tagged: *mut T) -> *mut T {
    tagged.map_addr(|address| address & !tags::<T>())
}

fn with_tag<T>(tagged: *mut T, tag: usize) -> *mut T {
    tagged.map_addr(|address| address & !tags::<T>() | tag & tags::<T>())
}

mod sealed {
    pub trait Sealed {}
}

/// What may be put into an [`Atomic`]: an [`Owned`] or a [`Shared`].
pub trait Pointer<T>: sealed::Sealed {
    /// The pointer with its tag. What it owns isn't dropped.
    fn into_tagged(self) -> *mut T;

    /// What [`Pointer::into_tagged`] was made of.
    ///
    /// # Safety
    ///
    /// `tagged` came from that function of this type, and is made into this once.
    unsafe fn from_tagged(tagged: *mut T) -> Self;
}

/// A pointer that threads share, or null, with a tag. It doesn't own: what it points to when it is dropped is not.
pub struct Atomic<T> {
    tagged: AtomicPtr<T>,
    shares: PhantomData<*mut T>,
}

// SAFETY: by it any thread gets at the value, and takes it out.
unsafe impl<T: Send + Sync> Send for Atomic<T> {}
// SAFETY: as above.
unsafe impl<T: Send + Sync> Sync for Atomic<T> {}

impl<T> Atomic<T> {
    const fn of(tagged: *mut T) -> Atomic<T> {
        Atomic { tagged: AtomicPtr::new(tagged), shares: PhantomData }
    }

    /// A pointer to a new value on the heap.
    pub fn new(value: T) -> Atomic<T> {
        Atomic::from(Owned::new(value))
    }

    /// Null.
    pub const fn null() -> Atomic<T> {
        Atomic::of(ptr::null_mut())
    }

    /// What it points to, under a guard.
    pub fn load<'g>(&self, order: Ordering, _: &'g Guard<'_>) -> Shared<'g, T> {
        Shared::of(self.tagged.load(order))
    }

    /// Puts a pointer into it. What it pointed to is neither dropped nor answered.
    pub fn store<P: Pointer<T>>(&self, new: P, order: Ordering) {
        self.tagged.store(new.into_tagged(), order);
    }

    /// Puts a pointer into it, and answers what it pointed to.
    pub fn swap<'g, P: Pointer<T>>(&self, new: P, order: Ordering, _: &'g Guard<'_>) -> Shared<'g, T> {
        Shared::of(self.tagged.swap(new.into_tagged(), order))
    }

    /// Puts `new` into it where it is `current`, tag included. Answers what it then has.
    ///
    /// # Errors
    ///
    /// It is another: that, and `new`, come back.
    pub fn compare_exchange<'g, P: Pointer<T>>(
        &self,
        current: Shared<'_, T>,
        new: P,
        success: Ordering,
        failure: Ordering,
        _: &'g Guard<'_>,
    ) -> Result<Shared<'g, T>, CompareExchangeError<'g, T, P>> {
        let new = new.into_tagged();
        let found = self.tagged.compare_exchange(current.tagged, new, success, failure);
        // SAFETY: `new` was made of a pointer of this type just now, and isn't in use where it was refused.
        unsafe { exchanged(found, new) }
    }

    /// As [`Atomic::compare_exchange`], which may fail where it is `current` too.
    ///
    /// # Errors
    ///
    /// As of [`Atomic::compare_exchange`].
    pub fn compare_exchange_weak<'g, P: Pointer<T>>(
        &self,
        current: Shared<'_, T>,
        new: P,
        success: Ordering,
        failure: Ordering,
        _: &'g Guard<'_>,
    ) -> Result<Shared<'g, T>, CompareExchangeError<'g, T, P>> {
        let new = new.into_tagged();
        let found = self.tagged.compare_exchange_weak(current.tagged, new, success, failure);
        // SAFETY: as of `compare_exchange`.
        unsafe { exchanged(found, new) }
    }

    /// The value, where this isn't null.
    ///
    /// # Safety
    ///
    /// No other thread gets at the value, now or later.
    pub unsafe fn try_into_owned(self) -> Option<Owned<T>> {
        let tagged = self.tagged.into_inner();
        (!without_tag(tagged).is_null()).then(|| Owned::of(tagged))
    }

    /// The value.
    ///
    /// # Safety
    ///
    /// This isn't null, and no other thread gets at the value, now or later.
    ///
    /// # Panics
    ///
    /// Where it is null.
    pub unsafe fn into_owned(self) -> Owned<T> {
        // SAFETY: the caller's.
        unsafe { self.try_into_owned() }.expect("the pointer is null")
    }
}

/// # Safety
///
/// `new` was made of a `P`, and where `found` is an error nobody else has it.
unsafe fn exchanged<'g, T, P: Pointer<T>>(
    found: Result<*mut T, *mut T>,
    new: *mut T,
) -> Result<Shared<'g, T>, CompareExchangeError<'g, T, P>> {
    match found {
        Ok(_) => Ok(Shared::of(new)),
        // SAFETY: the caller's.
        Err(current) => Err(CompareExchangeError { current: Shared::of(current), new: unsafe { P::from_tagged(new) } }),
    }
}

impl<T> Default for Atomic<T> {
    fn default() -> Atomic<T> {
        Atomic::null()
    }
}

impl<T> From<Owned<T>> for Atomic<T> {
    fn from(owned: Owned<T>) -> Atomic<T> {
        Atomic::of(owned.into_tagged())
    }
}

impl<T> From<T> for Atomic<T> {
    fn from(value: T) -> Atomic<T> {
        Atomic::new(value)
    }
}

impl<'g, T> From<Shared<'g, T>> for Atomic<T> {
    fn from(shared: Shared<'g, T>) -> Atomic<T> {
        Atomic::of(shared.tagged)
    }
}

impl<T> fmt::Debug for Atomic<T> {
    fn fmt(&self, out: &mut fmt::Formatter<'_>) -> fmt::Result {
        let tagged = self.tagged.load(Ordering::Relaxed);
        out.debug_struct("Atomic").field("raw", &without_tag(tagged)).field("tag", &tag_of(tagged)).finish()
    }
}

/// A compare-exchange that found another pointer.
pub struct CompareExchangeError<'g, T, P: Pointer<T>> {
    /// What was found.
    pub current: Shared<'g, T>,
    /// What was to be put there.
    pub new: P,
}

impl<T, P: Pointer<T> + fmt::Debug> fmt::Debug for CompareExchangeError<'_, T, P> {
    fn fmt(&self, out: &mut fmt::Formatter<'_>) -> fmt::Result {
        out.debug_struct("CompareExchangeError").field("current", &self.current).field("new", &self.new).finish()
    }
}

/// A value on the heap that this owns, with a tag: as a `Box`, for an [`Atomic`].
pub struct Owned<T> {
    tagged: NonNull<T>,
    owns: PhantomData<Box<T>>,
}

// SAFETY: as of a `Box`.
unsafe impl<T: Send> Send for Owned<T> {}
// SAFETY: as above.
unsafe impl<T: Sync> Sync for Owned<T> {}

impl<T> Owned<T> {
    /// The value that this pointer, which isn't null, leads to, and that nobody else has.
    fn of(tagged: *mut T) -> Owned<T> {
        let tagged = NonNull::new(tagged).expect("the pointer isn't null");
        Owned { tagged, owns: PhantomData }
    }

    /// A new value on the heap.
    pub fn new(value: T) -> Owned<T> {
        Owned::from(Box::new(value))
    }

    /// The value in its box.
    pub fn into_box(self) -> Box<T> {
        // SAFETY: the pointer is that of a `Box`, which this owns.
        unsafe { Box::from_raw(without_tag(self.into_tagged())) }
    }

    /// A pointer to it, which owns nothing: as to be published, and read under the guard by who published it.
    pub fn into_shared<'g>(self, _: &'g Guard<'_>) -> Shared<'g, T> {
        Shared::of(self.into_tagged())
    }

    /// Its tag.
    pub fn tag(&self) -> usize {
        tag_of(self.tagged.as_ptr())
    }

    /// The same with another tag, of which the bits are kept that the type's alignment leaves free.
    pub fn with_tag(self, tag: usize) -> Owned<T> {
        Owned::of(with_tag(self.into_tagged(), tag))
    }
}

impl<T> sealed::Sealed for Owned<T> {}

impl<T> Pointer<T> for Owned<T> {
    fn into_tagged(self) -> *mut T {
        mem::ManuallyDrop::new(self).tagged.as_ptr()
    }

    unsafe fn from_tagged(tagged: *mut T) -> Owned<T> {
        Owned::of(tagged)
    }
}

impl<T> Drop for Owned<T> {
    fn drop(&mut self) {
        // SAFETY: the pointer is that of a `Box`, which this owns.
        drop(unsafe { Box::from_raw(without_tag(self.tagged.as_ptr())) });
    }
}

impl<T> Deref for Owned<T> {
    type Target = T;

    fn deref(&self) -> &T {
        // SAFETY: this owns the value.
        unsafe { &*without_tag(self.tagged.as_ptr()) }
    }
}

impl<T> DerefMut for Owned<T> {
    fn deref_mut(&mut self) -> &mut T {
        // SAFETY: this owns the value.
        unsafe { &mut *without_tag(self.tagged.as_ptr()) }
    }
}

impl<T> Borrow<T> for Owned<T> {
    fn borrow(&self) -> &T {
        self
    }
}

impl<T> BorrowMut<T> for Owned<T> {
    fn borrow_mut(&mut self) -> &mut T {
        self
    }
}

impl<T> AsRef<T> for Owned<T> {
    fn as_ref(&self) -> &T {
        self
    }
}

impl<T> AsMut<T> for Owned<T> {
    fn as_mut(&mut self) -> &mut T {
        self
    }
}

impl<T> From<T> for Owned<T> {
    fn from(value: T) -> Owned<T> {
        Owned::new(value)
    }
}

impl<T> From<Box<T>> for Owned<T> {
    fn from(value: Box<T>) -> Owned<T> {
        Owned::of(Box::into_raw(value))
    }
}

impl<T: Clone> Clone for Owned<T> {
    fn clone(&self) -> Owned<T> {
        Owned::new(T::clone(self)).with_tag(self.tag())
    }
}

impl<T: fmt::Debug> fmt::Debug for Owned<T> {
    fn fmt(&self, out: &mut fmt::Formatter<'_>) -> fmt::Result {
        out.debug_struct("Owned").field("value", &**self).field("tag", &self.tag()).finish()
    }
}

/// A pointer that was loaded under a guard, and lives no longer than it; or null. It has a tag, and owns nothing.
pub struct Shared<'g, T> {
    tagged: *mut T,
    guarded: PhantomData<&'g T>,
}

impl<'g, T> Shared<'g, T> {
    const fn of(tagged: *mut T) -> Shared<'g, T> {
        Shared { tagged, guarded: PhantomData }
    }

    /// Null.
    pub const fn null() -> Shared<'g, T> {
        Shared::of(ptr::null_mut())
    }

    /// Whether it is null, whatever its tag.
    pub fn is_null(&self) -> bool {
        self.as_raw().is_null()
    }

    /// The pointer without its tag.
    pub fn as_raw(&self) -> *const T {
        without_tag(self.tagged)
    }

    /// Its tag.
    pub fn tag(&self) -> usize {
        tag_of(self.tagged)
    }

    /// The same with another tag, of which the bits are kept that the type's alignment leaves free.
    pub fn with_tag(&self, tag: usize) -> Shared<'g, T> {
        Shared::of(with_tag(self.tagged, tag))
    }

    /// The value.
    ///
    /// # Safety
    ///
    /// It isn't null, and what it points to
    /// - was published before it was loaded, by an order that the load's matches;
    /// - was loaded under a guard of the runtime by which it is retired, and isn't retired before that guard began;
    /// - isn't changed meanwhile but by its own atomics and locks;
    ///
    /// and the guard's thread doesn't end before what is answered was used, as it can where a `Thread` was leaked.
    pub unsafe fn deref(&self) -> &'g T {
        // SAFETY: the caller's.
        unsafe { &*self.as_raw() }
    }

    /// The value, to be changed.
    ///
    /// # Safety
    ///
    /// As of [`Shared::deref`], and nobody else reads or changes it as long as the guard lives.
    pub unsafe fn deref_mut(&mut self) -> &'g mut T {
        // SAFETY: the caller's.
        unsafe { &mut *without_tag(self.tagged) }
    }

    /// The value, unless it is null.
    ///
    /// # Safety
    ///
    /// As of [`Shared::deref`], where it isn't null.
    pub unsafe fn as_ref(&self) -> Option<&'g T> {
        // SAFETY: the caller's.
        unsafe { self.as_raw().as_ref() }
    }

    /// The value, which the caller owns from now on.
    ///
    /// # Safety
    ///
    /// It isn't null, points to what an [`Owned`] had, and nobody else gets at it, now or later.
    ///
    /// # Panics
    ///
    /// Where it is null.
    pub unsafe fn into_owned(self) -> Owned<T> {
        assert!(!self.is_null(), "the pointer is null");
        Owned::of(self.tagged)
    }
}

impl<T> sealed::Sealed for Shared<'_, T> {}

impl<T> Pointer<T> for Shared<'_, T> {
    fn into_tagged(self) -> *mut T {
        self.tagged
    }

    unsafe fn from_tagged(tagged: *mut T) -> Self {
        Shared::of(tagged)
    }
}

impl<T> Clone for Shared<'_, T> {
    fn clone(&self) -> Self {
        *self
    }
}

impl<T> Copy for Shared<'_, T> {}

impl<T> Default for Shared<'_, T> {
    fn default() -> Self {
        Shared::null()
    }
}

impl<T> PartialEq for Shared<'_, T> {
    fn eq(&self, other: &Self) -> bool {
        self.tagged == other.tagged
    }
}

impl<T> Eq for Shared<'_, T> {}

impl<T> fmt::Debug for Shared<'_, T> {
    fn fmt(&self, out: &mut fmt::Formatter<'_>) -> fmt::Result {
        out.debug_struct("Shared").field("raw", &self.as_raw()).field("tag", &self.tag()).finish()
    }
}
