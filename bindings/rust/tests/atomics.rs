//! Pointers, by a guard that guards nothing: no call leaves Rust, so Miri can run these too.

use rcuo::{unprotected, Atomic, Guard, Helper, Owned, Pointer, Shared};
use std::cell::Cell;
use std::sync::atomic::Ordering::{AcqRel, Acquire, Relaxed, Release, SeqCst};

fn guard() -> &'static Guard<'static> {
    // SAFETY: each test has its pointers for itself.
    unsafe { unprotected() }
}

#[test]
fn a_value_goes_in_and_out() {
    let place = Atomic::new(1);
    let first = place.load(Acquire, guard());
    // SAFETY: it is published, and nobody else has it.
    assert_eq!(unsafe { first.deref() }, &1);
    let old = place.swap(Owned::new(2), AcqRel, guard());
    assert_eq!(old, first);
    // SAFETY: it was taken out.
    assert_eq!(*unsafe { old.into_owned() }, 1);
    // SAFETY: nobody else has it.
    assert_eq!(*unsafe { place.into_owned() }.into_box(), 2);
}

#[test]
fn null_is_nothing() {
    let place = Atomic::<u64>::default();
    let null = place.load(Relaxed, guard());
    assert!(null.is_null());
    // SAFETY: it is null.
    assert!(unsafe { null.as_ref() }.is_none());
    assert_eq!(null, Shared::null());
    // SAFETY: it is null.
    assert!(unsafe { place.try_into_owned() }.is_none());
}

#[test]
#[should_panic(expected = "the pointer is null")]
fn null_has_no_owner() {
    // SAFETY: it is null, which is tested.
    drop(unsafe { Atomic::<u64>::null().into_owned() });
}

#[test]
fn tags_are_what_the_alignment_leaves() {
    let owned = Owned::new(7u64).with_tag(5);
    assert_eq!((owned.tag(), *owned), (5, 7));
    assert_eq!(owned.clone().tag(), 5);
    let shared = owned.into_shared(guard());
    assert_eq!((shared.tag(), shared.with_tag(11).tag(), shared.with_tag(8).tag()), (5, 3, 0));
    assert_ne!(shared, shared.with_tag(0));
    assert_eq!(shared.as_raw(), shared.with_tag(2).as_raw());
    assert!(Shared::<u64>::null().with_tag(1).is_null());
    assert_eq!(Shared::<u8>::null().with_tag(1).tag(), 0);
    // SAFETY: nobody else has it.
    drop(unsafe { shared.into_owned() });
}

#[test]
fn an_exchange_gives_back_what_it_did_not_take() {
    let place = Atomic::new(String::from("one"));
    let found = place.load(Relaxed, guard());
    let refused = place.compare_exchange(found.with_tag(1), Owned::new("two".into()), SeqCst, Relaxed, guard()).unwrap_err();
    assert_eq!((refused.current, refused.new.as_str()), (found, "two"));
    let new = place.compare_exchange(found, refused.new, SeqCst, Relaxed, guard()).unwrap();
    assert_eq!(new, place.load(Relaxed, guard()));
    let mut marked = new;
    while let Err(again) = place.compare_exchange_weak(marked, new.with_tag(1), Release, Relaxed, guard()) {
        marked = again.current;
    }
    assert_eq!(place.load(Relaxed, guard()).tag(), 1);
    // SAFETY: nobody else has these two.
    drop(unsafe { (found.into_owned(), place.into_owned()) });
}

#[test]
fn a_pointer_is_taken_apart_and_put_together() {
    let tagged = Owned::new(3u32).with_tag(1).into_tagged();
    // SAFETY: it was made of one, and is made into one once.
    let mut owned = unsafe { Owned::from_tagged(tagged) };
    *owned += 1;
    let place: Atomic<u32> = owned.into();
    place.store(place.load(Relaxed, guard()).with_tag(2), Relaxed);
    let mut shared = place.load(Relaxed, guard());
    // SAFETY: nobody else has it.
    unsafe { *shared.deref_mut() += 1 };
    assert_eq!(shared.tag(), 2);
    // SAFETY: nobody else has it.
    assert_eq!(*unsafe { shared.into_owned() }, 5);
}

#[test]
fn unguarded_jobs_run_at_once_and_then_those_that_they_defer() {
    let ran = Cell::new(0);
    // SAFETY: it runs before this returns.
    unsafe { guard().defer_unchecked(|| ran.set(1)) };
    assert_eq!(ran.get(), 1);
    let (sender, order) = std::sync::mpsc::channel();
    guard().defer_with(move |helper: &Helper<'_>| {
        helper.defer({
            let sender = sender.clone();
            move || sender.send("second")
        });
        sender.send("first").unwrap();
    });
    assert_eq!(Vec::from_iter(order), ["first", "second"]);
    // SAFETY: nobody else has it.
    unsafe { guard().defer_destroy(Owned::new(vec![1]).into_shared(guard())) };
}
