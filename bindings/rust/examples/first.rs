//! A whole program: `cargo run --offline --example first`.

use rcuo::{Atomic, Owned, Runtime};
use std::sync::atomic::Ordering::{Acquire, SeqCst};

fn main() -> Result<(), Box<dyn std::error::Error>> {
    let runtime = Runtime::start()?;
    let config = Atomic::new(String::from("the old version"));
    let mut thread = runtime.register()?; // in each thread that reads

    let guard = thread.pin(); // a read section
    // SAFETY: what was loaded under the guard stays as long as it.
    println!("read {}", unsafe { config.load(Acquire, &guard).deref() });
    let old = config.swap(Owned::new(String::from("the new version")), SeqCst, &guard);
    // SAFETY: it was taken out, once. The helper drops it after a grace period.
    unsafe { guard.defer_destroy(old) };
    guard.defer(|| println!("the old version is gone"));
    drop(guard);

    thread.barrier(); // all that was deferred has run
    // SAFETY: no thread has it any more.
    println!("left {}", unsafe { config.into_owned() }.into_box());
    Ok(())
}
