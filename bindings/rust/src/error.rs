//! Why a call did nothing.

use std::error::Error;
use std::fmt;

macro_rules! errors {
    ($(#[$doc:meta])* $name:ident { $($(#[$why:meta])* $variant:ident => $words:literal,)* }) => {
        $(#[$doc])*
        #[derive(Clone, Copy, Debug, PartialEq, Eq)]
        #[non_exhaustive]
        pub enum $name {
            $($(#[$why])* $variant,)*
        }

        impl fmt::Display for $name {
            fn fmt(&self, out: &mut fmt::Formatter<'_>) -> fmt::Result {
                out.write_str(match self {
                    $($name::$variant => $words,)*
                })
            }
        }

        impl Error for $name {}
    };
}

errors!(
    /// Why no runtime was started.
    StartError {
        /// More threads were asked for than a runtime has places for, which are 1,022.
        Threads => "more than 1022 threads were asked for",
        /// The helper's name has a zero byte in it.
        Name => "the helper's name has a zero byte in it",
        /// Memory, or the helper's thread, was refused.
        Memory => "memory or a thread was refused",
    }
);

errors!(
    /// Why a thread wasn't registered.
    RegisterError {
        /// This thread is registered with the runtime.
        Registered => "this thread is registered",
        /// As many threads are registered as [`Builder::threads`](crate::Builder::threads) allows.
        TooMany => "as many threads are registered as may be",
        /// This is the helper of the runtime, in a job.
        InJob => "a job's thread can't be registered",
        /// A stop was tried before, and refused for want of memory.
        Stopping => "the runtime stops",
        /// Memory was refused.
        Memory => "memory was refused",
    }
);

errors!(
    /// Why a call of [`Runtime`](crate::Runtime) didn't wait.
    WaitError {
        /// This thread is registered with the runtime and online, so it could have a guard: its own
        /// [`Thread`](crate::Thread) has the call that waits.
        Registered => "this thread is registered and online: wait by its Thread",
        /// A job can't wait for all jobs.
        InJob => "a job can't wait for jobs",
    }
);

errors!(
    /// Why a runtime wasn't stopped.
    StopError {
        /// There are other handles: clones of the [`Runtime`](crate::Runtime), as of jobs that wait, or registered threads.
        InUse => "the runtime has other handles",
        /// A job can't stop the runtime that runs it.
        InJob => "a job can't stop its runtime",
        /// Memory was refused. All that was accepted has run, or will come back by a further stop.
        Memory => "memory was refused",
    }
);
