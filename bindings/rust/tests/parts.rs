//! The parts in threads of their own, and what close gives back.

use rcuo::parts::{open, Error, Settings};
use std::sync::atomic::{AtomicBool, AtomicU64, Ordering::SeqCst};
use std::sync::{Arc, Mutex};
use std::thread;

#[test]
fn callbacks_run_in_order_in_a_hand() {
    const CALLS: u64 = 2000;
    let settings = Settings { processors: 2, offloadable: Some(&[2]), qhimark: 16, records: true, ..Settings::default() };
    let mut parts = open(&settings).unwrap();
    let stop = AtomicBool::new(false);
    let seen = Arc::new(Mutex::new(Vec::new()));
    thread::scope(|scope| {
        let stop = &stop;
        for processor in &mut parts.processors {
            let seen = Arc::clone(&seen);
            scope.spawn(move || {
                let mut called = 0;
                let mut moment = 0;
                while !stop.load(SeqCst) {
                    if processor.number() == 1 && called < CALLS {
                        let seen = Arc::clone(&seen);
                        let number = called;
                        let ticket = processor.call(moment, move || seen.lock().unwrap().push(number)).unwrap();
                        assert_eq!(ticket.number, called);
                        called += 1;
                    }
                    drop(processor.read());
                    processor.quiescent().unwrap();
                    processor.run(moment, 16).unwrap();
                    moment += 1;
                    thread::yield_now();
                }
            });
        }
        for group in &mut parts.groups {
            scope.spawn(move || {
                while !stop.load(SeqCst) {
                    group.turn().unwrap();
                    thread::yield_now();
                }
            });
        }
        for hand in &mut parts.hands {
            scope.spawn(move || {
                while !stop.load(SeqCst) {
                    hand.run(16).unwrap();
                    thread::yield_now();
                }
            });
        }
        let driver = &mut parts.driver;
        scope.spawn(move || {
            while !stop.load(SeqCst) {
                driver.turn().unwrap();
                thread::yield_now();
            }
        });
        while (seen.lock().unwrap().len() as u64) < CALLS {
            parts.control.barrier().unwrap();
            thread::yield_now();
        }
        let barrier = parts.control.barrier().unwrap();
        assert_eq!(barrier.counts(), [0, CALLS]);
        while !parts.control.poll(&barrier).unwrap() {
            thread::yield_now();
        }
        stop.store(true, SeqCst);
    });
    assert_eq!(*seen.lock().unwrap(), (0..CALLS).collect::<Vec<_>>());
    let closed = parts.close().unwrap();
    assert_eq!(closed.ran[1].len() as u64, CALLS);
    assert!(closed.ran[0].is_empty() && closed.back.iter().all(Vec::is_empty));
}

#[test]
fn jobs_that_did_not_run_come_back() {
    let mut parts = open(&Settings { limit: 2, ..Settings::default() }).unwrap();
    let ran = Arc::new(AtomicU64::new(0));
    for _ in 0..2 {
        let ran = Arc::clone(&ran);
        parts.processors[0].call(0, move || { ran.fetch_add(1, SeqCst); }).unwrap();
    }
    let refused = parts.processors[0].call_lazy(0, || ()).unwrap_err();
    assert_eq!(refused.error, Error::Limit);
    (refused.back)();
    assert_eq!(parts.processors[0].accepted(), Ok(2));
    assert_eq!(parts.processors[0].left(), Ok(0));
    assert_eq!(parts.control.shut(), Ok(vec![2]));
    let closed = parts.close().unwrap();
    for job in closed.back.into_iter().flatten() {
        job();
    }
    assert_eq!(ran.load(SeqCst), 2);
}

#[test]
fn close_wants_all_parts_of_one_open() {
    let settings = Settings { processors: 2, offloadable: Some(&[1]), ..Settings::default() };
    let mut parts = open(&settings).unwrap();
    let mut others = open(&settings).unwrap();
    std::mem::swap(&mut parts.hands, &mut others.hands);
    let refused = parts.close().map(drop).unwrap_err();
    assert_eq!(refused.error, Error::Foreign);
    let mut parts = refused.back;
    std::mem::swap(&mut parts.hands, &mut others.hands);
    let processor = parts.processors.pop().unwrap();
    let refused = parts.close().map(drop).unwrap_err();
    assert_eq!(refused.error, Error::Missing);
    let mut parts = refused.back;
    parts.processors.push(processor);
    assert!(parts.close().is_ok());
}

#[test]
fn a_dropped_runtime_drops_its_jobs() {
    let told = Arc::new(());
    let mut parts = open(&Settings::default()).unwrap();
    let held = Arc::clone(&told);
    parts.processors[0].call(0, move || drop(held)).unwrap();
    assert_eq!(Arc::strong_count(&told), 2);
    drop(parts);
    assert_eq!(Arc::strong_count(&told), 1);
}

#[test]
fn errors_are_named() {
    for processors in [0, 1025] {
        assert_eq!(open(&Settings { processors, ..Settings::default() }).map(drop), Err(Error::Shape));
    }
    for offloadable in [[2].as_slice(), &[0, 1], &[[0; 16].as_slice(), &[1]].concat()] {
        let asked = Settings { offloadable: Some(offloadable), ..Settings::default() };
        assert_eq!(open(&asked).map(drop), Err(Error::Shape));
    }
    let mut parts = open(&Settings::default()).unwrap();
    assert_eq!(parts.control.offload(0), Err(Error::NotOffloadable));
    assert_eq!(parts.control.offload(1), Err(Error::NoProcessor));
    assert_eq!(parts.driver.is_halted(), Ok(false));
    parts.control.halt().unwrap();
    assert_eq!(parts.driver.is_halted(), Ok(true));
}

#[test]
fn each_part_but_control_reads_the_halt_word() {
    let mut parts = open(&Settings { offloadable: Some(&[1]), ..Settings::default() }).unwrap();
    for wanted in [false, true] {
        assert_eq!(parts.processors[0].is_halted(), Ok(wanted));
        assert_eq!(parts.hands[0].is_halted(), Ok(wanted));
        assert_eq!(parts.groups[0].is_halted(), Ok(wanted));
        assert_eq!(parts.driver.is_halted(), Ok(wanted));
        parts.control.halt().unwrap();
    }
}

#[test]
fn a_processor_opens_and_polls_a_barrier() {
    let mut parts = open(&Settings::default()).unwrap();
    parts.processors[0].call(0, || ()).unwrap();
    let barrier = parts.processors[0].barrier().unwrap();
    assert_eq!(barrier.counts(), [1]);
    assert_eq!(parts.processors[0].poll(&barrier), Ok(false));
    while parts.processors[0].run(0, 1).unwrap() == 0 {
        parts.processors[0].quiescent().unwrap();
        parts.driver.turn().unwrap();
    }
    assert_eq!(parts.processors[0].poll(&barrier), Ok(true));
    assert_eq!(parts.control.poll(&barrier), Ok(true));
    let other = open(&Settings { processors: 2, ..Settings::default() }).unwrap().control.barrier().unwrap();
    assert_eq!(parts.processors[0].poll(&other), Err(Error::Foreign));
}

#[test]
fn refusals_are_errors() {
    fn boxed() -> Result<(), Box<dyn std::error::Error>> {
        let mut parts = open(&Settings { limit: 1, ..Settings::default() })?;
        parts.processors[0].call(0, || ())?;
        parts.control.shut()?;
        assert_eq!(parts.close()?.back[0].len(), 1);
        let mut parts = open(&Settings { limit: 1, ..Settings::default() })?;
        parts.processors[0].call(0, || ())?;
        parts.processors[0].call(0, || ())?;
        unreachable!("the limit is 1");
    }
    fn plain() -> Result<(), Error> {
        let mut parts = open(&Settings::default())?;
        parts.processors[0].call(0, || ())?;
        parts.control.shut()?;
        parts.processors[0].call(0, || ())?;
        unreachable!("it was shut");
    }
    let refused = boxed().unwrap_err();
    assert_eq!(refused.to_string(), Error::Limit.to_string());
    assert!(refused.is::<rcuo::parts::Refused<rcuo::parts::Job>>());
    assert_eq!(format!("{refused:?}"), "Refused { error: Limit, .. }");
    assert_eq!(plain(), Err(Error::Closed));
    let mut parts = open(&Settings::default()).unwrap();
    parts.processors.clear();
    assert_eq!(parts.close().map_err(Error::from).map(drop), Err(Error::Missing));
}

#[test]
fn types_show_themselves() {
    let mut parts = open(&Settings { processors: 2, offloadable: Some(&[2]), ..Settings::default() }).unwrap();
    parts.processors[0].call(0, || ()).unwrap();
    let shown = "Parts { processors: [Processor(0), Processor(1)], groups: [Group(1)], hands: [Hand(1)], driver: Driver, control: Control }";
    assert_eq!(format!("{parts:?}"), shown);
    assert_eq!(format!("{:?}", parts.control.barrier().unwrap()), "Barrier([1, 0])");
    assert_eq!(format!("{:?}", parts.close().unwrap()), "Closed { ran: [[], []], back: [1, 0] }");
}

#[test]
fn a_grace_period_without_a_callback() {
    let mut parts = open(&Settings { processors: 2, ..Default::default() }).unwrap();
    let cookie = parts.control.start_poll().unwrap();
    let mut turns = 0;
    while !parts.processors[0].poll_state(cookie).unwrap() {
        assert!(turns < 2 || parts.processors.len() == 1);
        parts.driver.turn().unwrap();
        parts.processors[0].quiescent().unwrap();
        turns += 1;
        if turns == 2 {
            // (the other one hasn't reported, so that it isn't over)
            let away = parts.processors.pop().unwrap().leave().unwrap();
            assert_eq!(away.number(), 1);
            drop(away);
        }
    }
    assert_eq!(parts.recover(), 1);
    parts.close().unwrap();
}

/// As many processors as there can be, all of them offloadable, in groups of 64; a callback of the last one runs in its hand.
#[test]
fn a_thousand_and_twenty_four_processors() {
    let settings = Settings { processors: 1024, stride: 64, offloadable: None, ..Settings::default() };
    let mut parts = open(&settings).unwrap();
    assert_eq!((parts.processors.len(), parts.groups.len(), parts.hands.len()), (1024, 16, 1024));
    assert_eq!(parts.processors[1023].left(), Ok(1 << 53));
    drop(parts.hands.pop());
    assert_eq!(parts.recover(), 1);
    assert!(parts.close().unwrap().ran.len() == 1024);
}
