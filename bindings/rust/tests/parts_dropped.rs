//! Parts that are dropped, as by a thread that panics: close hands the others back with the reason, no job is lost, and the
//! program gets on.

use rcuo::parts::{open, Closed, Error, Parts, Recovered, Settings};
use std::mem::replace;
use std::sync::atomic::{AtomicU64, Ordering::SeqCst};
use std::sync::Arc;
use std::thread;

const SETTINGS: Settings<'static> =
    Settings { processors: 3, stride: 1, blimit: 4, qhimark: 4, limit: 100, offloadable: Some(&[0b110]), records: true };
const CALLS: u64 = 5;

/// Jobs, each of which has a share of this as long as it is there.
#[derive(Default)]
struct Jobs {
    token: Arc<()>,
    ran: Arc<AtomicU64>,
}

impl Jobs {
    /// Opens a runtime in which each processor has such jobs, some of which ran.
    fn open(&self) -> Parts {
        let mut parts = open(&SETTINGS).unwrap();
        for number in 0..CALLS {
            for processor in &mut parts.processors {
                let (token, ran) = (Arc::clone(&self.token), Arc::clone(&self.ran));
                let job = move || {
                    drop(token);
                    ran.fetch_add(1, SeqCst);
                };
                processor.call(number, job).unwrap();
            }
            turn_all(&mut parts, number);
        }
        assert_eq!(self.there() + self.ran.load(SeqCst), CALLS * SETTINGS.processors);
        assert!(self.there() > 0 && self.ran.load(SeqCst) > 0);
        parts
    }

    /// How many jobs are there, which neither ran nor were dropped.
    fn there(&self) -> u64 {
        Arc::strong_count(&self.token) as u64 - 1
    }

    /// That all are accounted for: each has a record, or comes back and runs now.
    fn are_all_in(&self, closed: Closed) {
        for (ran, back) in closed.ran.iter().zip(&closed.back) {
            assert_eq!((ran.len() + back.len()) as u64, CALLS);
        }
        assert_eq!(closed.ran.len() as u64, SETTINGS.processors);
        assert_eq!(closed.ran.iter().map(Vec::len).sum::<usize>() as u64, self.ran.load(SeqCst));
        assert_eq!(closed.back.iter().map(Vec::len).sum::<usize>() as u64, self.there());
        closed.back.into_iter().flatten().for_each(|job| job());
        assert_eq!(self.ran.load(SeqCst), CALLS * SETTINGS.processors);
        assert_eq!(self.there(), 0);
    }
}

fn turn_all(parts: &mut Parts, moment: u64) {
    for processor in &mut parts.processors {
        processor.quiescent().unwrap();
        processor.run(moment, 1).unwrap();
    }
    parts.driver.turn().unwrap();
    for group in &mut parts.groups {
        group.turn().unwrap();
    }
    for hand in &mut parts.hands {
        hand.run(1).unwrap();
    }
}

/// A thread that owns this panics.
fn lose(part: impl Send + 'static) {
    let thread = thread::spawn(move || {
        let _part = part;
        panic!("a fault of the program's, which this test makes")
    });
    assert!(thread.join().is_err());
}

/// A close of parts of which one was dropped, and then one of all of them.
fn closes_once_recovered(jobs: &Jobs, parts: Parts) {
    let there = jobs.there();
    let refused = parts.close().unwrap_err();
    assert_eq!(refused.error, Error::Missing);
    assert_eq!(jobs.there(), there);
    let mut parts = refused.back;
    assert_eq!(parts.recover(), 1);
    assert_eq!(parts.recover(), 0);
    assert_eq!(jobs.there(), there);
    assert_eq!(parts.processors.iter().map(|it| it.number()).collect::<Vec<_>>(), [0, 1, 2]);
    assert_eq!(parts.groups.iter().map(|it| it.number()).collect::<Vec<_>>(), [1, 2]);
    assert_eq!(parts.hands.iter().map(|it| it.processor()).collect::<Vec<_>>(), [1, 2]);
    // (the part that was dropped works on)
    turn_all(&mut parts, 100);
    jobs.are_all_in(parts.close().unwrap());
}

#[test]
fn a_dropped_processor() {
    for at in 0..3 {
        let jobs = Jobs::default();
        let mut parts = jobs.open();
        lose(parts.processors.remove(at));
        closes_once_recovered(&jobs, parts);
    }
}

#[test]
fn a_dropped_processor_that_is_away() {
    for at in 0..3 {
        let jobs = Jobs::default();
        let mut parts = jobs.open();
        lose(parts.processors.remove(at).leave().unwrap());
        closes_once_recovered(&jobs, parts);
    }
}

#[test]
fn a_dropped_group() {
    for at in 0..2 {
        let jobs = Jobs::default();
        let mut parts = jobs.open();
        lose(parts.groups.remove(at));
        closes_once_recovered(&jobs, parts);
    }
}

#[test]
fn a_dropped_hand() {
    for at in 0..2 {
        let jobs = Jobs::default();
        let mut parts = jobs.open();
        lose(parts.hands.remove(at));
        closes_once_recovered(&jobs, parts);
    }
}

#[test]
fn a_dropped_driver() {
    let jobs = Jobs::default();
    let Parts { processors, groups, hands, driver, control } = jobs.open();
    let there = jobs.there();
    assert!(control.recover().driver.is_none());
    lose(driver);
    let recovered = control.recover();
    assert_eq!((recovered.processors.len(), recovered.groups.len(), recovered.hands.len()), (0, 0, 0));
    assert_eq!(jobs.there(), there);
    let driver = recovered.driver.unwrap();
    jobs.are_all_in(Parts { processors, groups, hands, driver, control }.close().unwrap());
}

#[test]
fn a_dropped_control() {
    let jobs = Jobs::default();
    let Parts { processors, groups, hands, driver, control } = jobs.open();
    let there = jobs.there();
    assert!(hands[0].recover().control.is_none());
    lose(control);
    let control = processors[1].recover().control.unwrap();
    assert_eq!(jobs.there(), there);
    jobs.are_all_in(Parts { processors, groups, hands, driver, control }.close().unwrap());
}

#[test]
fn another_opens_driver_or_control_in_its_place() {
    let jobs = Jobs::default();
    let mut parts = jobs.open();
    let other = open(&SETTINGS).unwrap();
    let there = jobs.there();
    let driver = replace(&mut parts.driver, other.driver);
    let refused = parts.close().unwrap_err();
    assert_eq!(refused.error, Error::Foreign);
    let mut parts = refused.back;
    parts.driver = driver;
    let control = replace(&mut parts.control, other.control);
    let refused = parts.close().unwrap_err();
    assert_eq!(refused.error, Error::Foreign);
    let mut parts = refused.back;
    parts.control = control;
    assert_eq!(jobs.there(), there);
    jobs.are_all_in(parts.close().unwrap());
}

#[test]
fn of_another_opens_parts_none_is_taken() {
    let jobs = Jobs::default();
    let mut parts = jobs.open();
    let other = open(&SETTINGS).unwrap();
    drop(replace(&mut parts.driver, other.driver));
    assert_eq!(parts.recover(), 0);
    let refused = parts.close().unwrap_err();
    assert_eq!(refused.error, Error::Foreign);
    let mut parts = refused.back;
    parts.driver = parts.control.recover().driver.unwrap();
    jobs.are_all_in(parts.close().unwrap());
}

#[test]
fn any_one_part_is_enough() {
    let jobs = Jobs::default();
    let processor = jobs.open().processors.swap_remove(2);
    let group = processor.recover().groups.swap_remove(0);
    drop(processor);
    let hand = group.recover().hands.swap_remove(1);
    drop(group);
    let driver = hand.recover().driver.unwrap();
    drop(hand);
    let Recovered { processors, groups, hands, driver: none, control } = driver.recover();
    assert!(none.is_none());
    let parts = Parts { processors, groups, hands, driver, control: control.unwrap() };
    jobs.are_all_in(parts.close().unwrap());
}

#[test]
fn a_part_that_is_held_elsewhere_is_not_made_twice() {
    let jobs = Jobs::default();
    let mut parts = jobs.open();
    let processor = parts.processors.remove(1);
    drop(parts.hands.pop());
    assert_eq!(parts.recover(), 1);
    assert_eq!((parts.processors.len(), parts.groups.len(), parts.hands.len()), (2, 2, 2));
    let refused = parts.close().unwrap_err();
    assert_eq!(refused.error, Error::Missing);
    let mut parts = refused.back;
    parts.processors.push(processor);
    jobs.are_all_in(parts.close().unwrap());
}

/// While others work on, each in a thread of its own, a dropped processor is taken up by several at once: one gets it.
#[test]
fn one_gets_it_where_several_ask_at_once() {
    let jobs = Jobs::default();
    let mut parts = jobs.open();
    for _ in 0..200 {
        drop(parts.processors.pop());
        let (groups, hands) = (&mut parts.groups, &mut parts.hands);
        let found: Vec<_> = thread::scope(|scope| {
            let mut threads = Vec::new();
            threads.extend(groups.iter_mut().map(|group| scope.spawn(move || group.recover().processors)));
            threads.extend(hands.iter_mut().map(|hand| scope.spawn(move || hand.recover().processors)));
            threads.into_iter().flat_map(|thread| thread.join().unwrap()).collect()
        });
        assert_eq!(found.len(), 1);
        parts.processors.extend(found);
    }
    jobs.are_all_in(parts.close().unwrap());
}

#[test]
fn a_callback_that_panics_is_over_and_its_processor_is_taken_up_again() {
    let mut parts = open(&Settings { records: true, ..Settings::default() }).unwrap();
    let token = Arc::new(());
    for number in 0..3 {
        let token = Arc::clone(&token);
        let job = move || {
            drop(token);
            assert_ne!(number, 1, "the second callback panics, as this test wants");
        };
        parts.processors[0].call(0, job).unwrap();
    }
    let Parts { mut processors, mut driver, control, .. } = parts;
    let thread = thread::spawn(move || loop {
        processors[0].quiescent().unwrap();
        processors[0].run(0, 16).unwrap();
        driver.turn().unwrap();
    });
    assert!(thread.join().is_err());
    assert_eq!(Arc::strong_count(&token), 2);
    let Recovered { mut processors, groups, hands, driver, .. } = control.recover();
    assert_eq!(processors[0].accepted(), Ok(3));
    assert_eq!(processors[0].is_halted(), Ok(false));
    let parts = Parts { processors, groups, hands, driver: driver.unwrap(), control };
    let closed = parts.close().unwrap();
    assert_eq!((closed.ran[0].len(), closed.back[0].len()), (2, 1));
    drop(closed);
    assert_eq!(Arc::strong_count(&token), 1);
}
