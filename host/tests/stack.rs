//! Each service in a thread with a stack of 64 KB: the working memory of
//! follow and run is what is lent. A thread that needs more ends the whole
//! test program.

use jamturret::lent::{self, Answer};
use jamturret_host::desk::Desk;
use jamturret_host::layout::MOST_OPERATIONS;
use jamturret_host::sheet::Sheet;
use jamturret_host::{judge, traffic};
use std::thread;

const STACK: usize = 64 * 1024;

/// Large jobs: the most operations, many pending, many bytes.
fn jobs() -> [Sheet; traffic::SHAPES.len()] {
    traffic::SHAPES.map(|(_, sheet)| sheet(MOST_OPERATIONS))
}

fn on_small_stack<T: Send + 'static>(call: impl FnOnce() -> T + Send + 'static) -> T {
    let thread = thread::Builder::new().stack_size(STACK).spawn(call);
    let thread = thread.expect("the thread starts");
    thread.join().expect("the thread ends")
}

#[test]
fn check() {
    for sheet in jobs() {
        let bytes = sheet.bytes();
        assert_eq!(on_small_stack(move || lent::check(&bytes)), Answer::SUCCESS);
    }
}

#[test]
fn premise() {
    for sheet in jobs() {
        let bytes = sheet.bytes();
        let expected = judge::premise(&bytes);
        assert_eq!(on_small_stack(move || lent::premise(&bytes)), expected);
    }
}

#[test]
fn run() {
    for sheet in jobs() {
        let bytes = sheet.bytes();
        let mut expected = Desk::for_sheet(&bytes);
        let mut desk = expected.clone();
        assert_eq!(expected.naive_run(&bytes), Answer::SUCCESS);
        let (answer, desk) = on_small_stack(move || {
            let answer = lent::run(
                &bytes,
                &mut desk.inbox,
                &mut desk.report,
                &mut desk.order_out,
                &mut desk.scratch,
            );
            (answer, desk)
        });
        assert_eq!((answer, desk), (Answer::SUCCESS, expected));
    }
}

#[test]
fn follow() {
    for sheet in jobs() {
        let bytes = sheet.bytes();
        let mut ran = Desk::for_sheet(&bytes);
        let mut desk = ran.clone();
        assert_eq!(ran.naive_run(&bytes), Answer::SUCCESS);
        let order = ran.order().to_vec();
        let (answer, desk) = on_small_stack(move || {
            let answer = lent::follow(
                &bytes,
                &order,
                &mut desk.inbox,
                &mut desk.report,
                &mut desk.scratch,
            );
            (answer, desk)
        });
        assert_eq!(answer, Answer::SUCCESS);
        assert_eq!((desk.inbox, desk.report), (ran.inbox, ran.report));
    }
}
