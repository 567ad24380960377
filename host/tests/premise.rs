//! Whether the order of steps can matter for a sheet: 20 to 24, the lowest
//! number first, each at its first place (document 01, What is pinned down).

use jamturret::lent::Answer;
use jamturret_host::layout::kind::{BUFFERED, READY, STANDARD, SYNCHRONOUS};
use jamturret_host::layout::{operation, ANY};
use jamturret_host::random::Random;
use jamturret_host::sheet::{mend_crc, operation_at, Operation, Sheet};
use jamturret_host::{bench_jobs, generate, guarded, judge};

/// The library, between guard bytes, and both judges give this answer.
fn expect(name: &str, sheet: &[u8], number: u32, place: u64) {
    let answer = Answer::refusal(number, place);
    let library = guarded::premise(sheet, &mut Random::new(sheet.len() as u64));
    assert_eq!(library, Ok(answer), "library, {name}");
    assert_eq!(judge::premise(sheet), answer, "judge, {name}");
    assert_eq!(judge::naive::premise(sheet), answer, "naive judge, {name}");
}

fn send(kind: u8, length: u16) -> Operation {
    Operation::send(kind, 1, 0, 0, length)
}

/// Rank 0 with this script and buffer, rank 1 with nothing to do.
fn sheet(script: &[Operation], attached: u16) -> Vec<u8> {
    let sheet = Sheet::of_scripts(&[script, &[]], 8);
    sheet.attach(0, attached).bytes()
}

#[test]
fn bench_jobs_of_document_01() {
    expect("a receive of any tag", &bench_jobs::case_1().bytes(), 0, 0);
    expect("job 7", &bench_jobs::case_7().bytes(), 0, 0);
    let nothing = Sheet::of_scripts(&[&[]], 0);
    expect("no operations", &nothing.bytes(), 0, 0);
}

#[test]
fn any_source_before_ready_before_buffers() {
    let any = Operation::receive(ANY, 0, 0, 1);
    let (ready, buffered) = (send(READY, 1), send(BUFFERED, 3));
    expect("20 last", &sheet(&[buffered, ready, any, any], 0), 20, 2);
    expect("20 first", &sheet(&[any, ready, buffered], 0), 20, 0);
    expect("21 and 22", &sheet(&[buffered, ready, ready], 0), 21, 1);
    expect("22 alone", &sheet(&[buffered], 0), 22, 0);
    let nonblocking = [any.nonblocking(3), ready.nonblocking(4)];
    let waits = [3, 4].map(Operation::wait);
    let waited = [nonblocking, waits].concat();
    expect("nonblocking", &sheet(&waited, 0), 20, 0);
}

#[test]
fn buffers_cover_all_buffered_sends_of_their_board() {
    let others = [send(STANDARD, 9), send(SYNCHRONOUS, 9)];
    let buffered = [send(BUFFERED, 5), send(BUFFERED, 6).nonblocking(0)];
    let script = [&buffered[..], &others, &[Operation::wait(0)]].concat();
    expect("covered", &sheet(&script, 76), 0, 0);
    expect("covered exactly", &sheet(&script, 5 + 6 + 64), 0, 0);
    expect("a byte short", &sheet(&script, 74), 22, 0);
    expect("one overhead", &sheet(&script, 5 + 6 + 32), 22, 0);
    expect("either alone covered", &sheet(&script, 6 + 32), 22, 0);
    expect("lengths covered", &sheet(&script, 5 + 6), 22, 0);
    let both = Sheet::of_scripts(&[&[send(BUFFERED, 5)], &[send(BUFFERED, 6)]], 8);
    let both = both.attach(0, 37);
    expect("rank 1", &both.clone().attach(1, 37).bytes(), 22, 1);
    expect("each its own", &both.attach(1, 38).bytes(), 0, 0);
    let empty = [send(BUFFERED, 0)];
    expect("empty", &sheet(&empty, 32), 0, 0);
    expect("empty, a byte short", &sheet(&empty, 31), 22, 0);
}

/// More charges than 16 bits hold.
#[test]
fn charges_do_not_wrap() {
    let mut many = Sheet::of_scripts(&[&[send(BUFFERED, 4096); 17]], 0);
    many.payload = vec![7; 4096];
    many.boards[0].script.iter_mut().for_each(|op| op.peer = 0);
    expect("70,176", &many.attach(0, 16_384).bytes(), 22, 0);
}

#[test]
fn refusals_of_check_come_first() {
    let mut bytes = sheet(&[Operation::receive(ANY, 0, 0, 1), send(READY, 1)], 0);
    expect("accepted", &bytes, 20, 0);
    expect("under 16 bytes", &bytes[..15], 1, 0);
    let at = operation_at(&bytes, 1);
    bytes[at + operation::ZERO] = 1;
    expect("crc", &bytes, 4, 0);
    mend_crc(&mut bytes);
    expect("field", &bytes, 6, 1);
}

/// Document 02, K7: 7 for a request that is forgotten comes before 20 to 24.
#[test]
fn forgotten_requests_come_first() {
    let any = Operation::receive(ANY, 0, 0, 1);
    for (other, number) in [
        (any, 20),
        (send(READY, 1), 21),
        (send(BUFFERED, 3), 22),
        (send(STANDARD, 3), 0),
    ] {
        let place = if (20..22).contains(&number) { 2 } else { 0 };
        let script = [send(STANDARD, 1), send(STANDARD, 2).nonblocking(7), other];
        let waited = [&script[..], &[Operation::wait(7)]].concat();
        expect("waited for", &sheet(&waited, 0), number, place);
        expect("forgotten", &sheet(&script, 0), 7, 1);
        let itself = [send(STANDARD, 1), other.nonblocking(7)];
        expect("forgotten itself", &sheet(&itself, 0), 7, 1);
    }
}

/// Document 02, K9: probes from any source are 20, and queries 23, behind 22.
#[test]
fn probes_and_queries() {
    let (named, any) = (Operation::probe(1, ANY), Operation::probe(ANY, 5));
    let held = send(STANDARD, 1).nonblocking(4);
    let (query, wait) = (Operation::query(4), Operation::wait(4));
    expect("a named source", &sheet(&[named, named], 0), 0, 0);
    expect("any source", &sheet(&[named, any, any], 0), 20, 1);
    let receive = Operation::receive(ANY, 0, 0, 1);
    expect("before a receive", &sheet(&[any, receive], 0), 20, 0);
    expect("behind a receive", &sheet(&[named, receive, any], 0), 20, 1);
    expect("query", &sheet(&[held, query, query, wait], 0), 23, 1);
    expect(
        "with a probe",
        &sheet(&[named, held, query, wait], 0),
        23,
        2,
    );
    expect("20 behind", &sheet(&[held, query, wait, any], 0), 20, 3);
    let ready = send(READY, 1);
    expect("21 behind", &sheet(&[held, query, wait, ready], 0), 21, 3);
    let buffered = send(BUFFERED, 3);
    let behind = [held, query, wait, buffered];
    expect("22 behind", &sheet(&behind, 34), 22, 0);
    expect("22 covered", &sheet(&behind, 35), 23, 1);
    let both = Sheet::of_scripts(&[&[buffered], &[held, query, wait]], 8);
    expect(
        "query of rank 1",
        &both.clone().attach(0, 35).bytes(),
        23,
        2,
    );
    expect("22 of rank 0", &both.bytes(), 22, 0);
    expect("7 first", &sheet(&[any, held, query], 0), 7, 1);
    expect("6 first", &sheet(&[any, Operation::query(32)], 0), 6, 1);
}

/// Document 02, K6: 24 at the first rank whose room is above 0 and does not cover
/// the lengths of its standard sends, behind 23.
#[test]
fn rooms_cover_all_standard_sends_of_their_board() {
    let others = [send(SYNCHRONOUS, 9), Operation::probe(1, 0)];
    let standard = [send(STANDARD, 5), send(STANDARD, 6).nonblocking(0)];
    let script = [&standard[..], &others, &[Operation::wait(0)]].concat();
    let in_room = |script: &[Operation], room: u16| {
        let sheet = Sheet::of_scripts(&[script, &[]], 8);
        sheet.with_rooms(&[room, 0]).bytes()
    };
    expect("edition 1", &sheet(&script, 0), 0, 0);
    expect("room 0", &in_room(&script, 0), 0, 0);
    expect("room 1", &in_room(&script, 1), 24, 0);
    expect("either alone covered", &in_room(&script, 6), 24, 0);
    expect("a byte short", &in_room(&script, 10), 24, 0);
    expect("covered exactly", &in_room(&script, 11), 0, 0);
    expect("the largest", &in_room(&script, 16_384), 0, 0);
    expect("empty, room 0", &in_room(&[send(STANDARD, 0)], 0), 0, 0);
    expect("empty, room 1", &in_room(&[send(STANDARD, 0); 9], 1), 0, 0);
    expect("none, room 1", &in_room(&others, 1), 0, 0);

    let both = Sheet::of_scripts(&[&[send(STANDARD, 5)], &[send(STANDARD, 6)]], 8);
    let rooms = |rooms: [u16; 2]| both.clone().with_rooms(&rooms).bytes();
    expect("rank 1", &rooms([5, 5]), 24, 1);
    expect("rank 0", &rooms([4, 5]), 24, 0);
    expect("rank 0 has none", &rooms([0, 5]), 24, 1);
    expect("each its own", &rooms([5, 6]), 0, 0);
}

/// Attached buffers and rooms do not cover for each other, and 24 goes last.
#[test]
fn rooms_behind_all_else() {
    let (standard, buffered) = (send(STANDARD, 40), send(BUFFERED, 3));
    let with = |script: &[Operation], attached, room| {
        let mut sheet = Sheet::of_scripts(&[script, &[]], 8).attach(0, attached);
        sheet.payload = vec![7; 64];
        sheet.with_rooms(&[room, 16_384]).bytes()
    };
    let both = [buffered, standard];
    expect("both covered", &with(&both, 35, 40), 0, 0);
    expect("the buffer is short", &with(&both, 34, 16_384), 22, 0);
    expect("the room is short", &with(&both, 16_384, 39), 24, 0);
    expect("both are short", &with(&both, 34, 39), 22, 0);
    let held = standard.nonblocking(4);
    let queried = [held, Operation::query(4), Operation::wait(4)];
    expect("23 first", &with(&queried, 0, 39), 23, 1);
    expect("23 alone", &with(&queried, 0, 40), 23, 1);
    let any = [standard, Operation::receive(ANY, 0, 0, 1)];
    expect("20 first", &with(&any, 0, 39), 20, 1);
    expect("21 first", &with(&[standard, send(READY, 1)], 0, 39), 21, 1);
    expect("7 first", &with(&[held], 0, 39), 7, 0);
    expect("5 first", &with(&[standard], 0, 16_385), 5, 0);
}

/// More bytes than 16 bits hold.
#[test]
fn lengths_do_not_wrap() {
    let long = Operation::send(STANDARD, 0, 0, 0, 4096);
    let mut many = Sheet::of_scripts(&[&[long; 17]], 0);
    many.payload = vec![7; 4096];
    expect("69,632", &many.with_room(16_384).bytes(), 24, 0);
}

#[test]
fn judges_agree() {
    let mut numbers = [0; 25];
    for number in 0..10_000 {
        let (_, sheet, _) = generate::case(11, number);
        if sheet.len() <= 1500 {
            let answer = judge::premise(&sheet);
            assert_eq!(judge::naive::premise(&sheet), answer, "case {number}");
            numbers[answer.number as usize] += 1;
        }
    }
    let reached = [0, 20, 21, 22, 23, 24].map(|number: usize| numbers[number]);
    assert!(reached.iter().all(|&count| count > 20), "{reached:?}");
}
