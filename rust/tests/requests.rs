//! Refusal 7: slots that are taken twice or not held, shared areas, and behind
//! them forgotten requests (document 01, When the desk says no; document 02,
//! K7).

mod common;

use common::parts::{forgetful_sheet, random_sheet};
use common::random::Random;
use common::sample;
use jamturret::lent;
use jamturret::limits::{order_room, report_room, MOST_SLOT, SCRATCH_ROOM};
use jamturret::{
    check, follow, premise, run, Board, Mode, Operation, Premise, ReceiveOperation, Refusal,
    SendOperation, Sheet, Source, Tag,
};

fn wait(slot: usize) -> Operation {
    Operation::Wait { slot }
}

fn query(slot: usize) -> Operation {
    Operation::StatusQuery { slot }
}

/// A blocking send.
fn send(to: usize) -> Operation {
    SendOperation::new(Mode::Standard, to).into()
}

fn isend(slot: usize) -> Operation {
    let send = SendOperation::new(Mode::Standard, 1);
    send.nonblocking(slot).into()
}

/// Into four bytes from `offset` on.
fn ireceive(offset: usize, slot: usize) -> Operation {
    let receive = ReceiveOperation::new(Source::Rank(1)).area(offset, 4);
    receive.nonblocking(slot).into()
}

/// The scripts of the first and of the last of three boards, each with an
/// inbox of eight bytes.
fn scripts(first: &[Operation], last: &[Operation]) -> Sheet {
    let board = |script: &[Operation]| Board {
        script: script.to_vec(),
        ..Board::new().inbox(8)
    };
    built(vec![board(first), board(&[]), board(last)], &[])
}

fn built(boards: Vec<Board>, payload: &[u8]) -> Sheet {
    Sheet::build(1, boards, payload).expect("every number fits")
}

/// Every service that reads a sheet gives this refusal, before it looks at
/// rooms or order, and leaves each room as it was.
fn all_refuse(sheet: &Sheet, refusal: Refusal) {
    assert_eq!(check(sheet), Err(refusal), "{sheet:?}");
    assert_eq!(Sheet::parse(sheet.bytes()), Err(refusal));
    assert_eq!(premise(sheet), Err(refusal));
    let no_step: &[u8] = &[];
    for order in [no_step, &[0], &[255]] {
        for inboxes in [None, Some(no_step)] {
            assert_eq!(run(sheet, inboxes), Err(refusal));
            assert_eq!(follow(sheet, order, inboxes), Err(refusal));
        }
        let before = [24, report_room(3, 8), order_room(8), SCRATCH_ROOM].map(|room| vec![7; room]);
        let mut lent = before.clone();
        let [inbox, report, order_out, scratch] = &mut lent;
        for answer in [
            lent::run(sheet.bytes(), inbox, report, order_out, scratch),
            lent::run(sheet.bytes(), &mut [], &mut [], &mut [], &mut []),
            lent::follow(sheet.bytes(), order, inbox, report, scratch),
            lent::follow(sheet.bytes(), order, &mut [], &mut [], &mut []),
        ] {
            assert_eq!(answer.result(sheet.bytes()), Err(refusal));
        }
        assert_eq!(lent, before);
    }
}

/// The first operation whose slot no wait frees, whatever its slot is; a wait
/// frees slots of its own board alone (document 02, K7).
#[test]
fn forgotten_requests() {
    let cases: [(&[Operation], &[Operation], usize); 12] = [
        // A send and a receive, on the first board and on the last.
        (&[isend(3)], &[], 0),
        (&[ireceive(0, 3)], &[], 0),
        (&[send(1)], &[isend(3)], 1),
        (&[send(1)], &[ireceive(0, 3)], 1),
        // Two: on one board, on two, and behind one that is waited for.
        (&[send(1), isend(31), ireceive(0, 0)], &[], 1),
        (&[isend(0), wait(0), isend(1)], &[isend(0)], 2),
        (&[isend(5), isend(2), ireceive(0, 9), wait(5)], &[], 1),
        // A slot that is taken again, on each board.
        (&[isend(7), wait(7), ireceive(0, 7)], &[], 2),
        (&[isend(7), wait(7)], &[isend(7), wait(7), isend(7)], 4),
        // A wait of another board, before and after.
        (&[isend(0)], &[isend(0), wait(0)], 0),
        (&[isend(0), wait(0)], &[isend(0)], 2),
        (&[isend(MOST_SLOT)], &[], 0),
    ];
    for (first, last, index) in cases {
        all_refuse(&scripts(first, last), Refusal::Request { index });
    }
}

/// What else 7 is given for wins, also behind a forgotten request and on
/// another board; and so does 6.
#[test]
fn other_rules_first() {
    let areas = [ireceive(0, 1), ireceive(3, 2), wait(1), wait(2)];
    let same_board = [&[isend(0)], &areas[..]].concat();
    let cases: [(&[Operation], &[Operation], usize); 6] = [
        (&same_board, &[], 2),
        (&[ireceive(0, 0)], &areas, 2),
        (&[isend(0)], &[isend(4), isend(4), wait(4)], 2),
        (&[isend(0)], &[wait(0)], 1),
        (&[isend(0), isend(1), wait(1), wait(1)], &[], 3),
        (&[wait(3), isend(3)], &[], 0),
    ];
    for (first, last, index) in cases {
        all_refuse(&scripts(first, last), Refusal::Request { index });
    }
    let no_rank = scripts(&[isend(0)], &[send(3)]);
    all_refuse(&no_rank, Refusal::Operation { index: 1 });
}

/// A status query names a slot that its board holds there, and frees nothing:
/// the slot cannot be taken again, and wants its wait (document 02, K9).
#[test]
fn queries() {
    let cases: [(&[Operation], &[Operation], usize); 9] = [
        // Never taken, not yet, no more, another, another board's.
        (&[query(3)], &[], 0),
        (&[query(3), isend(3), wait(3)], &[], 0),
        (&[isend(3), wait(3), query(3)], &[], 2),
        (&[isend(3), query(4), wait(3)], &[], 1),
        (&[isend(3), wait(3)], &[query(3)], 2),
        (&[query(3)], &[isend(3), wait(3)], 0),
        // Held behind the query.
        (&[ireceive(0, 3), query(3), isend(3), wait(3)], &[], 2),
        (&[isend(3), query(3)], &[], 0),
        // A forgotten request comes last.
        (&[isend(3), query(3)], &[query(3)], 2),
    ];
    for (first, last, index) in cases {
        all_refuse(&scripts(first, last), Refusal::Request { index });
    }
    for (first, index) in [
        (&[isend(3), query(3), query(3), wait(3)][..], 1),
        (&[isend(3), wait(3), ireceive(0, 3), query(3), wait(3)], 3),
    ] {
        let sheet = scripts(first, &[]);
        assert_eq!(Sheet::parse(sheet.bytes()), Ok(sheet.clone()));
        let premised = Premise::StatusQuery { operation: index };
        assert_eq!(premise(&sheet), Ok(premised));
    }
}

/// The wait may be the last operation of its script, and of the whole sheet.
#[test]
fn waited_for() {
    let cases: [(&[Operation], &[Operation]); 4] = [
        (&[isend(3), wait(3)], &[]),
        (&[isend(31), wait(31)], &[ireceive(0, 31), wait(31)]),
        (&[isend(7), wait(7), ireceive(0, 7), wait(7)], &[]),
        (&[isend(0), isend(1), wait(1), wait(0)], &[send(0)]),
    ];
    for (first, last) in cases {
        let sheet = scripts(first, last);
        assert_eq!(check(&sheet), Ok(()), "{sheet:?}");
        assert_eq!(Sheet::parse(sheet.bytes()), Ok(sheet.clone()));
        assert_eq!(premise(&sheet), Ok(Premise::Holds));
        let ran = run(&sheet, None).expect("the sheet passes");
        assert_eq!(follow(&sheet, &ran.order, None), Ok(ran));
    }
}

/// All slots at once, and each of them in turn forgotten.
#[test]
fn each_slot() {
    let starts = (0..=MOST_SLOT).map(isend);
    let waits = |forgotten| (0..=MOST_SLOT).filter(move |&slot| slot != forgotten);
    for forgotten in 0..=MOST_SLOT {
        let script: Vec<Operation> = starts.clone().chain(waits(forgotten).map(wait)).collect();
        let refusal = Refusal::Request { index: forgotten };
        assert_eq!(check(scripts(&[], &script)), Err(refusal));
    }
    let script: Vec<Operation> = starts.chain(waits(MOST_SLOT + 1).map(wait)).collect();
    assert_eq!(check(scripts(&[], &script)), Ok(()));
}

/// The samples of 7 are these parts.
#[test]
fn samples() {
    let receive = |offset| ReceiveOperation::new(Source::Rank(1)).area(offset, 4);
    let taken = Board::new()
        .inbox(8)
        .then(receive(0).nonblocking(3))
        .then(receive(4).nonblocking(3))
        .then(wait(3));
    let taken = built(vec![taken, Board::new()], &[]);
    assert_eq!(taken.bytes(), sample("refused-7"));
    all_refuse(&taken, Refusal::Request { index: 1 });

    let sends = SendOperation::new(Mode::Synchronous, 1).tag(7).bytes(0, 3);
    let sender = Board::new().then(sends.nonblocking(0));
    let receives = ReceiveOperation::new(Source::Rank(0)).tag(Tag::Any);
    let receiver = Board::new().inbox(4).then(receives.area(0, 4));
    let forgotten = built(vec![sender, receiver], &[11, 12, 13]);
    assert_eq!(forgotten.bytes(), sample("refused-7-forgotten"));
    all_refuse(&forgotten, Refusal::Request { index: 0 });
}

/// The first operation whose slot is named by no later wait of its script.
fn forgotten(sheet: &Sheet) -> Option<usize> {
    let mut operations = sheet.boards().iter().flat_map(|board| {
        board.script.iter().enumerate().map(|(place, operation)| {
            let slot = match operation {
                Operation::Send(send) => send.slot,
                Operation::Receive(receive) => receive.slot,
                Operation::Wait { .. } | Operation::StatusQuery { .. } => None,
                Operation::Probe(_) => None,
            };
            let later = &board.script[place + 1..];
            slot.is_some_and(|slot| !later.contains(&wait(slot)))
        })
    });
    operations.position(|forgotten| forgotten)
}

/// Sheets that break no other rule are refused where they forget a request,
/// and only there.
#[test]
fn random_sheets() {
    let mut random = Random::new(7);
    let mut refused = 0;
    for _ in 0..20_000 {
        let sheet = forgetful_sheet(&mut random).expect("every number fits");
        match forgotten(&sheet) {
            Some(index) => {
                let refusal = Refusal::Request { index };
                assert_eq!(check(&sheet), Err(refusal), "{sheet:?}");
                assert_eq!(premise(&sheet), Err(refusal));
                assert_eq!(run(&sheet, None), Err(refusal));
                assert_eq!(follow(&sheet, &[], None), Err(refusal));
                refused += 1;
            }
            None => assert_eq!(check(&sheet), Ok(()), "{sheet:?}"),
        }
        let sheet = random_sheet(&mut random).expect("every number fits");
        assert_eq!((forgotten(&sheet), check(&sheet)), (None, Ok(())));
    }
    assert!((5_000..15_000).contains(&refused), "{refused} are refused");
}
