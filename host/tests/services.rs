//! Refusals 8 and 9 of our judge's *follow* and *run*, what they leave of the
//! lent rooms, and claims that hold of every order.

use jamturret::lent::Answer;
use jamturret_host::desk::{Desk, FILL};
use jamturret_host::editions::Standard;
use jamturret_host::layout::{board, kind, operation, word, Edition, ANY};
use jamturret_host::random::Random;
use jamturret_host::sheet::{boards, edition, entry_at, mend_crc, operation_at, set_word};
use jamturret_host::{bench_jobs, generate, judge};

/// Makes a room one byte short; the place of refusal 8 that this gives.
type Shorten = fn(&mut Desk);
const ROOMS: [(u64, Shorten); 4] = [
    (1, |desk| assert!(desk.inbox.pop().is_some())),
    (2, |desk| assert!(desk.report.pop().is_some())),
    (3, |desk| assert!(desk.order_out.pop().is_some())),
    (4, |desk| assert!(desk.scratch.pop().is_some())),
];

#[test]
fn first_short_room() {
    let sheet = bench_jobs::case_1().bytes();
    for from in 0..ROOMS.len() {
        let mut desk = Desk::for_sheet(&sheet);
        ROOMS[from..]
            .iter()
            .for_each(|(_, shorten)| shorten(&mut desk));
        let before = desk.clone();
        assert_eq!(desk.naive_run(&sheet), Answer::refusal(8, ROOMS[from].0));
        // Follow has no order out.
        let place = if ROOMS[from].0 == 3 { 4 } else { ROOMS[from].0 };
        assert_eq!(desk.naive_follow(&sheet, &[9]), Answer::refusal(8, place));
        assert_eq!(desk, before);
    }
}

/// The last of them is a request that is forgotten (document 02, K7).
#[test]
fn sheet_refusals_come_first() {
    for (sheet, number) in [
        (bench_jobs::case_14_tag(32_768), 6),
        (bench_jobs::case_14_slot_forgotten(31), 7),
    ] {
        let sheet = sheet.bytes();
        let mut desk = Desk::for_sheet(&sheet);
        let whole = desk.clone();
        assert_eq!(desk.naive_follow(&sheet, &[9]), Answer::refusal(number, 0));
        assert_eq!(desk, whole);
        ROOMS.iter().for_each(|(_, shorten)| shorten(&mut desk));
        let before = desk.clone();
        assert_eq!(desk.naive_run(&sheet), Answer::refusal(number, 0));
        assert_eq!(desk.naive_follow(&sheet, &[9]), Answer::refusal(number, 0));
        assert_eq!(desk, before);
    }
}

#[test]
fn orders_refused() {
    let sheet = bench_jobs::case_1().bytes();
    let orders: [(&[u8], u64); 5] = [
        (&[2], 0),
        (&[255], 0),
        (&[0, 0], 1),
        (&[0, 1, 0, 1, 0], 4),
        (&[0, 1, 7, 9], 2),
    ];
    for (order, place) in orders {
        let mut desk = Desk::for_sheet(&sheet);
        let before = desk.clone();
        assert_eq!(desk.naive_follow(&sheet, order), Answer::refusal(9, place));
        assert!(desk.scratch.iter().all(|&byte| byte == 0));
        desk.scratch = before.scratch.clone();
        assert_eq!(desk, before, "only scratch is written");
    }
}

/// After a stop nobody is able.
#[test]
fn nothing_after_a_stop() {
    let sheet = bench_jobs::case_9().bytes();
    let mut desk = Desk::for_sheet(&sheet);
    assert_eq!(desk.naive_follow(&sheet, &[0, 1]), Answer::refusal(9, 1));
}

#[test]
fn longer_rooms() {
    let sheet = bench_jobs::case_7().bytes();
    let mut exact = Desk::for_sheet(&sheet);
    assert_eq!(exact.naive_run(&sheet), Answer::SUCCESS);
    let mut longer = Desk::for_sheet(&sheet);
    for room in [
        &mut longer.inbox,
        &mut longer.report,
        &mut longer.order_out,
        &mut longer.scratch,
    ] {
        room.extend([FILL; 5]);
    }
    assert_eq!(longer.naive_run(&sheet), Answer::SUCCESS);
    assert!(
        longer.scratch.iter().all(|&byte| byte == 0),
        "scratch is zeroed whole"
    );
    for (mut long, short) in [
        (longer.inbox, exact.inbox),
        (longer.report, exact.report),
        (longer.order_out, exact.order_out),
    ] {
        assert!(long.ends_with(&[FILL; 5]));
        long.truncate(short.len());
        assert_eq!(long, short);
    }
}

/// Generated sheets that check accepts.
fn accepted(seed: u64, cases: u64) -> impl Iterator<Item = (Vec<u8>, Random)> {
    (0..cases).filter_map(move |number| {
        let (_, sheet, random) = generate::case(seed, number);
        let small = sheet.len() < 600 && judge::check(&sheet) == Answer::SUCCESS;
        small.then_some((sheet, random))
    })
}

#[test]
fn run_is_a_followed_order() {
    let mut verdicts = [0; 5];
    for (sheet, _) in accepted(11, 6000) {
        let mut ran = Desk::for_sheet(&sheet);
        assert_eq!(ran.naive_run(&sheet), Answer::SUCCESS);
        let mut followed = Desk::for_sheet(&sheet);
        assert_eq!(followed.naive_follow(&sheet, ran.order()), Answer::SUCCESS);
        assert_eq!(
            (&followed.inbox, &followed.report),
            (&ran.inbox, &ran.report)
        );
        assert!(ran.order_out[ran.steps()..]
            .iter()
            .all(|&byte| byte == FILL));
        assert!(ran.able().is_empty());
        verdicts[usize::from(ran.report[0])] += 1;
    }
    assert!(
        verdicts[1..].iter().all(|&count| count > 10),
        "{verdicts:?}"
    );
}

/// What follow leaves of an order that it accepts.
fn followed(sheet: &[u8], order: &[u8]) -> Desk {
    let mut desk = Desk::for_sheet(sheet);
    assert_eq!(desk.naive_follow(sheet, order), Answer::SUCCESS);
    desk
}

/// Document 01, What is pinned down: without any source and ready sends, and
/// with buffers that cover all, every whole order ends alike, peaks aside.
#[test]
fn whole_orders_end_alike() {
    for (mut sheet, mut random) in accepted(12, 3000) {
        bring_under_claim(&mut sheet);
        let mut ran = Desk::for_sheet(&sheet);
        assert_eq!(ran.naive_run(&sheet), Answer::SUCCESS);
        let mut order = Vec::new();
        loop {
            let desk = followed(&sheet, &order);
            let able = desk.able();
            if able.is_empty() {
                assert_eq!(desk.without_peaks(), ran.without_peaks(), "{order:?}");
                break;
            }
            order.push(random.pick(&able));
        }
    }
}

/// The same page: two neighbouring steps of different able ranks may be
/// exchanged, whatever stands after them.
#[test]
fn neighbours_exchanged() {
    let mut exchanged = 0;
    for (mut sheet, mut random) in accepted(13, 3000) {
        bring_under_claim(&mut sheet);
        let boards = usize::from(word(&sheet, 0));
        let mut order = Vec::new();
        loop {
            let desk = followed(&sheet, &order);
            let able = desk.able();
            if able.is_empty() {
                break;
            }
            if let [.., one, other] = able[..] {
                let after = random.below(boards) as u8;
                let both = [[one, other, after], [other, one, after]];
                let ends = both.map(|three| end(&sheet, &[&order[..], &three[..]].concat()));
                assert_eq!(ends[0], ends[1], "{order:?}, then {both:?}");
                exchanged += 1;
            }
            order.push(random.pick(&able));
        }
    }
    assert!(exchanged > 1000, "{exchanged}");
}

/// The answer, inboxes and report, peaks aside.
fn end(sheet: &[u8], order: &[u8]) -> (Answer, (Vec<u8>, Vec<u8>)) {
    let mut desk = Desk::for_sheet(sheet);
    let answer = desk.naive_follow(sheet, order);
    let rooms = match answer {
        Answer::SUCCESS => desk.without_peaks(),
        _ => (desk.inbox, desk.report),
    };
    (answer, rooms)
}

/// Makes a sheet one that the claim speaks of.
fn bring_under_claim(sheet: &mut [u8]) {
    for rank in 0..boards(sheet) {
        let at = entry_at(sheet, rank);
        set_word(sheet, at + board::ATTACHED, 16_384);
        if edition(sheet) == Edition::Second && Standard::of(sheet, rank).uncovered() {
            set_word(sheet, at + board::ROOM, 0);
        }
    }
    for index in 0..usize::from(word(sheet, 4)) {
        let at = operation_at(sheet, index);
        if sheet[at] == kind::READY {
            sheet[at] = kind::SYNCHRONOUS;
        }
        let peer = at + operation::PEER;
        if [kind::RECEIVE, kind::PROBE].contains(&sheet[at]) && word(sheet, peer) == ANY {
            set_word(sheet, peer, 0);
        }
        if sheet[at] == kind::QUERY {
            // An empty message to rank 0, which is as much always able.
            sheet[at] = kind::BUFFERED;
            set_word(sheet, at + operation::SLOT, 0);
        }
    }
    mend_crc(sheet);
    assert_eq!(judge::check(sheet), Answer::SUCCESS);
}
