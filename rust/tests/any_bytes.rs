//! No input makes this crate panic: random and damaged bytes put to every
//! service, and to the readers of sheets and reports. In a build with overflow
//! checks an overflow panics too.
//!
//! On the way each case is asked for what has to agree, and at the end every
//! number, verdict and error has to have come up, so that the cases say
//! something.

mod common;

use common::mend_crc;
use common::parts::{forgetful_sheet, random_sheet};
use common::random::Random;
use jamturret::limits::BSEND_OVERHEAD;
use jamturret::{
    check, follow, premise, run, Board, BoardRow, Edition, Mode, Operation, OperationRow,
    OperationState, Outcome, Premise, Refusal, Report, ReportError, Sheet, Source, Status, Tag,
    Verdict,
};
use std::collections::BTreeMap;

const CASES: usize = 100_000;

/// How often something came up, by name.
#[derive(Default)]
struct Counts(BTreeMap<String, usize>);

impl Counts {
    fn add(&mut self, name: String) {
        *self.0.entry(name).or_default() += 1;
    }

    /// By the name of its variant.
    fn refusal(&mut self, refusal: Refusal) {
        let named = format!("{refusal:?}");
        let end = named.find([' ', '(']).unwrap_or(named.len());
        self.add(named[..end].into());
        assert!(refusal.to_string().contains(": "));
    }

    /// All of these came up, and none that is unknown.
    fn have(&self, names: impl IntoIterator<Item = String>) {
        let mut names: Vec<String> = names.into_iter().collect();
        names.sort();
        let came_up: Vec<&String> = self.0.keys().collect();
        assert_eq!(came_up, names.iter().collect::<Vec<_>>());
    }
}

/// Changes a few bytes, mostly by little, and sometimes the length.
fn damage(bytes: &mut Vec<u8>, random: &mut Random) {
    for _ in 0..random.below(4) {
        if bytes.is_empty() {
            break;
        }
        let at = random.below(bytes.len());
        bytes[at] = match random.below(3) {
            0 => random.byte(),
            1 => bytes[at].wrapping_add(1),
            _ => bytes[at] ^ (1 << random.below(8)),
        };
    }
    match random.below(20) {
        0 => bytes.truncate(random.between(0, bytes.len())),
        1 => bytes.push(random.byte()),
        _ => (),
    }
}

/// Plain noise, or a sheet with some damage, its CRC mostly mended.
fn any_sheet(random: &mut Random) -> Vec<u8> {
    if random.chance(10) {
        let length = random.below(80);
        return random.bytes(length);
    }
    let sheet = match random.chance(90) {
        true => random_sheet(random),
        false => forgetful_sheet(random),
    };
    let mut bytes = sheet.expect("every number fits").bytes().to_vec();
    if random.chance(70) {
        damage(&mut bytes, random);
    }
    if random.chance(90) {
        mend_crc(&mut bytes);
    }
    bytes
}

/// Ranks that mostly exist; often the beginning of the order that run takes.
fn any_order(ran: Option<&Outcome>, random: &mut Random) -> Vec<u8> {
    let mut order = match ran {
        Some(ran) => ran.order[..random.between(0, ran.order.len())].to_vec(),
        None => Vec::new(),
    };
    if random.chance(50) {
        order.extend((0..random.below(4)).map(|_| random.below(5) as u8));
    }
    order
}

/// Zeros, or bytes of any length.
fn any_start(random: &mut Random) -> Option<Vec<u8>> {
    let length = random.pick(&[0, 1, 40, 40, 20_000]);
    random.chance(50).then(|| random.bytes(length))
}

/// Check, premise and parse agree with each other.
fn read(bytes: &[u8], counts: &mut Counts) -> Result<(), Refusal> {
    let checked = check(bytes);
    match Sheet::parse(bytes) {
        Ok(sheet) => {
            assert_eq!(checked, Ok(()));
            let boards = sheet.boards().to_vec();
            let (edition, communicators) = (sheet.edition(), sheet.communicators());
            let built = Sheet::build_in(edition, communicators, boards, sheet.payload());
            assert_eq!(built.as_ref(), Ok(&sheet));
            assert_eq!(sheet.bytes(), bytes);
        }
        Err(refusal) => {
            assert_eq!(checked, Err(refusal));
            counts.refusal(refusal);
        }
    }
    match premise(bytes) {
        Ok(premise) => {
            assert_eq!(checked, Ok(()));
            counts.add(format!("premise {}", premise.number()));
            assert_eq!(premise.holds(), premise == Premise::Holds);
        }
        Err(refusal) => assert_eq!(checked, Err(refusal)),
    }
    checked
}

/// What has to hold of an outcome of these bytes.
fn look(outcome: &Outcome, bytes: &[u8], counts: &mut Counts) {
    let Outcome {
        report,
        inboxes,
        order,
    } = outcome;
    counts.add(format!("verdict {}", report.verdict()));
    assert_eq!(order.len(), report.steps());
    let sheet = Sheet::parse(bytes).expect("a refused sheet has no outcome");
    assert_eq!(report.boards().len(), sheet.boards().len());
    let sizes = sheet.boards().iter().map(|board| board.inbox);
    assert!(sizes.eq(inboxes.iter().map(Vec::len)));
    let scripts = sheet.boards().iter().map(|board| board.script.len());
    assert_eq!(report.operations().len(), scripts.sum());
    assert_eq!(Report::parse(report.bytes()).as_ref(), Ok(report));
    look_accounts(report, &sheet, counts);
    if report.verdict() == Verdict::Finished {
        look_finished(report, counts);
    }
    look_told(report, &sheet, counts);
}

/// What is in use of a buffer and of a standard room is what its board's sends
/// in state 2 are charged (document 02, K2 and K6).
fn look_accounts(report: &Report, sheet: &Sheet, counts: &mut Counts) {
    assert_eq!(report.edition(), sheet.edition());
    let mut rows = report.operations();
    for (board, row) in sheet.boards().iter().zip(report.boards()) {
        let own: Vec<_> = rows.by_ref().take(board.script.len()).collect();
        let attached = charges(board, &own, Mode::Buffered, BSEND_OVERHEAD);
        let standard = charges(board, &own, Mode::Standard, 0);
        assert_eq!(row.in_use, attached.iter().sum());
        assert!(row.in_use <= row.peak && row.peak <= board.attached);
        look_standard(row, board, &standard, sheet.edition());
        counts.add(match (sheet.edition(), standard.len()) {
            (Edition::First, _) => "edition 1".into(),
            (Edition::Second, 0) => "edition 2".into(),
            (Edition::Second, _) => "edition 2, standard sends in a room".into(),
        });
    }
}

/// What a board's sends of this mode that are in state 2 are charged.
fn charges(board: &Board, rows: &[OperationRow], mode: Mode, overhead: usize) -> Vec<usize> {
    let sent = board.script.iter().zip(rows).filter_map(|pair| match pair {
        (Operation::Send(send), row) if send.mode == mode => Some((send.length, row.state)),
        _ => None,
    });
    let buffered = sent.filter(|&(_, state)| state == OperationState::Buffered);
    buffered.map(|(length, _)| length + overhead).collect()
}

fn look_standard(row: BoardRow, board: &Board, charged: &[usize], edition: Edition) {
    assert_eq!(row.standard.is_some(), edition == Edition::Second);
    assert!(charged.is_empty() || board.standard_room > 0);
    let told = row.standard.map_or((0, 0), |room| (room.in_use, room.peak));
    assert_eq!(told.0, charged.iter().sum());
    assert!(told.0 <= told.1 && told.1 <= board.standard_room);
}

/// Rows tell a message or a completion only where probes and queries are, and
/// the receive behind a probe gets the told message where it asks for it
/// (document 02, K9).
fn look_told(report: &Report, sheet: &Sheet, counts: &mut Counts) {
    let mut index = 0;
    for board in sheet.boards() {
        for place in 0..board.script.len() {
            let row = report.operation(index).expect("each has a row");
            match board.script[place] {
                Operation::Probe(_) => {
                    let ended = row.state == OperationState::Ended;
                    assert_eq!(row.probed().is_some(), ended);
                    look_behind_probe(report, &board.script[place..], index, counts);
                }
                Operation::StatusQuery { .. } => {
                    if let Some(complete) = row.queried() {
                        counts.add(format!("query told {complete}"));
                    }
                    assert_eq!(row.probed(), None);
                }
                _ => assert_eq!((row.probed(), row.complete), (None, false)),
            }
            index += 1;
        }
    }
}

/// The script from a probe on, which is this operation of the sheet.
fn look_behind_probe(report: &Report, script: &[Operation], index: usize, counts: &mut Counts) {
    let told = report.operation(index).and_then(|row| row.probed());
    let (Some(told), [Operation::Probe(probe), Operation::Receive(receive), ..]) = (told, script)
    else {
        return;
    };
    let asked = (receive.communicator, receive.from, receive.tag);
    let answer = (
        probe.communicator,
        Source::Rank(told.source),
        Tag::Is(told.tag),
    );
    let row = report.operation(index + 1).expect("each has a row");
    if asked == answer && row.state != OperationState::NotEntered {
        assert_eq!(row.state, OperationState::Matched);
        let cut = receive.capacity < told.length;
        assert_eq!(row.status, Some(Status { cut, ..told }));
        counts.add("probed and received".into());
    }
}

/// Every request was waited for (document 02, K7): nothing is pending but
/// messages in buffers.
fn look_finished(report: &Report, counts: &mut Counts) {
    let states = report.operations().map(|row| row.state);
    let (done, pending): (Vec<_>, Vec<_>) =
        states.partition(|state| matches!(state, OperationState::Matched | OperationState::Ended));
    assert!(pending
        .iter()
        .all(|&state| state == OperationState::Buffered));
    assert_eq!(report.pending_messages(), pending.len());
    assert_eq!(report.pending_receives(), 0);
    if done.contains(&OperationState::Ended) && !pending.is_empty() {
        counts.add("finished past a state 5, not delivered".into());
    }
}

fn read_damaged_report(report: &Report, random: &mut Random, counts: &mut Counts) {
    let mut bytes = report.bytes().to_vec();
    damage(&mut bytes, random);
    match Report::parse(&bytes) {
        Ok(read) => {
            assert_eq!(read.bytes(), bytes);
            counts.add("report".into());
        }
        Err(error) => counts.add(match error {
            ReportError::Length { .. } => "report length".into(),
            ReportError::Header => "report header".into(),
            ReportError::Board { .. } => "report board".into(),
            ReportError::Operation { .. } => "report operation".into(),
        }),
    }
}

/// One case: the services on one sheet.
fn ask(random: &mut Random, counts: &mut Counts) {
    let bytes = any_sheet(random);
    let checked = read(&bytes, counts);
    let start = any_start(random);
    let start = start.as_deref();
    let ran = run(&bytes, start);
    let order = any_order(ran.as_ref().ok(), random);
    let followed = follow(&bytes, &order, start);
    for outcome in [&ran, &followed] {
        match outcome {
            Ok(outcome) => {
                assert_eq!(checked, Ok(()));
                look(outcome, &bytes, counts);
            }
            Err(refusal) => {
                let later = matches!(refusal, Refusal::Room(_) | Refusal::Order { .. });
                assert!(later || checked == Err(*refusal));
                counts.refusal(*refusal);
            }
        }
    }
    if let (Ok(ran), Ok(followed)) = (&ran, &followed) {
        assert!(followed.order != ran.order || followed == ran);
        read_damaged_report(&ran.report, random, counts);
    }
    let noise = random.below(60);
    assert!(Report::parse(&random.bytes(noise)).is_err());
}

#[test]
fn nothing_panics() {
    let mut random = Random::new(8);
    let mut counts = Counts::default();
    for _ in 0..CASES {
        ask(&mut random, &mut counts);
    }
    let refusals = [
        "Short",
        "Range",
        "Layout",
        "Crc",
        "Board",
        "Counts",
        "Operation",
        "Request",
        "Room",
        "Order",
    ];
    let premises = [0, 20, 21, 22, 23, 24].map(|number| format!("premise {number}"));
    let verdicts = [
        "still able",
        "finished",
        "deadlock",
        "overflow",
        "not ready",
    ];
    let verdicts = verdicts.map(|words| format!("verdict {words}"));
    let reports = [
        "report",
        "report length",
        "report header",
        "report board",
        "report operation",
    ];
    let told = [
        "edition 1",
        "edition 2",
        "edition 2, standard sends in a room",
        "finished past a state 5, not delivered",
        "probed and received",
        "query told false",
        "query told true",
    ];
    let plain = refusals.into_iter().chain(reports).chain(told);
    let plain = plain.map(String::from);
    counts.have(plain.chain(premises).chain(verdicts));
}
