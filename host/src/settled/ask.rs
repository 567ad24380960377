//! A case put to the three services, and the digests of what they answer and
//! leave in the lent rooms.

use super::cases::{self, Case};
use super::digest::Digest;
use super::reached::Reached;
use jamturret::lent::{self, Answer};

/// How often a refused byte is dropped from an order. After that the order is
/// cut before the next one, and followed once more.
const TRIES: usize = 50;

/// More than any lent room.
const LONGEST: usize = 70_000;

pub const SERVICES: [&str; 3] = ["check", "follow", "run"];

/// One digest a service.
pub type Digests = [u32; SERVICES.len()];

/// The arguments are those of `jamturret::lent`.
pub type Check = fn(&[u8]) -> Answer;
pub type Follow = fn(&[u8], &[u8], &mut [u8], &mut [u8], &mut [u8]) -> Answer;
pub type Run = fn(&[u8], &mut [u8], &mut [u8], &mut [u8], &mut [u8]) -> Answer;

/// Who is asked: the library, in tests also others.
#[derive(Clone, Copy)]
pub struct Services {
    pub check: Check,
    pub follow: Follow,
    pub run: Run,
}

pub const LIBRARY: Services = Services {
    check: lent::check,
    follow: lent::follow,
    run: lent::run,
};

/// The library with copies of the inboxes, so that the lent ones keep their
/// bytes and the digests tell of all else.
pub const WITHOUT_INBOXES: Services = Services {
    check: lent::check,
    follow: |sheet, order, inbox, report, scratch| {
        lent::follow(sheet, order, &mut inbox.to_vec(), report, scratch)
    },
    run: |sheet, inbox, report, order_out, scratch| {
        lent::run(sheet, &mut inbox.to_vec(), report, order_out, scratch)
    },
};

pub struct Asker {
    services: Services,
    /// What rooms hold before a call, and what scratch holds after one.
    pattern: Vec<u8>,
    zeros: Vec<u8>,
}

struct Lent {
    inbox: Vec<u8>,
    report: Vec<u8>,
    order_out: Vec<u8>,
    scratch: Vec<u8>,
}

impl Asker {
    pub fn new(services: Services) -> Asker {
        Asker {
            services,
            pattern: cases::pattern(LONGEST),
            zeros: vec![0; LONGEST],
        }
    }

    pub fn ask(&self, case: &Case, reached: &mut Reached) -> Digests {
        reached.case(case);
        [
            self.check(case, reached),
            self.follow(case, reached),
            self.run(case, reached),
        ]
    }

    fn check(&self, case: &Case, reached: &mut Reached) -> u32 {
        let answer = (self.services.check)(&case.sheet);
        reached.call(0, answer, &[]);
        let mut digest = Digest::new();
        add_answer(&mut digest, answer);
        digest.short()
    }

    /// Follows the order. Where a rank is refused, drops it from the order and
    /// tries again, so that orders get long without a judge choosing them:
    /// they follow from the case and the answers alone.
    fn follow(&self, case: &Case, reached: &mut Reached) -> u32 {
        let mut digest = Digest::new();
        let mut order = case.order.clone();
        for dropped in 0.. {
            let mut lent = self.lend(case);
            let answer = (self.services.follow)(
                &case.sheet,
                &order,
                &mut lent.inbox,
                &mut lent.report,
                &mut lent.scratch,
            );
            reached.call(1, answer, &lent.report);
            add_answer(&mut digest, answer);
            self.add_rooms(&mut digest, &lent);
            let index = answer.place as usize;
            if answer.number != 9 || index >= order.len() || dropped > TRIES {
                break;
            }
            match dropped < TRIES {
                true => drop(order.remove(index)),
                false => order.truncate(index),
            }
        }
        digest.short()
    }

    fn run(&self, case: &Case, reached: &mut Reached) -> u32 {
        let mut digest = Digest::new();
        let mut lent = self.lend(case);
        let answer = (self.services.run)(
            &case.sheet,
            &mut lent.inbox,
            &mut lent.report,
            &mut lent.order_out,
            &mut lent.scratch,
        );
        reached.call(2, answer, &lent.report);
        add_answer(&mut digest, answer);
        self.add_rooms(&mut digest, &lent);
        digest.short()
    }

    fn lend(&self, case: &Case) -> Lent {
        let room = |length: usize| self.pattern[..length].to_vec();
        Lent {
            inbox: room(case.rooms.inbox),
            report: room(case.rooms.report),
            order_out: room(case.rooms.order_out),
            scratch: room(case.rooms.scratch),
        }
    }

    /// Every byte of every room. Of scratch only whether it is untouched or
    /// all zero, where it is: it is long, and nothing else is ever right.
    fn add_rooms(&self, digest: &mut Digest, lent: &Lent) {
        digest.bytes(&lent.inbox);
        digest.bytes(&lent.report);
        digest.bytes(&lent.order_out);
        let length = lent.scratch.len();
        if lent.scratch == self.pattern[..length] {
            digest.number(1);
        } else if lent.scratch == self.zeros[..length] {
            digest.number(2);
        } else {
            digest.bytes(&lent.scratch);
        }
    }
}

fn add_answer(digest: &mut Digest, answer: Answer) {
    digest.number(u64::from(answer.number));
    digest.number(answer.place);
}
