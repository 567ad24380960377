//! *Run* and *follow* on large jobs and on small ones, beside the efficient
//! judge, which keeps its entries the same way; and how the times grow.

use crate::lines::{heading, line};
use jamturret::lent::{self, Answer};
use jamturret_host::desk::Desk;
use jamturret_host::judge::engine;
use jamturret_host::layout::MOST_OPERATIONS;
use jamturret_host::sheet::Sheet;
use jamturret_host::timing::{in_turn, median};
use jamturret_host::{bench_jobs, traffic};
use std::hint::black_box;

/// A job, the order that run chooses, and rooms.
struct Timed {
    sheet: Vec<u8>,
    order: Vec<u8>,
    desk: Desk,
}

impl Timed {
    /// The job has to finish, so that every step is taken.
    fn new(sheet: &Sheet) -> Timed {
        let sheet = sheet.bytes();
        let mut desk = Desk::for_sheet(&sheet);
        assert_eq!(desk.naive_run(&sheet), Answer::SUCCESS, "judge");
        assert_eq!(desk.verdict(), 1, "finished");
        Timed {
            order: desk.order().to_vec(),
            sheet,
            desk,
        }
    }

    /// Medians of the library and of the judge, each in rooms of its own, which
    /// have to end equal.
    fn beside(
        &self,
        (rounds, calls): (usize, usize),
        library: impl Fn(&mut Desk),
        judge: impl Fn(&mut Desk),
    ) -> [f64; 2] {
        let mut theirs = self.desk.clone();
        let mut ours = self.desk.clone();
        let times = in_turn(
            rounds,
            calls,
            [&mut || library(&mut theirs), &mut || judge(&mut ours)],
        );
        assert_eq!(theirs, ours);
        times.map(median)
    }

    fn run(&self, rounds: usize, calls: usize) -> [f64; 2] {
        self.beside(
            (rounds, calls),
            |desk| {
                black_box(lent::run(
                    black_box(&self.sheet),
                    &mut desk.inbox,
                    &mut desk.report,
                    &mut desk.order_out,
                    &mut desk.scratch,
                ));
            },
            |desk| {
                let (rooms, order_out) = desk.rooms();
                black_box(engine::run(black_box(&self.sheet), rooms, order_out));
            },
        )
    }

    fn follow(&self, rounds: usize, calls: usize) -> [f64; 2] {
        self.beside(
            (rounds, calls),
            |desk| {
                black_box(lent::follow(
                    black_box(&self.sheet),
                    &self.order,
                    &mut desk.inbox,
                    &mut desk.report,
                    &mut desk.scratch,
                ));
            },
            |desk| {
                let rooms = desk.rooms().0;
                black_box(engine::follow(black_box(&self.sheet), &self.order, rooms));
            },
        )
    }
}

/// Every shape of the most operations beside half of them, and small jobs.
pub fn table(rounds: usize) {
    let mut jobs = Vec::new();
    for (name, sheet) in traffic::SHAPES {
        for operations in [MOST_OPERATIONS / 2, MOST_OPERATIONS] {
            jobs.push((name, 1, Timed::new(&sheet(operations))));
        }
    }
    jobs.push(("case 1", 100, Timed::new(&bench_jobs::case_1())));
    let in_rooms = bench_jobs::case_6_in_rooms([3, 3]);
    jobs.push(("case 6 in rooms", 100, Timed::new(&in_rooms)));
    heading("run");
    for (name, calls, job) in &jobs {
        line(name, &job.sheet, job.run(rounds, *calls));
    }
    heading("follow, run's order");
    for (name, calls, job) in &jobs {
        line(name, &job.sheet, job.follow(rounds, *calls));
    }
}

const OPERATIONS: [usize; 5] = [128, 256, 512, 1024, MOST_OPERATIONS];

/// In the ring nothing waits, and the time an operation stays as it is. A
/// search passes over what is pending, so all-to-one grows faster than the
/// number of operations.
pub fn growth(rounds: usize) {
    let jobs: [(&str, fn(usize) -> Sheet); 2] =
        [("ring", traffic::ring), ("all to one", traffic::all_to_one)];
    heading("growth of run");
    for (name, sheet) in jobs {
        for operations in OPERATIONS {
            let job = Timed::new(&sheet(operations));
            let calls = MOST_OPERATIONS / operations;
            line(name, &job.sheet, job.run(rounds, calls));
        }
    }
}
