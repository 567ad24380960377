//! The bench jobs of document 01 as far as *check* sees them.

mod common;

use common::expect;
use jamturret_host::bench_jobs;

#[test]
fn every_job_is_accepted() {
    for (name, sheet) in bench_jobs::accepted() {
        expect(name, &sheet.bytes(), 0, 0);
    }
}

#[test]
fn case_14_refusals() {
    let operations = bench_jobs::case_14_operations(2049).bytes();
    expect("N 2,049", &operations, 2, 0);
    expect("tag 32,768", &bench_jobs::case_14_tag(32_768).bytes(), 6, 0);
    expect("slot 32", &bench_jobs::case_14_slot(32).bytes(), 6, 0);
    let forgotten = bench_jobs::case_14_slot_forgotten(31).bytes();
    expect("slot 31 without its wait", &forgotten, 7, 0);
}
