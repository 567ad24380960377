//! Operations of the tests that count cases around probes and queries.

use jamturret_host::layout::kind::STANDARD;
use jamturret_host::sheet::Operation;

pub fn send(kind: u8) -> Operation {
    Operation::send(kind, 1, 7, 0, 3)
}

pub fn receive() -> Operation {
    Operation::receive(0, 7, 0, 4)
}

pub fn probe() -> Operation {
    Operation::probe(0, 7)
}

/// A standard send in slot 3, a query of it, and its wait.
pub fn queried() -> [Operation; 3] {
    let held = send(STANDARD).nonblocking(3);
    [held, Operation::query(3), Operation::wait(3)]
}
