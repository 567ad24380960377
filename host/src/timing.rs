//! Times functions in turn, so that all meet the same machine.

use std::time::Instant;

/// The times of N functions, in nanoseconds a call, a round each, sorted. A
/// measurement is `calls` calls, since the clock is too coarse for one short
/// call.
pub fn in_turn<const N: usize>(
    rounds: usize,
    calls: usize,
    mut functions: [&mut dyn FnMut(); N],
) -> [Vec<f64>; N] {
    let mut times = [(); N].map(|()| Vec::with_capacity(rounds));
    for round in 0..rounds + rounds / 10 {
        for (function, times) in functions.iter_mut().zip(&mut times) {
            let time = time(calls, function);
            // The first tenth only warms up.
            if round >= rounds / 10 {
                times.push(time);
            }
        }
    }
    for times in &mut times {
        times.sort_by(f64::total_cmp);
    }
    times
}

fn time(calls: usize, call: &mut dyn FnMut()) -> f64 {
    let start = Instant::now();
    for _ in 0..calls {
        call();
    }
    start.elapsed().as_nanos() as f64 / calls as f64
}

pub fn median(times: Vec<f64>) -> f64 {
    times[times.len() / 2]
}

/// For differences of times: on a machine whose speed changes for seconds, the
/// medians of two functions may be of different speeds.
pub fn least(times: Vec<f64>) -> f64 {
    times[0]
}
