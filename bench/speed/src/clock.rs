//! How things are timed: contenders take turns, round by round, and the best round of each
//! counts. What else runs on the machine can only make a round longer.

use std::time::Instant;

/// One sample of a contender: nanoseconds for one operation.
pub type Sample = Box<dyn FnMut() -> f64>;

/// An operation done so many times in a row. It gives the numbers of its answers put together,
/// which have to be 0: no row may time refusals.
pub fn each(times: usize, mut act: impl FnMut() -> u32 + 'static) -> Sample {
    Box::new(move || {
        let start = Instant::now();
        let mut refused = 0;
        for _ in 0..times {
            refused |= act();
        }
        let took = start.elapsed();
        assert_eq!(refused, 0, "a step that is timed was refused");
        took.as_secs_f64() * 1e9 / times as f64
    })
}

/// The best of each contender, after so many rounds in which each has its turn.
pub fn best(rounds: usize, contenders: &mut [Sample]) -> Vec<f64> {
    let mut best = vec![f64::INFINITY; contenders.len()];
    for _ in 0..rounds {
        for (sample, best) in contenders.iter_mut().zip(&mut best) {
            *best = best.min(sample());
        }
    }
    best
}

#[cfg(test)]
mod tests {
    use super::*;
    use std::cell::Cell;
    use std::rc::Rc;

    #[test]
    fn contenders_take_turns_and_the_best_counts() {
        let order = Rc::new(Cell::new(0));
        let sample = |times: [f64; 2]| -> Sample {
            let order = order.clone();
            let mut round = 0;
            Box::new(move || {
                order.set(order.get() * 10 + times[0] as u32);
                round += 1;
                times[round - 1]
            })
        };
        let mut contenders = [sample([2.0, 1.0]), sample([3.0, 4.0])];
        assert_eq!(best(2, &mut contenders), [1.0, 3.0]);
        assert_eq!(order.get(), 2323);
    }

    #[test]
    #[should_panic(expected = "refused")]
    fn a_refusal_is_never_timed() {
        each(3, || 7)();
    }
}
