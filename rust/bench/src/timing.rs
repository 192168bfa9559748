//! Rivals timed side by side: in each round all of them in turn, so that noise falls on all alike.

use std::time::Instant;

/// The milliseconds that each rival took in each round.
pub struct Times(Vec<Vec<f64>>);

/// Times the rivals, after one round that does not count.
pub fn race(rounds: usize, rivals: &mut [&mut dyn FnMut()]) -> Times {
    let mut times = vec![Vec::new(); rivals.len()];
    for round in 0..=rounds {
        for (rival, times) in rivals.iter_mut().zip(&mut times) {
            let taken = milliseconds(rival);
            if round > 0 {
                times.push(taken);
            }
        }
    }
    Times(times)
}

/// The milliseconds that one run takes.
pub fn milliseconds(run: &mut dyn FnMut()) -> f64 {
    let start = Instant::now();
    run();
    start.elapsed().as_secs_f64() * 1000.0
}

impl Times {
    /// Times that were taken elsewhere, for each rival those of all rounds.
    pub fn told(times: Vec<Vec<f64>>) -> Times {
        Times(times)
    }

    /// A rival's best time.
    pub fn best(&self, rival: usize) -> f64 {
        self.0[rival].iter().copied().fold(f64::INFINITY, f64::min)
    }

    /// How many times as long one rival takes as another, by their best times.
    pub fn best_ratio(&self, rival: usize, other: usize) -> f64 {
        self.best(rival) / self.best(other)
    }

    /// How many times as long one rival takes as another: the median over the rounds.
    pub fn ratio(&self, rival: usize, other: usize) -> f64 {
        median(self.0[rival].iter().zip(&self.0[other]).map(|(a, b)| a / b).collect())
    }
}

/// The middle of some numbers.
fn median(mut numbers: Vec<f64>) -> f64 {
    numbers.sort_by(f64::total_cmp);
    numbers[numbers.len() / 2]
}

#[cfg(test)]
mod tests {
    use super::*;

    #[test]
    fn a_ratio_is_of_the_same_round() {
        let times = Times(vec![vec![2.0, 40.0, 6.0], vec![1.0, 10.0, 3.0]]);
        assert_eq!(times.ratio(0, 1), 2.0);
        assert_eq!((times.best(0), times.best_ratio(0, 1)), (2.0, 2.0));
    }

    #[test]
    fn each_rival_runs_once_a_round_and_once_before() {
        let (mut first, mut second) = (0, 0);
        race(3, &mut [&mut || first += 1, &mut || second += 1]);
        assert_eq!((first, second), (4, 4));
    }
}
