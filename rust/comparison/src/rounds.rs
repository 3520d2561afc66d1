//! Two programs timed in rounds, in alternating order: the least time of each, and their ratio with its
//! spread over the rounds.

use std::fmt;
use std::time::Duration;

/// How many rounds each line of a table takes.
pub const ROUNDS: usize = 10;

/// The times of the rounds, of both programs.
pub struct Rounds {
    ours: Vec<Duration>,
    theirs: Vec<Duration>,
}

impl Rounds {
    /// Times both in every round; in every second round the other one goes first.
    pub fn take(mut ours: impl FnMut() -> Duration, mut theirs: impl FnMut() -> Duration) -> Rounds {
        let [rounds] = Rounds::take_parts(|| [ours()], || [theirs()]);
        rounds
    }

    /// The same where each is timed in several ways: the rounds of each way.
    pub fn take_parts<const WAYS: usize>(
        mut ours: impl FnMut() -> [Duration; WAYS],
        mut theirs: impl FnMut() -> [Duration; WAYS],
    ) -> [Rounds; WAYS] {
        let mut rounds = [(); WAYS].map(|()| Rounds { ours: Vec::new(), theirs: Vec::new() });
        for round in 0..ROUNDS {
            let first = (round % 2 == 0).then(&mut ours);
            let other = theirs();
            let own = first.unwrap_or_else(&mut ours);
            for (way, (own, other)) in rounds.iter_mut().zip(own.into_iter().zip(other)) {
                way.ours.push(own);
                way.theirs.push(other);
            }
        }
        rounds
    }

    /// The least time of each.
    pub fn least(&self) -> [Duration; 2] {
        [&self.ours, &self.theirs].map(|times| times.iter().min().copied().unwrap_or_default())
    }

    /// Ratios of ours to theirs round by round, the least first.
    fn ratios(&self) -> Vec<f64> {
        let ratio = |(ours, theirs): (&Duration, &Duration)| ours.as_secs_f64() / theirs.as_secs_f64();
        let mut ratios: Vec<f64> = self.ours.iter().zip(&self.theirs).map(ratio).collect();
        ratios.sort_by(f64::total_cmp);
        ratios
    }

    /// Three cells of a table: their time, the middle ratio, and the ratios from the least to the largest.
    pub fn beside(&self) -> String {
        let [_, theirs] = self.least();
        let ratios = self.ratios();
        let (least, most) = (ratios[0], ratios[ratios.len() - 1]);
        format!("{} | {:.2} | {least:.2} to {most:.2}", shown(theirs), middle(&ratios))
    }

    /// Three cells of a table: the middle time of each, and the ratio of these. For times that are differences, of which
    /// the least says little.
    pub fn middles(&self) -> String {
        let [ours, theirs] = [&self.ours, &self.theirs].map(|times| {
            let mut seconds: Vec<f64> = times.iter().map(Duration::as_secs_f64).collect();
            seconds.sort_by(f64::total_cmp);
            middle(&seconds)
        });
        let [own, other] = [ours, theirs].map(|seconds| shown(Duration::from_secs_f64(seconds)));
        format!("{own} | {other} | {:.2}", ours / theirs)
    }

    /// The rounds of several lines taken together, as one line.
    pub fn sum(lines: &[Rounds]) -> Rounds {
        let total = |times: fn(&Rounds) -> &Vec<Duration>| {
            (0..ROUNDS).map(|round| lines.iter().map(|line| times(line)[round]).sum()).collect()
        };
        Rounds { ours: total(|line| &line.ours), theirs: total(|line| &line.theirs) }
    }
}

/// The middle one of numbers that are in order, or the mean of the middle two.
fn middle(numbers: &[f64]) -> f64 {
    (numbers[(numbers.len() - 1) / 2] + numbers[numbers.len() / 2]) / 2.0
}

/// Four cells of a table: our time and those of [`Rounds::beside`].
impl fmt::Display for Rounds {
    fn fmt(&self, out: &mut fmt::Formatter<'_>) -> fmt::Result {
        let [ours, _] = self.least();
        write!(out, "{} | {}", shown(ours), self.beside())
    }
}

/// A time with three digits and its unit.
pub fn shown(time: Duration) -> String {
    let seconds = time.as_secs_f64();
    let (value, unit) = match seconds {
        1.0.. => (seconds, "s"),
        1e-3.. => (seconds * 1e3, "ms"),
        1e-6.. => (seconds * 1e6, "µs"),
        _ => (seconds * 1e9, "ns"),
    };
    let digits = if value >= 100.0 { 0 } else { 2 - usize::from(value >= 10.0) };
    format!("{value:.digits$} {unit}")
}
