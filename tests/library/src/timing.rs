//! Times of calls, side by side.

use std::time::{Duration, Instant};

/// So many rounds that some are undisturbed, unless they take too long.
const ROUNDS: u32 = 200;

/// A round is as many calls as take about this long.
const ROUND: Duration = Duration::from_micros(500);

/// All rounds of one comparison take about this long at the most.
const ALL: Duration = Duration::from_millis(400);

/// A call of this length is not made more often than needed.
const LONG: Duration = Duration::from_millis(50);

/// The time of a call, over so many of them.
fn round(call: &mut dyn FnMut(), calls: u32) -> Duration {
    let began = Instant::now();
    (0..calls).for_each(|_| call());
    began.elapsed() / calls
}

/// How many calls make a round, and how long it takes.
fn calls(call: &mut dyn FnMut()) -> (u32, Duration) {
    let mut one = round(call, 1);
    if one < LONG {
        one = one.min(round(call, 1));
    }
    let fit = ROUND.as_nanos() / one.as_nanos().max(1);
    let count = fit.clamp(1, 1000) as u32;
    (count, one * count)
}

/// The shortest times of two calls, in turn, so that a busy moment strikes both.
pub fn shortest(mut one: impl FnMut(), mut other: impl FnMut()) -> (Duration, Duration) {
    let ((ones, first), (others, second)) = (calls(&mut one), calls(&mut other));
    let fit = ALL.as_nanos() / (first + second).as_nanos().max(1);
    let rounds = ROUNDS.min(fit as u32).max(2);
    let rounds = (0..rounds).map(|_| (round(&mut one, ones), round(&mut other, others)));
    let least = |a: (Duration, Duration), b: (Duration, Duration)| (a.0.min(b.0), a.1.min(b.1));
    rounds.reduce(least).expect("some round")
}

/// The shortest time of a call in so many.
pub fn least(call: &mut dyn FnMut(), count: u32) -> Duration {
    (0..count).map(|_| round(call, 1)).min().expect("some call")
}

/// Prints the proved code's time, which is handed on, beside that of another, which is named.
pub fn compare(what: &str, proved: impl FnMut(), name: &str, other: impl FnMut()) -> Duration {
    compare_each(what, 1, proved, name, other)
}

/// The same for calls that do so many things each: times of one of these.
pub fn compare_each(
    what: &str,
    things: u32,
    proved: impl FnMut(),
    name: &str,
    other: impl FnMut(),
) -> Duration {
    let (proved, other) = shortest(proved, other);
    let (proved, other) = (proved / things, other / things);
    let ratio = proved.as_secs_f64() / other.as_secs_f64();
    println!("{what:<70} proved {proved:>10.2?}   {name:<6} {other:>10.2?}   ratio {ratio:.2}");
    proved
}
