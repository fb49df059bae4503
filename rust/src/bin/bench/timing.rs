//! Interleaved measuring, and the lines of the table.

use std::time::{Duration, Instant};

const ROUNDS: usize = 21;
/// A round makes calls for about this long.
const ROUND: Duration = Duration::from_millis(4);

/// A version of a job, by name.
pub type Version<'a> = (&'a str, &'a mut dyn FnMut());

/// How many calls fill a round.
fn calls_a_round(version: &mut dyn FnMut()) -> u32 {
    let start = Instant::now();
    version();
    let once = start.elapsed().max(Duration::from_nanos(20));
    (ROUND.as_nanos() / once.as_nanos()).clamp(1, 100_000) as u32
}

/// The time of a call in one round.
fn round(version: &mut dyn FnMut(), calls: u32) -> f64 {
    let start = Instant::now();
    (0..calls).for_each(|_| version());
    start.elapsed().as_secs_f64() / f64::from(calls)
}

/// The times of a call of each version, a list a round. The versions take turns within a round.
fn measure(versions: &mut [Version]) -> Vec<Vec<f64>> {
    let calls: Vec<u32> = versions.iter_mut().map(|(_, version)| calls_a_round(version)).collect();
    let one_round = |_| versions.iter_mut().zip(&calls).map(|((_, version), calls)| round(version, *calls)).collect();
    (0..ROUNDS).map(one_round).collect()
}

fn median(numbers: impl Iterator<Item = f64>) -> f64 {
    let mut numbers: Vec<f64> = numbers.collect();
    numbers.sort_by(f64::total_cmp);
    numbers[numbers.len() / 2]
}

fn shown(seconds: f64) -> String {
    if seconds >= 1e-3 {
        format!("{:.2} ms", seconds * 1e3)
    } else {
        format!("{:.2} µs", seconds * 1e6)
    }
}

/// Two digits after the point, and four where the first two would tell little.
fn shown_ratio(ratio: f64) -> String {
    if ratio < 0.1 {
        format!("{ratio:.4}")
    } else {
        format!("{ratio:.2}")
    }
}

pub fn print_head() {
    println!("| Job | Ours | Baseline | Its time | Ratio |");
    println!("|---|---|---|---|---|");
}

/// Prints a line for each baseline: our time and its, as medians of the rounds, and the median of the rounds' ratios.
pub fn print_lines(job: &str, ours: &mut dyn FnMut(), baselines: &mut [Version]) {
    let mut versions: Vec<Version> = vec![("ours", ours)];
    let names: Vec<String> = baselines.iter().map(|(name, _)| name.to_string()).collect();
    versions.extend(baselines.iter_mut().map(|(name, version)| (*name, &mut **version as &mut dyn FnMut())));
    let rounds = measure(&mut versions);
    let ours = shown(median(rounds.iter().map(|times| times[0])));
    for (i, name) in (1..).zip(&names) {
        let theirs = shown(median(rounds.iter().map(|times| times[i])));
        let ratio = shown_ratio(median(rounds.iter().map(|times| times[0] / times[i])));
        println!("| {job} | {ours} | {name} | {theirs} | {ratio} |");
    }
}
