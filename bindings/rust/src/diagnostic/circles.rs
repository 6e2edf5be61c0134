//! Question 9: the shortest circle of processes in which each stands at the head of the one before it. Conditions do
//! not count.

use std::collections::VecDeque;

use super::finding::{Finding, Found, Span};
use super::known::{Declared, Known};
use super::tree::{flat, Choice, PartKind, Sequence};

/// A call at the head: the process called, and where.
type Head = (usize, Span);

pub fn check(known: &Known) -> Found<()> {
    let processes = known.sheet.processes.iter();
    let heads: Vec<Vec<Head>> = processes
        .map(|process| choice(known, &process.body))
        .collect();
    let circles = (0..heads.len()).filter_map(|process| circle(&heads, process));
    match circles.min_by_key(Vec::len) {
        Some(circle) => Err(told(known, &circle)),
        None => Ok(()),
    }
}

fn choice(known: &Known, of: &Choice) -> Vec<Head> {
    let mut heads = Vec::new();
    for conditional in of {
        heads.extend(sequence(known, &conditional.yes));
        if let Some((_, no)) = &conditional.test {
            heads.extend(sequence(known, no));
        }
    }
    heads
}

/// The head of a sequence is that of its first part.
fn sequence(known: &Known, parts: &Sequence) -> Vec<Head> {
    match flat(parts).first().map(|part| &part.kind) {
        Some(PartKind::Named(call)) => match known.get(call.name.text) {
            Some(Declared::Process(process)) => vec![(process, call.name.span)],
            _ => Vec::new(),
        },
        Some(PartKind::Sum(_, body)) => choice(known, body),
        Some(PartKind::Brackets(body)) => choice(known, body),
        _ => Vec::new(),
    }
}

/// The shortest way from a process back to itself: the calls on it.
fn circle(heads: &[Vec<Head>], process: usize) -> Option<Vec<Head>> {
    let mut ways = VecDeque::from([vec![]]);
    let mut reached = vec![false; heads.len()];
    while let Some(way) = ways.pop_front() {
        let at = way.last().map_or(process, |(to, _): &Head| *to);
        for &(to, span) in &heads[at] {
            let mut longer = way.clone();
            longer.push((to, span));
            if to == process {
                return Some(longer);
            }
            if !std::mem::replace(&mut reached[to], true) {
                ways.push_back(longer);
            }
        }
    }
    None
}

fn told(known: &Known, circle: &[Head]) -> Box<Finding> {
    let name = |process: usize| known.sheet.processes[process].name.text;
    let (last, first) = (circle[circle.len() - 1], circle[0]);
    let begins = |from: usize, to: usize| format!("`{}` begins with `{}`", name(from), name(to));
    let message = match circle {
        [_] => format!("process `{}` calls itself before any action", name(last.0)),
        _ => {
            let names: Vec<&str> = circle.iter().map(|(process, _)| name(*process)).collect();
            let circle = format!("{} -> {}", name(last.0), names.join(" -> "));
            format!("processes call each other in a circle before any action: {circle}")
        }
    };
    let mut finding = Finding::new(9, first.1, message).label(begins(last.0, first.0));
    for calls in circle.windows(2) {
        finding = finding.note(calls[1].1, begins(calls[0].0, calls[1].0));
    }
    let help = match circle {
        [_] => "put an action, or `tau`, before the call",
        _ => "put an action, or `tau`, before one of these calls",
    };
    finding.help(help.to_string())
}
