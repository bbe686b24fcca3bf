//! What workers of cns_allocate do, in plain Rust: threads draw tickets from one word by `fetch_add`.
//!
//! The arguments are how many threads draw, and how many members each group has. Each member asks for 100 shares.
//! The groups are served one after another: the thread n draws for the members n, n + threads and so on of a group,
//! and no group has more threads than members. Once all groups are served, the tickets of the threads are put
//! together. With 0 threads nothing is shared: one loop draws them all. Then they are sorted by where they start.
//! Prints the nanoseconds of the drawing, the tickets, their shares, and the nanoseconds of the sorting.
use std::env;
use std::sync::atomic::{AtomicU64, Ordering::SeqCst};
use std::thread;
use std::time::Instant;

const SHARES: u64 = 100;

#[derive(Clone, Copy)]
struct Ticket {
    member: u16,
    start: u64,
    asked: u64,
}

// Draws for the members `first`, `first + step` and so on of a group.
fn draw(asked: &AtomicU64, group: &[u16], first: usize, step: usize, tickets: &mut Vec<Ticket>) {
    for &member in group.iter().skip(first).step_by(step) {
        let start = asked.fetch_add(SHARES, SeqCst);
        tickets.push(Ticket {
            member,
            start,
            asked: SHARES,
        });
    }
}

// Serves a group by so many threads, of which the calling one is the last, and adds their tickets.
fn serve(asked: &AtomicU64, group: &[u16], threads: usize, all: &mut Vec<Ticket>) {
    let threads = threads.min(group.len());
    let most = group.len().div_ceil(threads);
    let mut parts: Vec<Vec<Ticket>> = (0..threads).map(|_| Vec::with_capacity(most)).collect();
    thread::scope(|scope| {
        if let Some((last, others)) = parts.split_last_mut() {
            for (number, tickets) in others.iter_mut().enumerate() {
                scope.spawn(move || draw(asked, group, number, threads, tickets));
            }
            draw(asked, group, threads - 1, threads, last);
        }
    });
    for mut part in parts {
        all.append(&mut part);
    }
}

// Draws for each member in turn.
fn serve_alone(groups: &[Vec<u16>], all: &mut Vec<Ticket>) {
    let mut asked = 0;
    for &member in groups.iter().flatten() {
        all.push(Ticket {
            member,
            start: asked,
            asked: SHARES,
        });
        asked += SHARES;
    }
}

fn serve_all(groups: &[Vec<u16>], threads: usize) -> Vec<Ticket> {
    let mut all = Vec::with_capacity(groups.iter().map(Vec::len).sum());
    if threads == 0 {
        serve_alone(groups, &mut all);
    } else {
        let asked = AtomicU64::new(0);
        for group in groups {
            serve(&asked, group, threads, &mut all);
        }
    }
    all
}

// Groups of so many members each, who are numbered from 1 on.
fn groups_of(sizes: &[usize]) -> Vec<Vec<u16>> {
    let mut members = 1..=9999;
    sizes.iter().map(|&size| members.by_ref().take(size).collect()).collect()
}

// The tickets stand end to end from 0, and each member has one, no group before an earlier one.
fn check(groups: &[Vec<u16>], tickets: &[Ticket]) {
    assert!((0..).zip(tickets).all(|(place, ticket)| ticket.start == place * SHARES));
    let mut rest = tickets;
    for group in groups {
        let (these, others) = rest.split_at(group.len());
        let mut members: Vec<u16> = these.iter().map(|ticket| ticket.member).collect();
        members.sort_unstable();
        assert!(members == *group);
        rest = others;
    }
    assert!(rest.is_empty());
}

fn main() {
    let numbers: Vec<usize> = env::args().skip(1).map(|word| word.parse().unwrap()).collect();
    let groups = groups_of(&numbers[1..]);
    let start = Instant::now();
    let mut tickets = serve_all(&groups, numbers[0]);
    let drawing = start.elapsed().as_nanos();
    let start = Instant::now();
    tickets.sort_unstable_by_key(|ticket| ticket.start);
    let sorting = start.elapsed().as_nanos();
    check(&groups, &tickets);
    let shares: u64 = tickets.iter().map(|ticket| ticket.asked).sum();
    println!("{drawing} {} {shares} {sorting}", tickets.len());
}
