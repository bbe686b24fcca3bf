//! What bench/cell times, in plain Rust: two words, and a list of tickets for each thread.
//!
//! The arguments and the lines that it prints are those of bench/cell. With a fourth argument, `counts`,
//! each thread also keeps the counts that a seat of the cell keeps: the shares and the calls that it has
//! left, and the calls that it made.
use std::env;
use std::sync::atomic::{AtomicU64, Ordering::SeqCst};
use std::thread;
use std::time::Instant;

const SHARES: u64 = 100;
const SEAL: u64 = 1 << 63;

#[derive(Clone, Copy)]
struct Ticket {
    member: u16,
    start: u64,
    asked: u64,
}

struct Cell {
    poured: AtomicU64,
    asked: AtomicU64,
}

struct Seat {
    tickets: Vec<Ticket>,
    budget: u64,
    calls: u64,
    made: u64,
}

// Draws this many tickets, up to the first that meets the seal.
fn draw<const COUNTS: bool>(cell: &Cell, seat: &mut Seat, member: u16, calls: u64) {
    for _ in 0..calls {
        let found = cell.asked.fetch_add(SHARES, SeqCst);
        if COUNTS {
            seat.budget -= SHARES;
            seat.calls -= 1;
            seat.made += 1;
        }
        if found & SEAL != 0 {
            return;
        }
        seat.tickets.push(Ticket {
            member,
            start: found,
            asked: SHARES,
        });
    }
}

fn draw_all<const COUNTS: bool>(cell: &Cell, seats: &mut [Seat], calls: u64) {
    thread::scope(|scope| {
        if let Some((last, others)) = seats.split_last_mut() {
            for (number, seat) in others.iter_mut().enumerate() {
                scope.spawn(move || draw::<COUNTS>(cell, seat, 1 + number as u16, calls));
            }
            draw::<COUNTS>(cell, last, 9999, calls);
        }
    });
}

// How many tickets do not start where the one before ends, both of one member.
fn gaps(tickets: &[Ticket]) -> usize {
    tickets
        .windows(2)
        .filter(|pair| pair[0].member == pair[1].member && pair[0].start + pair[0].asked != pair[1].start)
        .count()
}

fn seat(calls: u64) -> Seat {
    Seat {
        tickets: Vec::with_capacity(calls as usize),
        budget: calls * SHARES,
        calls,
        made: 0,
    }
}

// Lets the seats draw from one cell; the drawing alone is timed.
fn measure<const COUNTS: bool>(seats: usize, calls: u64) {
    let cell = Cell {
        poured: AtomicU64::new(0),
        asked: AtomicU64::new(0),
    };
    let mut parts: Vec<Seat> = (0..seats).map(|_| seat(calls)).collect();
    let start = Instant::now();
    draw_all::<COUNTS>(&cell, &mut parts, calls);
    let nanoseconds = start.elapsed().as_nanos();
    if COUNTS {
        assert!(parts.iter().all(|seat| seat.budget + seat.calls == 0 && seat.made == calls));
    }
    let mut tickets = parts.pop().unwrap().tickets;
    for mut other in parts {
        tickets.append(&mut other.tickets);
    }
    assert!(cell.poured.into_inner() == 0);
    let shares: u64 = tickets.iter().map(|ticket| ticket.asked).sum();
    println!("{nanoseconds} {} {shares} {}", tickets.len(), gaps(&tickets));
}

fn main() {
    let words: Vec<String> = env::args().skip(1).collect();
    let numbers: Vec<u64> = words[..3].iter().map(|word| word.parse().unwrap()).collect();
    let measured = match words.get(3).map(String::as_str) {
        None => measure::<false>,
        Some("counts") => measure::<true>,
        Some(word) => panic!("{word}"),
    };
    for _ in 0..numbers[2] {
        measured(numbers[0] as usize, numbers[1]);
    }
}
