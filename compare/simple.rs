//! The simplest planner that is right, to measure against: it tries each period and
//! compares every pair at each distance, stepping the modes anew each time.

use crate::judge::{has, Op, Table};

/// The modes that follow a mode of the set.
fn step(table: &Table, set: u64) -> u64 {
    let mut all = 0;
    for mode in 0..table.modes {
        if has(set, mode) {
            all |= table.follow[mode as usize];
        }
    }
    all
}

/// The modes that a run can reach.
fn reached(table: &Table) -> u64 {
    let mut all = table.first;
    loop {
        let more = all | step(table, all);
        if more == all {
            return all;
        }
        all = more;
    }
}

/// The modes n turns after the set, by way of modes that are not in `writing`.
fn after(table: &Table, set: u64, n: u64, writing: u64) -> u64 {
    let mut now = step(table, set);
    for _ in 1..n {
        now = step(table, now & !writing);
    }
    now
}

/// The modes of the operations that write the cell and pass a test.
fn writing(table: &Table, cell: u64, test: impl Fn(&Op) -> bool) -> u64 {
    let writers = table.ops.iter().filter(|op| has(op.writes, cell));
    writers
        .filter(|op| test(op))
        .fold(0, |all, op| all | op.modes)
}

/// How many ticks an operation has its boards.
fn ticks(op: &Op) -> u64 {
    op.dur + op.hold.unwrap_or(0)
}

/// Operation u, n cycles later, wants a board while o holds it.
fn board_held(table: &Table, from: u64, o: &Op, u: &Op, n: u64, q: u64) -> bool {
    let start = u.start + n * q;
    o.boards & u.boards != 0
        && o.start < start + ticks(u)
        && start < o.start + ticks(o)
        && after(table, from & o.modes, n, 0) & u.modes != 0
}

/// Operation u, n cycles later, reads what o wrote, and starts before o has ended.
fn value_late(table: &Table, from: u64, o: &Op, u: &Op, n: u64, q: u64) -> bool {
    if u.start + n * q >= o.start + o.dur {
        return false;
    }
    (0..table.cells).any(|cell| {
        has(o.writes, cell) && has(u.reads, cell) && {
            let last = o.modes & !writing(table, cell, |w| w.start + w.dur > o.start + o.dur);
            let fresh = u.modes & !writing(table, cell, |w| w.start + w.dur <= u.start);
            let all = writing(table, cell, |_| true);
            after(table, from & last, n, all) & fresh != 0
        }
    })
}

fn right(table: &Table, from: u64, q: u64) -> bool {
    let mut n = 1;
    while n * q < table.len {
        for o in &table.ops {
            for u in &table.ops {
                if board_held(table, from, o, u, n, q) || value_late(table, from, o, u, n, q) {
                    return false;
                }
            }
        }
        n += 1;
    }
    true
}

/// Whether a period from 1 to p is right.
pub fn is_good(table: &Table, q: u64) -> bool {
    right(table, reached(table), q)
}

/// The smallest right period.
pub fn period(table: &Table) -> u64 {
    let from = reached(table);
    let mut q = 1;
    while !right(table, from, q) {
        q += 1;
    }
    q
}
