//! Right periods by walks over sets of modes, for every table (document 01, "Runs
//! and right periods"). That walks are enough is tried against runs that are laid
//! out, in `laid`.

use crate::judge::{has, Op, Table};

/// The modes that may come one turn after a mode of the set.
pub fn after_one_turn(table: &Table, set: u64) -> u64 {
    (0..table.modes)
        .filter(|mode| has(set, *mode))
        .fold(0, |all, mode| all | table.follow[mode as usize])
}

/// The modes that some cycle of some run has: the first modes, and what follows.
pub fn reached_modes(table: &Table) -> u64 {
    let mut reached = table.first;
    loop {
        let more = reached | after_one_turn(table, reached);
        if more == reached {
            return reached;
        }
        reached = more;
    }
}

/// The members of a set, lowest first.
pub fn members(table: &Table, set: u64) -> impl Iterator<Item = u64> {
    (0..table.modes).filter(move |mode| has(set, *mode))
}

/// Operation i of one cycle and operation j of a cycle that starts `later` ticks
/// after it hold their boards together.
fn held_together_later(i: &Op, j: &Op, later: u64) -> bool {
    i.start < j.held_to() + later && j.start + later < i.held_to()
}

/// Some running instance of a cycle of mode `mode`, and some other of a cycle n
/// turns later with a mode in `set`, share a board and overlap.
fn boards_meet(table: &Table, mode: u64, set: u64, n: u64, q: u64) -> bool {
    let ops = table.ops.iter().enumerate();
    for (i, one) in ops.filter(|(_, op)| op.runs_in(mode)) {
        for (j, other) in table.ops.iter().enumerate() {
            let different = n > 0 || i != j;
            let share = one.boards & other.boards != 0 && other.modes & set != 0;
            if different && share && held_together_later(one, other, n * q) {
                return true;
            }
        }
    }
    false
}

/// No instance of a cycle of this mode overlaps another of the same cycle or a
/// later one. Only n with n·q below p is looked at: from then on the later cycle
/// starts when no board is held by this one any more.
fn right_boards_from(table: &Table, mode: u64, q: u64) -> bool {
    let mut set = 1 << mode;
    let mut n = 0;
    while n * q < table.len {
        if boards_meet(table, mode, set, n, q) {
            return false;
        }
        set = after_one_turn(table, set);
        n += 1;
    }
    true
}

/// The writers of a cell.
pub fn writers(table: &Table, cell: u64) -> impl Iterator<Item = &Op> {
    table.ops.iter().filter(move |op| has(op.writes, cell))
}

/// Of a cycle of this mode, the write of the cell that ends last.
pub fn last_write(table: &Table, cell: u64, mode: u64) -> Option<&Op> {
    writers(table, cell)
        .filter(|op| op.runs_in(mode))
        .max_by_key(|op| op.end())
}

/// The modes in which the reader runs and has its source in an earlier cycle:
/// no write of the cell in its own cycle ended at or before its start.
fn modes_of_carried(table: &Table, cell: u64, reader: &Op) -> u64 {
    let own = writers(table, cell).filter(|write| write.end() <= reader.start);
    reader.modes & !own.fold(0, |all, write| all | write.modes)
}

/// A reader of one cell with the modes in which its source is in an earlier
/// cycle.
pub struct Reader<'a> {
    pub op: &'a Op,
    pub carried: u64,
}

/// All readers of a cell.
pub fn readers(table: &Table, cell: u64) -> Vec<Reader<'_>> {
    let all = table.ops.iter().filter(|op| has(op.reads, cell));
    all.map(|op| Reader {
        op,
        carried: modes_of_carried(table, cell, op),
    })
    .collect()
}

/// From a cycle whose last write of the cell is `write`, walk on while the cell
/// keeps that value. `set` holds the modes that the cycle n turns later may have
/// when no cycle between wrote the cell; the readers there that take a carried
/// value take this one, which must have ended at their start.
fn right_values_from(
    table: &Table,
    mode: u64,
    write: &Op,
    readers: &[Reader<'_>],
    writing: u64,
    q: u64,
) -> bool {
    let mut set = after_one_turn(table, 1 << mode);
    let mut n = 1;
    while n * q < table.len && set != 0 {
        let late =
            |reader: &Reader| reader.carried & set != 0 && write.end() > reader.op.start + n * q;
        if readers.iter().any(late) {
            return false;
        }
        set = after_one_turn(table, set & !writing);
        n += 1;
    }
    true
}

/// Every reader of the cell finds its source ended, in every run.
///
/// A source in the reader's own cycle is moved with it, so it has ended at every
/// q. A source in an earlier cycle is the write of that cycle that ends last
/// (all of them ended before the next cycle starts in the plain run), and no
/// cycle between writes the cell. Every cycle with a reached mode and every walk
/// from it is part of some run, and each run's sources are found on such a walk.
fn right_values(table: &Table, reached: u64, cell: u64, q: u64) -> bool {
    let readers = readers(table, cell);
    let writing = writers(table, cell).fold(0, |all, write| all | write.modes);
    members(table, reached).all(|mode| match last_write(table, cell, mode) {
        None => true,
        Some(write) => right_values_from(table, mode, write, &readers, writing, q),
    })
}

/// "no two different running instances that share a board overlap", in every run.
pub fn boards_fit(table: &Table, q: u64) -> bool {
    members(table, reached_modes(table)).all(|mode| right_boards_from(table, mode, q))
}

/// "each reader's source, as the plain run has it, has ended at or before the reader's
/// start", in every run.
pub fn values_arrive(table: &Table, q: u64) -> bool {
    let reached = reached_modes(table);
    (0..table.cells).all(|cell| right_values(table, reached, cell, q))
}

/// "A period q, from 1 to p, is *right* when, in every run," both hold.
pub fn right(table: &Table, q: u64) -> bool {
    boards_fit(table, q) && values_arrive(table, q)
}

/// "The period is the smallest right q. Since p is right, there always is one."
pub fn period(table: &Table) -> u64 {
    match (1..=table.len).find(|q| right(table, *q)) {
        Some(q) => q,
        None => panic!("p itself is always right"),
    }
}
