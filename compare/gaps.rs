//! The smallest gap between cycles that an operator starts (document 02, No. 6), for every table: "the smallest gap from
//! 1 to p such that every sequence of gaps, each at least that long, is right in every run".
//!
//! Two cycles n turns apart start n gaps apart. Each gap is at least g and may be as long as one likes, so from one start
//! to the other it may be any number of ticks from n·g on. Call that the delay. A gap serves exactly when no delay from
//! n·g on is wrong, at any distance n: when n·g is above the longest wrong delay. Two steps that share a board, or a
//! source and its reader, have a longest wrong delay, whatever shorter ones are right. What other cycles do in between
//! changes neither whether two steps meet, nor the sources, which the plain run has.
//!
//! That this is what the sentence says is tried with runs that are laid out, in `pressed`.

use crate::judge::{has, Op, Table};
use crate::walks::{after_one_turn, last_write, members, reached_modes, readers, writers};

/// From the cycles of one mode on to later cycles, turn by turn.
struct Walk {
    /// For each mode, the longest delay that is wrong for a later cycle of that mode; 0 where none is.
    wrong: Vec<u64>,
    /// The modes that may come between.
    through: u64,
    /// The modes that the later cycle may have.
    now: u64,
}

impl Walk {
    /// From this mode, one turn on.
    fn from(table: &Table, mode: u64, through: u64) -> Walk {
        Walk {
            wrong: vec![0; table.modes as usize],
            through,
            now: after_one_turn(table, 1 << mode),
        }
    }

    /// This delay is wrong for a later cycle of each of these modes.
    fn note(&mut self, modes: u64, delay: u64) {
        for (mode, wrong) in (0..).zip(&mut self.wrong) {
            if has(modes, mode) {
                *wrong = delay.max(*wrong);
            }
        }
    }

    /// The longest delay that is wrong now.
    fn longest(&self) -> u64 {
        let wrong = (0..).zip(&self.wrong);
        let now = wrong.filter(|(mode, _)| has(self.now, *mode));
        now.map(|(_, delay)| *delay).max().unwrap_or(0)
    }

    /// Some delay from this one on is wrong, now or on the way.
    fn is_wrong_from(&self, delay: u64) -> bool {
        self.now != 0 && self.wrong.iter().any(|wrong| *wrong >= delay)
    }

    fn step(&mut self, table: &Table) {
        self.now = after_one_turn(table, self.now & self.through);
    }
}

// ---- boards -------------------------------------------------------------

/// The longest delay at which a step of the later cycle starts before one of the earlier cycle has let its boards go; it
/// starts in the last tick of these. 0 where it starts behind them even without a delay.
fn delay_on_board(earlier: &Op, later: &Op) -> u64 {
    earlier.held_to().saturating_sub(later.start + 1)
}

/// "no two different running instances that share a board overlap": any modes may come between.
fn board_walk(table: &Table, mode: u64) -> Walk {
    let mut walk = Walk::from(table, mode, u64::MAX);
    for earlier in table.ops.iter().filter(|op| op.runs_in(mode)) {
        let shares = |op: &&Op| op.boards & earlier.boards != 0;
        for later in table.ops.iter().filter(shares) {
            walk.note(later.modes, delay_on_board(earlier, later));
        }
    }
    walk
}

// ---- values -------------------------------------------------------------

/// "each reader's source, as the plain run has it, has ended at or before the reader's start": a source in an earlier
/// cycle is that cycle's last write of the cell, and no cycle between writes it. None where the mode does not write it.
fn value_walk(table: &Table, mode: u64, cell: u64) -> Option<Walk> {
    let source = last_write(table, cell, mode)?;
    let writing = writers(table, cell).fold(0, |all, write| all | write.modes);
    let mut walk = Walk::from(table, mode, !writing);
    for reader in readers(table, cell) {
        let delay = source.end().saturating_sub(reader.op.start + 1);
        walk.note(reader.carried, delay);
    }
    Some(walk)
}

// ---- the gap ------------------------------------------------------------

/// Of every mode that a run reaches: its boards, and each cell that it writes.
fn all_walks(table: &Table) -> Vec<Walk> {
    let mut walks = Vec::new();
    for mode in members(table, reached_modes(table)) {
        walks.push(board_walk(table, mode));
        walks.extend((0..table.cells).filter_map(|cell| value_walk(table, mode, cell)));
    }
    walks
}

/// The longest wrong delay of cycles n turns apart, for n from 1 up to so many.
pub fn longest_wrong(table: &Table, most: usize) -> Vec<u64> {
    let mut walks = all_walks(table);
    let mut next = || {
        let longest = walks.iter().map(Walk::longest).max().unwrap_or(0);
        walks.iter_mut().for_each(|walk| walk.step(table));
        longest
    };
    (0..most).map(|_| next()).collect()
}

/// The smallest gap. A walk on which no delay from n·gap on is wrong asks for no more, at n turns or later, and is left.
pub fn gap(table: &Table) -> u64 {
    let mut walks = all_walks(table);
    let (mut gap, mut n) = (1, 1);
    while !walks.is_empty() {
        for walk in &mut walks {
            // n·gap has to be above it
            gap = gap.max(walk.longest() / n + 1);
            walk.step(table);
        }
        n += 1;
        walks.retain(|walk| walk.is_wrong_from(n * gap));
    }
    gap
}
