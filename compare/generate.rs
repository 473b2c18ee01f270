//! Seeded inputs for comparisons: whole tables, damaged tables, replies, tables
//! as numbers, questions. The same seed gives the same inputs.

use crate::answers::{plan, reply_bytes, Reply, Row};
use crate::judge::{bytes_of, bytes_of_numbers, judge_table, number_in, numbers_of};
use crate::judge::{Numbers, Op, Refusal, Table, EARLY};
use crate::judge::{HOLDS_PER_OP, NUMBERS_PER_OP, PLACES_PER_OP};
use crate::runs::enough_cycles;
use std::ops::Range;

// ---- the seed -----------------------------------------------------------

/// The state of the drawing (splitmix64).
#[derive(Clone)]
pub struct Seed {
    state: u64,
}

impl Seed {
    pub fn new(seed: u64) -> Seed {
        Seed { state: seed }
    }

    /// The next 64 bits.
    pub fn draw(&mut self) -> u64 {
        self.state = self.state.wrapping_add(0x9e37_79b9_7f4a_7c15);
        let mut z = self.state;
        z = (z ^ (z >> 30)).wrapping_mul(0xbf58_476d_1ce4_e5b9);
        z = (z ^ (z >> 27)).wrapping_mul(0x94d0_49bb_1331_11eb);
        z ^ (z >> 31)
    }

    /// A number from 0 to count - 1.
    pub fn below(&mut self, count: u64) -> u64 {
        self.draw() % count
    }

    /// A number from low to high, both included.
    pub fn between(&mut self, low: u64, high: u64) -> u64 {
        low + self.below(high - low + 1)
    }

    /// True once in so many times.
    pub fn once_in(&mut self, times: u64) -> bool {
        self.below(times) == 0
    }

    /// One of the numbers.
    pub fn one_of(&mut self, numbers: &[u64]) -> u64 {
        numbers[self.below(numbers.len() as u64) as usize]
    }

    /// A number from low to high, often one of the two.
    fn often_edge(&mut self, low: u64, high: u64) -> u64 {
        match self.below(6) {
            0 => low,
            1 => high,
            _ => self.between(low, high),
        }
    }
}

// ---- shapes and sets ----------------------------------------------------

/// The counts of a table that is to be drawn, and its longest duration.
pub struct Shape {
    p: u64,
    boards: u64,
    cells: u64,
    modes: u64,
    ops: u64,
    longest: u64,
}

/// For tables whose runs can be laid out one by one: mostly up to four operations,
/// sometimes two more.
fn tiny_shape(seed: &mut Seed) -> Shape {
    let p = seed.between(1, 8).max(seed.between(1, 8));
    let more = if seed.once_in(6) { 2 } else { 0 };
    Shape {
        p,
        boards: seed.between(1, 4),
        cells: seed.between(0, 3),
        modes: seed.between(1, 3),
        ops: seed.between(1, 4) + more,
        longest: seed.between(1, p).min(seed.between(1, p)),
    }
}

/// Up to so many boards, cells, modes and operations, often the fewest or the most.
fn shape_up_to(seed: &mut Seed, p: u64, most: [u64; 4], longest: u64) -> Shape {
    Shape {
        p,
        boards: seed.often_edge(1, most[0]),
        cells: seed.often_edge(0, most[1]),
        modes: seed.often_edge(1, most[2]),
        ops: seed.often_edge(1, most[3]),
        longest,
    }
}

fn small_shape(seed: &mut Seed) -> Shape {
    let p = seed.often_edge(1, 16);
    let longest = seed.between(1, p);
    shape_up_to(seed, p, [5, 4, 4, 7], longest)
}

fn large_shape(seed: &mut Seed) -> Shape {
    let p = seed.often_edge(20, 1000);
    let longest = 1 + p / seed.one_of(&[2, 8, 32, 128]);
    shape_up_to(seed, p, [16, 32, 32, 32], longest)
}

/// Every count at its highest.
fn largest_shape(seed: &mut Seed) -> Shape {
    let longest = seed.one_of(&[5, 20, 60, 200]);
    Shape {
        p: 1000,
        boards: 16,
        cells: 32,
        modes: 32,
        ops: 32,
        longest,
    }
}

/// The set of all members below the count.
fn full_set(count: u64) -> u64 {
    (1 << count) - 1
}

/// A set of at most so many members; empty where the count is 0.
fn some_set(seed: &mut Seed, count: u64, most: u64) -> u64 {
    let draws = if count == 0 { 0 } else { seed.between(0, most) };
    (0..draws).fold(0, |set, _| set | 1 << seed.below(count))
}

/// The same, with at least one member.
fn filled_set(seed: &mut Seed, count: u64, most: u64) -> u64 {
    some_set(seed, count, most - 1) | 1 << seed.below(count)
}

/// All modes, one mode, or a few.
fn mode_set(seed: &mut Seed, modes: u64) -> u64 {
    match seed.below(4) {
        0 => full_set(modes),
        1 => 1 << seed.below(modes),
        2 => filled_set(seed, modes, 3),
        _ => (seed.draw() & full_set(modes)) | 1 << seed.below(modes),
    }
}

/// Followers of all modes: a ring, itself, every turn, few turns or many.
fn followers(seed: &mut Seed, modes: u64) -> Vec<u64> {
    let kind = seed.below(6);
    let mut all = Vec::new();
    for mode in 0..modes {
        all.push(match kind {
            0 => 1 << ((mode + 1) % modes),
            1 => 1 << mode,
            2 => full_set(modes),
            3 => 1 << seed.below(modes),
            4 => filled_set(seed, modes, 2),
            _ => mode_set(seed, modes),
        });
    }
    all
}

// ---- tables -------------------------------------------------------------

/// An operation whose numbers and sets are in range, without a hold.
fn some_op(seed: &mut Seed, shape: &Shape) -> Op {
    let dur = seed.between(1, shape.longest.min(shape.p));
    Op {
        start: seed.often_edge(0, shape.p - dur),
        dur,
        hold: None,
        boards: filled_set(seed, shape.boards, 2),
        reads: some_set(seed, shape.cells, 3),
        writes: some_set(seed, shape.cells, 2),
        modes: mode_set(seed, shape.modes),
    }
}

/// A table in range, without a decider and without holds; it may have clashes and races.
fn some_table(seed: &mut Seed, shape: &Shape) -> Table {
    Table {
        len: shape.p,
        boards: shape.boards,
        cells: shape.cells,
        modes: shape.modes,
        first: filled_set(seed, shape.modes, 2),
        follow: followers(seed, shape.modes),
        ops: (0..shape.ops).map(|_| some_op(seed, shape)).collect(),
        decider: None,
    }
}

/// Change one thing of an operation that clashes or races.
fn mend_op(seed: &mut Seed, shape: &Shape, op: &mut Op) {
    match seed.below(8) {
        0 => op.dur = 1,
        1 => op.writes = 0,
        2 => op.reads = some_set(seed, shape.cells, 1),
        3 => op.boards = 1 << seed.below(shape.boards),
        4 => op.modes = 1 << seed.below(shape.modes),
        5 => op.dur = 1 + op.dur / 2,
        _ => *op = some_op(seed, shape),
    }
    op.dur = op.dur.min(shape.p - op.start);
}

/// Let the decider run in every mode. Of an operation that starts before its end: let that
/// run in every mode, or start later, or let the decider be earlier and shorter.
fn mend_early(seed: &mut Seed, table: &mut Table, bad: Refusal) {
    let (len, every) = (table.len, full_set(table.modes));
    let decider = &mut table.ops[bad.a as usize];
    let end = decider.end();
    if bad.a == bad.b {
        decider.modes = every;
        return;
    }
    match seed.below(4) {
        0 => table.ops[bad.b as usize].modes = every,
        1 | 2 if end < len => {
            let op = &mut table.ops[bad.b as usize];
            op.dur = op.dur.min(len - end);
            op.start = seed.often_edge(end, len - op.dur);
        }
        _ => (decider.start, decider.dur) = (decider.start / 2, (decider.dur + 1) / 2),
    }
}

/// Mend until nothing is refused; when that takes too long, leave the decider out and
/// then operations.
fn mend(seed: &mut Seed, shape: &Shape, table: &mut Table) {
    let mut tries = 0;
    while let Err(bad) = judge_table(table) {
        tries += 1;
        if tries > 2000 && table.decider.is_some() {
            table.decider = None;
            continue;
        }
        if bad.number == EARLY {
            mend_early(seed, table, bad);
            continue;
        }
        let which = if seed.once_in(2) { bad.a } else { bad.b };
        let one = which as usize;
        if tries <= 2000 {
            mend_op(seed, shape, &mut table.ops[one]);
        } else {
            table.ops.remove(one);
        }
    }
}

/// A table that is accepted.
fn good_table(seed: &mut Seed, shape: &Shape) -> Table {
    let mut table = some_table(seed, shape);
    mend(seed, shape, &mut table);
    table
}

/// One follower for each mode, a ring or any; sometimes a second one.
fn few_followers(seed: &mut Seed, modes: u64) -> Vec<u64> {
    let ring = !seed.once_in(3);
    let mut all = Vec::new();
    for mode in 0..modes {
        let next = if ring {
            (mode + 1) % modes
        } else {
            seed.below(modes)
        };
        let more = if seed.once_in(5) {
            1 << seed.below(modes)
        } else {
            0
        };
        all.push(1 << next | more);
    }
    all
}

/// An operation on the next board, in few modes, that writes or reads one cell;
/// often it writes at the end of the table or reads at its beginning.
fn carrying_op(seed: &mut Seed, shape: &Shape, place: u64) -> Op {
    let mut op = some_op(seed, shape);
    op.boards = 1 << (place % shape.boards);
    op.modes = filled_set(seed, shape.modes, 2);
    let cell = some_set(seed, shape.cells.min(2), 1);
    let last_start = shape.p - op.dur;
    match seed.below(6) {
        0 => (op.reads, op.writes) = (0, cell),
        1 => (op.reads, op.writes) = (cell, 0),
        2 => (op.reads, op.writes) = (cell, some_set(seed, shape.cells, 1)),
        3 => (op.reads, op.writes, op.start) = (0, cell, 0),
        4 => (op.reads, op.writes, op.start) = (0, cell, last_start),
        _ => (op.reads, op.writes, op.start) = (cell, 0, seed.below(2).min(last_start)),
    }
    op
}

/// An accepted table with few turns and few operations for each board and mode,
/// so that values carried over several cycles decide.
fn carrying_table(seed: &mut Seed, shape: &Shape) -> Table {
    let mut table = some_table(seed, shape);
    table.follow = few_followers(seed, shape.modes);
    table.ops = (0..shape.ops)
        .map(|place| carrying_op(seed, shape, place))
        .collect();
    mend(seed, shape, &mut table);
    table
}

/// Accepted, without a decider, of one of the two kinds.
fn either_table(seed: &mut Seed, shape: &Shape) -> Table {
    if seed.once_in(3) {
        carrying_table(seed, shape)
    } else {
        good_table(seed, shape)
    }
}

// ---- tables with a decider ----------------------------------------------

/// The shape that a table has.
fn shape_of(table: &Table) -> Shape {
    let longest = table.ops.iter().map(|op| op.dur).max();
    Shape {
        p: table.len,
        boards: table.boards,
        cells: table.cells,
        modes: table.modes,
        ops: table.ops.len() as u64,
        longest: longest.unwrap_or(1),
    }
}

/// The operations that an accepted table may name as its decider.
fn possible_deciders(table: &Table) -> Vec<u64> {
    let accepted = |one: &u64| {
        let decider = Some(*one);
        let table = table.clone();
        judge_table(&Table { decider, ..table }).is_ok()
    };
    (0..table.ops.len() as u64).filter(accepted).collect()
}

/// An accepted table with a decider, accepted again: one that it may name as it is, or any
/// one, for which it is mended. Holds are taken away, since what is mended is moved.
pub fn decided(seed: &mut Seed, mut table: Table) -> Table {
    table.ops.iter_mut().for_each(|op| op.hold = None);
    let possible = possible_deciders(&table);
    let decider = if possible.is_empty() || seed.once_in(2) {
        seed.below(table.ops.len() as u64)
    } else {
        seed.one_of(&possible)
    };
    table.decider = Some(decider);
    let shape = shape_of(&table);
    mend(seed, &shape, &mut table);
    table
}

/// An accepted table as it is, or with a decider.
fn perhaps_decided(seed: &mut Seed, table: Table) -> Table {
    if seed.once_in(2) {
        return table;
    }
    decided(seed, table)
}

/// The table names any operation as its decider, or none.
fn name_any(seed: &mut Seed, table: &mut Table) {
    let any = seed.below(table.ops.len() as u64);
    table.decider = seed.once_in(2).then(|| any);
}

/// Take a mode out of what runs begin with and of what follows other modes; there is
/// another mode.
fn leave_unreached(table: &mut Table, mode: u64) {
    let other = if mode == 0 { 1 } else { mode - 1 };
    let without = |set: u64| match set & !(1 << mode) {
        0 => 1 << other,
        rest => rest,
    };
    table.first = without(table.first);
    for (from, set) in (0..).zip(&mut table.follow) {
        if from != mode {
            *set = without(*set);
        }
    }
}

/// The modes of an operation beside a decider: all, all but one, one, or some.
fn beside_modes(seed: &mut Seed, modes: u64) -> u64 {
    let every = full_set(modes);
    match seed.below(5) {
        0 | 1 => every,
        2 => every & !(1 << seed.below(modes)),
        3 => 1 << seed.below(modes),
        _ => mode_set(seed, modes),
    }
}

/// An operation on a board of its own that writes nothing. Mostly it starts a tick before
/// the decider's end, at it or a tick after it.
fn beside_op(seed: &mut Seed, table: &Table, board: usize, end: u64) -> Op {
    let start = match seed.below(4) {
        0 => seed.below(table.len),
        _ => end - 1 + seed.below(3),
    };
    Op {
        start,
        dur: seed.between(1, table.len - start),
        hold: None,
        boards: 1 << board,
        reads: some_set(seed, table.cells, 1),
        writes: 0,
        modes: beside_modes(seed, table.modes),
    }
}

/// A decider among operations that start around its end. It runs in every mode, or in all
/// but one, which is often one that no run reaches.
fn deciding_table(seed: &mut Seed) -> Table {
    let ops = seed.between(1, 6);
    let shape = Shape {
        p: seed.between(4, 12),
        boards: ops,
        cells: 1,
        modes: seed.one_of(&[2, 2, 3, 4, 32]),
        ops,
        longest: 2,
    };
    let mut table = some_table(seed, &shape);
    let start = seed.below(shape.p - 2);
    let dur = seed.between(1, shape.p - 2 - start);
    table.ops = (0..ops as usize)
        .map(|board| beside_op(seed, &table, board, start + dur))
        .collect();
    let (decider, missed) = (seed.below(ops), seed.below(shape.modes));
    let mut modes = full_set(shape.modes);
    if seed.once_in(5) {
        modes &= !(1 << missed);
    }
    if seed.once_in(2) {
        leave_unreached(&mut table, missed);
    }
    let op = &mut table.ops[decider as usize];
    (op.start, op.dur, op.modes) = (start, dur, modes);
    table.decider = Some(decider);
    hold_any(seed, &mut table);
    table
}

/// Its bytes.
pub fn deciding(seed: &mut Seed) -> Vec<u8> {
    bytes_of(&deciding_table(seed))
}

// ---- tables with holds --------------------------------------------------

/// How many ticks the boards of an operation may be held after its end: up to the next start
/// of one that shares a board and a mode with it, or up to p.
fn room_for_hold(table: &Table, which: usize) -> u64 {
    let op = &table.ops[which];
    let is_next = |other: &&Op| {
        other.start >= op.end() && other.boards & op.boards != 0 && other.modes & op.modes != 0
    };
    let next = table.ops.iter().filter(is_next).map(|other| other.start);
    next.fold(table.len, u64::min) - op.end()
}

/// A hold of at most so many ticks for an operation of an accepted table, often as long as there
/// is room. Where there is no room, one that lasts longer than a tick ends a tick earlier.
fn hold_op(seed: &mut Seed, table: &mut Table, which: usize, most: u64) {
    let mut room = room_for_hold(table, which);
    let op = &mut table.ops[which];
    if room == 0 && op.dur > 1 {
        (op.dur, room) = (op.dur - 1, 1);
    }
    if room > 0 {
        op.hold = Some(seed.often_edge(1, room.min(most)));
    }
}

/// An accepted table with holds, accepted again: of all operations, or of some; any that there is
/// room for, or all of them short.
fn held(seed: &mut Seed, mut table: Table) -> Table {
    let times = seed.one_of(&[1, 1, 2, 4]);
    let most = seed.one_of(&[1, 2, 4, 1000, 1000]);
    for which in 0..table.ops.len() {
        if seed.once_in(times) {
            hold_op(seed, &mut table, which, most);
        }
    }
    table
}

/// An accepted table as it is, or with holds.
fn perhaps_held(seed: &mut Seed, table: Table) -> Table {
    if seed.once_in(2) {
        return table;
    }
    held(seed, table)
}

/// Holds of all or of some operations, in range whatever they clash with; or none.
fn hold_any(seed: &mut Seed, table: &mut Table) {
    let (len, kind) = (table.len, seed.below(4));
    for op in &mut table.ops {
        let room = len - op.end();
        let is_held = kind == 0 || kind == 1 && seed.once_in(2);
        if room > 0 && is_held {
            let short = seed.once_in(2);
            op.hold = Some(seed.often_edge(1, if short { room.min(2) } else { room }));
        }
    }
}

/// An operation beside one with a hold. It starts a tick before that one's end, at it, a tick
/// before its boards are free, or then; or it comes before that one, and its own hold ends when
/// that one starts, or a tick later.
fn beside_hold(seed: &mut Seed, len: u64, one: &Op, mut op: Op) -> Op {
    (op.dur, op.hold) = (1, None);
    if one.start > 1 && seed.once_in(3) {
        op.start = seed.below(one.start - 1);
        op.hold = Some(one.start - op.end() + seed.below(2));
        return op;
    }
    let (end, free) = (one.end(), one.held_to());
    op.start = seed.one_of(&[end - 1, end, free - 1, free]).min(len - 1);
    if op.end() < len && seed.once_in(3) {
        op.hold = Some(seed.often_edge(1, len - op.end()));
    }
    op
}

/// An operation with a hold that writes a cell, among others that start around the end of it
/// and around its own end. Some of them are on its board, some read its cell, and often it is the
/// decider. Most of these tables are short.
fn settling_table(seed: &mut Seed) -> Table {
    let longest = seed.one_of(&[14, 14, 14, 1000]);
    let shape = Shape {
        p: seed.between(5, longest),
        boards: seed.between(2, 5),
        cells: 1,
        modes: seed.between(1, 3),
        ops: seed.between(2, 4),
        longest: 2,
    };
    let mut table = some_table(seed, &shape);
    let which = seed.below(shape.ops);
    let mut one = table.ops[which as usize].clone();
    one.start = seed.below(shape.p - 3);
    let room = shape.p - one.end();
    (one.hold, one.boards) = (Some(seed.often_edge(1, room)), 1);
    (one.reads, one.writes) = (0, 1);
    if seed.once_in(2) {
        one.modes = full_set(shape.modes);
        table.decider = Some(which);
    }
    for (place, op) in (0..).zip(&mut table.ops) {
        *op = beside_hold(seed, shape.p, &one, op.clone());
        let board = 1 + place % (shape.boards - 1);
        op.boards = 1 << if seed.once_in(3) { 0 } else { board };
        (op.reads, op.writes) = (seed.below(2), 0);
    }
    table.ops[which as usize] = one;
    table
}

/// Its bytes.
pub fn settling(seed: &mut Seed) -> Vec<u8> {
    bytes_of(&settling_table(seed))
}

// ---- tables whose runs can be laid out ----------------------------------

/// One tick on a board of its own, at this date, in one mode; it uses no cell.
fn lone_op(seed: &mut Seed, shape: &Shape, place: u64, start: u64) -> Op {
    Op {
        start,
        dur: 1,
        hold: None,
        boards: 1 << place,
        reads: 0,
        writes: 0,
        modes: 1 << seed.below(shape.modes),
    }
}

/// An accepted table with a cell that is written late in one mode and read early in
/// one mode, mostly with others between them; the other operations want little.
fn far_table(seed: &mut Seed, shape: &Shape) -> Table {
    let mut table = some_table(seed, shape);
    table.follow = few_followers(seed, shape.modes);
    let edge = seed.below(2).min(shape.p - 1);
    for (place, op) in (0..).zip(&mut table.ops) {
        let start = seed.below(shape.p);
        *op = lone_op(seed, shape, place, start);
        match place {
            0 => (op.writes, op.start) = (1, shape.p - 1 - edge),
            1 => (op.reads, op.start) = (1, edge),
            _ => op.reads = some_set(seed, shape.cells, 1),
        }
    }
    mend(seed, shape, &mut table);
    table
}

/// An accepted table with a cell that is carried from each cycle to the next, and
/// two or three operations on one board with gaps between them.
fn gapped_table(seed: &mut Seed, shape: &Shape) -> Table {
    let mut table = some_table(seed, shape);
    for (place, op) in (0..).zip(&mut table.ops) {
        let start = seed.below(shape.p);
        *op = lone_op(seed, shape, place.min(2), start);
        op.modes = full_set(shape.modes);
        match place {
            0 => op.writes = 1,
            1 => (op.reads, op.start) = (1, start / 2),
            _ => {}
        }
    }
    mend(seed, shape, &mut table);
    table
}

/// An accepted table with operations of a tick on one board, one at its beginning and the others
/// near its end, in every mode: as in K4 not all periods above a right one are right, and fewer of
/// them with holds.
fn spread_table(seed: &mut Seed, shape: &Shape) -> Table {
    let mut table = some_table(seed, shape);
    for (place, op) in (0..).zip(&mut table.ops) {
        let start = seed.below(2) + if place == 0 { 0 } else { shape.p - 3 };
        *op = lone_op(seed, shape, 0, start);
        op.modes = full_set(shape.modes);
    }
    mend(seed, shape, &mut table);
    table
}

/// An accepted table with a tick near its end and one near its beginning on one board, each in one
/// mode, with few turns: cycles that are just so many turns apart want the board, and no others.
fn turned_table(seed: &mut Seed, shape: &Shape) -> Table {
    let mut table = some_table(seed, shape);
    table.follow = few_followers(seed, shape.modes);
    for (place, op) in (0..).zip(&mut table.ops) {
        let edge = seed.below(2).min(shape.p - 1);
        let start = if place == 0 { shape.p - 1 - edge } else { edge };
        *op = lone_op(seed, shape, place / 2, start);
    }
    mend(seed, shape, &mut table);
    table
}

/// Any, or one of those that are rarely drawn otherwise.
fn tiny_table(seed: &mut Seed) -> Table {
    let mut shape = tiny_shape(seed);
    let kind = seed.below(11);
    if kind < 3 {
        return good_table(seed, &shape);
    }
    if kind == 9 {
        (shape.p, shape.ops) = (seed.between(6, 8), seed.between(2, 3));
        return spread_table(seed, &shape);
    }
    if kind == 10 {
        (shape.p, shape.ops) = (seed.between(3, 8), seed.between(2, 3));
        (shape.boards, shape.modes) = (2, seed.between(2, 4));
        return turned_table(seed, &shape);
    }
    shape.cells = seed.between(1, 2);
    if kind < 5 {
        (shape.p, shape.ops) = (seed.between(5, 8), seed.between(4, 5));
        (shape.boards, shape.modes) = (3, seed.between(1, 2));
        return gapped_table(seed, &shape);
    }
    shape.ops = shape.ops.max(2);
    shape.boards = shape.ops;
    shape.modes = seed.between(2, 4);
    if kind == 5 {
        return far_table(seed, &shape);
    }
    carrying_table(seed, &shape)
}

/// How many runs of a table are laid out at most, with every mode a first one.
const MOST_RUNS: u64 = 600;

/// There are not too many runs of the length that is enough.
fn has_few_runs(table: &Table) -> bool {
    // the runs of so many cycles that begin in each mode
    let mut runs = vec![1; table.modes as usize];
    for _ in 1..enough_cycles(table) {
        let after = |set: u64| {
            (0..table.modes)
                .map(|mode| (set >> mode & 1) * runs[mode as usize])
                .sum()
        };
        runs = table.follow.iter().map(|set| after(*set)).collect();
    }
    runs.iter().sum::<u64>() <= MOST_RUNS
}

/// Accepted, so small that its runs can be laid out one by one.
pub fn tiny(seed: &mut Seed) -> Table {
    let mut table = tiny_table(seed);
    while !has_few_runs(&table) {
        table = tiny_table(seed);
    }
    let table = perhaps_decided(seed, table);
    perhaps_held(seed, table)
}

// ---- accepted tables of all sizes ---------------------------------------

/// Accepted and small.
pub fn small(seed: &mut Seed) -> Table {
    let shape = small_shape(seed);
    let table = either_table(seed, &shape);
    let table = perhaps_decided(seed, table);
    perhaps_held(seed, table)
}

/// Accepted, up to the highest counts; sometimes with few operations, so that there is room for
/// long holds.
pub fn large(seed: &mut Seed) -> Table {
    let mut shape = large_shape(seed);
    if seed.once_in(3) {
        shape.ops = seed.between(1, 4);
    }
    let table = either_table(seed, &shape);
    let table = perhaps_decided(seed, table);
    perhaps_held(seed, table)
}

/// Accepted, every count at its highest, without a decider and without holds.
pub fn largest(seed: &mut Seed) -> Table {
    let shape = largest_shape(seed);
    either_table(seed, &shape)
}

/// The same, or with a decider, or with holds, or with both.
pub fn any_largest(seed: &mut Seed) -> Table {
    let table = largest(seed);
    let table = perhaps_decided(seed, table);
    perhaps_held(seed, table)
}

/// Accepted, with as many operations and modes as there may be, and a decider.
pub fn longest_decided(seed: &mut Seed) -> Table {
    loop {
        let table = largest(seed);
        let table = decided(seed, table);
        if table.ops.len() == 32 && table.decider.is_some() {
            return table;
        }
    }
}

/// The same, and each operation has a hold: nothing has more bytes.
pub fn longest_held(seed: &mut Seed) -> Table {
    loop {
        let mut table = longest_decided(seed);
        for which in 0..table.ops.len() {
            hold_op(seed, &mut table, which, 1000);
        }
        if table.ops.iter().all(|op| op.hold.is_some()) {
            return table;
        }
    }
}

/// Accepted, mostly small.
fn good(seed: &mut Seed) -> Table {
    match seed.below(12) {
        0 | 1 => large(seed),
        2 => any_largest(seed),
        _ => small(seed),
    }
}

/// Whole tables: most are accepted, some clash, race or have something that is too early.
pub fn whole(seed: &mut Seed) -> Vec<u8> {
    if seed.once_in(5) {
        let shape = small_shape(seed);
        let mut table = some_table(seed, &shape);
        name_any(seed, &mut table);
        hold_any(seed, &mut table);
        return bytes_of(&table);
    }
    bytes_of(&good(seed))
}

/// A table in which many pairs share a board and overlap.
fn clashing_table(seed: &mut Seed) -> Table {
    let mut shape = if seed.once_in(3) {
        large_shape(seed)
    } else {
        small_shape(seed)
    };
    shape.ops = seed.between(2, 32);
    shape.boards = seed.between(1, 3);
    shape.longest = shape.p;
    let mut table = some_table(seed, &shape);
    name_any(seed, &mut table);
    hold_any(seed, &mut table);
    table
}

/// A table with boards mostly apart and many pairs that race.
fn racing_table(seed: &mut Seed) -> Table {
    let mut shape = if seed.once_in(3) {
        large_shape(seed)
    } else {
        small_shape(seed)
    };
    shape.ops = seed.between(2, 16);
    shape.boards = shape.ops;
    shape.cells = seed.between(1, 4);
    shape.longest = shape.p;
    let mut table = some_table(seed, &shape);
    for (board, op) in table.ops.iter_mut().enumerate() {
        op.boards = 1 << board;
    }
    if seed.once_in(4) {
        let last = table.ops.len() - 1;
        table.ops[last].boards |= 1 << seed.below(last as u64);
    }
    name_any(seed, &mut table);
    hold_any(seed, &mut table);
    table
}

/// Whole tables with many clashes.
pub fn clashing(seed: &mut Seed) -> Vec<u8> {
    bytes_of(&clashing_table(seed))
}

/// Whole tables with many races.
pub fn racing(seed: &mut Seed) -> Vec<u8> {
    bytes_of(&racing_table(seed))
}

/// No hold, or a short one.
fn short_hold(seed: &mut Seed) -> Option<u64> {
    let hold = seed.between(1, 3);
    seed.once_in(2).then(|| hold)
}

/// Two operations that just touch, or overlap by one tick, on one board or on
/// one cell; the others are moved out of the way by their modes or left out. Where the
/// first has a hold, it is the end of it or that of its duration.
pub fn touching(seed: &mut Seed) -> Vec<u8> {
    let mut table = small(seed);
    table.ops.truncate(1);
    let mut second = table.ops[0].clone();
    let first = &mut table.ops[0];
    (first.hold, second.hold) = (short_hold(seed), short_hold(seed));
    let until = seed.one_of(&[first.held_to(), first.held_to(), first.end()]);
    (second.start, second.dur) = (until - seed.below(2), 1);
    table.len = table.len.max(first.held_to());
    if seed.once_in(2) {
        second.boards = 1 << seed.below(table.boards);
        second.writes = some_set(seed, table.cells, 2);
    }
    table.len = table.len.max(second.held_to());
    table.ops.push(second);
    if seed.once_in(2) {
        table.ops.swap(0, 1);
    }
    name_any(seed, &mut table);
    bytes_of(&table)
}

// ---- tables to measure with ---------------------------------------------

/// Accepted: a largest one with every operation's reads and writes taken away. Boards alone decide; the table has its
/// 32 cells, and a simple planner looks through them.
pub fn nothing_read_or_written(seed: &mut Seed) -> Table {
    let mut table = largest(seed);
    for op in &mut table.ops {
        (op.reads, op.writes) = (0, 0);
    }
    table
}

/// Accepted, as the largest ones, but without cells. Boards alone decide, and a simple planner has no cells to look
/// through.
pub fn no_cells(seed: &mut Seed) -> Table {
    let shape = Shape {
        cells: 0,
        ..largest_shape(seed)
    };
    either_table(seed, &shape)
}

/// A tick on its own half of a board: at the start of the table it reads cells, a tick later it writes two that no other
/// writes.
fn near_op(seed: &mut Seed, place: u64) -> Op {
    let (start, pair) = (place % 2, place / 2);
    let writes = if start == 0 { 0 } else { 3 << (2 * pair) };
    let reads = if start == 0 { some_set(seed, 32, 4) } else { 0 };
    Op {
        start,
        dur: 1,
        hold: None,
        boards: 1 << pair,
        reads,
        writes,
        modes: mode_set(seed, 32),
    }
}

/// Accepted, p 1000, every count at its highest, all operations in the first two ticks: the period and the gap are 1 or
/// 2, so that there are as many distances as there can be at which cycles might meet.
pub fn near(seed: &mut Seed) -> Table {
    let shape = largest_shape(seed);
    let ops = (0..shape.ops).map(|place| near_op(seed, place)).collect();
    Table {
        ops,
        ..some_table(seed, &shape)
    }
}

/// Accepted, of this length, with so many operations and modes; all else as in the largest ones, durations in
/// proportion to the length. Where mending left operations out, another table is drawn.
pub fn sized(seed: &mut Seed, p: u64, ops: u64, modes: u64) -> Table {
    loop {
        let largest = largest_shape(seed);
        let shape = Shape {
            p,
            ops,
            modes,
            longest: (largest.longest * p / largest.p).max(1),
            ..largest
        };
        let table = either_table(seed, &shape);
        if table.ops.len() as u64 == ops {
            return table;
        }
    }
}

// ---- rings of modes to measure with -------------------------------------

/// In a ring every mode comes again after so many cycles.
const RING: u64 = 32;

/// Each mode is followed by the next one only.
fn ring_followers() -> Vec<u64> {
    (0..RING).map(|mode| 1 << ((mode + 1) % RING)).collect()
}

/// One tick on the first board, anywhere in the table, in one mode.
fn ring_tick(seed: &mut Seed) -> Op {
    Op {
        start: seed.below(1000),
        dur: 1,
        hold: None,
        boards: 1,
        reads: 0,
        writes: 0,
        modes: 1 << seed.below(RING),
    }
}

/// The family on which the library takes most time, of those tried: accepted, p 1000, 32 modes each followed by the
/// next one only, 32 operations on one board, each at a drawn tick in a drawn mode; all are drawn again until none clash.
/// The periods are small: at q each operation has one of RING * q places, and q is right where no two have the same one.
pub fn ring_drawn(seed: &mut Seed) -> Table {
    let mut table = Table {
        len: 1000,
        boards: 16,
        cells: 32,
        modes: RING,
        first: 1 << seed.below(RING),
        follow: ring_followers(),
        ops: Vec::new(),
        decider: None,
    };
    loop {
        table.ops = (0..32).map(|_| ring_tick(seed)).collect();
        if judge_table(&table).is_ok() {
            return table;
        }
    }
}

/// The places of an operation of the ring among RING periods of q, for a cycle in this mode: the ticks in which it holds
/// the board, and holds it again after every RING cycles.
fn ring_places(op: &Op, mode: u64, q: u64) -> impl Iterator<Item = usize> {
    (op.start..op.end()).map(move |tick| ((tick + mode * q) % (RING * q)) as usize)
}

/// One or two ticks on the only board, in the first or the last hundred ticks of the table, in eight of the modes in
/// which its places are free; none where there are fewer.
fn ring_op(seed: &mut Seed, q: u64, taken: &[bool]) -> Option<Op> {
    let late = seed.once_in(2);
    let mut op = Op {
        start: seed.below(99) + if late { 900 } else { 0 },
        dur: seed.between(1, 2),
        hold: None,
        boards: 1,
        reads: 0,
        writes: 0,
        modes: 0,
    };
    for mode in 0..RING {
        let free = ring_places(&op, mode, q).all(|place| !taken[place]);
        op.modes |= u64::from(free) << mode;
    }
    while op.modes.count_ones() > 8 {
        op.modes &= !(1 << seed.below(RING));
    }
    (op.modes.count_ones() == 8).then(|| op)
}

/// The family on which the ratio of a simple planner's time to the library's is least, of those tried: accepted, p 1000,
/// 32 modes each followed by the next one only, 32 short operations on one board, in eight modes each. A q from 20 to 40
/// is drawn first, and the operations are placed so that q is right; smaller periods hardly ever are. That they are wrong
/// a simple planner sees at once, and at q it finds no pair for which it has to step the modes. A search that goes by
/// distances n has many of them, up to n·q < p, and at each one every late operation with every early one.
pub fn ring_placed(seed: &mut Seed) -> Table {
    let q = seed.between(20, 40);
    let mut taken = vec![false; (RING * q) as usize];
    let mut ops = Vec::new();
    while ops.len() < 32 {
        if let Some(op) = ring_op(seed, q, &taken) {
            for mode in (0..RING).filter(|mode| op.runs_in(*mode)) {
                ring_places(&op, mode, q).for_each(|place| taken[place] = true);
            }
            ops.push(op);
        }
    }
    Table {
        len: 1000,
        boards: 1,
        cells: 0,
        modes: RING,
        first: 1 << seed.below(RING),
        follow: ring_followers(),
        ops,
        decider: None,
    }
}

/// Accepted, without drawing: 32 modes each followed by the next one only, of which runs begin with the first. The last
/// tick of p is one operation's, in the first mode, and the first tick another's, so many turns later, 1 to 32. They share
/// a board; or the first writes a cell that the second reads.
pub fn ring_apart(p: u64, turns: u64, boards: bool) -> Table {
    let tick = |start, mode: u64, place: u64| Op {
        start,
        dur: 1,
        hold: None,
        boards: if boards { 1 } else { 1 << place },
        reads: 0,
        writes: 0,
        modes: 1 << (mode % RING),
    };
    let mut ops = vec![tick(p - 1, 0, 0), tick(0, turns, 1)];
    if !boards {
        (ops[0].writes, ops[1].reads) = (1, 1);
    }
    Table {
        len: p,
        boards: 2,
        cells: 1,
        modes: RING,
        first: 1,
        follow: ring_followers(),
        ops,
        decider: None,
    }
}

// ---- numbers just inside and just outside their ranges ------------------

/// A set at the edge of its count: empty, the highest member, one beyond.
fn edge_set(seed: &mut Seed, count: u64) -> u64 {
    match seed.below(5) {
        0 => 0,
        1 if count > 0 => 1 << (count - 1),
        2 => 1 << count,
        3 => full_set(count),
        _ => seed.draw() & 0xffff_ffff,
    }
}

/// The count of modes, with as many follower words.
fn set_modes(seed: &mut Seed, table: &mut Table, modes: u64) {
    table.modes = modes;
    while (table.follow.len() as u64) < modes {
        table.follow.push(1 << seed.below(modes.min(32)));
    }
    table.follow.truncate(modes as usize);
}

/// One number of the head at an edge of its range.
fn edge_head(seed: &mut Seed, table: &mut Table) {
    match seed.below(6) {
        0 => table.len = seed.one_of(&[0, 1, 999, 1000, 1001, 65535]),
        1 => table.boards = seed.one_of(&[0, 1, 15, 16, 17, 255]),
        2 => table.cells = seed.one_of(&[0, 1, 31, 32, 33, 255]),
        3 => {
            let modes = seed.one_of(&[0, 1, 31, 32, 33, 255]);
            set_modes(seed, table, modes);
        }
        4 => table.first = edge_set(seed, table.modes),
        _ => {
            let mode = seed.below(table.modes) as usize;
            table.follow[mode] = edge_set(seed, table.modes);
        }
    }
}

/// One number of an operation at an edge of its range.
fn edge_op(seed: &mut Seed, table: &mut Table) {
    let (p, boards, cells, modes) = (table.len, table.boards, table.cells, table.modes);
    let which = seed.below(table.ops.len() as u64) as usize;
    let op = &mut table.ops[which];
    match seed.below(12) {
        0 => op.dur = seed.one_of(&[0, 1, 65535]),
        1 => op.dur = p - op.start,
        2 => op.dur = p - op.start + 1,
        3 => op.start = seed.one_of(&[p - op.dur, p - op.dur + 1, p, 65535, 65536 - op.dur]),
        4 => op.boards = edge_set(seed, boards),
        5 => op.reads = edge_set(seed, cells),
        6 => op.writes = edge_set(seed, cells),
        7 => op.modes = edge_set(seed, modes),
        8 => op.hold = Some(seed.one_of(&[0, 0, 1, 65535, 65536 - op.end()])),
        9 => op.hold = Some(p - op.end()),
        10 => op.hold = Some(p - op.end() + 1),
        _ => op.hold = None,
    }
}

/// The decider at an edge of its range: the last operation, one beyond, the last that
/// there may be, the highest that its byte can have.
fn edge_decider(seed: &mut Seed, table: &mut Table) {
    let ops = table.ops.len() as u64;
    table.decider = Some(seed.one_of(&[0, ops - 1, ops, ops + 1, 31, 32, 255]));
}

/// A good table with one or two numbers put at an edge.
fn edge_table(seed: &mut Seed) -> Table {
    let mut table = good(seed);
    if seed.once_in(4) {
        edge_decider(seed, &mut table);
        return table;
    }
    if seed.once_in(2) {
        edge_op(seed, &mut table);
    }
    if seed.once_in(2) {
        edge_head(seed, &mut table);
    } else {
        let in_time = table.ops.iter().all(|op| op.start + op.dur <= table.len);
        if in_time {
            edge_op(seed, &mut table);
        }
    }
    table
}

/// Tables with numbers on both sides of every range.
pub fn edges(seed: &mut Seed) -> Vec<u8> {
    bytes_of(&edge_table(seed))
}

// ---- several wrong numbers ----------------------------------------------

/// A set with a member beyond its count; of one that may use all of its bits, beyond
/// these.
fn set_beyond(seed: &mut Seed, set: u64, count: u64, bits: u64) -> u64 {
    set | 1 << seed.between(count, count.max(bits - 1))
}

/// A set that may not be empty: empty, or with a member beyond its count.
fn wrong_set(seed: &mut Seed, set: u64, count: u64, bits: u64) -> u64 {
    if count == bits || seed.once_in(2) {
        return 0;
    }
    set_beyond(seed, set, count, bits)
}

/// A number of the head put out of its range, by its place in layout order.
fn spoil_head(seed: &mut Seed, modes: u64, place: usize, number: &mut u64) {
    *number = match place {
        0 => seed.one_of(&[0, 1001, 65535]),
        1 => seed.one_of(&[0, 17, 255]),
        2 => seed.one_of(&[33, 255]),
        3 => seed.one_of(&[0, 33, 255]),
        _ => wrong_set(seed, *number, modes, 32),
    };
}

/// One of an operation's six numbers put out of its range; of the start or the
/// duration, so that the operation ends after p.
fn spoil_op(seed: &mut Seed, table: &Table, six: &mut [u64], place: usize) {
    let (start, dur, past) = (six[0], six[1], table.len + 1);
    six[place] = match place {
        0 => seed.one_of(&[past.saturating_sub(dur), past - 1, past, 65536 - dur, 65535]),
        1 => seed.one_of(&[0, past.saturating_sub(start), 65535]),
        2 => wrong_set(seed, six[2], table.boards, 16),
        3 | 4 => set_beyond(seed, six[place], table.cells, 32),
        _ => wrong_set(seed, six[5], table.modes, 32),
    };
}

/// A hold of 0, or one that runs past p; it is marked.
fn spoil_hold(seed: &mut Seed, table: &Table, six: &[u64], two: &mut [u64]) {
    let end = six[0] + six[1];
    let (past, wrap) = (table.len + 1, 65536_u64.saturating_sub(end));
    two[1] = seed.one_of(&[0, 0, past.saturating_sub(end), 65535, wrap.min(65535)]);
    two[0] = 1;
}

/// A number put out of its range in the table that is given.
fn spoil(seed: &mut Seed, table: &Table, numbers: &mut Numbers, place: usize) {
    let ops = table.ops.len() as u64;
    match place.checked_sub(numbers.before_ops()) {
        None => spoil_head(seed, table.modes, place, numbers.number(place)),
        Some(_) if place == numbers.decider_place() => {
            numbers.decider = seed.one_of(&[ops, ops + 1, 32, 255]);
        }
        Some(place) => {
            let (op, place) = (place / PLACES_PER_OP, place % PLACES_PER_OP);
            let six = &mut numbers.ops[NUMBERS_PER_OP * op..][..NUMBERS_PER_OP];
            let two = &mut numbers.holds[HOLDS_PER_OP * op..][..HOLDS_PER_OP];
            match place {
                0 | 1 => spoil_op(seed, table, six, place),
                2 => spoil_hold(seed, table, six, two),
                _ => spoil_op(seed, table, six, place - 1),
            }
        }
    }
}

/// An operation; another draw where the first has no hold.
fn often_held(seed: &mut Seed, numbers: &Numbers) -> usize {
    let ops = numbers.whole_ops() as u64;
    let op = seed.below(ops) as usize;
    if numbers.holds[HOLDS_PER_OP * op] != 0 {
        return op;
    }
    seed.below(ops) as usize
}

/// The numbers of one field, by their places in layout order: the length, the counts,
/// the sets of modes or the last few of them, an operation, its sets with its hold or without
/// it, or the decider.
fn numbers_of_field(seed: &mut Seed, numbers: &Numbers) -> Range<usize> {
    let (before_ops, decider) = (numbers.before_ops(), numbers.decider_place());
    match seed.below(12) {
        0 => 0..1,
        1 | 2 => 1..4,
        3 => 4..before_ops,
        4 => 4.max(before_ops - 3)..before_ops,
        5 if numbers.marked().is_some() => decider..decider + 1,
        _ => {
            let first = before_ops + PLACES_PER_OP * often_held(seed, numbers);
            let dates = seed.one_of(&[0, 0, 0, 2, 3, 3]) as usize;
            first + dates..first + PLACES_PER_OP
        }
    }
}

/// So many of the places, or all where there are no more.
fn some_places(seed: &mut Seed, places: Range<usize>, most: u64) -> Vec<usize> {
    let mut some: Vec<usize> = places.collect();
    while some.len() as u64 > most {
        some.remove(seed.below(some.len() as u64) as usize);
    }
    some
}

/// A good table as numbers, with up to three of them wrong in one field or in each of
/// two, and the places of these.
fn spoiled(seed: &mut Seed) -> (Numbers, Vec<usize>) {
    let table = good(seed);
    let mut numbers = numbers_of(&table);
    let mut places = Vec::new();
    for _ in 0..seed.between(1, 2) {
        let field = numbers_of_field(seed, &numbers);
        let most = seed.between(1, 3);
        places.extend(some_places(seed, field, most));
    }
    for place in &places {
        spoil(seed, &table, &mut numbers, *place);
    }
    (numbers, places)
}

/// Its bytes.
pub fn spoiled_bytes(seed: &mut Seed) -> Vec<u8> {
    bytes_of_numbers(&spoiled(seed).0)
}

/// Its numbers, some of the wrong ones too large for their fields.
pub fn spoiled_numbers(seed: &mut Seed) -> Numbers {
    let (mut numbers, places) = spoiled(seed);
    for place in places {
        if seed.once_in(3) {
            let number = numbers.number(place);
            *number = too_large(seed, *number);
        }
    }
    numbers
}

// ---- counts of operations -----------------------------------------------

/// A table with exactly so many operations, none of which clash or race unless
/// that is asked for.
fn table_of(seed: &mut Seed, ops: u64, apart: bool) -> Table {
    let shape = Shape {
        p: 64,
        boards: 16,
        cells: 8,
        modes: 4,
        ops: 1,
        longest: 2,
    };
    let mut table = some_table(seed, &shape);
    table.ops.clear();
    for i in 0..ops {
        let mut op = some_op(seed, &shape);
        if apart {
            op.start = 2 * (i % 32);
        }
        table.ops.push(op);
    }
    table
}

/// Half of them with a decider: the first operation, which then runs in every mode, or one
/// around the last.
fn perhaps_count_decider(seed: &mut Seed, table: &mut Table) {
    let ops = table.ops.len() as u64;
    if seed.once_in(2) {
        return;
    }
    table.decider = Some(seed.one_of(&[0, 0, 0, 0, ops.saturating_sub(1), ops]));
    if let Some(op) = table.ops.first_mut() {
        op.modes = full_set(table.modes);
    }
}

/// Half of them with holds of one tick, each operation or some. Those that are apart stay so;
/// sometimes there are as many modes as there may be.
fn perhaps_count_holds(seed: &mut Seed, table: &mut Table) {
    if seed.once_in(4) {
        set_modes(seed, table, 32);
    }
    let kind = seed.below(4);
    for op in &mut table.ops {
        if kind == 0 || kind == 1 && seed.once_in(2) {
            op.start = op.start.min(table.len - 2);
            (op.dur, op.hold) = (1, Some(1));
        }
    }
}

/// 31, 32, 33 or 34 operations; also none.
pub fn counted(seed: &mut Seed) -> Vec<u8> {
    let ops = seed.one_of(&[0, 31, 32, 33, 33, 34]);
    let apart = !seed.once_in(3);
    let mut table = table_of(seed, ops, apart);
    perhaps_count_holds(seed, &mut table);
    perhaps_count_decider(seed, &mut table);
    let mut bytes = bytes_of(&table);
    if seed.once_in(3) {
        let cut = seed.below(24);
        bytes.truncate(bytes.len() - (cut as usize).min(bytes.len()));
    }
    bytes
}

// ---- damage to bytes ----------------------------------------------------

/// The offsets of the fields as their lengths have them.
fn offsets(bytes: &[u8]) -> Vec<usize> {
    let mut all = Vec::new();
    let mut place = 0;
    while place + 3 <= bytes.len() {
        all.push(place);
        place += 3 + number_in(&bytes[place + 1..place + 3]) as usize;
    }
    all
}

/// One of the fields: its offset and the offset behind it.
fn some_field(seed: &mut Seed, bytes: &[u8]) -> (usize, usize) {
    let all = offsets(bytes);
    let which = match seed.below(3) {
        0 => all.len() - 1,
        _ => seed.below(all.len() as u64) as usize,
    };
    let behind = all.get(which + 1).copied().unwrap_or(bytes.len());
    (all[which], behind)
}

/// The first so many bytes.
pub fn cut_at(bytes: &[u8], length: usize) -> Vec<u8> {
    bytes[..length.min(bytes.len())].to_vec()
}

/// Every cut of the bytes, the empty one and the whole one included.
pub fn all_cuts(bytes: &[u8]) -> Vec<Vec<u8>> {
    (0..=bytes.len())
        .map(|length| cut_at(bytes, length))
        .collect()
}

/// Cut anywhere, often just before, in or behind a header.
pub fn cut(seed: &mut Seed, bytes: &[u8]) -> Vec<u8> {
    let length = if seed.once_in(2) {
        seed.below(bytes.len() as u64 + 1) as usize
    } else {
        some_field(seed, bytes).0 + seed.below(5) as usize
    };
    cut_at(bytes, length)
}

/// One to four bits turned over.
pub fn flipped(seed: &mut Seed, bytes: &[u8]) -> Vec<u8> {
    let mut out = bytes.to_vec();
    for _ in 0..seed.between(1, 4) {
        let place = seed.below(out.len() as u64) as usize;
        out[place] ^= 1 << seed.below(8);
    }
    out
}

/// One field with another tag.
pub fn wrong_tag(seed: &mut Seed, bytes: &[u8]) -> Vec<u8> {
    let mut out = bytes.to_vec();
    let (at, _) = some_field(seed, bytes);
    out[at] = seed.one_of(&[0, 1, 2, 3, 4, 5, 0x11, 0x12, 0x13, 0xff]) as u8;
    out
}

/// One field with another length; sometimes the value follows it.
pub fn wrong_length(seed: &mut Seed, bytes: &[u8]) -> Vec<u8> {
    let mut out = bytes.to_vec();
    let (at, behind) = some_field(seed, bytes);
    let good = number_in(&bytes[at + 1..at + 3]);
    let bad = match seed.below(9) {
        0 => good + 1,
        1 => good.wrapping_sub(1) & 0xffff,
        2 => good + 2,
        3 => good.wrapping_sub(2) & 0xffff,
        4 => good + 4,
        5 => good + 256,
        6 => 0,
        7 => 65535,
        _ => seed.below(65536),
    };
    put_length(&mut out, at, bad);
    if seed.once_in(2) && bad > good && bad < good + 8 {
        let more = vec![0; (bad - good) as usize];
        out.splice(behind..behind, more);
    }
    out
}

/// The length of the field at this offset.
fn put_length(bytes: &mut [u8], at: usize, length: u64) {
    bytes[at + 1] = (length >> 8) as u8;
    bytes[at + 2] = length as u8;
}

/// The last operation's field or another one, with a length around those that it may have: its
/// value gets or loses bytes behind the duration, or stays as it is.
pub fn other_op_length(seed: &mut Seed, bytes: &[u8]) -> Vec<u8> {
    let mut ops = offsets(bytes);
    ops.retain(|at| bytes[*at] == 0x04);
    let at = match seed.below(2) {
        0 => ops[ops.len() - 1],
        _ => ops[seed.below(ops.len() as u64) as usize],
    };
    let good = number_in(&bytes[at + 1..at + 3]) as usize;
    let bad = seed.one_of(&[16, 17, 18, 19, 19, 20, 21, 21, 22, 274, 276]);
    let mut out = bytes.to_vec();
    put_length(&mut out, at, bad);
    if seed.once_in(3) {
        return out;
    }
    // behind the header, the start and the duration
    let (place, bad) = (at + 7, bad as usize);
    if bad > good {
        let byte = seed.below(2) as u8;
        out.splice(place..place, vec![byte; (bad - good).min(8)]);
    } else {
        out.drain(place..place + good - bad);
    }
    out
}

/// A field left out, doubled, or put at the end.
pub fn moved_field(seed: &mut Seed, bytes: &[u8]) -> Vec<u8> {
    let (at, behind) = some_field(seed, bytes);
    let field = bytes[at..behind].to_vec();
    let mut out = bytes.to_vec();
    match seed.below(3) {
        0 => {
            out.drain(at..behind);
        }
        1 => {
            out.splice(at..at, field);
        }
        _ => {
            out.drain(at..behind);
            out.extend_from_slice(&field);
        }
    }
    out
}

/// Bytes behind the end: a few, or up to beyond what the program reads.
pub fn longer(seed: &mut Seed, bytes: &[u8]) -> Vec<u8> {
    let mut out = bytes.to_vec();
    let more = match seed.below(8) {
        0 => seed.below(5000),
        1 => 4096u64.saturating_sub(bytes.len() as u64) + seed.below(3),
        _ => seed.between(1, 24),
    };
    let tag = seed.one_of(&[0, 1, 4, 5, 0x12, 0xff]) as u8;
    out.push(tag);
    for place in 1..more {
        out.push(if place < 3 && seed.once_in(2) {
            0
        } else {
            seed.draw() as u8
        });
    }
    out
}

/// Any bytes, often with the beginning of a table.
pub fn noise(seed: &mut Seed) -> Vec<u8> {
    let mut out = Vec::new();
    if seed.once_in(2) {
        out.extend_from_slice(&[0x01, 0x00, 0x02]);
    }
    for _ in 0..seed.below(40) {
        let most = if seed.once_in(2) { 8 } else { 256 };
        out.push(seed.below(most) as u8);
    }
    out
}

/// An accepted table with a decider, sometimes with as many operations as there may be.
fn good_decided(seed: &mut Seed) -> Table {
    if seed.once_in(4) {
        let mut table = table_of(seed, 32, true);
        perhaps_count_holds(seed, &mut table);
        table.ops[0].modes = full_set(table.modes);
        table.decider = Some(0);
        return table;
    }
    let table = good(seed);
    let table = decided(seed, table);
    perhaps_held(seed, table)
}

/// What may stand behind a field 05, where nothing is due: it again, the operation before
/// it, an operation's header, or up to three bytes.
fn behind_decider(seed: &mut Seed, bytes: &[u8]) -> Vec<u8> {
    let decider = bytes.len() - 4;
    match seed.below(5) {
        0 => bytes[decider..].to_vec(),
        1 => {
            let fields = offsets(&bytes[..decider]);
            bytes[fields[fields.len() - 1]..decider].to_vec()
        }
        2 => vec![0x04, 0x00, seed.one_of(&[18, 20]) as u8],
        _ => {
            let tag = seed.one_of(&[0, 4, 4, 5, 5, 0xff]) as u8;
            let length = seed.below(3) as usize;
            [&[tag][..], &[0, 1][..length]].concat()
        }
    }
}

/// A field 05 of another length, often with as many bytes.
fn long_decider(seed: &mut Seed) -> Vec<u8> {
    let length = seed.one_of(&[0, 2, 3, 18, 256, 257, 65535]);
    let bytes = if seed.once_in(3) { 1 } else { length % 32 };
    let mut field = vec![0x05, (length >> 8) as u8, length as u8];
    field.resize(3 + bytes as usize, 0);
    field
}

/// A table whose field 05 has something behind it, is of another length, is cut, or stands
/// before another field, where it is or is not also the last.
pub fn around_decider(seed: &mut Seed) -> Vec<u8> {
    let mut bytes = bytes_of(&good_decided(seed));
    let last = bytes.len() - 4;
    match seed.below(6) {
        0..=2 => bytes.extend(behind_decider(seed, &bytes)),
        3 => drop(bytes.splice(last.., long_decider(seed))),
        4 => bytes.truncate(last + seed.below(4) as usize),
        _ => {
            let field = bytes[last..].to_vec();
            let (at, _) = some_field(seed, &bytes[..last]);
            bytes.truncate(last + 4 * seed.below(2) as usize);
            drop(bytes.splice(at..at, field));
        }
    }
    bytes
}

/// One kind of damage.
fn damage(seed: &mut Seed, bytes: &[u8]) -> Vec<u8> {
    match seed.below(6) {
        0 => cut(seed, bytes),
        1 => flipped(seed, bytes),
        2 => wrong_tag(seed, bytes),
        3 => wrong_length(seed, bytes),
        4 => moved_field(seed, bytes),
        _ => longer(seed, bytes),
    }
}

/// A table as bytes, of any kind.
pub fn table_bytes(seed: &mut Seed) -> Vec<u8> {
    match seed.below(38) {
        0..=7 => whole(seed),
        8 | 9 => clashing(seed),
        10 | 11 => racing(seed),
        12 => touching(seed),
        13..=15 => edges(seed),
        16 => counted(seed),
        17 => noise(seed),
        18..=21 | 32 | 33 => spoiled_bytes(seed),
        22 | 23 => deciding(seed),
        24 | 25 => around_decider(seed),
        26 => {
            let bytes = counted(seed);
            damage_or_keep(seed, bytes)
        }
        27..=29 => settling(seed),
        30 | 31 => {
            let bytes = bytes_of(&good(seed));
            other_op_length(seed, &bytes)
        }
        _ => {
            let bytes = bytes_of(&good(seed));
            damage(seed, &bytes)
        }
    }
}

/// Damage to bytes that may be empty.
fn damage_or_keep(seed: &mut Seed, bytes: Vec<u8>) -> Vec<u8> {
    if bytes.len() < 3 {
        return bytes;
    }
    damage(seed, &bytes)
}

// ---- replies ------------------------------------------------------------

/// A reply in range with so many rows, not of any table.
fn free_reply(seed: &mut Seed, rows: u64) -> Reply {
    let period = seed.often_edge(1, 1000);
    let mut reply = Reply {
        period,
        rows: Vec::new(),
    };
    for _ in 0..rows {
        let start = seed.often_edge(0, 999);
        reply.rows.push(Row {
            folded: start % period,
            fst: start / period,
        });
    }
    reply
}

/// A whole reply: of a table, or any that is in range.
pub fn whole_reply(seed: &mut Seed) -> Vec<u8> {
    if seed.once_in(2) {
        let mut out = [0; 256];
        let table = small(seed);
        if let Ok(count) = plan(&bytes_of(&table), &mut out) {
            return out[..count].to_vec();
        }
    }
    let rows = seed.often_edge(1, 32);
    reply_bytes(&free_reply(seed, rows))
}

/// One number of a reply at an edge of its range.
pub fn edge_reply(seed: &mut Seed) -> Vec<u8> {
    let rows = seed.between(1, 8);
    let mut reply = free_reply(seed, rows);
    let period = reply.period;
    let which = seed.below(rows) as usize;
    match seed.below(5) {
        0 => reply.period = seed.one_of(&[0, 1, 999, 1000, 1001, 65535]),
        1 => reply.rows[which].folded = seed.one_of(&[0, period - 1, period, period + 1, 65535]),
        2 => {
            reply.rows[which] = Row {
                folded: 999 % period,
                fst: 999 / period,
            }
        }
        3 => {
            reply.rows[which] = Row {
                folded: 1000 % period,
                fst: 1000 / period,
            }
        }
        _ => reply.rows[which].fst = seed.one_of(&[0, 999 / period, 999 / period + 1, 65535]),
    }
    reply_bytes(&reply)
}

/// A folded start that is not below the period, a start index with which any start is
/// too late, or both.
fn spoil_row(seed: &mut Seed, period: u64, row: &mut Row) {
    let kind = seed.below(4);
    if kind != 0 {
        row.folded = seed.one_of(&[period, period + 1, 1000, 65535]);
    }
    if kind != 1 {
        row.fst = seed.one_of(&[999 / period + 1, 1000, 65535]);
    }
}

/// A reply with wrong numbers in up to three rows, sometimes with a wrong period too.
pub fn spoiled_reply(seed: &mut Seed) -> Vec<u8> {
    let rows = seed.between(1, 8);
    let mut reply = free_reply(seed, rows);
    let period = reply.period;
    for _ in 0..seed.between(1, 3) {
        let which = seed.below(rows) as usize;
        spoil_row(seed, period, &mut reply.rows[which]);
    }
    if seed.once_in(6) {
        reply.period = seed.one_of(&[0, 1001, 65535]);
    }
    reply_bytes(&reply)
}

/// A reply with none, 31, 32, 33 or 34 rows, sometimes cut.
pub fn counted_reply(seed: &mut Seed) -> Vec<u8> {
    let rows = seed.one_of(&[0, 31, 32, 33, 33, 34]);
    let bytes = reply_bytes(&free_reply(seed, rows));
    let length = bytes.len()
        - if seed.once_in(3) {
            seed.below(5) as usize
        } else {
            0
        };
    cut_at(&bytes, length)
}

/// A reply of any kind.
pub fn reply(seed: &mut Seed) -> Vec<u8> {
    match seed.below(14) {
        0..=4 => whole_reply(seed),
        5 | 6 => edge_reply(seed),
        7 | 8 => counted_reply(seed),
        9 | 10 => spoiled_reply(seed),
        11 => {
            let bytes = counted_reply(seed);
            damage_or_keep(seed, bytes)
        }
        _ => {
            let bytes = whole_reply(seed);
            damage(seed, &bytes)
        }
    }
}

// ---- tables as numbers --------------------------------------------------

/// Whole numbers: of a table that is accepted, or clashes, or races, or has something that
/// is too early.
pub fn whole_numbers(seed: &mut Seed) -> Numbers {
    let table = match seed.below(19) {
        0 => clashing_table(seed),
        1 | 2 => racing_table(seed),
        3 | 4 => deciding_table(seed),
        5..=9 => settling_table(seed),
        _ => good(seed),
    };
    numbers_of(&table)
}

/// The number made too large for a field; its low bits may stay fine.
fn too_large(seed: &mut Seed, number: u64) -> u64 {
    match seed.below(6) {
        0 => number.saturating_add(1 << 8),
        1 => number.saturating_add(1 << 16),
        2 => number.saturating_add(1 << 32),
        3 => u64::MAX,
        4 => u64::MAX - seed.below(1000),
        _ => number | 1 << seed.between(8, 63),
    }
}

/// A hold made too large, often with low bits that are fine; where it was not marked, it is so in
/// every second one.
fn enlarge_hold(seed: &mut Seed, numbers: &mut Numbers) {
    let holds = (numbers.holds.len() / HOLDS_PER_OP) as u64;
    let op = seed.below(holds) as usize;
    let two = &mut numbers.holds[HOLDS_PER_OP * op..][..HOLDS_PER_OP];
    two[1] = match seed.below(2) {
        0 => too_large(seed, two[1].max(1)),
        _ => seed.one_of(&[1 << 16, 1 << 32, 1 << 48]) + seed.between(1, 2),
    };
    if seed.once_in(2) {
        two[0] = 1;
    }
}

/// One number of the head or of an operation made too large, or the decider where it is
/// there, or a hold.
fn enlarge(seed: &mut Seed, numbers: &mut Numbers) {
    let kind = seed.below(11);
    match kind {
        0 => numbers.p = too_large(seed, numbers.p),
        1 => numbers.boards = too_large(seed, numbers.boards),
        2 => numbers.cells = too_large(seed, numbers.cells),
        3 => numbers.modes = too_large(seed, numbers.modes),
        4 => numbers.first = too_large(seed, numbers.first),
        5 if !numbers.follow.is_empty() => {
            let mode = seed.below(numbers.follow.len() as u64) as usize;
            numbers.follow[mode] = too_large(seed, numbers.follow[mode]);
        }
        6 if numbers.mark != 0 => numbers.decider = too_large(seed, numbers.decider),
        7 | 8 if numbers.holds.len() > 1 => enlarge_hold(seed, numbers),
        _ if !numbers.ops.is_empty() => {
            let place = seed.below(numbers.ops.len() as u64) as usize;
            numbers.ops[place] = too_large(seed, numbers.ops[place]);
        }
        _ => numbers.p = 0,
    }
}

/// Another count of follower words; rarely so many that the length of the field
/// would come back to a good one in 16 bits.
fn recount_followers(seed: &mut Seed, numbers: &mut Numbers) {
    let now = numbers.follow.len();
    let count = match seed.below(16) {
        0 => now + 16384,
        1..=3 => 0,
        4..=6 => 33,
        7..=10 => now + 1,
        _ => now.saturating_sub(1),
    };
    numbers.follow.resize(count, 1);
}

/// Numbers left out at the end, or more behind it.
fn recount_ops(seed: &mut Seed, numbers: &mut Numbers) {
    match seed.below(4) {
        0 => numbers.ops.clear(),
        1 => numbers.ops.push(seed.below(70000)),
        2 => {
            let more = seed.between(1, 13) as usize;
            let length = numbers.ops.len() + more;
            numbers.ops.resize(length, 1);
        }
        _ => {
            let fewer = seed.between(1, 6) as usize;
            numbers
                .ops
                .truncate(numbers.ops.len().saturating_sub(fewer));
        }
    }
}

/// Marks and holds left out at the end, or more behind it; or the last operation left out with
/// its hold.
fn recount_holds(seed: &mut Seed, numbers: &mut Numbers) {
    let (ops, holds) = (&mut numbers.ops, &mut numbers.holds);
    match seed.below(8) {
        0 => holds.clear(),
        1 | 2 => holds.push(seed.below(3)),
        3 | 4 => {
            let more = seed.between(1, 5) as usize;
            holds.resize(holds.len() + more, seed.below(2));
        }
        5 | 6 => holds.truncate(holds.len().saturating_sub(seed.between(1, 3) as usize)),
        _ => {
            ops.truncate(ops.len().saturating_sub(NUMBERS_PER_OP));
            holds.truncate(holds.len().saturating_sub(HOLDS_PER_OP));
        }
    }
}

/// A decider in its range or out of it, also beyond its byte with low bits that are fine.
fn redecide(seed: &mut Seed, numbers: &mut Numbers) {
    let ops = (numbers.ops.len() / NUMBERS_PER_OP) as u64;
    let last = ops.saturating_sub(1);
    let decider = match seed.below(3) {
        0 => seed.one_of(&[0, last, ops]),
        1 => seed.one_of(&[31, 32, 255]),
        _ => seed.one_of(&[256, 256 + last, 1 << 32, u64::MAX]),
    };
    (numbers.mark, numbers.decider) = (1, decider);
}

/// The mark says the same by any number but 0.
fn other_mark(seed: &mut Seed) -> u64 {
    seed.one_of(&[1, 1, 2, 255, 256, 1 << 16, 1 << 32, 1 << 63, u64::MAX])
}

/// Where the mark is 0 the decider is any number.
fn remark(seed: &mut Seed, numbers: &mut Numbers) {
    if numbers.mark != 0 {
        numbers.mark = other_mark(seed);
    } else if seed.once_in(2) {
        numbers.decider = seed.one_of(&[1, 31, 32, 255, 256, 1 << 32, u64::MAX]);
    }
}

/// The same for each hold, in every second table.
fn remark_holds(seed: &mut Seed, numbers: &mut Numbers) {
    if seed.once_in(2) {
        return;
    }
    for two in numbers.holds.chunks_exact_mut(HOLDS_PER_OP) {
        if two[0] != 0 {
            two[0] = other_mark(seed);
        } else if seed.once_in(2) {
            two[1] = seed.one_of(&[1, 2, 1000, 65535, 65536, 1 << 32, u64::MAX]);
        }
    }
}

/// Numbers with 31 to 34 operations, sometimes with one more number or fewer.
pub fn counted_numbers(seed: &mut Seed) -> Numbers {
    let ops = seed.one_of(&[0, 31, 32, 32, 33, 34]);
    let mut table = table_of(seed, ops, true);
    perhaps_count_holds(seed, &mut table);
    perhaps_count_decider(seed, &mut table);
    let mut numbers = numbers_of(&table);
    match seed.below(6) {
        0 | 1 => recount_ops(seed, &mut numbers),
        2 | 3 => recount_holds(seed, &mut numbers),
        _ => {}
    }
    numbers
}

/// Whole numbers with one to three faults.
pub fn damaged_numbers(seed: &mut Seed) -> Numbers {
    let mut numbers = whole_numbers(seed);
    for _ in 0..seed.between(1, 3) {
        match seed.below(6) {
            0 => recount_followers(seed, &mut numbers),
            1 => recount_ops(seed, &mut numbers),
            2 => redecide(seed, &mut numbers),
            3 => recount_holds(seed, &mut numbers),
            _ => enlarge(seed, &mut numbers),
        }
    }
    numbers
}

/// Numbers of any kind.
pub fn numbers(seed: &mut Seed) -> Numbers {
    let mut numbers = match seed.below(12) {
        0..=3 => whole_numbers(seed),
        4 | 5 => numbers_of(&edge_table(seed)),
        6 => counted_numbers(seed),
        7 | 8 => spoiled_numbers(seed),
        _ => damaged_numbers(seed),
    };
    remark(seed, &mut numbers);
    remark_holds(seed, &mut numbers);
    numbers
}

// ---- rooms and questions ------------------------------------------------

/// The length of an output buffer: enough, just enough, one too few, less.
pub fn room(seed: &mut Seed, needed: usize) -> usize {
    match seed.below(8) {
        0 => needed.saturating_sub(1),
        1 => seed.below(needed as u64 + 1) as usize,
        2 => needed,
        3 => 0,
        _ => needed + seed.below(300) as usize,
    }
}

/// A number asked for: in range, at its edges, just outside, far outside.
fn asked(seed: &mut Seed, low: u64, high: u64) -> u64 {
    match seed.below(16) {
        0 => low,
        1 => high,
        2 => low.saturating_sub(1),
        3 => high + 1,
        4 => too_large(seed, low),
        _ => seed.between(low, high),
    }
}

/// A question for the margin: i, j, n, q.
pub fn margin_question(seed: &mut Seed, ops: u64, p: u64) -> (u64, u64, u64, u64) {
    let i = asked(seed, 0, ops - 1);
    let j = asked(seed, 0, ops - 1);
    let n = asked(seed, 1, 1000);
    let q = asked(seed, 1, p);
    (i, j, n, q)
}

/// A period that the boards or the values are asked about.
pub fn period_question(seed: &mut Seed, p: u64) -> u64 {
    asked(seed, 1, p)
}

/// A longest table for the margins that are farthest from 0: an operation that lasts all of it,
/// one at its first tick, one at its last.
pub fn widest() -> Table {
    let op = |start, dur, boards| Op {
        start,
        dur,
        hold: None,
        boards,
        reads: 0,
        writes: 0,
        modes: 1,
    };
    Table {
        len: 1000,
        boards: 3,
        cells: 0,
        modes: 1,
        first: 1,
        follow: vec![1],
        ops: vec![op(0, 1000, 1), op(0, 1, 2), op(999, 1, 4)],
        decider: None,
    }
}

// ---- relabelled tables --------------------------------------------------

/// Every member moved up by so many.
fn lifted(set: u64, by: u64) -> u64 {
    set << by
}

/// The same table with boards, cells and modes named by the highest numbers. The
/// modes below them are reached by no run. Where there is a decider, what ran in every
/// mode runs in these too, as it must.
pub fn relabelled(table: &Table) -> Table {
    let (boards, cells, modes) = (16 - table.boards, 32 - table.cells, 32 - table.modes);
    let mut follow: Vec<u64> = (0..modes).map(|mode| 1 << mode).collect();
    follow.extend(table.follow.iter().map(|set| lifted(*set, modes)));
    let more = |op: &Op| match table.decider {
        Some(_) if table.runs_in_every_mode(op) => full_set(modes),
        _ => 0,
    };
    let lift = |op: &Op| Op {
        start: op.start,
        dur: op.dur,
        hold: op.hold,
        boards: lifted(op.boards, boards),
        reads: lifted(op.reads, cells),
        writes: lifted(op.writes, cells),
        modes: lifted(op.modes, modes) | more(op),
    };
    Table {
        len: table.len,
        boards: 16,
        cells: 32,
        modes: 32,
        first: lifted(table.first, modes),
        follow,
        ops: table.ops.iter().map(lift).collect(),
        decider: table.decider,
    }
}
