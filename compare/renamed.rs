//! Tables in another order and by other names (document 02, No. 12): "for an accepted table, listing
//! its operations in another order, or renaming its boards one to one, leaves the period and moves
//! each folded row with its operation, the decider's number following its operation. Mode numbers
//! renamed one to one, in the operations' mode sets, first modes and turns alike, also leave the
//! period and rows." So they leave the gap (No. 6).
//!
//! A drawn table, and the table that a drawn renaming makes of it, are both put to the library. What
//! it says of the second is what it says of the first, moved. "Nothing is claimed for refused
//! tables": of these it is only counted what becomes of their figures.

use crate::against::{bytes_of_places, drawn_places, rooms, seen_margin, Margin, ROOMS};
use crate::counts;
use crate::findings::{lent, memory_for, planned, print_seen, Seen, MOST_PRINTED, NAMES};
use crate::generate::{self, Seed};
use crate::hex::hex;
use crate::judge::{bytes_of, has, judge_table, numbers_of, put, read_table};
use crate::judge::{Numbers, Op, Refusal, Table, ASK, CLASH, EARLY, RACE};
use crate::library::{self, Said};
use crate::walks::reached_modes;
use std::cmp::Ordering;
use std::fmt::Debug;

// ---- a renaming ---------------------------------------------------------

/// Where everything of a table goes: the new number of each operation, the new names of each board
/// and of each mode, and how many boards there are then. A board that no operation has needs no
/// new name.
#[derive(Clone, Debug, PartialEq, Eq)]
pub struct Renaming {
    pub ops: Vec<u64>,
    pub boards: Vec<Option<u64>>,
    pub board_count: u64,
    pub modes: Vec<u64>,
}

/// The items, each at its new place.
fn moved<T: Clone>(items: &[T], places: &[u64]) -> Vec<T> {
    let mut all = items.to_vec();
    for (item, place) in items.iter().zip(places) {
        all[*place as usize] = item.clone();
    }
    all
}

/// The numbers below the count, in order.
fn in_order(count: u64) -> Vec<u64> {
    (0..count).collect()
}

/// The old place of each new one.
fn places_back(places: &[u64]) -> Vec<u64> {
    moved(&in_order(places.len() as u64), places)
}

/// The new names of a set's members.
fn renamed_set(set: u64, name: impl Fn(usize) -> u64) -> u64 {
    let members = (0..64).filter(|member| has(set, *member));
    members.fold(0, |all, member| all | 1 << name(member as usize))
}

/// The numbers are below the count, and no two are the same.
fn are_apart(numbers: &[u64], count: u64) -> bool {
    let mut met = vec![false; count as usize];
    numbers.iter().all(|number| {
        let place = met.get_mut(*number as usize);
        place.map_or(false, |met| !std::mem::replace(met, true))
    })
}

/// The boards that some operation has.
fn boards_in_use(table: &Table) -> Vec<u64> {
    let set = table.ops.iter().fold(0, |set, op| set | op.boards);
    let all = 0..table.boards;
    all.filter(|board| has(set, *board)).collect()
}

impl Renaming {
    /// All stays as it is.
    fn identity(table: &Table) -> Renaming {
        Renaming {
            ops: in_order(table.ops.len() as u64),
            boards: (0..table.boards).map(Some).collect(),
            board_count: table.boards,
            modes: in_order(table.modes),
        }
    }

    /// Each new name is given once, "one to one", and all that is in use has one.
    pub fn is_one_to_one(&self, table: &Table) -> bool {
        let named: Vec<u64> = self.boards.iter().flatten().copied().collect();
        let mut in_use = boards_in_use(table).into_iter();
        in_use.all(|board| self.boards[board as usize].is_some())
            && (1..=16).contains(&self.board_count)
            && are_apart(&named, self.board_count)
            && are_apart(&self.ops, table.ops.len() as u64)
            && are_apart(&self.modes, table.modes)
    }

    /// The renaming that undoes this one.
    pub fn back(&self) -> Renaming {
        let mut boards = vec![None; self.board_count as usize];
        for (board, name) in (0..).zip(&self.boards) {
            if let Some(name) = name {
                boards[*name as usize] = Some(board);
            }
        }
        Renaming {
            ops: places_back(&self.ops),
            boards,
            board_count: self.boards.len() as u64,
            modes: places_back(&self.modes),
        }
    }

    fn has_other_order(&self) -> bool {
        self.ops != in_order(self.ops.len() as u64)
    }

    /// A board that is in use has another name.
    fn has_other_boards(&self, table: &Table) -> bool {
        let mut in_use = boards_in_use(table).into_iter();
        in_use.any(|board| self.boards[board as usize] != Some(board))
    }

    fn has_other_modes(&self) -> bool {
        self.modes != in_order(self.modes.len() as u64)
    }

    /// The operations have another order, the boards other names or another count, the modes other
    /// names.
    fn changes(&self, table: &Table) -> [bool; 3] {
        let boards = self.has_other_boards(table) || self.board_count != table.boards;
        [self.has_other_order(), boards, self.has_other_modes()]
    }

    fn board_set(&self, set: u64) -> u64 {
        renamed_set(set, |board| self.boards[board].expect("a board in use"))
    }

    fn mode_set(&self, set: u64) -> u64 {
        renamed_set(set, |mode| self.modes[mode])
    }

    /// The table in its new order and by its new names.
    pub fn table(&self, table: &Table) -> Table {
        let op = |op: &Op| Op {
            boards: self.board_set(op.boards),
            modes: self.mode_set(op.modes),
            ..op.clone()
        };
        let ops: Vec<Op> = table.ops.iter().map(op).collect();
        let follow: Vec<u64> = table.follow.iter().map(|set| self.mode_set(*set)).collect();
        Table {
            boards: self.board_count,
            first: self.mode_set(table.first),
            follow: moved(&follow, &self.modes),
            ops: moved(&ops, &self.ops),
            decider: table.decider.map(|decider| self.ops[decider as usize]),
            ..table.clone()
        }
    }
}

// ---- drawn renamings ----------------------------------------------------

/// The numbers below the count in any order.
fn shuffled(seed: &mut Seed, count: u64) -> Vec<u64> {
    let mut all = in_order(count);
    for place in (1..all.len()).rev() {
        all.swap(place, seed.below(place as u64 + 1) as usize);
    }
    all
}

/// The places of the operations where they are listed by their starts.
fn places_by_start(table: &Table) -> Vec<u64> {
    let mut listed = in_order(table.ops.len() as u64);
    listed.sort_by_key(|op| table.ops[*op as usize].start);
    places_back(&listed)
}

/// Any order, or two operations change places, or "Editors sort rows".
fn drawn_order(seed: &mut Seed, table: &Table) -> Vec<u64> {
    let count = table.ops.len() as u64;
    match seed.below(4) {
        0 => places_by_start(table),
        1 => {
            let mut places = in_order(count);
            places.swap(seed.below(count) as usize, seed.below(count) as usize);
            places
        }
        _ => shuffled(seed, count),
    }
}

/// Names for the boards in use, of as many boards as before, as few as there may be, or any count.
fn drawn_boards(seed: &mut Seed, table: &Table) -> (Vec<Option<u64>>, u64) {
    let in_use = boards_in_use(table);
    let fewest = in_use.len() as u64;
    let count = match seed.below(4) {
        0 => table.boards,
        1 => fewest,
        _ => seed.between(fewest, 16),
    };
    let mut boards = vec![None; table.boards as usize];
    for (board, name) in in_use.iter().zip(shuffled(seed, count)) {
        boards[*board as usize] = Some(name);
    }
    (boards, count)
}

/// A renaming of the operations where bit 0 is set, of the boards where bit 1 is, of the modes where
/// bit 2 is.
fn drawn_maps(seed: &mut Seed, table: &Table, which: u64) -> Renaming {
    let mut renaming = Renaming::identity(table);
    if has(which, 0) {
        renaming.ops = drawn_order(seed, table);
    }
    if has(which, 1) {
        (renaming.boards, renaming.board_count) = drawn_boards(seed, table);
    }
    if has(which, 2) {
        renaming.modes = shuffled(seed, table.modes);
    }
    renaming
}

/// Of the operations, the boards and the modes all three get other numbers, or two of them, or one,
/// or now and then none. Where nothing changes all three are drawn again, which need not help.
pub fn drawn_renaming(seed: &mut Seed, table: &Table) -> Renaming {
    let which = match seed.below(16) {
        0 => return Renaming::identity(table),
        1..=6 => seed.one_of(&[0b001, 0b010, 0b100]),
        7..=9 => seed.one_of(&[0b011, 0b101, 0b110]),
        _ => 0b111,
    };
    let renaming = drawn_maps(seed, table, which);
    match renaming.changes(table) {
        [false, false, false] => drawn_maps(seed, table, 0b111),
        _ => renaming,
    }
}

// ---- kinds of renamed tables --------------------------------------------

/// An accepted table, and the one that a renaming makes of it.
pub struct Pair<'a> {
    pub table: &'a Table,
    pub other: &'a Table,
    pub renaming: &'a Renaming,
}

/// A pair, and the period and the gap of its first table as they are said.
struct Met<'a> {
    pair: &'a Pair<'a>,
    period: u64,
    gap: u64,
}

impl Met<'_> {
    fn changes(&self) -> [bool; 3] {
        self.pair.renaming.changes(self.pair.table)
    }

    fn has_other_order(&self) -> bool {
        self.pair.renaming.has_other_order()
    }

    fn has_other_boards(&self) -> bool {
        self.pair.renaming.has_other_boards(self.pair.table)
    }

    fn has_other_modes(&self) -> bool {
        self.pair.renaming.has_other_modes()
    }

    /// How the new count of boards compares with the old one.
    fn more_boards(&self) -> Ordering {
        self.pair.other.boards.cmp(&self.pair.table.boards)
    }

    /// Each operation with its old number and its new one.
    fn ops(&self) -> impl Iterator<Item = (&Op, u64, u64)> {
        let numbers = (0..).zip(&self.pair.renaming.ops);
        let ops = self.pair.table.ops.iter().zip(numbers);
        ops.map(|(op, (old, new))| (op, old, *new))
    }

    fn has_moved_hold(&self) -> bool {
        self.ops()
            .any(|(op, old, new)| old != new && op.hold.is_some())
    }

    /// Two operations with different starts, whose rows differ then, change places.
    fn swaps_rows(&self) -> bool {
        let (ops, places) = (&self.pair.table.ops, &self.pair.renaming.ops);
        self.ops().any(|(op, old, new)| {
            places[new as usize] == old && ops[new as usize].start != op.start
        })
    }

    fn has_op_with_other_modes(&self) -> bool {
        let ops = &self.pair.other.ops;
        self.ops()
            .any(|(op, _, new)| ops[new as usize].modes != op.modes)
    }
}

/// A kind: its name, and whether a pair is of it.
type Kind = (&'static str, fn(&Met<'_>) -> bool);

const KINDS: [Kind; 27] = [
    ("all as it was", |met| met.changes() == [false; 3]),
    ("the operations alone", |met| {
        met.changes() == [true, false, false]
    }),
    ("the boards alone", |met| {
        met.changes() == [false, true, false]
    }),
    ("the modes alone", |met| {
        met.changes() == [false, false, true]
    }),
    ("all three at once", |met| met.changes() == [true; 3]),
    ("operations in another order", |met| met.has_other_order()),
    ("32 operations in another order", |met| {
        met.has_other_order() && met.pair.table.ops.len() == 32
    }),
    ("another number for an operation with a hold", |met| {
        met.has_moved_hold()
    }),
    ("another number for the decider", |met| {
        met.pair.other.decider != met.pair.table.decider
    }),
    ("the decider's number kept, others moved", |met| {
        let [before, after] = [met.pair.table, met.pair.other].map(|table| table.decider);
        met.has_other_order() && before.is_some() && before == after
    }),
    ("two different rows change places, period above 1", |met| {
        met.period > 1 && met.swaps_rows()
    }),
    ("other names for boards, more boards", |met| {
        met.has_other_boards() && met.more_boards() == Ordering::Greater
    }),
    ("other names for boards, fewer boards", |met| {
        met.has_other_boards() && met.more_boards() == Ordering::Less
    }),
    ("other names for boards, as many boards", |met| {
        met.has_other_boards() && met.more_boards() == Ordering::Equal
    }),
    ("another count of boards, all names kept", |met| {
        !met.has_other_boards() && met.more_boards() != Ordering::Equal
    }),
    ("a board that no operation has gets no name", |met| {
        met.pair.renaming.boards.contains(&None)
    }),
    ("other names for 16 boards, all in use", |met| {
        met.has_other_boards() && boards_in_use(met.pair.table).len() == 16
    }),
    ("16 boards become fewer", |met| {
        met.pair.table.boards == 16 && met.more_boards() == Ordering::Less
    }),
    ("other names for modes, other turns", |met| {
        met.has_other_modes() && met.pair.other.follow != met.pair.table.follow
    }),
    ("other names for modes, other first modes", |met| {
        met.has_other_modes() && met.pair.other.first != met.pair.table.first
    }),
    ("other names for modes, an operation has others", |met| {
        met.has_op_with_other_modes()
    }),
    ("a reached mode gets the name of one that was not", |met| {
        reached_modes(met.pair.other) & !reached_modes(met.pair.table) != 0
    }),
    ("other names for 32 modes", |met| {
        met.has_other_modes() && met.pair.table.modes == 32
    }),
    ("other names for modes, period above 1", |met| {
        met.has_other_modes() && met.period > 1
    }),
    ("operations in another order, gap above the period", |met| {
        met.has_other_order() && met.gap > met.period
    }),
    ("other names for boards, gap above the period", |met| {
        met.has_other_boards() && met.gap > met.period
    }),
    ("other names for modes, gap above the period", |met| {
        met.has_other_modes() && met.gap > met.period
    }),
];

// ---- kinds of answers ---------------------------------------------------

/// All answers that there are about accepted tables, i and j being operations.
const ANSWERS: [&str; 19] = [
    "judge, good",
    "judge_numbers, good",
    "write, good",
    "write, ROOM",
    "period, good",
    "gap, good",
    "plan, good",
    "plan, ROOM",
    "boards_fit, yes",
    "boards_fit, no",
    "boards_fit, ASK",
    "values_arrive, yes",
    "values_arrive, no",
    "values_arrive, ASK",
    "margin, negative",
    "margin, zero",
    "margin, positive",
    "margin, ASK for n",
    "margin, ASK for q",
];

/// The margin at its place in the memory that is looked at.
fn margin_in(memory: &[u8]) -> i32 {
    let bytes = memory[4..8].try_into().expect("four bytes");
    i32::from_le_bytes(bytes)
}

/// What a function answered, in a word.
fn word_of(function: &str, seen: &Seen) -> &'static str {
    let Said { number, a, .. } = seen.said;
    match (function, number, a) {
        ("boards_fit" | "values_arrive", 0, 0) => "no",
        ("boards_fit" | "values_arrive", 0, 1) => "yes",
        ("margin", 0, 0) => match margin_in(&seen.memory).signum() {
            -1 => "negative",
            0 => "zero",
            _ => "positive",
        },
        ("margin", ASK, 2) => "ASK for n",
        ("margin", ASK, 3) => "ASK for q",
        _ => NAMES.get(number as usize).unwrap_or(&"no such number"),
    }
}

// ---- refused tables -----------------------------------------------------

/// The refusals of whole tables.
const REFUSALS: [u32; 3] = [CLASH, RACE, EARLY];

/// What becomes of a refusal's figures where the table is renamed: kept, moved with the operations
/// (of CLASH and RACE the lower number comes first again), both, or neither; or the refusal is
/// another one, or there is none any more.
const FIGURES: [&str; 6] = ["kept", "moved", "both", NEITHER, "other", "none"];
const NEITHER: &str = "neither";

fn figures_of(before: Said, renaming: &Renaming, after: Said) -> &'static str {
    let new = |op: u64| renaming.ops[op as usize];
    let mut due = [new(before.a), new(before.b)];
    if before.number != EARLY {
        due.sort();
    }
    let kept = [after.a, after.b] == [before.a, before.b];
    let moved = [after.a, after.b] == due;
    match (kept, moved) {
        _ if after.number == 0 => "none",
        _ if after.number != before.number => "other",
        (true, false) => "kept",
        (false, true) => "moved",
        (true, true) => "both",
        (false, false) => NEITHER,
    }
}

/// How often each became of a refusal's figures.
#[derive(Default)]
struct Figures([u64; FIGURES.len()]);

impl Figures {
    fn place(name: &str) -> usize {
        let place = FIGURES.iter().position(|figures| *figures == name);
        place.expect("one of them")
    }

    fn get(&self, name: &str) -> u64 {
        self.0[Figures::place(name)]
    }

    fn note(&mut self, name: &str) {
        self.0[Figures::place(name)] += 1;
    }
}

// ---- what was found -----------------------------------------------------

/// How often each kind of pair, of answer and of refused table was met, and how many answers
/// differ.
pub struct Found {
    most_printed: u64,
    kinds: [u64; KINDS.len()],
    answers: [u64; ANSWERS.len()],
    refused: [Figures; REFUSALS.len()],
    pub differences: u64,
}

impl Found {
    /// Nothing so far. So many differences are printed.
    pub fn new(most_printed: u64) -> Found {
        Found {
            most_printed,
            kinds: [0; KINDS.len()],
            answers: [0; ANSWERS.len()],
            refused: Default::default(),
            differences: 0,
        }
    }

    fn note_kinds(&mut self, met: &Met<'_>) {
        for (count, (_, is_met)) in self.kinds.iter_mut().zip(KINDS) {
            *count += u64::from(is_met(met));
        }
    }

    /// One more difference; true where it is to be printed.
    fn differs(&mut self) -> bool {
        self.differences += 1;
        self.differences <= self.most_printed
    }

    /// Counts an answer; false where there should be none such.
    fn note_answer(&mut self, function: &str, seen: &Seen) -> bool {
        let name = format!("{}, {}", function, word_of(function, seen));
        let place = ANSWERS.iter().position(|answer| *answer == name);
        place.map(|place| self.answers[place] += 1).is_some()
    }

    /// Every kind of pair and of answer with its count.
    fn all(&self) -> Vec<(&'static str, u64)> {
        let kinds = KINDS.iter().map(|(name, _)| *name).zip(self.kinds);
        kinds.chain(ANSWERS.into_iter().zip(self.answers)).collect()
    }

    /// The refusals whose figures were always kept or moved: that neither has to hold has to be
    /// seen of each.
    fn missed_figures(&self) -> Vec<String> {
        let figures = REFUSALS.iter().zip(&self.refused);
        let missed = figures.filter(|(_, figures)| figures.get(NEITHER) == 0);
        missed
            .map(|(number, _)| format!("{}, never {}", NAMES[*number as usize], NEITHER))
            .collect()
    }

    fn missed(&self) -> Vec<String> {
        let mut all = counts::missed_of(&self.all());
        all.extend(self.missed_figures());
        all
    }

    fn print(&self) {
        counts::print_all(&self.all());
        print!("{:<18}", "figures of refused");
        FIGURES.iter().for_each(|name| print!("{:>8}", name));
        println!();
        for (number, figures) in REFUSALS.iter().zip(&self.refused) {
            print!("{:<18}", NAMES[*number as usize]);
            figures.0.iter().for_each(|count| print!("{:>8}", count));
            println!();
        }
        self.missed().iter().for_each(|line| println!("{}", line));
    }

    /// No answer differs, and every kind was met.
    pub fn is_good(&self) -> bool {
        self.differences == 0 && self.missed().is_empty()
    }
}

// ---- both tables asked --------------------------------------------------

/// What both tables are put to: the library, or in a test another one.
#[derive(Clone, Copy)]
pub struct Functions {
    pub judge: fn(&mut [u8]) -> Said,
    pub judge_numbers: fn(&mut Numbers) -> Said,
    pub write: fn(&mut Numbers, &mut [u8]) -> Said,
    pub period: fn(&mut [u8]) -> Said,
    pub gap: fn(&mut [u8]) -> Said,
    pub boards_fit: fn(&mut [u8], u64) -> Said,
    pub values_arrive: fn(&mut [u8], u64) -> Said,
    pub plan: fn(&mut [u8], &mut [u8]) -> Said,
    pub margin: fn(&mut [u8], Margin, &mut [i32; 3]) -> Said,
}

const LIBRARY: Functions = Functions {
    judge: library::judge,
    judge_numbers: library::judge_numbers,
    write: library::write,
    period: library::period,
    gap: library::gap,
    boards_fit: library::boards_fit,
    values_arrive: library::values_arrive,
    plan: library::plan,
    margin: library::margin,
};

/// How many bytes of a reply stand before its rows, and how many each row has.
const BEFORE_ROWS: usize = 5;
const ROW: usize = 7;

/// Both tables as they are handed over.
struct Asking<'a> {
    functions: &'a Functions,
    pair: &'a Pair<'a>,
    bytes: [Vec<u8>; 2],
    found: &'a mut Found,
}

impl Asking<'_> {
    /// What is seen of a question, asked about each of the tables with the bytes of that one.
    fn both(&self, ask: impl Fn(&[u8]) -> Seen) -> [Seen; 2] {
        [ask(&self.bytes[0]), ask(&self.bytes[1])]
    }

    /// The answers about the two tables, beside those that are due.
    fn note(&mut self, function: &str, asked: &dyn Debug, seen: &[Seen; 2], due: &[Seen; 2]) {
        let known = self.found.note_answer(function, &seen[0]);
        if (known && seen == due) || !self.found.differs() {
            return;
        }
        println!("{} of {:?} differs", function, asked);
        for which in 0..2 {
            println!("  table {} is {}", which, hex(&self.bytes[which]));
            print_seen("said", &seen[which]);
            print_seen("due ", &due[which]);
        }
        println!("  {:?}", self.pair.renaming);
    }

    /// The same answer is due for both; where they refuse, what is lent stays as it was before.
    fn note_same(&mut self, function: &str, asked: &dyn Debug, seen: [Seen; 2], before: &[u8]) {
        let mut due = Seen {
            kept: true,
            ..seen[0].clone()
        };
        if due.said.number != 0 {
            due.memory = before.to_vec();
        }
        self.note(function, asked, &seen, &[due.clone(), due]);
    }

    /// A question about a table alone; what is said of the first one.
    fn ask(&mut self, function: &str, call: fn(&mut [u8]) -> Said) -> Said {
        let seen = self.both(|bytes| Seen::of(bytes.to_vec(), &[], |s, _| call(s)));
        let said = seen[0].said;
        self.note_same(function, &(), seen, &[]);
        said
    }

    /// Both questions at a period.
    fn ask_at(&mut self, q: u64) {
        for (function, call) in [
            ("boards_fit", self.functions.boards_fit),
            ("values_arrive", self.functions.values_arrive),
        ] {
            let seen = self.both(|bytes| Seen::of(bytes.to_vec(), &[], |s, _| call(s, q)));
            self.note_same(function, &q, seen, &[]);
        }
    }

    /// The margin of two operations, and of what they are in the other table.
    fn ask_margin(&mut self, asked: Margin, before: [i32; 3]) {
        let (i, j, n, q) = asked;
        let new = |op: u64| self.pair.renaming.ops[op as usize];
        let call = self.functions.margin;
        let seen = [
            seen_margin(&self.bytes[0], asked, before, call),
            seen_margin(&self.bytes[1], (new(i), new(j), n, q), before, call),
        ];
        self.note_same("margin", &asked, seen, &bytes_of_places(before));
    }

    /// "moves each folded row with its operation": every other byte of the memory stays.
    fn moved_rows(&self, memory: &[u8]) -> Vec<u8> {
        let mut due = memory.to_vec();
        let places = &self.pair.renaming.ops;
        let rows = &mut lent(&mut due)[BEFORE_ROWS..][..ROW * places.len()];
        let old: Vec<Vec<u8>> = rows.chunks(ROW).map(<[u8]>::to_vec).collect();
        rows.copy_from_slice(&moved(&old, places).concat());
        due
    }

    /// Into memory that is like this before; where there is no room for it, it stays so.
    fn plan(&mut self, before: &[u8]) {
        let call = self.functions.plan;
        let seen =
            self.both(|bytes| Seen::of(bytes.to_vec(), before, |s, memory| call(s, lent(memory))));
        if seen[0].said.number != 0 {
            return self.note_same("plan", &hex(before), seen, before);
        }
        let first = Seen {
            kept: true,
            ..seen[0].clone()
        };
        let second = Seen {
            memory: self.moved_rows(&first.memory),
            ..first.clone()
        };
        self.note("plan", &hex(before), &seen, &[first, second]);
    }

    /// Handed over as numbers both are judged alike, and each is written as its own bytes.
    fn ask_numbers(&mut self, before: &[u8]) {
        let numbers = [numbers_of(self.pair.table), numbers_of(self.pair.other)];
        let call = self.functions.judge_numbers;
        let judged = |n: &Numbers| Seen::of(n.clone(), &[], |n, _| call(n));
        let seen = [judged(&numbers[0]), judged(&numbers[1])];
        self.note_same("judge_numbers", &(), seen, &[]);
        let call = self.functions.write;
        let written = |n: &Numbers| Seen::of(n.clone(), before, |n, memory| call(n, lent(memory)));
        let seen = [written(&numbers[0]), written(&numbers[1])];
        let due = self.both(|bytes| {
            let mut memory = before.to_vec();
            let answer = put(bytes, lent(&mut memory));
            planned(answer, memory)
        });
        self.note("write", &hex(before), &seen, &due);
    }

    /// All questions that have an answer for accepted tables; the period and the gap of the first one.
    fn ask_all(&mut self, seed: &mut Seed) -> (u64, u64) {
        self.ask("judge", self.functions.judge);
        let period = self.ask("period", self.functions.period).a;
        let gap = self.ask("gap", self.functions.gap).a;
        let (p, ops) = (self.pair.table.len, self.pair.table.ops.len());
        for q in drawn_periods(seed, p, period) {
            self.ask_at(q);
        }
        for _ in 0..MARGINS {
            let asked = drawn_margin(seed, ops as u64, p);
            self.ask_margin(asked, drawn_places(seed));
        }
        for length in drawn_rooms(seed, BEFORE_ROWS + ROW * ops) {
            let before = memory_for(seed, length);
            self.plan(&before);
        }
        let length = drawn_rooms(seed, self.bytes[0].len())[1];
        let before = memory_for(seed, length);
        self.ask_numbers(&before);
        (period, gap)
    }
}

/// How many margins of a table are asked for.
const MARGINS: usize = 6;

/// Just outside, at both ends, at the period and just below it, and three others.
fn drawn_periods(seed: &mut Seed, p: u64, period: u64) -> [u64; 9] {
    let mut any = || seed.between(0, p + 1);
    let below = period.saturating_sub(1);
    [0, 1, below, period, p, p + 1, any(), any(), any()]
}

/// Operations of the table, mostly at a small distance, and distances and periods from just below
/// to just above their ranges.
fn drawn_margin(seed: &mut Seed, ops: u64, p: u64) -> Margin {
    let n = match seed.below(12) {
        0 => 0,
        1 => 1001,
        2 => 1000,
        3 => seed.between(1, 1000),
        _ => seed.between(1, 3),
    };
    let q = match seed.below(12) {
        0 => 0,
        1 => p + 1,
        _ => seed.between(1, p),
    };
    (seed.below(ops), seed.below(ops), n, q)
}

/// A buffer that is longer than needed, and another one.
fn drawn_rooms(seed: &mut Seed, needed: usize) -> [usize; 2] {
    let lengths = rooms(seed, needed);
    [lengths[2], lengths[seed.below(ROOMS as u64) as usize]]
}

/// Puts both tables of a pair to the functions, and counts its kinds.
pub fn compare_pair(functions: &Functions, pair: &Pair<'_>, seed: &mut Seed, found: &mut Found) {
    let mut asking = Asking {
        functions,
        pair,
        bytes: [bytes_of(pair.table), bytes_of(pair.other)],
        found,
    };
    let (period, gap) = asking.ask_all(seed);
    found.note_kinds(&Met { pair, period, gap });
    if !pair.renaming.is_one_to_one(pair.table) && found.differs() {
        println!("not one to one: {:?}", pair.renaming);
    }
}

// ---- all ----------------------------------------------------------------

/// A whole table, accepted or refused.
fn whole(seed: &mut Seed, draw: fn(&mut Seed) -> Vec<u8>) -> Table {
    loop {
        if let Ok(table) = read_table(&draw(seed)) {
            return table;
        }
    }
}

fn drawn_table(seed: &mut Seed) -> Table {
    match seed.below(16) {
        0 => generate::tiny(seed),
        1 => whole(seed, generate::touching),
        2 | 3 => whole(seed, generate::clashing),
        4 => whole(seed, generate::racing),
        5 | 6 => whole(seed, generate::deciding),
        7 | 8 => whole(seed, generate::settling),
        _ => generate::small(seed),
    }
}

/// Accepted, up to the highest counts.
fn drawn_large_table(seed: &mut Seed) -> Table {
    match seed.below(8) {
        0 => generate::ring_drawn(seed),
        1 => generate::ring_placed(seed),
        2 => generate::longest_held(seed),
        3..=5 => generate::any_largest(seed),
        _ => generate::large(seed),
    }
}

/// How often a refused table is renamed.
const TIMES: usize = 8;

/// "Nothing is claimed for refused tables": only counted, and where all is as it was not even that.
fn note_refused(seed: &mut Seed, table: &Table, refusal: Refusal, found: &mut Found) {
    let place = REFUSALS.iter().position(|number| *number == refusal.number);
    let figures = &mut found.refused[place.expect("a whole table's refusal")];
    let before = library::judge(&mut bytes_of(table));
    for _ in 0..TIMES {
        let renaming = drawn_renaming(seed, table);
        if renaming.changes(table) != [false; 3] {
            let after = library::judge(&mut bytes_of(&renaming.table(table)));
            figures.note(figures_of(before, &renaming, after));
        }
    }
}

/// An accepted table, renamed in a drawn way.
fn compare_table(seed: &mut Seed, table: &Table, found: &mut Found) {
    let renaming = drawn_renaming(seed, table);
    let pair = Pair {
        table,
        other: &renaming.table(table),
        renaming: &renaming,
    };
    compare_pair(&LIBRARY, &pair, seed, found);
}

/// One table in this many is a large one.
const LARGE: u64 = 20;

/// So many drawn tables. True where no answer differs and every kind was met.
pub fn renamed_command(count: u64, mut seed: Seed) -> bool {
    let mut found = Found::new(MOST_PRINTED);
    let mut refused = 0;
    for turn in 0..count {
        let table = match turn % LARGE {
            0 => drawn_large_table(&mut seed),
            _ => drawn_table(&mut seed),
        };
        match judge_table(&table) {
            Ok(()) => compare_table(&mut seed, &table, &mut found),
            Err(refusal) => {
                note_refused(&mut seed, &table, refusal, &mut found);
                refused += 1;
            }
        }
    }
    found.print();
    println!(
        "{} tables in another order and by other names, {} of them refused; {} answers differ",
        count, refused, found.differences
    );
    found.is_good()
}
