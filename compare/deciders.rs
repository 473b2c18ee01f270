//! Kinds of inputs that have to do with a decider (document 02, No. 4), as the planner reads
//! and judges them, and how often each was met.

use crate::counts::{self, Kind};
use crate::judge::{has, judge_early, judge_table, read_numbers, read_table};
use crate::judge::{Numbers, Op, Refusal, Table, CLASH, EARLY, MANY, MOST_OPS};
use crate::judge::{NUMBERS_PER_OP, ORDER, RACE, SHORT, SIZE};
use crate::walks::reached_modes;

/// What all of these have in common.
const COMMON: &str = "with a decider";

// ---- tables -------------------------------------------------------------

/// A table with a decider whose fields are all good, and what is refused of it then.
struct Whole<'a> {
    table: &'a Table,
    decider: &'a Op,
    refusal: Option<Refusal>,
}

impl Whole<'_> {
    fn is_refused(&self, number: u32) -> bool {
        self.refusal.map(|refusal| refusal.number) == Some(number)
    }

    /// It is accepted, and one of its operations is so.
    fn accepted_with(&self, test: impl Fn(&Op) -> bool) -> bool {
        self.refusal.is_none() && self.table.ops.iter().any(test)
    }

    /// It is refused, and the decider itself is blamed or another operation.
    fn early(&self, itself: bool) -> bool {
        let blamed = |it: Refusal| it.number == EARLY && (it.a == it.b) == itself;
        self.refusal.map_or(false, blamed)
    }

    /// The operation that starts too early, where that is what is refused.
    fn too_early(&self) -> Option<&Op> {
        let refusal = self.refusal.filter(|_| self.early(false))?;
        Some(&self.table.ops[refusal.b as usize])
    }

    /// How many operations start too early.
    fn all_too_early(&self) -> usize {
        let early = |op: &&Op| self.table.is_too_early(self.decider, op);
        self.table.ops.iter().filter(early).count()
    }

    /// The modes that the decider misses are such that no run reaches them.
    fn misses_unreached(&self) -> bool {
        let reached = reached_modes(self.table);
        let missed = |mode: &u64| !self.decider.runs_in(*mode);
        let mut all = (0..self.table.modes).filter(missed);
        all.all(|mode| !has(reached, mode))
    }
}

/// A kind of tables: its name, and whether a table is of it.
type OfTable = (&'static str, fn(&Whole<'_>) -> bool);

const OF_TABLES: [OfTable; 11] = [
    ("accepted", |whole| whole.refusal.is_none()),
    ("accepted, 32 operations", |whole| {
        whole.refusal.is_none() && whole.table.ops.len() == MOST_OPS
    }),
    ("accepted, one waits until its end", |whole| {
        let waits = |op: &Op| !whole.table.runs_in_every_mode(op);
        whole.accepted_with(|op| waits(op) && op.start == whole.decider.end())
    }),
    ("accepted, another does not wait", |whole| {
        let before = |op: &Op| op != whole.decider && op.start < whole.decider.end();
        whole.table.modes > 1 && whole.accepted_with(before)
    }),
    ("EARLY itself", |whole| whole.early(true)),
    ("EARLY itself, unreached modes", |whole| {
        whole.early(true) && whole.misses_unreached()
    }),
    ("EARLY another", |whole| whole.early(false)),
    ("EARLY another by a tick", |whole| {
        let start = whole.too_early().map(|op| op.start);
        start == Some(whole.decider.end() - 1)
    }),
    ("EARLY first of several", |whole| {
        whole.early(false) && whole.all_too_early() > 1
    }),
    ("CLASH before EARLY", |whole| {
        whole.is_refused(CLASH) && judge_early(whole.table).is_err()
    }),
    ("RACE before EARLY", |whole| {
        whole.is_refused(RACE) && judge_early(whole.table).is_err()
    }),
];

// ---- bytes --------------------------------------------------------------

/// Bytes that are refused at a field.
struct Field<'a> {
    bytes: &'a [u8],
    refusal: Refusal,
}

impl Field<'_> {
    fn tag(&self) -> Option<u8> {
        self.bytes.get(self.refusal.a as usize).copied()
    }

    /// What is before the field is a table.
    fn table_before(&self) -> Option<Table> {
        read_table(&self.bytes[..self.refusal.a as usize]).ok()
    }

    /// The field has tag 05 and is refused so.
    fn is_decider(&self, number: u32) -> bool {
        self.tag() == Some(0x05) && self.refusal.number == number
    }

    /// It is behind a field 05 and refused so.
    fn is_behind(&self, number: u32) -> bool {
        let decider = self.table_before().and_then(|table| table.decider);
        self.refusal.number == number && decider.is_some()
    }

    fn header_is_whole(&self) -> bool {
        self.bytes.len() >= self.refusal.a as usize + 3
    }
}

type OfField = (&'static str, fn(&Field<'_>) -> bool);

const OF_FIELDS: [OfField; 9] = [
    ("05 SHORT in its header", |field| {
        field.is_decider(SHORT) && !field.header_is_whole()
    }),
    ("05 SHORT in its value", |field| {
        field.is_decider(SHORT) && field.header_is_whole()
    }),
    ("05 SIZE", |field| field.is_decider(SIZE)),
    ("05 ORDER before an operation", |field| {
        field.is_decider(ORDER) && !field.is_behind(ORDER)
    }),
    ("05 ORDER behind another", |field| {
        field.is_decider(ORDER) && field.is_behind(ORDER)
    }),
    ("04 ORDER behind 05", |field| {
        field.is_behind(ORDER) && field.tag() == Some(0x04)
    }),
    ("04 ORDER behind 05, a 33rd", |field| {
        let before = field.table_before().map(|table| table.ops.len());
        field.is_behind(ORDER) && field.tag() == Some(0x04) && before == Some(MOST_OPS)
    }),
    ("other ORDER behind 05", |field| {
        field.is_behind(ORDER) && !matches!(field.tag(), Some(0x04) | Some(0x05))
    }),
    ("SHORT behind 05", |field| field.is_behind(SHORT)),
];

// ---- numbers ------------------------------------------------------------

/// Numbers handed over, and their refusal.
struct Handed<'a> {
    numbers: &'a Numbers,
    refusal: Option<Refusal>,
}

impl Handed<'_> {
    fn is_marked(&self) -> bool {
        self.numbers.mark != 0
    }

    fn is_refused(&self, number: u32) -> bool {
        self.refusal.map(|refusal| refusal.number) == Some(number)
    }
}

type OfNumbers = (&'static str, fn(&Handed<'_>) -> bool);

const OF_NUMBERS: [OfNumbers; 6] = [
    ("marked by other than 1, accepted", |handed| {
        handed.numbers.mark > 1 && handed.refusal.is_none()
    }),
    ("not marked, no operation, accepted", |handed| {
        let ops = handed.numbers.ops.len() / NUMBERS_PER_OP;
        let is_none = handed.numbers.decider >= ops as u64;
        !handed.is_marked() && is_none && handed.refusal.is_none()
    }),
    ("marked, SHORT", |handed| {
        handed.is_marked() && handed.is_refused(SHORT)
    }),
    ("marked, ORDER", |handed| {
        handed.is_marked() && handed.is_refused(ORDER)
    }),
    ("marked, SIZE", |handed| {
        handed.is_marked() && handed.is_refused(SIZE)
    }),
    ("marked, MANY", |handed| {
        handed.is_marked() && handed.is_refused(MANY)
    }),
];

// ---- how often ----------------------------------------------------------

/// Of the inputs of both functions that judge: whole tables as bytes and as numbers, fields
/// in bytes, numbers.
#[derive(Default)]
pub struct Deciders {
    tables: [[u64; 2]; OF_TABLES.len()],
    fields: [u64; OF_FIELDS.len()],
    numbers: [u64; OF_NUMBERS.len()],
}

/// Places of both ways to hand a table over.
const BYTES: usize = 0;
const NUMBERS: usize = 1;

impl Deciders {
    /// A table whose fields are good, handed over in one of the two ways.
    fn note_table(&mut self, table: &Table, way: usize) {
        if let Some(number) = table.decider {
            let whole = Whole {
                table,
                decider: &table.ops[number as usize],
                refusal: judge_table(table).err(),
            };
            for (counts, (_, is_met)) in self.tables.iter_mut().zip(OF_TABLES) {
                counts[way] += u64::from(is_met(&whole));
            }
        }
    }

    pub fn note_bytes(&mut self, bytes: &[u8]) {
        let refusal = match read_table(bytes) {
            Ok(table) => return self.note_table(&table, BYTES),
            Err(refusal) => refusal,
        };
        let field = Field { bytes, refusal };
        for (count, (_, is_met)) in self.fields.iter_mut().zip(OF_FIELDS) {
            *count += u64::from(is_met(&field));
        }
    }

    pub fn note_numbers(&mut self, numbers: &Numbers) {
        let read = read_numbers(numbers);
        if let Ok(table) = &read {
            self.note_table(table, NUMBERS);
        }
        let refusal = read.and_then(|table| judge_table(&table)).err();
        let handed = Handed { numbers, refusal };
        for (count, (_, is_met)) in self.numbers.iter_mut().zip(OF_NUMBERS) {
            *count += u64::from(is_met(&handed));
        }
    }

    /// Every kind with its counts: as bytes and as numbers, where it can be met so.
    fn all(&self) -> Vec<Kind> {
        let tables = OF_TABLES.iter().zip(&self.tables);
        let tables = tables.map(|((name, _), counts)| (*name, counts.map(Some)));
        let fields = OF_FIELDS.iter().zip(&self.fields);
        let fields = fields.map(|((name, _), count)| (*name, [Some(*count), None]));
        let numbers = OF_NUMBERS.iter().zip(&self.numbers);
        let numbers = numbers.map(|((name, _), count)| (*name, [None, Some(*count)]));
        tables.chain(fields).chain(numbers).collect()
    }

    /// A line for each kind.
    pub fn print(&self) {
        counts::print(COMMON, &self.all());
    }

    /// The kinds that were not met.
    pub fn missed(&self) -> Vec<String> {
        counts::missed(COMMON, &self.all())
    }
}
