//! The whole public answers (document 01, "Runs and right periods", "Bytes",
//! "Numbers of refusal", "The program").

use crate::gaps;
use crate::judge::{demand, judge, judge_ranges, number_in, push_field, push_number, put};
use crate::judge::{Fields, Refusal, Table, ASK, MOST_OPS};
use crate::walks::{self, period};

/// "reads at most 4096 bytes of standard input and ignores more"
const MOST_INPUT: usize = 4096;

/// The bytes of standard input that the program reads.
pub fn read_part(bytes: &[u8]) -> &[u8] {
    &bytes[..bytes.len().min(MOST_INPUT)]
}

/// "The longest table has 818 bytes", without what may be there beside: field 05 with 4
/// (document 02, No. 4), and 2 of a hold for each operation (No. 9: "the longest table has
/// 886 bytes, with the decider's field").
pub const LONGEST_TABLE: usize = LONGEST_PLAIN + LONGEST_HOLDS + DECIDER_FIELD;
pub const LONGEST_PLAIN: usize = 818;
pub const LONGEST_HOLDS: usize = 2 * MOST_OPS;
pub const DECIDER_FIELD: usize = 4;

/// "A reply has 5 + 7·operations bytes", the starts "2 bytes each".
pub const LONGEST_REPLY: usize = 5 + 7 * MOST_OPS;
pub const LONGEST_STARTS: usize = 2 * MOST_OPS;

/// No text has more bytes: the lines `period 1000` and `op 31 start 999 fst 999`
/// have 12 and 24.
pub const LONGEST_TEXT: usize = 12 + 24 * MOST_OPS;

/// One row of a folded table.
#[derive(Clone, Copy, Debug, PartialEq, Eq)]
pub struct Row {
    pub folded: u64,
    pub fst: u64,
}

/// A reply: the period and a row for each operation.
#[derive(Clone, Debug, PartialEq, Eq)]
pub struct Reply {
    pub period: u64,
    pub rows: Vec<Row>,
}

/// "fst is the whole part of t / q, and the folded start is t − fst·q"
fn row_of(start: u64, q: u64) -> Row {
    let fst = start / q;
    Row {
        folded: start - fst * q,
        fst,
    }
}

/// The table folded onto its period.
pub fn fold(bytes: &[u8]) -> Result<Reply, Refusal> {
    let table = judge(bytes)?;
    let q = period(&table);
    Ok(Reply {
        period: q,
        rows: table.ops.iter().map(|op| row_of(op.start, q)).collect(),
    })
}

/// "Reply fields: 11, length 2: period. 12, length 4, for each operation in table
/// order: folded start, fst (16 bits each)."
pub fn reply_bytes(reply: &Reply) -> Vec<u8> {
    let mut out = Vec::new();
    let mut value = Vec::new();
    push_number(&mut value, reply.period, 2);
    push_field(&mut out, 0x11, &value);
    for row in &reply.rows {
        let mut value = Vec::new();
        push_number(&mut value, row.folded, 2);
        push_number(&mut value, row.fst, 2);
        push_field(&mut out, 0x12, &value);
    }
    out
}

/// The reply of a table, then ROOM; the number of bytes written.
pub fn plan(bytes: &[u8], out: &mut [u8]) -> Result<usize, Refusal> {
    put(&reply_bytes(&fold(bytes)?), out)
}

/// "In a reply read for unfolding the period is 1 to 1000".
fn read_period(fields: &mut Fields) -> Result<u64, Refusal> {
    let at = fields.offset();
    let q = number_in(fields.field(0x11, &[2], 0)?);
    judge_ranges(at, &[(2, q, 1 <= q && q <= 1000)])?;
    Ok(q)
}

/// "each folded start is below it, each unfolded start is at most 999"; one that is
/// above blames "its start index". Gives the unfolded start.
fn read_row(fields: &mut Fields, q: u64, before: usize) -> Result<u64, Refusal> {
    let at = fields.offset();
    let value = fields.field(0x12, &[4], before)?;
    let (folded, fst) = (number_in(&value[0..2]), number_in(&value[2..4]));
    let start = fst * q + folded;
    judge_ranges(at, &[(2, folded, folded < q), (2, fst, start <= 999)])?;
    Ok(start)
}

/// "and there are 1 to 32 operations": all unfolded starts in order.
pub fn read_starts(bytes: &[u8]) -> Result<Vec<u64>, Refusal> {
    let mut fields = Fields::new(bytes);
    let q = read_period(&mut fields)?;
    let mut starts = Vec::new();
    loop {
        starts.push(read_row(&mut fields, q, starts.len())?);
        if fields.at_end() {
            return Ok(starts);
        }
    }
}

/// "the starts in order, 2 bytes each"
pub fn start_bytes(starts: impl Iterator<Item = u64>) -> Vec<u8> {
    let mut bytes = Vec::new();
    for start in starts {
        push_number(&mut bytes, start, 2);
    }
    bytes
}

/// The starts that a reply's rows came from.
pub fn starts_of(reply: &[u8]) -> Result<Vec<u8>, Refusal> {
    Ok(start_bytes(read_starts(reply)?.into_iter()))
}

/// "Unfolding writes the starts", then ROOM; the number of bytes written.
pub fn unfold(reply: &[u8], out: &mut [u8]) -> Result<usize, Refusal> {
    put(&starts_of(reply)?, out)
}

/// "for the margin the order is i, j, n, q, places 0 to 3"; "n is 1 to 1000 and q
/// is 1 to p".
fn judge_margin_question(table: &Table, i: u64, j: u64, n: u64, q: u64) -> Result<(), Refusal> {
    let ops = table.ops.len() as u64;
    demand(i < ops, ASK, 0)?;
    demand(j < ops, ASK, 1)?;
    demand(1 <= n && n <= 1000, ASK, 2)?;
    demand(1 <= q && q <= table.len, ASK, 3)
}

/// "The margin of operations i, j at distance n and period q is n·q − (t + d of
/// i, less t of j). It is signed"; "margins still go by the duration".
pub fn margin(bytes: &[u8], i: u64, j: u64, n: u64, q: u64) -> Result<i64, Refusal> {
    let table = judge(bytes)?;
    judge_margin_question(&table, i, j, n, q)?;
    let end_of_i = table.ops[i as usize].end() as i64;
    let start_of_j = table.ops[j as usize].start as i64;
    Ok(n as i64 * q as i64 - (end_of_i - start_of_j))
}

/// A table, and a period from 1 to p that is asked for: the table's refusals, then ASK
/// with the period at place 0, for both questions (document 02, No. 10: "each has the
/// old question's, in the same order").
fn judge_period_question(bytes: &[u8], q: u64) -> Result<Table, Refusal> {
    let table = judge(bytes)?;
    demand(1 <= q && q <= table.len, ASK, 0)?;
    Ok(table)
}

/// "whether a period fits the boards"
pub fn boards_fit(bytes: &[u8], q: u64) -> Result<bool, Refusal> {
    judge_period_question(bytes, q).map(|table| walks::boards_fit(&table, q))
}

/// "whether values arrive"
pub fn values_arrive(bytes: &[u8], q: u64) -> Result<bool, Refusal> {
    judge_period_question(bytes, q).map(|table| walks::values_arrive(&table, q))
}

/// "the smallest gap", of a table that is accepted
pub fn gap(bytes: &[u8]) -> Result<u64, Refusal> {
    judge(bytes).map(|table| gaps::gap(&table))
}

/// "one line `refused n a b`"
pub fn refusal_text(refusal: &Refusal) -> String {
    format!("refused {} {} {}\n", refusal.number, refusal.a, refusal.b)
}

/// "`period q`, then `op i start s fst f` for each operation in order"
fn reply_text(reply: &Reply) -> String {
    let mut text = format!("period {}\n", reply.period);
    for (i, row) in reply.rows.iter().enumerate() {
        text.push_str(&format!("op {} start {} fst {}\n", i, row.folded, row.fst));
    }
    text
}

/// What is printed of a folded table, or of a refusal. Every line, the last one too,
/// ends with a line feed.
pub fn text_of(folded: &Result<Reply, Refusal>) -> String {
    match folded {
        Ok(reply) => reply_text(reply),
        Err(refusal) => refusal_text(refusal),
    }
}

/// What `fold` prints for these bytes of standard input.
pub fn text(bytes: &[u8]) -> String {
    text_of(&fold(read_part(bytes)))
}
