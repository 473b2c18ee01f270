//! Folds the table in a file, or on standard input where no file is named. Prints the text of the
//! program fold: the period and a line for each operation, or one line `refused n a b`. Where the
//! table is accepted, it reads the rows of the reply, unfolds the reply again, and says whether the
//! table's starts came back from both.

use std::io::{Read, Write};

/// No text has more bytes than this; replies and starts are shorter.
const TREVOZHIL_LONGEST_TEXT: usize = 780;

// Each writes the bytes that it answers to out, and 0 or the number of a refusal is what it returns:
// include/trevozhil.h says it all.
#[rustfmt::skip]
extern "C" {
    fn trevozhil_fold(s: *const u8, s_len: usize, out: *mut u8, out_len: usize, a: *mut u64, b: *mut u64) -> u32;
    fn trevozhil_plan(s: *const u8, s_len: usize, out: *mut u8, out_len: usize, a: *mut u64, b: *mut u64) -> u32;
    fn trevozhil_unfold(s: *const u8, s_len: usize, out: *mut u8, out_len: usize, a: *mut u64, b: *mut u64) -> u32;
}

/// One of the three.
type Writing = unsafe extern "C" fn(*const u8, usize, *mut u8, usize, *mut u64, *mut u64) -> u32;

/// The bytes that a function writes for these; none where it refuses them.
fn written(function: Writing, bytes: &[u8]) -> Option<Vec<u8>> {
    let mut out = vec![0; TREVOZHIL_LONGEST_TEXT];
    let (mut a, mut b) = (0, 0);
    // each pointer goes with the length of what it comes from, and no two of them meet
    let number = unsafe {
        function(
            bytes.as_ptr(),
            bytes.len(),
            out.as_mut_ptr(),
            out.len(),
            &mut a,
            &mut b,
        )
    };
    out.truncate(a as usize);
    (number == 0).then_some(out)
}

/// The number in the two bytes at a place, the most significant first.
fn number_at(bytes: &[u8], place: usize) -> u16 {
    u16::from_be_bytes([bytes[place], bytes[place + 1]])
}

/// The starts that the rows of a reply came from. The period is in its first field, of 5 bytes; each
/// later field has 7 bytes and is a row: the folded start, and the number of periods before it.
fn starts_of_rows(reply: &[u8]) -> Vec<u8> {
    let period = number_at(reply, 3);
    let rows = reply[5..].chunks(7);
    rows.flat_map(|row| (number_at(row, 5) * period + number_at(row, 3)).to_be_bytes())
        .collect()
}

/// The starts of an accepted table. Its operations come after the field of the turns, which is at
/// 11; each is a field with the tag 4, whose first number is the start, and is 3 bytes longer than
/// its length says. The decider's field may come behind them.
fn starts_in(table: &[u8]) -> Vec<u8> {
    let mut starts = Vec::new();
    let mut at = 11 + 3 + number_at(table, 12) as usize;
    while table.get(at) == Some(&4) {
        starts.extend_from_slice(&table[at + 3..at + 5]);
        at += 3 + number_at(table, at + 1) as usize;
    }
    starts
}

fn fold(table: &[u8]) -> std::io::Result<()> {
    let text = written(trevozhil_fold, table).unwrap_or_default();
    std::io::stdout().write_all(&text)?;
    if let Some(reply) = written(trevozhil_plan, table) {
        let starts = starts_in(table);
        let unfolded = written(trevozhil_unfold, &reply);
        let good = unfolded.as_ref() == Some(&starts) && starts_of_rows(&reply) == starts;
        let words = if good { "came" } else { "did not come" };
        println!("the starts {} back", words);
    }
    Ok(())
}

fn main() -> std::io::Result<()> {
    let mut table = Vec::new();
    match std::env::args().nth(1) {
        Some(file) => std::fs::File::open(file)?.read_to_end(&mut table)?,
        None => std::io::stdin().read_to_end(&mut table)?,
    };
    fold(&table)
}
