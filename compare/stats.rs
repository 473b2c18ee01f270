//! How often the drawn inputs meet each refusal.

use crate::answers;
use crate::findings::NAMES;
use crate::generate::{self, Seed};
use crate::judge::{bytes_of_numbers, judge, write_table, Refusal};

/// How often success (place 0) and each refusal (its number) was met.
#[derive(Default)]
struct Counts([u64; NAMES.len()]);

impl Counts {
    fn note<T>(&mut self, answer: &Result<T, Refusal>) {
        let place = answer
            .as_ref()
            .err()
            .map_or(0, |refusal| refusal.number as usize);
        self.0[place] += 1;
    }

    fn print(&self, name: &str) {
        print!("{:<9}", name);
        self.0.iter().for_each(|count| print!("{:>8}", count));
        println!();
    }
}

/// All counts, by what was asked.
#[derive(Default)]
struct Stats {
    plan: Counts,
    unfold: Counts,
    numbers: Counts,
    margin: Counts,
    boards: Counts,
    values: Counts,
    whole: Counts,
}

/// One input for plan and for the three questions.
fn stat_table(seed: &mut Seed, stats: &mut Stats) {
    let bytes = generate::table_bytes(seed);
    let ops = bytes.len().saturating_sub(22) / 21;
    let mut out = vec![0; generate::room(seed, 5 + 7 * ops)];
    stats.plan.note(&answers::plan(&bytes, &mut out));
    let (ops, p) = judge(&bytes).map_or((3, 9), |table| (table.ops.len() as u64, table.len));
    let (i, j, n, q) = generate::margin_question(seed, ops, p);
    stats.margin.note(&answers::margin(&bytes, i, j, n, q));
    let q = generate::period_question(seed, p);
    stats.boards.note(&answers::boards_fit(&bytes, q));
    stats.values.note(&answers::values_arrive(&bytes, q));
}

/// One reply.
fn stat_reply(seed: &mut Seed, stats: &mut Stats) {
    let bytes = generate::reply(seed);
    let rows = bytes.len().saturating_sub(5) / 7;
    let mut out = vec![0; generate::room(seed, 2 * rows)];
    stats.unfold.note(&answers::unfold(&bytes, &mut out));
}

/// One table as numbers.
fn stat_numbers(seed: &mut Seed, stats: &mut Stats) {
    let numbers = generate::numbers(seed);
    let length = bytes_of_numbers(&numbers).len();
    let mut out = vec![0; generate::room(seed, length)];
    stats.numbers.note(&write_table(&numbers, &mut out));
}

pub fn stats_command(count: u64, mut seed: Seed) -> bool {
    let mut stats = Stats::default();
    for i in 0..count {
        match i % 4 {
            0 | 1 => stat_table(&mut seed, &mut stats),
            2 => stat_reply(&mut seed, &mut stats),
            _ => stat_numbers(&mut seed, &mut stats),
        }
        if i % 4 == 0 {
            stats.whole.note(&judge(&generate::whole(&mut seed)));
        }
    }
    print!("{:<9}", "");
    NAMES.iter().for_each(|name| print!("{:>8}", name));
    println!();
    stats.plan.print("plan");
    stats.unfold.print("unfold");
    stats.numbers.print("numbers");
    stats.margin.print("margin");
    stats.boards.print("boards");
    stats.values.print("values");
    stats.whole.print("whole");
    true
}
