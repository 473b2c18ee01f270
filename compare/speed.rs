//! The time of the library's period search, beside that of a simple planner and that of the library's gap, on the same
//! tables in the same program. On the largest tables the gap may take no longer than the period.
//!
//! All timing comes before the first thread: under an emulator every access is slower once a program has started one. The
//! test with little stack, which needs threads, comes last.

use crate::gaps;
use crate::generate::{self, Seed};
use crate::judge::{bytes_of, Op, Table};
use crate::library::{self, Said};
use crate::options;
use crate::picture::{self, Panel, Point};
use crate::simple;
use crate::stack;
use crate::times::{ratio, readable, timed, Times, MOST_CALLS, ROUND, ROUNDS};
use std::io::Write;

// ---- what is asked ------------------------------------------------------

/// How many tables of each family are drawn and from which seed, what it is measured on, and the picture's file.
struct Asked {
    count: u64,
    seed: u64,
    on: String,
    picture: Option<String>,
}

impl Asked {
    /// Growth has more families, so they are smaller.
    fn growth_count(&self) -> u64 {
        (self.count / 4).max(1)
    }

    /// Tables of a family; each begins with the seed, so that none depends on those before it.
    fn tables(&self, count: u64, draw: impl Fn(&mut Seed) -> Table) -> Vec<Table> {
        let mut seed = Seed::new(self.seed);
        (0..count).map(|_| draw(&mut seed)).collect()
    }
}

/// The arguments in pairs; none where they are not understood.
fn asked(args: &[String]) -> Option<Asked> {
    let (mut on, mut picture, mut numbers) = (None, None, Vec::new());
    for pair in args.chunks(2) {
        match (pair[0].as_str(), pair.get(1)) {
            ("--on", Some(text)) => on = Some(text.clone()),
            ("--picture", Some(file)) => picture = Some(file.clone()),
            _ => numbers.extend_from_slice(pair),
        }
    }
    let (count, seed) = options(&numbers)?;
    Some(Asked {
        count: count.unwrap_or(200).max(1),
        seed: seed.unwrap_or(1),
        on: on.unwrap_or_else(|| String::from("a computer that was not named")),
        picture,
    })
}

// ---- all on the same tables ---------------------------------------------

/// What both took for the period of some tables, the library for the gap, and what was answered.
#[derive(Default)]
struct Measured {
    library: Times,
    gap: Times,
    simple: Times,
    periods: Vec<u64>,
    differ: bool,
}

/// The period or the gap that is said; 0, which neither is, where the table is refused.
fn answer(said: Said) -> u64 {
    if said.number == 0 {
        said.a
    } else {
        0
    }
}

/// All on each table in turn. The library is handed bytes, which it also reads and judges; the simple planner is handed
/// what they say. The gap is held to that of this folder's planner, which is not timed.
fn measure(tables: &[Table]) -> Measured {
    let mut measured = Measured::default();
    for table in tables {
        let mut bytes = bytes_of(table);
        let (q, seconds) = timed(|| answer(library::period(&mut bytes)));
        measured.library.push(seconds);
        let (gap, seconds) = timed(|| answer(library::gap(&mut bytes)));
        measured.gap.push(seconds);
        let (simple_q, seconds) = timed(|| simple::period(table));
        measured.simple.push(seconds);
        measured.periods.push(q);
        measured.differ |= q != simple_q || gap != gaps::gap(table);
    }
    measured
}

impl Measured {
    /// The smallest, the middle and the largest period.
    fn print_periods(&self) {
        let mut all = self.periods.clone();
        all.sort_unstable();
        let (last, middle) = (all.len() - 1, all.len() / 2);
        println!(
            "  periods {} to {}, half of them from {} on",
            all[0], all[last], all[middle]
        );
    }

    fn print(&self) {
        let (quick, slow, gap) = (&self.library, &self.simple, &self.gap);
        println!(
            "            {:>10} {:>10} {:>10}",
            "mean", "median", "worst"
        );
        for (name, times) in [("library", quick), ("its gap", gap), ("simple", slow)] {
            let all = [times.mean(), times.median(), times.worst()].map(readable);
            println!("  {:<9} {:>10} {:>10} {:>10}", name, all[0], all[1], all[2]);
        }
        println!(
            "  simple / library: {} of the means, {} of the medians, {} on the table where it is least",
            ratio(slow.mean() / quick.mean()),
            ratio(slow.median() / quick.median()),
            ratio(slow.least_ratio(quick)),
        );
        println!(
            "  gap / period: {} of the means, {} of the worst, {} on the table where it is most",
            ratio(gap.mean() / quick.mean()),
            ratio(gap.worst() / quick.worst()),
            ratio(gap.most_ratio(quick)),
        );
    }

    fn point(&self, size: u64) -> Point {
        Point {
            size,
            library: self.library.mean(),
            simple: self.simple.mean(),
        }
    }
}

// ---- the families -------------------------------------------------------

/// Its name, what its tables are, and how one is drawn.
type Family = (&'static str, &'static str, fn(&mut Seed) -> Table);

/// What is said of a family at its generator is longer.
const FAMILIES: [Family; 6] = [
    (
        "largest",
        "p 1000, 32 operations, 32 modes, 16 boards, 32 cells (generate::largest)",
        generate::largest,
    ),
    (
        "nothing read or written",
        "the same tables, with each operation's reads and writes taken away (generate::nothing_read_or_written)",
        generate::nothing_read_or_written,
    ),
    (
        "no cells",
        "drawn as the largest, without cells, so that the simple planner has none to look through (generate::no_cells)",
        generate::no_cells,
    ),
    (
        "ring, drawn",
        "most time of those tried: small periods over a ring of 32 modes, 32 operations drawn (generate::ring_drawn)",
        generate::ring_drawn,
    ),
    (
        "ring, placed",
        "least ratio of those tried: small periods over a ring of 32 modes, 32 operations placed (generate::ring_placed)",
        generate::ring_placed,
    ),
    (
        "near",
        "most distances: periods and gaps of 1 or 2, 32 operations in the first two ticks (generate::near)",
        generate::near,
    ),
];

/// One family.
fn family(asked: &Asked, (name, what, draw): Family) -> Measured {
    let measured = measure(&asked.tables(asked.count, draw));
    println!("\n{}: {}", name, what);
    println!("  {} tables, seed {}", asked.count, asked.seed);
    measured.print_periods();
    measured.print();
    measured
}

/// The one table that is not drawn.
fn hard() -> Measured {
    let measured = measure(&[hard_table()]);
    let (quick, slow) = (measured.library.mean(), measured.simple.mean());
    println!(
        "\nthe hard table (speed::hard_table): library {}, simple {}, simple / library {}",
        readable(quick),
        readable(slow),
        ratio(slow / quick)
    );
    let gap = measured.gap.mean();
    println!(
        "  its gap {}, gap / period {}",
        readable(gap),
        ratio(gap / quick)
    );
    measured
}

/// Whether the gap takes no longer than the period: by the means of the first family, which is that of the largest
/// tables, and by the worst table of all that were met.
fn gap_is_no_longer(all: &[Measured]) -> bool {
    let worst = |times: fn(&Measured) -> &Times| {
        let worst = all.iter().map(|measured| times(measured).worst());
        worst.fold(0.0, f64::max)
    };
    let means = [all[0].gap.mean(), all[0].library.mean()];
    let worst = [worst(|it| &it.gap), worst(|it| &it.library)];
    println!("\nthe gap beside the period:");
    for (what, [gap, period]) in [("mean of the largest", means), ("worst of all", worst)] {
        println!(
            "  {}: gap {}, period {}, gap / period {}",
            what,
            readable(gap),
            readable(period),
            ratio(gap / period)
        );
    }
    let good = means[0] <= means[1] && worst[0] <= worst[1];
    println!(
        "  the gap takes {} than the period on the largest tables",
        if good { "no longer" } else { "longer" }
    );
    good
}

// ---- growth -------------------------------------------------------------

/// What grows, over which sizes, and how a table of one size is drawn.
type Growth = (&'static str, &'static [u64], fn(&mut Seed, u64) -> Table);

const GROWTHS: [Growth; 3] = [
    ("p", &[125, 250, 500, 1000], |seed, p| {
        generate::sized(seed, p, 32, 32)
    }),
    ("operations", &[4, 8, 16, 32], |seed, ops| {
        generate::sized(seed, 1000, ops, 32)
    }),
    ("modes", &[1, 8, 32], |seed, modes| {
        generate::sized(seed, 1000, 32, modes)
    }),
];

/// A line for each size; the panel, and whether both agree.
fn growth(asked: &Asked, (name, sizes, draw): Growth) -> (Panel, bool) {
    let (mut points, mut same) = (Vec::new(), true);
    println!(
        "  {:<12} {:>10} {:>10} {:>8}",
        name, "library", "simple", "ratio"
    );
    for size in sizes {
        let tables = asked.tables(asked.growth_count(), |seed| draw(seed, *size));
        let measured = measure(&tables);
        same &= !measured.differ;
        let point = measured.point(*size);
        println!(
            "  {:<12} {:>10} {:>10} {:>8}",
            size,
            readable(point.library),
            readable(point.simple),
            ratio(point.simple / point.library)
        );
        points.push(point);
    }
    (Panel { name, points }, same)
}

/// All three, and the panels of the picture.
fn all_growth(asked: &Asked) -> (Vec<Panel>, bool) {
    println!(
        "\ngrowth: all else as in the largest, durations in proportion to p (generate::sized)"
    );
    println!(
        "  means, {} tables each, seed {}",
        asked.growth_count(),
        asked.seed
    );
    let (mut panels, mut same) = (Vec::new(), true);
    for one in GROWTHS {
        let (panel, agree) = growth(asked, one);
        panels.push(panel);
        same &= agree;
    }
    (panels, same)
}

// ---- the command --------------------------------------------------------

/// Each table of the first family gets the same period on a thread with what the header says to reserve. A search that
/// needs more ends the process, so the size is printed first.
fn small_stack_serves(asked: &Asked) -> bool {
    print!(
        "on a thread with {} bytes of stack below the call: ",
        stack::RESERVE
    );
    std::io::stdout().flush().expect("standard output");
    let tables = asked.tables(asked.count, FAMILIES[0].2);
    let good = stack::period_in_reserve(&tables);
    let said = if good { "the same" } else { "other" };
    println!("{} periods of the largest", said);
    good
}

/// What the times mean.
fn print_rule(asked: &Asked) {
    let built = if cfg!(debug_assertions) {
        "not optimised"
    } else {
        "optimised"
    };
    println!("the period search of the library, beside that of a simple planner (simple.rs), and its gap");
    println!("measured on {}", asked.on);
    println!("compiled for {}, {}", std::env::consts::ARCH, built);
    println!(
        "a time is the processor's for one call, the least of {} rounds; a round has as many calls as take {},",
        ROUNDS,
        readable(ROUND)
    );
    println!(
        "at least 1 and at most {}, by one call before the rounds, which is not counted; the same for both",
        MOST_CALLS
    );
    println!("the library also reads and judges the table's bytes, the simple planner does not");
}

/// The file of the picture, with what it shows; true where there is nothing to write or it was written.
fn write_picture(asked: &Asked, panels: &[Panel]) -> bool {
    let file = match &asked.picture {
        Some(file) => file,
        None => return true,
    };
    let drawn = format!(
        "Means of {} tables at each size, seed {}; all else as in the largest tables.",
        asked.growth_count(),
        asked.seed
    );
    let text = picture::svg(panels, &[drawn, format!("Measured on {}.", asked.on)]);
    match std::fs::write(file, text) {
        Ok(()) => println!("the growth is drawn in {}", file),
        Err(error) => {
            println!("{}: {}", file, error);
            return false;
        }
    }
    true
}

/// Times of all families and of growth, then the test with little stack. True where every answer is the same; only then
/// the picture is written; and where the gap takes no longer than the period.
pub fn speed_command(args: &[String]) -> bool {
    let asked = match asked(args) {
        Some(asked) => asked,
        None => {
            println!("speed --count N --seed S --on TEXT --picture FILE");
            return false;
        }
    };
    print_rule(&asked);
    let families = FAMILIES.into_iter().map(|one| family(&asked, one));
    let mut all: Vec<Measured> = families.collect();
    all.push(hard());
    let no_longer = gap_is_no_longer(&all);
    let (panels, agree) = all_growth(&asked);
    let same = agree && all.iter().all(|measured| !measured.differ);
    println!();
    println!("{}", if same { "all agree" } else { "they differ" });
    let written = same && write_picture(&asked, &panels);
    let served = small_stack_serves(&asked);
    written && served && no_longer
}

// ---- the table that is not drawn ----------------------------------------

/// One tick on a board, in half of the modes.
fn short_op(start: u64, board: u64, reads: u64, writes: u64, upper: bool) -> Op {
    let modes = if upper { 0xffff_0000 } else { 0x0000_ffff };
    Op {
        start,
        dur: 1,
        hold: None,
        boards: 1 << board,
        reads,
        writes,
        modes,
    }
}

/// A table with every count at its highest: every q below p is wrong, nearly all of them only by the last mode and the
/// last cell, and each other cell is carried along by half of the modes.
pub fn hard_table() -> Table {
    let low = 0x7fff_ffff;
    let mut ops = vec![short_op(0, 0, 0, low, false), short_op(0, 0, 0, 0, true)];
    for board in 1..15 {
        ops.push(short_op(1, board, low, 0, false));
        ops.push(short_op(1, board, low, 0, true));
    }
    ops.push(Op {
        start: 999,
        dur: 1,
        hold: None,
        boards: 1 << 15,
        reads: 0,
        writes: 1 << 31,
        modes: 1 << 31,
    });
    ops.push(Op {
        start: 0,
        dur: 1,
        hold: None,
        boards: 1 << 15,
        reads: 1 << 31,
        writes: 0,
        modes: 1,
    });
    let follow = vec![0xffff_ffff; 32];
    Table {
        len: 1000,
        boards: 16,
        cells: 32,
        modes: 32,
        first: 1,
        follow,
        ops,
        decider: None,
    }
}
