//! Kinds of inputs with how often each was met.

/// A kind's name, and how often it was met as bytes and as numbers, where it can be met so.
pub type Kind = (&'static str, [Option<u64>; 2]);

/// A line for each kind, under what they have in common.
pub fn print(common: &str, kinds: &[Kind]) {
    println!("{:<36}{:>8}{:>8}", common, "bytes", "numbers");
    for (name, counts) in kinds {
        let [bytes, numbers] = counts.map(|it| it.map_or(String::new(), |it| it.to_string()));
        let line = format!("{:<36}{:>8}{:>8}", name, bytes, numbers);
        println!("{}", line.trim_end());
    }
}

/// The kinds that were not met.
pub fn missed(common: &str, kinds: &[Kind]) -> Vec<String> {
    let missed = kinds.iter().filter(|(_, counts)| counts.contains(&Some(0)));
    missed
        .map(|(name, _)| format!("{}, never met: {}", common, name))
        .collect()
}

/// A line for each kind with how often it was met.
pub fn print_all(kinds: &[(&str, u64)]) {
    for (name, count) in kinds {
        println!("{:>8} of kind {}", count, name);
    }
}

/// The kinds of these that were not met.
pub fn missed_of(kinds: &[(&str, u64)]) -> Vec<String> {
    let missed = kinds.iter().filter(|(_, count)| *count == 0);
    missed
        .map(|(name, _)| format!("none of kind {}", name))
        .collect()
}
