//! The words of the program `fold`: what can be asked with them, and what is printed.

use crate::answers::{self, refusal_text};
use crate::examples::input;
use crate::judge::Refusal;
use std::ffi::OsString;
use std::os::unix::ffi::OsStringExt;

/// What can be asked: printed on standard error where the words are no question.
pub const LIST: &str = "\
fold: the period and the rows of the table on standard input
fold boards Q: do the boards fit at period Q
fold values Q: do the values arrive at period Q
fold margin I J N Q: ticks left from the end of step I to the start of step J, N cycles later, at period Q
fold unfold: the starts of the reply on standard input
fold gap: the smallest gap from one start to the next, for cycles that the operator starts
I, J, N, Q are decimal numbers
";

/// A word: any bytes.
pub type Word = Vec<u8>;

/// What is asked about the bytes on standard input, with its numbers.
#[derive(Clone, Copy, Debug, PartialEq, Eq)]
pub enum Question {
    Fold,
    Boards(u64),
    Values(u64),
    Margin(u64, u64, u64, u64),
    Unfold,
    Gap,
}

// ---- from words to a question -------------------------------------------

/// One or more digits 0 to 9 and nothing else; leading zeros are permitted. A number beyond
/// 64 bits is out of every range that a number is asked in, and so is the highest of 64 bits,
/// which stands for it here.
pub fn decimal(word: &[u8]) -> Option<u64> {
    let is_number = !word.is_empty() && word.iter().all(u8::is_ascii_digit);
    let next = |so_far: u64, digit: &u8| {
        let digit = u64::from(*digit - b'0');
        so_far.saturating_mul(10).saturating_add(digit)
    };
    is_number.then(|| word.iter().fold(0, next))
}

/// The question that the words are, compared exactly, with as many numbers as it has; none
/// where they are no question.
pub fn question_in(words: &[Word]) -> Option<Question> {
    let (name, rest) = match words.split_first() {
        Some(parts) => parts,
        None => return Some(Question::Fold),
    };
    let numbers: Option<Vec<u64>> = rest.iter().map(|word| decimal(word)).collect();
    match (&name[..], &numbers?[..]) {
        (b"boards", [q]) => Some(Question::Boards(*q)),
        (b"values", [q]) => Some(Question::Values(*q)),
        (b"margin", [i, j, n, q]) => Some(Question::Margin(*i, *j, *n, *q)),
        (b"unfold", []) => Some(Question::Unfold),
        (b"gap", []) => Some(Question::Gap),
        _ => None,
    }
}

// ---- from a question to text --------------------------------------------

/// The text of an answer, or the line of a refusal.
fn told<T>(answer: Result<T, Refusal>, text: impl FnOnce(T) -> String) -> String {
    answer.map_or_else(|refusal| refusal_text(&refusal), text)
}

fn yes_or_no(yes: bool) -> String {
    String::from(if yes { "yes\n" } else { "no\n" })
}

/// A line for each row of the reply.
fn starts_text(starts: Vec<u64>) -> String {
    let rows = starts.iter().enumerate();
    rows.map(|(i, start)| format!("op {} start {}\n", i, start))
        .collect()
}

/// What is printed on standard output for a question about these bytes.
pub fn text(question: Question, bytes: &[u8]) -> String {
    let bytes = answers::read_part(bytes);
    match question {
        Question::Fold => answers::text(bytes),
        Question::Boards(q) => told(answers::boards_fit(bytes, q), yes_or_no),
        Question::Values(q) => told(answers::values_arrive(bytes, q), yes_or_no),
        Question::Margin(i, j, n, q) => told(answers::margin(bytes, i, j, n, q), |margin| {
            format!("margin {}\n", margin)
        }),
        Question::Unfold => told(answers::read_starts(bytes), starts_text),
        Question::Gap => told(answers::gap(bytes), |gap| format!("gap {}\n", gap)),
    }
}

/// What the program prints for words and for bytes on standard input: on standard output, and
/// on standard error.
pub fn printed(words: &[Word], bytes: &[u8]) -> (String, String) {
    match question_in(words) {
        Some(question) => (text(question, bytes), String::new()),
        None => (String::new(), String::from(LIST)),
    }
}

/// The same, printed, for the bytes on standard input. The words are looked at first.
pub fn ask_command(words: Vec<OsString>) -> bool {
    let words: Vec<Word> = words.into_iter().map(OsString::into_vec).collect();
    match question_in(&words) {
        Some(question) => print!("{}", text(question, &input())),
        None => eprint!("{}", LIST),
    }
    true
}
