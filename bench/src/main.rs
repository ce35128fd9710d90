//! Compares the static library with a twin written from the definitions, and measures both.
//!
//!     morvuges-bench compare [ROUNDS]    the same answers on so many rounds by chance
//!     morvuges-bench measure             calls at 16 doors: times and ratios
//!     morvuges-bench stack               how much stack a call of the library takes
//!     morvuges-bench texts | sheets      rounds by chance, and their sheets as the twin works them out
//!     morvuges-bench mixed-texts | mixed-answers CASES    cases for `checks mixed`, and what it is to print
//!     morvuges-bench repeat library|twin WIDTH TIMES ROUNDS    open and refine in one of the two alone, for a profiler

mod chance;
mod clock;
mod compare;
mod diagram;
mod library;
mod measure;
mod mixed;
mod round;
mod sheets;
mod stack;

use std::process::ExitCode;

fn main() -> ExitCode {
    let words: Vec<String> = std::env::args().skip(1).collect();
    let words: Vec<&str> = words.iter().map(String::as_str).collect();
    match words[..] {
        ["compare"] => compare::compare(20_000),
        ["compare", rounds] => compare::compare(rounds.parse().expect("how many rounds")),
        ["measure"] => measure::measure(),
        ["stack"] => stack::print(),
        ["texts"] => {
            sheets::print_texts();
            ExitCode::SUCCESS
        }
        ["sheets"] => {
            sheets::print_sheets();
            ExitCode::SUCCESS
        }
        ["mixed-texts", cases] => {
            print!("{}", mixed::Cases::by_chance(3, cases.parse().expect("how many cases")).texts);
            ExitCode::SUCCESS
        }
        ["mixed-answers", cases] => {
            print!("{}", mixed::Cases::by_chance(3, cases.parse().expect("how many cases")).answers);
            ExitCode::SUCCESS
        }
        ["repeat", who, width, times, rounds] => measure::repeat(
            who,
            width.parse().expect("a width"),
            times.parse().expect("how many times"),
            rounds.parse().expect("how many rounds, 24 at most"),
        ),
        _ => {
            eprintln!("usage: morvuges-bench compare [ROUNDS] | measure | stack | texts | sheets | mixed-texts CASES | mixed-answers CASES | repeat library|twin WIDTH TIMES ROUNDS");
            ExitCode::from(2)
        }
    }
}
