//! Rounds whose sheets the library's program `checks` is to print with the word `sheets`: their texts, and their sheets as the twin
//! works them out.

use crate::chance::Chance;
use crate::diagram::Diagram;
use crate::round::{Drawn, Keepers, Round, grid_above_1};
use std::fmt::Write;

/// The width at which the programs open a diagram.
const WIDTH: usize = 16;

/// How rounds with hours around some order are drawn.
const AROUND: [Drawn; 6] = [
    Drawn { slack: 5, pairs: 30, change: 1, keepers: Keepers::None },
    Drawn { slack: 30, pairs: 10, change: 1, keepers: Keepers::None },
    Drawn { slack: 80, pairs: 10, change: 4, keepers: Keepers::None },
    Drawn { slack: 200, pairs: 3, change: 2, keepers: Keepers::None },
    Drawn { slack: 1000, pairs: 4, change: 4, keepers: Keepers::None },
    Drawn { slack: 1000, pairs: 1000, change: 0, keepers: Keepers::None },
];

/// One of them, or with hours, changes and pairs as they come.
fn round(c: &mut Chance, k: usize, grid: u32, n: usize) -> Round {
    if k % 5 == 4 { Round::wild(c, grid, n, Keepers::None) } else { Round::around(c, grid, n, AROUND[k % AROUND.len()]) }
}

fn musts(sheet: &str) -> impl Iterator<Item = &str> {
    sheet.lines().filter(|line| line.starts_with("must"))
}

/// A round on this grid that has an allowed order, and whose bound and musts would be others if it were altered so; both diagrams
/// are exact.
fn decided(c: &mut Chance, grid: u32, n: usize, keepers: Keepers, altered: impl Fn(Round) -> Round) -> Round {
    loop {
        let round = Round::around(c, grid, n, Drawn { slack: 60, pairs: 10, change: 1, keepers });
        let (here, there) = (sheet(&round), sheet(&altered(round)));
        let bound = here.lines().next();
        let exact = here.contains("whole") && there.contains("whole");
        if exact && bound != Some("bound\tnone") && bound != there.lines().next() && musts(&here).ne(musts(&there)) {
            return round;
        }
    }
}

fn no_keepers(round: Round) -> Round {
    Round { keepers: [0; 17], ..round }
}

/// A round with keepers, without which its sheet would be another: as above, but with hours that leave the order open.
fn kept(c: &mut Chance, k: usize, grid: u32, n: usize) -> Round {
    let keepers = if k % 5 == 4 || k % 7 == 6 { Keepers::Wild } else { Keepers::Apart };
    loop {
        let round = if k % 5 == 4 {
            Round::wild(c, grid, n, keepers)
        } else {
            Round::around(c, grid, n, Drawn { keepers, ..AROUND[1 + k % 4] })
        };
        if sheet(&round) != sheet(&no_keepers(round)) {
            return round;
        }
    }
}

/// Rounds of 1 to 16 doors on a grid of 1, twice over; two whose sheets the grid decides, and of 3 to 16 doors on other grids; three
/// whose sheets the keepers decide, and of 3 to 16 doors with keepers, half of them on other grids.
fn rounds() -> Vec<Round> {
    let mut c = Chance::new(2);
    let mut rounds: Vec<Round> = (0..32).map(|k| round(&mut c, k, 1, k % 16 + 1)).collect();
    let starts_at_any = |round| Round { grid: 1, ..round };
    rounds.extend([4, 6].map(|n| decided(&mut c, 15, n, Keepers::None, starts_at_any)));
    for k in 0..14 {
        let grid = grid_above_1(&mut c);
        rounds.push(round(&mut c, k, grid, k + 3));
    }
    rounds.extend([4, 5, 6].map(|n| decided(&mut c, 1, n, Keepers::Apart, no_keepers)));
    for k in 0..14 {
        let grid = if k % 2 == 0 { 1 } else { grid_above_1(&mut c) };
        rounds.push(kept(&mut c, k, grid, k + 3));
    }
    rounds
}

/// Each text with an empty line after it.
pub fn print_texts() {
    for round in rounds() {
        println!("{}", round.text());
    }
}

/// The lines of a sheet; behind that of refine, whether the diagram is settled.
fn sheet(round: &Round) -> String {
    let mut lines = String::new();
    let mut d = Diagram::new(round, WIDTH);
    let full = d.refine();
    match d.bound() {
        Some((doors, minutes)) => writeln!(lines, "bound\t{doors}\t{minutes}").unwrap(),
        None => writeln!(lines, "bound\tnone").unwrap(),
    }
    if full == 0 {
        writeln!(lines, "refine\twhole").unwrap();
    } else {
        writeln!(lines, "refine\tfull\t{full}").unwrap();
    }
    writeln!(lines, "settled\t{}", if d.settled() { "yes" } else { "no" }).unwrap();
    let musts = d.musts();
    for i in 1..=round.n {
        for j in (1..=round.n).filter(|j| musts[i] >> j & 1 == 1) {
            writeln!(lines, "must\t{i}\t{j}").unwrap();
        }
    }
    lines
}

pub fn print_sheets() {
    for (k, round) in rounds().iter().enumerate() {
        print!("sheet\t{}\tdoors\t{}\n{}", k + 1, round.n, sheet(round));
    }
}
