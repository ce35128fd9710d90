//! The times of calls at 16 doors, in the library and in the twin.

use crate::chance::Chance;
use crate::clock;
use crate::compare::{Call, bytes};
use crate::diagram::Diagram;
use crate::library;
use crate::round::{Drawn, Keepers, Round};
use std::hint::black_box;
use std::process::ExitCode;

const ROUNDS: usize = 24;
const TRIES: usize = 5;
const WIDTHS: [usize; 4] = [16, 32, 64, 128];

/// Rounds of 16 doors on a grid of 1, with hours that leave the order open here and there.
fn tight(keepers: Keepers) -> Vec<Round> {
    let mut c = Chance::new(16);
    (0..ROUNDS)
        .map(|k| {
            let slack = [40, 80, 160][k % 3];
            Round::around(&mut c, 1, 16, Drawn { slack, pairs: 20, change: 2, keepers })
        })
        .collect()
}

fn of_library(text: &[u8], width: usize, times: usize) -> i64 {
    library::refine_often(black_box(text), width, times)
}

fn of_twin(round: &Round, width: usize, times: usize) -> i64 {
    let mut d = Diagram::new(black_box(round), width);
    let mut answer = 0;
    for _ in 0..times {
        d.open();
        answer = d.refine() as i64;
    }
    answer
}

/// The least of some tries, in microseconds of processor time for one open and refine.
fn least(times: usize, mut f: impl FnMut() -> i64) -> f64 {
    (0..TRIES)
        .map(|_| {
            let start = clock::now();
            black_box(f());
            (clock::now() - start).as_secs_f64() * 1e6 / times as f64
        })
        .fold(f64::MAX, f64::min)
}

/// Times of library and twin over the rounds, and the ratio of one round, least and most.
struct Sums {
    library: f64,
    twin: f64,
    rounds: usize,
    least: f64,
    most: f64,
}

impl Sums {
    fn new() -> Sums {
        Sums { library: 0.0, twin: 0.0, rounds: 0, least: f64::MAX, most: 0.0 }
    }

    fn add(&mut self, library: f64, twin: f64) {
        self.library += library;
        self.twin += twin;
        self.rounds += 1;
        self.least = self.least.min(library / twin);
        self.most = self.most.max(library / twin);
    }

    fn library(&self) -> f64 {
        self.library / self.rounds as f64
    }

    fn print(&self, what: &str) {
        let (library, twin) = (self.library(), self.twin / self.rounds as f64);
        let Sums { rounds, least, most, .. } = *self;
        println!("{what}  {rounds:6}  {library:7.1}  {twin:7.1}  {:5.2} ({least:.2} to {most:.2})", library / twin);
    }
}

/// Open and refine, for one width.
fn refines(rounds: &[Round], width: usize) -> Option<(Sums, usize)> {
    let times = 256 / width;
    let (mut sums, mut full) = (Sums::new(), 0);
    for round in rounds {
        let text = round.text();
        let answer = of_twin(round, width, 1);
        if of_library(text.as_bytes(), width, 1) != answer {
            println!("answers differ at width {width}");
            return None;
        }
        full += usize::from(answer != 0);
        let library = least(times, || of_library(text.as_bytes(), width, times));
        sums.add(library, least(times, || of_twin(round, width, times)));
    }
    Some((sums, full))
}

/// How often a single call is made after a refine, so that its time stands out.
const OFTEN: usize = 16;

/// The calls of a kind that are made on a refined diagram.
fn single(kind: &str, d: &Diagram) -> Option<[Call; 2]> {
    match kind {
        "sweep" => Some([Call::Sweep; 2]),
        "backsweep" => Some([Call::Backsweep; 2]),
        "cut" => d.bound().map(|(doors, minutes)| [Call::Cut(doors, minutes); 2]),
        "join, part" => Some([Call::Join(8, 1, 2), Call::Part(8, 1)]),
        _ => None,
    }
}

/// What is timed: calls in turn, so often, after others.
struct Timed<'a> {
    before: &'a [Call],
    calls: &'a [Call],
    often: usize,
}

impl Timed<'_> {
    fn repeated(&self) -> impl Iterator<Item = &Call> {
        self.calls.iter().cycle().take(self.often)
    }

    /// The library's time for one of the calls: that of a sheet with them less that of one without.
    fn of_library(&self, text: &[u8], width: usize) -> f64 {
        let mut out = vec![0; 88 + 4 * (self.before.len() + self.often)];
        let mut sheet = |calls: &[Call]| {
            let asked = bytes(calls.iter().flat_map(|call| call.words()));
            least(1, || library::sheet(black_box(text), width, &asked, &mut out))
        };
        let with: Vec<Call> = self.before.iter().chain(self.repeated()).copied().collect();
        ((sheet(&with) - sheet(self.before)) / self.often as f64).max(0.0)
    }

    /// The twin's time for one of them.
    fn of_twin(&self, round: &Round, width: usize) -> f64 {
        let mut d = Diagram::new(black_box(round), width);
        (0..TRIES)
            .map(|_| {
                d.open();
                self.before.iter().for_each(|call| _ = black_box(call.make(&mut d)));
                let start = clock::now();
                self.repeated().for_each(|call| _ = black_box(call.make(&mut d)));
                (clock::now() - start).as_secs_f64() * 1e6 / self.often as f64
            })
            .fold(f64::MAX, f64::min)
    }
}

/// One kind of call on refined diagrams, for one width.
fn singles(rounds: &[Round], width: usize, kind: &str) -> Sums {
    let mut sums = Sums::new();
    for round in rounds {
        let mut d = Diagram::new(round, width);
        d.open();
        d.refine();
        if let Some(calls) = single(kind, &d) {
            let timed = Timed { before: &[Call::Refine], calls: &calls, often: OFTEN };
            sums.add(timed.of_library(round.text().as_bytes(), width), timed.of_twin(round, width));
        }
    }
    sums
}

/// How often a filled diagram is swept, so that its time stands out.
const SWEPT: usize = 512;

/// Calls that fill a diagram of width 128, where every order of the doors will do: each layer is parted as far as it can be.
fn filling() -> Vec<Call> {
    let parts = |layer| (1..128).map(move |node| Call::Part(layer, node)).chain([Call::Sweep]);
    (1..16).flat_map(parts).collect()
}

/// Sweeps of a filled diagram, so that labels are worked out again and again over as many arcs as there can be; no if answers
/// differ or a sweep takes out an arc.
fn print_filled(drawn: &Round) -> bool {
    let round = drawn.with_every_order();
    let (text, before) = (round.text(), filling());
    let mut d = Diagram::new(&round, 128);
    let answers: Vec<u32> = before.iter().map(|call| call.make(&mut d) as u32).collect();
    let mut out = vec![0; 88 + 4 * before.len()];
    library::sheet(text.as_bytes(), 128, &bytes(before.iter().flat_map(|call| call.words())), &mut out);
    if out[88..] != bytes(answers) || d.sweep() != 0 {
        println!("answers differ on a filled diagram, or it is not swept");
        return false;
    }
    println!("width        rounds  library     twin  ratio (least to most)   sweep, on a filled diagram with {} arcs", d.arcs());
    let timed = Timed { before: &before, calls: &[Call::Sweep], often: SWEPT };
    let mut sums = Sums::new();
    sums.add(timed.of_library(text.as_bytes(), 128), timed.of_twin(&round, 128));
    sums.print("  128      ");
    true
}

/// How often a refined diagram is asked, so that its time stands out.
const ASKED: usize = 256;

/// What a refined diagram is asked, in the library and in the twin.
struct Question {
    name: &'static str,
    library: fn(&[u8], usize, usize) -> i64,
    twin: fn(&Diagram) -> i64,
}

const QUESTIONS: [Question; 2] = [
    Question { name: "settled", library: library::settled_often, twin: |d| i64::from(d.settled()) },
    Question { name: "all musts", library: library::musts_often, twin: |d| d.musts().iter().map(|set| i64::from(set.count_ones())).sum() },
];

/// One question, for one width; the library's time is that of a call that asks often less that of one that never asks.
fn asks(rounds: &[Round], width: usize, question: &Question) -> Option<Sums> {
    let mut sums = Sums::new();
    for round in rounds {
        let text = round.text();
        let of_library = |times| (question.library)(black_box(text.as_bytes()), width, times);
        let mut d = Diagram::new(round, width);
        d.open();
        d.refine();
        if of_library(1) != (question.twin)(&d) {
            println!("answers differ at width {width}");
            return None;
        }
        let library = (least(1, || of_library(ASKED)) - least(1, || of_library(0))) / ASKED as f64;
        let twin = least(ASKED, || (0..ASKED).map(|_| (question.twin)(black_box(&d))).sum());
        sums.add(library.max(0.0), twin);
    }
    Some(sums)
}

/// The table of open and refine; no if answers differ.
fn print_refines(rounds: &[Round], what: &str) -> bool {
    println!("width  full  rounds  library     twin  ratio (least to most)   {what}");
    let mut before: Option<f64> = None;
    for width in WIDTHS {
        let Some((sums, full)) = refines(rounds, width) else {
            return false;
        };
        sums.print(&format!("{width:5}  {full:4}"));
        if let Some(narrow) = before {
            println!("             the library's own time grows by {:.2}", sums.library() / narrow);
        }
        before = Some(sums.library());
    }
    true
}

pub fn measure() -> ExitCode {
    let rounds = tight(Keepers::None);
    println!("16 doors, {ROUNDS} rounds, least of {TRIES} tries, microseconds of processor time each");
    if !print_refines(&rounds, "open and refine") {
        return ExitCode::FAILURE;
    }
    for kind in ["sweep", "backsweep", "cut", "join, part"] {
        println!("width        rounds  library     twin  ratio (least to most)   {kind}, on a refined diagram");
        for width in WIDTHS {
            singles(&rounds, width, kind).print(&format!("{width:5}      "));
        }
    }
    for question in &QUESTIONS {
        println!("width        rounds  library     twin  ratio (least to most)   {}, on a refined diagram", question.name);
        for width in WIDTHS {
            let Some(sums) = asks(&rounds, width, question) else {
                return ExitCode::FAILURE;
            };
            sums.print(&format!("{width:5}      "));
        }
    }
    if !print_filled(&rounds[0]) || !print_refines(&tight(Keepers::Apart), "open and refine, rounds with keepers") {
        return ExitCode::FAILURE;
    }
    ExitCode::SUCCESS
}

pub fn repeat(who: &str, width: usize, times: usize, rounds: usize) -> ExitCode {
    for round in &tight(Keepers::None)[..rounds] {
        let answer = match who {
            "library" => of_library(round.text().as_bytes(), width, times),
            "twin" => of_twin(round, width, times),
            _ => return ExitCode::from(2),
        };
        black_box(answer);
    }
    ExitCode::SUCCESS
}
