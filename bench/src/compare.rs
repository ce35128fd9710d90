//! The same answers from library and twin, on rounds, widths and calls by chance.

use crate::chance::Chance;
use crate::diagram::Diagram;
use crate::library;
use crate::round::{Drawn, Keepers, Round, grid_by_chance};
use std::process::ExitCode;

#[derive(Clone, Copy, Debug)]
pub enum Call {
    Sweep,
    Part(u32, u32),
    Join(u32, u32, u32),
    Cut(u32, u32),
    Refine,
    Backsweep,
}

impl Call {
    /// A call that mostly names what is there.
    pub fn by_chance(c: &mut Chance, n: usize, d: &Diagram) -> Call {
        let layer = if c.one_in(20) { c.within(0, n as i64 + 1) as usize } else { c.within(1, (n as i64 - 1).max(1)) as usize };
        let nodes = if layer <= n { d.nodes_in(layer) as i64 } else { 3 };
        let spare = i64::from(c.one_in(10));
        let mut node = || c.within(1 - spare, (nodes + spare).max(1)) as u32;
        let (a, b) = (node(), node());
        match c.within(0, 22) {
            0..=2 => Call::Sweep,
            3..=10 => Call::Part(layer as u32, a),
            11..=15 => Call::Join(layer as u32, a, b),
            16..=18 => match d.bound() {
                // about the bound, so that some but not all goes
                Some((doors, minutes)) if !c.one_in(4) => {
                    let more = c.within(0, 2) as u32;
                    Call::Cut(doors + more, (minutes + c.within(0, 60) as u32).saturating_sub(20))
                }
                _ => Call::Cut(c.within(0, n as i64) as u32, c.within(0, 400) as u32),
            },
            19 => Call::Refine,
            _ => Call::Backsweep,
        }
    }

    pub fn words(self) -> [u32; 4] {
        match self {
            Call::Sweep => [1, 0, 0, 0],
            Call::Part(i, a) => [2, i, a, 0],
            Call::Join(i, a, b) => [3, i, a, b],
            Call::Cut(d, m) => [4, d, m, 0],
            Call::Refine => [5, 0, 0, 0],
            Call::Backsweep => [6, 0, 0, 0],
        }
    }

    pub fn make(self, d: &mut Diagram) -> usize {
        match self {
            Call::Sweep => d.sweep(),
            Call::Part(i, a) => d.part(i as usize, a as usize),
            Call::Join(i, a, b) => d.join(i as usize, a as usize, b as usize),
            Call::Cut(doors, m) => d.cut((doors, m)),
            Call::Refine => d.refine(),
            Call::Backsweep => d.backsweep(),
        }
    }

    fn kind(self) -> usize {
        self.words()[0] as usize - 1
    }
}

pub fn bytes(words: impl IntoIterator<Item = u32>) -> Vec<u8> {
    words.into_iter().flat_map(u32::to_le_bytes).collect()
}

fn words(bytes: &[u8]) -> Vec<u32> {
    bytes.chunks_exact(4).map(|w| u32::from_le_bytes([w[0], w[1], w[2], w[3]])).collect()
}

/// What the twin says of a diagram after calls that answered so, as the header lays a sheet out.
fn sheet(d: &Diagram, n: usize, answers: &[u32]) -> Vec<u32> {
    let (some, (doors, minutes)) = match d.bound() {
        Some(cost) => (1, cost),
        None => (0, (0, 0)),
    };
    let mut sheet = vec![n as u32, answers.len() as u32, d.settled() as u32, some, doors, minutes];
    sheet.extend(&d.musts()[1..]);
    sheet.extend(answers);
    sheet
}

/// What it says of a round after these calls.
fn sheet_after(round: &Round, width: usize, calls: &[Call]) -> Vec<u32> {
    let mut d = Diagram::new(round, width);
    let answers: Vec<u32> = calls.iter().map(|call| call.make(&mut d) as u32).collect();
    sheet(&d, round.n, &answers)
}

/// The same with calls drawn while it is at work.
fn by_chance(c: &mut Chance, round: &Round, width: usize) -> (Vec<Call>, Vec<u32>) {
    let mut d = Diagram::new(round, width);
    let many = if c.one_in(4) { 1 } else { c.within(0, 24) };
    let mut calls = Vec::new();
    let mut answers = Vec::new();
    for _ in 0..many {
        let call = if many == 1 { Call::Refine } else { Call::by_chance(c, round.n, &d) };
        answers.push(call.make(&mut d) as u32);
        calls.push(call);
    }
    let sheet = sheet(&d, round.n, &answers);
    (calls, sheet)
}

/// A round of n doors, in one of two cases with keepers.
pub fn round_by_chance(c: &mut Chance, n: usize) -> Round {
    let grid = grid_by_chance(c);
    let kept = c.one_in(2);
    if c.one_in(5) {
        return Round::wild(c, grid, n, if kept { Keepers::Wild } else { Keepers::None });
    }
    let slack = [5, 30, 80, 200, 1000][c.within(0, 4) as usize];
    let pairs = [3, 10, 30, 1000][c.within(0, 3) as usize];
    let change = [0, 1, 4][c.within(0, 2) as usize];
    let keepers = match kept {
        true if c.one_in(4) => Keepers::Wild,
        true => Keepers::Apart,
        false => Keepers::None,
    };
    Round::around(c, grid, n, Drawn { slack, pairs, change, keepers })
}

fn width_by_chance(c: &mut Chance) -> usize {
    let most = [4, 16, 128, 128][c.within(0, 3) as usize];
    c.within(1, most) as usize
}

#[derive(Default)]
struct Seen {
    /// rounds on a grid above 1
    grids: usize,
    /// rounds with keepers, and those of them whose sheet would be another without
    kept: usize,
    decided: usize,
    calls: [usize; 6],
    /// sweeps, cuts and backsweeps that took out arcs
    took: [usize; 3],
    /// part and join that were done, and each refusal's number
    done: [usize; 2],
    refused: [usize; 32],
    whole: usize,
    full: usize,
    empty: usize,
    settled: usize,
}

impl Seen {
    fn note(&mut self, round: &Round, calls: &[Call], sheet: &[u32]) {
        self.grids += usize::from(round.grid > 1);
        for (call, &answer) in calls.iter().zip(&sheet[22..]) {
            self.calls[call.kind()] += 1;
            match call {
                Call::Part(..) | Call::Join(..) if answer == 0 => self.done[call.kind() - 1] += 1,
                Call::Part(..) | Call::Join(..) => self.refused[answer as usize] += 1,
                Call::Refine if answer == 0 => self.whole += 1,
                Call::Refine => self.full += 1,
                Call::Sweep => self.took[0] += usize::from(answer > 0),
                Call::Cut(..) => self.took[1] += usize::from(answer > 0),
                Call::Backsweep => self.took[2] += usize::from(answer > 0),
            }
        }
        self.empty += (sheet[3] == 0) as usize;
        self.settled += sheet[2] as usize;
    }

    /// Whether the keepers of a round alter what the twin says after these calls.
    fn note_keepers(&mut self, round: &Round, width: usize, calls: &[Call], sheet: &[u32]) {
        if round.keepers != [0; 17] {
            let without = Round { keepers: [0; 17], ..*round };
            self.kept += 1;
            self.decided += usize::from(sheet_after(&without, width, calls) != sheet);
        }
    }

    fn print(&self) {
        println!("  on a grid above 1: {} rounds", self.grids);
        println!("  with keepers: {} rounds, of which {} would have another sheet without", self.kept, self.decided);
        let [sweep, part, join, cut, refine, backsweep] = self.calls;
        println!("  calls: {sweep} sweep, {part} part, {join} join, {cut} cut, {refine} refine, {backsweep} backsweep");
        let [sweep, cut, backsweep] = self.took;
        println!("  took out arcs: {sweep} sweep, {cut} cut, {backsweep} backsweep");
        println!("  part done {}, join done {}; refused:", self.done[0], self.done[1]);
        for number in 20..27 {
            if self.refused[number] > 0 {
                println!("    {number}: {}", self.refused[number]);
            }
        }
        println!("  refine whole {}, full {}; ended empty {}, settled {}", self.whole, self.full, self.empty, self.settled);
    }
}

/// What the library is given under a name: a text, a width, calls, and room for so many bytes; and what it is to answer.
type Given<'a> = (&'a str, &'a [u8], usize, &'a [u8], usize, i64);

/// Whether it answers so, and writes nothing if it refuses.
fn answers_so(&(what, text, width, calls, long, expected): &Given) -> bool {
    let mut out = vec![0xee; long];
    let answer = library::sheet(text, width, calls, &mut out);
    let left = answer >= 0 || out.iter().all(|&b| b == 0xee);
    if answer != expected || !left {
        println!("refusals: {what}: {answer} for {expected}, out {}", if left { "left" } else { "written" });
    }
    answer == expected && left
}

/// What is refused, and that a refusal writes nothing.
fn refusals() -> bool {
    let mut c = Chance::new(7);
    let text = Round::around(&mut c, 1, 5, Drawn { slack: 80, pairs: 10, change: 1, keepers: Keepers::None }).text();
    let call = bytes([5, 0, 0, 0]);
    let with = |lines: &str| text.clone() + lines;
    let long = with(&"first\t1\t2\n".repeat(1639));
    let (kept, twice) = (with("keeper\t1\t99\nkeeper\t5\t99\n"), with("keeper\t1\t7\nkeeper\t1\t7\n"));
    let (above, behind) = (with("keeper\t1\t100\n"), with("keeper\t1\t7\nfirst\t1\t2\n"));
    let cases: [Given; 15] = [
        ("fits", text.as_bytes(), 4, &call, 92, 92),
        ("no text", b"", 4, &call, 92, -1),
        ("text cut short", &text.as_bytes()[..text.len() - 1], 4, &call, 92, -6),
        ("long text", long.as_bytes(), 4, &call, 92, -7),
        ("two doors of one keeper", kept.as_bytes(), 4, &call, 92, 92),
        ("a second keeper of a door", twice.as_bytes(), 4, &call, 92, -29),
        ("keeper 100", above.as_bytes(), 4, &call, 92, -4),
        ("a pair behind a keeper", behind.as_bytes(), 4, &call, 92, -1),
        ("width 0", text.as_bytes(), 0, &call, 92, -10),
        ("width 129", text.as_bytes(), 129, &call, 92, -10),
        ("half a call", text.as_bytes(), 4, &call[..8], 92, -100),
        ("no such call", text.as_bytes(), 4, &[9; 16], 92, -100),
        ("no such call, width 0", text.as_bytes(), 0, &[9; 16], 92, -10),
        ("no such call, short out", text.as_bytes(), 4, &[9; 16], 91, -100),
        ("short out", text.as_bytes(), 4, &call, 91, -101),
    ];
    cases.iter().fold(true, |good, given| answers_so(given) && good)
}

pub fn compare(rounds: usize) -> ExitCode {
    let mut c = Chance::new(1);
    let mut seen = Seen::default();
    let mut differ = usize::from(!refusals());
    for k in 0..rounds {
        let n = c.within(1, 16) as usize;
        let round = round_by_chance(&mut c, n);
        let width = width_by_chance(&mut c);
        let (calls, expected) = by_chance(&mut c, &round, width);
        let text = round.text();
        let asked = bytes(calls.iter().flat_map(|call| call.words()));
        let mut out = vec![0xee; 88 + 4 * calls.len() + 8];
        let answer = library::sheet(text.as_bytes(), width, &asked, &mut out);
        let sheet = words(&out[..88 + 4 * calls.len()]);
        let rest = out[88 + 4 * calls.len()..].iter().all(|&b| b == 0xee);
        if answer != 4 * expected.len() as i64 || sheet != expected || !rest {
            differ += 1;
            if differ <= 3 {
                println!("round {k} differs, width {width}, answer {answer}, calls {calls:?}");
                println!("  library {sheet:?}\n  twin    {expected:?}\n{text}");
            }
        }
        seen.note(&round, &calls, &expected);
        seen.note_keepers(&round, width, &calls, &expected);
    }
    println!("compared {rounds} rounds, widths 1 to 128: {differ} differ");
    seen.print();
    if differ == 0 { ExitCode::SUCCESS } else { ExitCode::FAILURE }
}
