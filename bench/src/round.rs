//! A round, its text, and rounds, grids and keepers by chance.

use crate::chance::Chance;
use std::fmt::Write;

#[derive(Clone, Copy, Default)]
pub struct Door {
    pub opens: u32,
    pub closes: u32,
    pub due: u32,
    pub work: u32,
    pub change: i32,
}

/// Tables go by door, with the yard at 0.
#[derive(Clone, Copy)]
pub struct Round {
    pub n: usize,
    pub load: i32,
    pub cap: i32,
    /// work starts at a multiple of so many minutes only
    pub grid: u32,
    pub doors: [Door; 17],
    pub drive: [[u32; 17]; 17],
    /// the doors that have to come ahead of each door, as a mask
    pub ahead: [u32; 17],
    /// the number of each door's keeper, 0 for none
    pub keepers: [u32; 17],
}

/// How the keepers of a round are drawn.
#[derive(Clone, Copy, PartialEq, Eq)]
pub enum Keepers {
    /// no door has one
    None,
    /// a few, and the order that a round is drawn around never has a keeper twice running
    Apart,
    /// a few, as they come
    Wild,
}

/// How a round around some order is drawn.
#[derive(Clone, Copy)]
pub struct Drawn {
    /// how many minutes an hour reaches to either side
    pub slack: i64,
    /// one in about so many couples of doors is a pair
    pub pairs: u64,
    /// how far changes reach from 0
    pub change: i64,
    pub keepers: Keepers,
}

impl Keepers {
    /// Keepers for the doors of an order: one to four of them, so that doors share them, and doors without one in between.
    fn draw(self, c: &mut Chance, order: &[usize]) -> [u32; 17] {
        let mut keepers = [0; 17];
        if self == Keepers::None {
            return keepers;
        }
        let who: Vec<u32> = (0..c.within(1, 4)).map(|_| c.within(1, 99) as u32).collect();
        let free = [3, 6, 1000][c.within(0, 2) as usize];
        let mut last = 0;
        for &j in order {
            let keeper = if c.one_in(free) { 0 } else { who[c.within(0, who.len() as i64 - 1) as usize] };
            last = if self == Keepers::Apart && keeper == last { 0 } else { keeper };
            keepers[j] = last;
        }
        keepers
    }
}

impl Round {
    fn blank(n: usize) -> Round {
        let (doors, drive) = ([Door::default(); 17], [[0; 17]; 17]);
        Round { n, load: 0, cap: 0, grid: 1, doors, drive, ahead: [0; 17], keepers: [0; 17] }
    }

    /// The clock of this round with what side rule and tally look at in another of as many doors.
    pub fn under(&self, lent: &Round) -> Round {
        let mut round = Round { load: lent.load, cap: lent.cap, ahead: lent.ahead, keepers: lent.keepers, ..*self };
        for (door, other) in round.doors.iter_mut().zip(&lent.doors) {
            *door = Door { due: other.due, change: other.change, ..*door };
        }
        round
    }

    /// This round with all doors open all day, no pairs, no keepers and no key boxes.
    pub fn with_every_order(&self) -> Round {
        let doors = self.doors.map(|door| Door { opens: 0, closes: 9_999, change: 0, ..door });
        Round { doors, ahead: [0; 17], keepers: [0; 17], ..*self }
    }

    pub fn text(&self) -> String {
        let mut s = String::new();
        write!(s, "round\t{}\t{}\t{}", self.n, self.load, self.cap).unwrap();
        if self.grid != 1 {
            write!(s, "\t{}", self.grid).unwrap();
        }
        s.push('\n');
        for j in 1..=self.n {
            let d = &self.doors[j];
            writeln!(s, "door\t{j}\t{}\t{}\t{}\t{}\t{}", d.opens, d.closes, d.due, d.work, d.change).unwrap();
        }
        for i in 0..=self.n {
            write!(s, "drive\t{i}").unwrap();
            for j in 1..=self.n {
                if i == j {
                    s.push_str("\t-");
                } else {
                    write!(s, "\t{}", self.drive[i][j]).unwrap();
                }
            }
            s.push('\n');
        }
        self.add_rules(&mut s);
        s
    }

    /// The lines of the pairs and of the keepers.
    fn add_rules(&self, s: &mut String) {
        for j in 1..=self.n {
            for i in 1..=self.n {
                if self.ahead[j] >> i & 1 == 1 {
                    writeln!(s, "first\t{i}\t{j}").unwrap();
                }
            }
        }
        for j in (1..=self.n).filter(|&j| self.keepers[j] != 0) {
            writeln!(s, "keeper\t{j}\t{}", self.keepers[j]).unwrap();
        }
    }

    /// Each drive by chance, from `least` to `most` minutes.
    fn draw_drives(&mut self, c: &mut Chance, least: i64, most: i64) {
        for i in 0..=self.n {
            for j in 1..=self.n {
                if i != j {
                    self.drive[i][j] = c.within(least, most) as u32;
                }
            }
        }
    }

    /// A round of n doors with hours around the times of some order of them on the grid.
    pub fn around(c: &mut Chance, grid: u32, n: usize, drawn: Drawn) -> Round {
        let Drawn { slack, pairs, change, keepers } = drawn;
        let mut r = Round { grid, ..Round::blank(n) };
        r.draw_drives(c, 3, 40);
        let order = order_by_chance(c, n);
        let (mut time, mut at, mut load, mut least, mut most) = (0i64, 0, 0i64, 0i64, 0i64);
        for &j in &order {
            let work = c.within(5, 25);
            let change = c.within(-change, change);
            time = (time as u32 + r.drive[at][j]).next_multiple_of(grid) as i64 + work;
            load += change;
            least = least.min(load);
            most = most.max(load);
            let opens = (time - work - c.within(0, slack)).clamp(0, 9999);
            let closes = (time + c.within(0, slack)).clamp(0, 9999);
            let due = (time + c.within(-slack / 3, slack)).clamp(0, 9999);
            r.doors[j] = Door { opens: opens as u32, closes: closes as u32, due: due as u32, work: work as u32, change: change as i32 };
            at = j;
        }
        r.load = (-least) as i32;
        r.cap = (most - least + c.within(0, 3)) as i32;
        for k in 1..n {
            for m in 0..k {
                if c.one_in(pairs) {
                    r.ahead[order[k]] |= 1 << order[m];
                }
            }
        }
        r.keepers = keepers.draw(c, &order);
        r
    }

    /// A round of n doors of which nothing need fit: hours, changes and pairs as they come.
    pub fn wild(c: &mut Chance, grid: u32, n: usize, keepers: Keepers) -> Round {
        let mut r = Round { grid, ..Round::blank(n) };
        let day = [20, 100, 400, 2000, 9999][c.within(0, 4) as usize];
        let far = [0, 5, 40, 999][c.within(0, 3) as usize];
        let long = [1, 10, 60, 999][c.within(0, 3) as usize];
        let change = [0, 1, 5, 99][c.within(0, 3) as usize];
        let room = [3, 20, 999][c.within(0, 2) as usize];
        r.cap = c.within(0, room) as i32;
        r.load = c.within(0, r.cap as i64) as i32;
        r.draw_drives(c, 0, far);
        for j in 1..=n {
            r.doors[j] = Door {
                opens: c.within(0, day) as u32,
                closes: c.within(day / 3, day) as u32,
                due: c.within(0, day) as u32,
                work: c.within(1, long) as u32,
                change: c.within(-change, change) as i32,
            };
            if c.one_in(6) {
                let i = c.within(1, n as i64) as usize;
                if i != j {
                    r.ahead[j] |= 1 << i;
                }
            }
        }
        r.keepers = keepers.draw(c, &(1..=n).collect::<Vec<_>>());
        r
    }
}

/// The doors 1 to n in some order.
fn order_by_chance(c: &mut Chance, n: usize) -> Vec<usize> {
    let mut order: Vec<usize> = (1..=n).collect();
    for k in (1..n).rev() {
        order.swap(k, c.within(0, k as i64) as usize);
    }
    order
}

/// A grid of 1 in one of two cases, else one above it.
pub fn grid_by_chance(c: &mut Chance) -> u32 {
    if c.one_in(2) { 1 } else { grid_above_1(c) }
}

/// 15, 5, 60, or any from 2 to 60.
pub fn grid_above_1(c: &mut Chance) -> u32 {
    [15, 5, 60, c.within(2, 60) as u32][c.within(0, 3) as usize]
}
