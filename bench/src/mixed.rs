//! Calls that are lent the rule and tally of one round or of another in turn: the cases that the library's program `checks` is to
//! work off with the word `mixed`, and what it is to print as the twin works it out: what each call answers, and all records that
//! it leaves, as one number.

use crate::chance::Chance;
use crate::compare::{Call, round_by_chance};
use crate::diagram::Diagram;
use std::fmt::Write;

/// The greatest width at which the program opens a diagram.
const WIDEST: i64 = 16;

/// What the program reads of some cases, and what it prints.
#[derive(Default)]
pub struct Cases {
    pub texts: String,
    pub answers: String,
}

impl Cases {
    pub fn by_chance(seed: u64, many: usize) -> Cases {
        let mut c = Chance::new(seed);
        let mut cases = Cases::default();
        for k in 1..=many {
            writeln!(cases.answers, "case\t{k}").unwrap();
            cases.add(&mut c);
        }
        cases
    }

    fn add(&mut self, c: &mut Chance) {
        let n = c.within(1, 16) as usize;
        let (first, second) = (round_by_chance(c, n), round_by_chance(c, n));
        let lent = [first, first.under(&second)];
        let width = c.within(1, WIDEST) as usize;
        let mut d = Diagram::new(&lent[0], width);
        writeln!(self.answers, "opened\t{}", d.records_sum()).unwrap();
        writeln!(self.texts, "{}\n{}\n{width}", first.text(), second.text()).unwrap();
        let mut who = 0;
        for _ in 0..c.within(0, 20) {
            if c.one_in(2) {
                who = 1 - who;
                d.lend(&lent[who]);
            }
            self.call(c, &mut d, n, who);
        }
        self.texts.push('\n');
        self.end(&d, n);
    }

    fn call(&mut self, c: &mut Chance, d: &mut Diagram, n: usize, who: usize) {
        let call = Call::by_chance(c, n, d);
        let [kind, x, y, z] = call.words();
        writeln!(self.texts, "{}\t{kind}\t{x}\t{y}\t{z}", who + 1).unwrap();
        let answer = call.make(d);
        writeln!(self.answers, "{answer}\t{}", d.records_sum()).unwrap();
    }

    fn end(&mut self, d: &Diagram, n: usize) {
        match d.bound() {
            Some((doors, minutes)) => writeln!(self.answers, "bound\t{doors}\t{minutes}").unwrap(),
            None => writeln!(self.answers, "bound\tnone").unwrap(),
        }
        writeln!(self.answers, "settled\t{}", if d.settled() { "yes" } else { "no" }).unwrap();
        let musts = d.musts();
        for i in 1..=n {
            for j in (1..=n).filter(|j| musts[i] >> j & 1 == 1) {
                writeln!(self.answers, "must\t{i}\t{j}").unwrap();
            }
        }
    }
}
