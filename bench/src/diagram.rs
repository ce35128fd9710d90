//! The twin: a diagram of limited width with its calls, written from docs/DIAGRAM.md. Nodes and layers count from 0 here; the
//! calls take numbers as the document counts them. The rule is pairs, load and keepers together, the tally late doors.

use crate::round::Round;

/// What is worked out from the first node.
#[derive(Clone, Copy)]
struct Down {
    all: u32,
    some: u32,
    finish: u32,
    lasts: u32,
    /// the rule's state: a set of doors, the lowest and the highest load, the places that may be the last one
    set: u32,
    low: i32,
    high: i32,
    previous: u32,
    value: (u32, u32),
}

impl Down {
    fn agrees(&self, x: &Down) -> bool {
        self.all == x.all
            && self.some == x.some
            && self.finish == x.finish
            && self.lasts == x.lasts
            && self.set == x.set
            && self.low == x.low
            && self.high == x.high
            && self.previous == x.previous
    }

    fn merge(&mut self, x: &Down) {
        self.all &= x.all;
        self.some |= x.some;
        self.finish = self.finish.min(x.finish);
        self.lasts |= x.lasts;
        self.set |= x.set;
        self.low = self.low.min(x.low);
        self.high = self.high.max(x.high);
        self.previous |= x.previous;
        self.value = self.value.min(x.value);
    }
}

/// What is worked out from the end.
#[derive(Clone, Copy)]
struct Up {
    all: u32,
    some: u32,
    late: i32,
}

const END_UP: Up = Up { all: 0, some: 0, late: 9_999 };

/// Where no arc leads on.
const NO_UP: Up = Up { all: 0, some: 0, late: -40_000 };

#[derive(Clone, Copy)]
struct Node {
    /// the doors by which there is an arc, as a mask, and their targets, by door less one
    outs: u32,
    to: [u8; 16],
    down: Down,
    up: Up,
}

const BLANK: Node = Node {
    outs: 0,
    to: [0; 16],
    down: Down { all: 0, some: 0, finish: 0, lasts: 0, set: 0, low: 0, high: 0, previous: 0, value: (0, 0) },
    up: NO_UP,
};

impl Node {
    /// The sum with this record, whose targets count from 1, with 0 for no arc.
    fn add_to(&self, sum: u64) -> u64 {
        let Node { outs, to, down, up } = self;
        let targets = (1..=16).map(|j| if outs >> j & 1 == 1 { u32::from(to[j - 1]) + 1 } else { 0 });
        let ways = [down.all, down.some, down.finish, down.lasts];
        let state = [down.set, down.low as u32, down.high as u32, down.previous];
        let ends = [down.value.0, down.value.1, up.all, up.some, up.late as u32];
        targets.chain(ways).chain(state).chain(ends).fold(sum, |sum, x| sum.wrapping_mul(1_000_003).wrapping_add(u64::from(x)))
    }
}

/// The doors of a mask, from the lowest.
#[derive(Clone, Copy)]
struct Doors(u32);

impl Iterator for Doors {
    type Item = usize;

    #[inline]
    fn next(&mut self) -> Option<usize> {
        if self.0 == 0 {
            return None;
        }
        let j = self.0.trailing_zeros() as usize;
        self.0 &= self.0 - 1;
        Some(j)
    }
}

impl Round {
    #[inline]
    fn leg(&self, lasts: u32, j: usize) -> u32 {
        Doors(lasts & !(1 << j)).map(|i| self.drive[i][j]).min().unwrap_or(0)
    }

    #[inline]
    fn finish(&self, from: &Down, j: usize) -> u32 {
        let d = &self.doors[j];
        let ready = d.opens.max(from.finish + self.leg(from.lasts, j));
        d.work + if self.grid == 1 { ready } else { ready.next_multiple_of(self.grid) }
    }

    /// For each door the others of its keeper, as a mask.
    fn same_keeper(&self) -> [u32; 17] {
        let mut same_keeper = [0; 17];
        for j in (1..=self.n).filter(|&j| self.keepers[j] != 0) {
            for i in (1..=self.n).filter(|&i| i != j && self.keepers[i] == self.keepers[j]) {
                same_keeper[j] |= 1 << i;
            }
        }
        same_keeper
    }

    /// The last minute to leave a node with these lasts by door j, to a target that is to be left at `late` at the latest.
    #[inline]
    fn late(&self, lasts: u32, j: usize, late: i32) -> i32 {
        let d = &self.doors[j];
        (d.closes as i32).min(late) - (d.work + self.leg(lasts, j)) as i32
    }

    #[inline]
    fn arrive(&self, from: &Down, j: usize) -> Down {
        let d = &self.doors[j];
        let finish = self.finish(from, j);
        let by = finish.saturating_sub(d.due);
        let value = if by > 0 { ((from.value.0 + 1).min(1_000_000), (from.value.1 + by).min(1_000_000)) } else { from.value };
        Down {
            all: from.all | 1 << j,
            some: from.some | 1 << j,
            finish,
            lasts: 1 << j,
            set: from.set | 1 << j,
            low: (from.low + d.change).clamp(-9999, 9999),
            high: (from.high + d.change).clamp(-9999, 9999),
            previous: 1 << j,
            value,
        }
    }
}

/// An in-arc of a node while its layer is parted.
#[derive(Clone, Copy)]
struct InArc {
    source: u8,
    door: u8,
    brings: Down,
}

const NO_ARC: InArc = InArc { source: 0, door: 0, brings: BLANK.down };

pub struct Diagram<'r> {
    round: &'r Round,
    /// the round's `same_keeper`
    same_keeper: [u32; 17],
    width: usize,
    /// whether the labels may be those of another rule and tally
    stale: bool,
    /// whether the lasts may be others than when each late was worked out
    late_due: bool,
    arcs: usize,
    count: [usize; 17],
    nodes: Box<[[Node; 128]; 17]>,
    /// room to sort in-arcs by their targets
    inarcs: Box<[InArc; 2048]>,
    aside: Box<[InArc; 2048]>,
}

impl<'r> Diagram<'r> {
    pub fn new(round: &'r Round, width: usize) -> Diagram<'r> {
        let mut d = Diagram {
            round,
            same_keeper: round.same_keeper(),
            width,
            stale: false,
            late_due: false,
            arcs: 0,
            count: [0; 17],
            nodes: Box::new([[BLANK; 128]; 17]),
            inarcs: Box::new([NO_ARC; 2048]),
            aside: Box::new([NO_ARC; 2048]),
        };
        d.open();
        d
    }

    /// One node to a layer, and an arc for every door.
    pub fn open(&mut self) {
        let n = self.round.n;
        for i in 0..=n {
            self.count[i] = 1;
            self.nodes[i][0] = Node { outs: if i < n { (2 << n) - 2 } else { 0 }, ..BLANK };
        }
        self.nodes[n][0].up = END_UP;
        self.arcs = n * n;
        self.begin();
        self.relabel_down(0);
        self.relabel_up();
        self.relabel_late();
    }

    /// The label of the first node.
    fn begin(&mut self) {
        let first = &mut self.nodes[0][0].down;
        first.lasts = 1;
        first.low = self.round.load;
        first.high = self.round.load;
        first.previous = 1;
    }

    /// From here on calls are lent the rule and tally of this round, whose clock is that of the round before.
    pub fn lend(&mut self, round: &'r Round) {
        self.round = round;
        self.same_keeper = round.same_keeper();
        self.stale = true;
    }

    /// The downward labels after layer `from`, or all where they may be another rule's.
    fn relabel(&mut self, from: usize) {
        if self.stale {
            self.begin();
            self.relabel_down(0);
            self.stale = false;
        } else {
            self.relabel_down(from);
        }
    }

    /// The downward labels of the layers after layer `from`.
    fn relabel_down(&mut self, from: usize) {
        self.late_due = true;
        for i in from..self.round.n {
            let (above, below) = self.nodes.split_at_mut(i + 1);
            let targets = &mut below[0];
            for t in &mut targets[..self.count[i + 1]] {
                t.down.lasts = 0;
            }
            for s in &above[i][..self.count[i]] {
                for j in Doors(s.outs) {
                    let x = self.round.arrive(&s.down, j);
                    let t = &mut targets[(s.to[j - 1] & 127) as usize].down;
                    if t.lasts == 0 {
                        *t = x;
                    } else {
                        t.merge(&x);
                    }
                }
            }
        }
    }

    /// The upward sets.
    fn relabel_up(&mut self) {
        for i in (0..self.round.n).rev() {
            let (above, below) = self.nodes.split_at_mut(i + 1);
            for s in &mut above[i][..self.count[i]] {
                let (mut all, mut some) = (!0, 0);
                for j in Doors(s.outs) {
                    let t = &below[0][(s.to[j - 1] & 127) as usize].up;
                    all &= t.all | 1 << j;
                    some |= t.some | 1 << j;
                }
                (s.up.all, s.up.some) = if s.outs == 0 { (0, 0) } else { (all, some) };
            }
        }
    }

    /// Each late, if it is due. No test of a sweep looks at it, so each call does this once, at its end.
    fn relabel_late(&mut self) {
        if !std::mem::take(&mut self.late_due) {
            return;
        }
        for i in (0..self.round.n).rev() {
            let (above, below) = self.nodes.split_at_mut(i + 1);
            for s in &mut above[i][..self.count[i]] {
                let over = |j: usize| self.round.late(s.down.lasts, j, below[0][(s.to[j - 1] & 127) as usize].up.late);
                s.up.late = Doors(s.outs).map(over).max().unwrap_or(NO_UP.late);
            }
        }
    }

    /// Whether the rule bars door `j`: a door that has to be ahead of it is missing, each load would be out of its range, or the
    /// last place may be another than `j`, and every such place is a door of the same keeper.
    #[inline]
    fn bars(&self, from: &Down, j: usize) -> bool {
        let r = self.round;
        let change = r.doors[j].change;
        let others = from.previous & !(1 << j);
        r.ahead[j] & !from.set != 0
            || from.low + change > r.cap
            || from.high + change < 0
            || others & !self.same_keeper[j] == 0 && others != 0
    }

    /// The doors of the arcs from node `s` of layer `i` that one of the six tests takes out.
    #[inline]
    fn barred(&self, i: usize, s: &Node, targets: &[Node; 128]) -> u32 {
        let r = self.round;
        let mut out = s.down.all;
        let seen = s.down.some.count_ones() as usize;
        if seen < i {
            out = !0;
        } else if seen == i {
            out |= s.down.some;
        }
        for j in Doors(s.outs & !out) {
            let t = &targets[(s.to[j - 1] & 127) as usize].up;
            if t.all >> j & 1 == 1
                || ((t.some | 1 << j).count_ones() as usize) < r.n - i
                || self.bars(&s.down, j)
                || r.finish(&s.down, j) > r.doors[j].closes
            {
                out |= 1 << j;
            }
        }
        out & s.outs
    }

    /// Takes out all arcs that `out` names, tidies, and works out the labels again; how many arcs are gone.
    fn take_out(&mut self, out: impl Fn(&Self, usize, &Node, &[Node; 128]) -> u32) -> usize {
        let before = self.arcs;
        let mut any = false;
        for i in 0..self.round.n {
            for a in 0..self.count[i] {
                let gone = out(self, i, &self.nodes[i][a], &self.nodes[i + 1]);
                any |= gone != 0;
                self.nodes[i][a].outs &= !gone;
            }
        }
        if any {
            self.tidy();
        }
        if any || self.stale {
            self.relabel(0);
            self.relabel_up();
        }
        before - self.arcs
    }

    /// Nodes on no path go, and their arcs with them; the others move up.
    fn tidy(&mut self) {
        let n = self.round.n;
        let mut ends = 1u128;
        for i in (0..n).rev() {
            let mut leads = 0u128;
            for a in 0..self.count[i] {
                let s = &mut self.nodes[i][a];
                for j in Doors(s.outs) {
                    if ends >> s.to[j - 1] & 1 == 0 {
                        s.outs &= !(1 << j);
                    }
                }
                if s.outs != 0 {
                    leads |= 1 << a;
                }
            }
            ends = leads;
        }
        self.arcs = 0;
        for i in 0..n {
            let mut reached = [false; 128];
            for s in &self.nodes[i][..self.count[i]] {
                for j in Doors(s.outs) {
                    reached[(s.to[j - 1] & 127) as usize] = true;
                    self.arcs += 1;
                }
            }
            let mut place = [0u8; 128];
            let mut kept = 0;
            for b in 0..self.count[i + 1] {
                if reached[b] {
                    place[b] = kept as u8;
                    if kept != b {
                        self.nodes[i + 1][kept] = self.nodes[i + 1][b];
                    }
                    kept += 1;
                }
            }
            if kept != self.count[i + 1] {
                self.count[i + 1] = kept;
                for s in &mut self.nodes[i][..self.count[i]] {
                    for j in Doors(s.outs) {
                        s.to[j - 1] = place[(s.to[j - 1] & 127) as usize];
                    }
                }
            }
        }
    }

    fn take_barred(&mut self) -> usize {
        self.take_out(|d, i, s, targets| d.barred(i, s, targets))
    }

    pub fn sweep(&mut self) -> usize {
        let gone = self.take_barred();
        self.relabel_late();
        gone
    }

    pub fn cut(&mut self, ceiling: (u32, u32)) -> usize {
        let gone = self.take_out(|d, _, s, _| {
            Doors(s.outs).filter(|&j| d.round.arrive(&s.down, j).value > ceiling).fold(0, |m, j| m | 1 << j)
        });
        self.relabel_late();
        gone
    }

    pub fn backsweep(&mut self) -> usize {
        let gone = self.take_out(|d, _, s, targets| {
            let late = |j: usize| targets[(s.to[j - 1] & 127) as usize].up.late;
            Doors(s.outs).filter(|&j| d.round.finish(&s.down, j) as i32 > late(j)).fold(0, |m, j| m | 1 << j)
        });
        self.relabel_late();
        gone
    }

    /// What arrives at node `a` of layer `i`, in turn, with source and door.
    fn arrivals(&self, i: usize, a: usize) -> Vec<InArc> {
        let mut all = Vec::new();
        for (source, s) in self.nodes[i - 1][..self.count[i - 1]].iter().enumerate() {
            for j in Doors(s.outs) {
                if s.to[j - 1] as usize == a {
                    all.push(InArc { source: source as u8, door: j as u8, brings: self.round.arrive(&s.down, j) });
                }
            }
        }
        all
    }

    fn agreeing(arcs: &[InArc]) -> bool {
        arcs.iter().all(|x| arcs[0].brings.agrees(&x.brings))
    }

    pub fn part(&mut self, layer: usize, node: usize) -> usize {
        if layer < 1 || layer >= self.round.n {
            return 20;
        }
        if node < 1 || node > self.count[layer] {
            return 21;
        }
        let arcs = self.arrivals(layer, node - 1);
        if Self::agreeing(&arcs) {
            return 23;
        }
        if self.count[layer] == self.width {
            return 24;
        }
        for x in arcs.iter().filter(|x| !arcs[0].brings.agrees(&x.brings)) {
            self.nodes[layer - 1][x.source as usize].to[x.door as usize - 1] = self.count[layer] as u8;
        }
        self.copy_node(layer, node - 1);
        self.relabel(layer - 1);
        self.relabel_late();
        0
    }

    /// A new last node with the out-arcs of node `a`. Its upward sets are that node's.
    fn copy_node(&mut self, layer: usize, a: usize) {
        let new = self.count[layer];
        self.nodes[layer][new] = self.nodes[layer][a];
        self.count[layer] += 1;
        self.arcs += self.nodes[layer][a].outs.count_ones() as usize;
    }

    pub fn join(&mut self, layer: usize, a: usize, b: usize) -> usize {
        if layer < 1 || layer >= self.round.n {
            return 20;
        }
        if a < 1 || a > self.count[layer] || b < 1 || b > self.count[layer] {
            return 21;
        }
        if a == b {
            return 25;
        }
        let (low, high) = (a.min(b) - 1, a.max(b) - 1);
        let (x, y) = (self.nodes[layer][low], self.nodes[layer][high]);
        if Doors(x.outs & y.outs).any(|j| x.to[j - 1] != y.to[j - 1]) {
            return 26;
        }
        self.arcs -= (x.outs & y.outs).count_ones() as usize;
        let lower = &mut self.nodes[layer][low];
        for j in Doors(y.outs & !x.outs) {
            lower.to[j - 1] = y.to[j - 1];
        }
        lower.outs |= y.outs;
        self.nodes[layer].copy_within(high + 1..self.count[layer], high);
        self.count[layer] -= 1;
        for s in &mut self.nodes[layer - 1][..self.count[layer - 1]] {
            for j in Doors(s.outs) {
                let t = s.to[j - 1] as usize;
                if t == high {
                    s.to[j - 1] = low as u8;
                } else if t > high {
                    s.to[j - 1] -= 1;
                }
            }
        }
        self.relabel(layer - 1);
        self.relabel_up();
        self.relabel_late();
        0
    }

    /// Parts the nodes of a layer from the first on, new ones too; yes if one is left since the layer is full.
    fn part_layer(&mut self, layer: usize) -> bool {
        // the in-arcs by target, and of one target in turn
        let mut start = [0usize; 129];
        for s in &self.nodes[layer - 1][..self.count[layer - 1]] {
            for j in Doors(s.outs) {
                start[(s.to[j - 1] & 127) as usize + 1] += 1;
            }
        }
        for b in 0..128 {
            start[b + 1] += start[b];
        }
        let mut end = start;
        for a in 0..self.count[layer - 1] {
            let s = &self.nodes[layer - 1][a];
            for j in Doors(s.outs) {
                let b = (s.to[j - 1] & 127) as usize;
                self.inarcs[end[b]] = InArc { source: a as u8, door: j as u8, brings: self.round.arrive(&s.down, j) };
                end[b] += 1;
            }
        }
        let mut full = false;
        let mut altered = false;
        let mut b = 0;
        while b < self.count[layer] {
            let (from, to) = (start[b], end[b]);
            let first = self.inarcs[from].brings;
            // those that agree with the first move to the front, the others keep their turn behind them
            let (mut stay, mut leave) = (from, 0);
            for k in from..to {
                let x = self.inarcs[k];
                if first.agrees(&x.brings) {
                    self.inarcs[stay] = x;
                    stay += 1;
                } else {
                    self.aside[leave] = x;
                    leave += 1;
                }
            }
            if leave > 0 {
                if self.count[layer] == self.width {
                    full = true;
                    break;
                }
                let new = self.count[layer];
                self.inarcs[stay..to].copy_from_slice(&self.aside[..leave]);
                (start[new], end[new], end[b]) = (stay, to, stay);
                for x in &self.aside[..leave] {
                    self.nodes[layer - 1][x.source as usize].to[x.door as usize - 1] = new as u8;
                }
                self.copy_node(layer, b);
                altered = true;
            }
            b += 1;
        }
        if altered {
            self.relabel(layer - 1);
        }
        full
    }

    /// 0 for whole, or the layer that was full.
    pub fn refine(&mut self) -> usize {
        let mut answer = 0;
        for layer in 1..self.round.n {
            self.take_barred();
            if self.part_layer(layer) {
                answer = layer;
                break;
            }
        }
        while self.take_barred() > 0 {}
        self.relabel_late();
        answer
    }

    pub fn arcs(&self) -> usize {
        self.arcs
    }

    /// How many nodes a layer has.
    pub fn nodes_in(&self, layer: usize) -> usize {
        self.count[layer]
    }

    /// The arcs and labels of all places up to the end in one number, as the program `checks` puts them together: a place
    /// that is not in use has no arcs, empty sets, finish 0, the starts of rule and tally, which the first node has too, and
    /// -40,000.
    pub fn records_sum(&self) -> u64 {
        let n = self.round.n;
        let starts = Down { all: 0, some: 0, finish: 0, lasts: 0, ..self.nodes[0][0].down };
        let blank = Node { down: starts, ..BLANK };
        let mut sum = 0;
        for i in 0..=n {
            for a in 0..if i < n { self.width } else { 1 } {
                sum = if a < self.count[i] { self.nodes[i][a].add_to(sum) } else { blank.add_to(sum) };
            }
        }
        sum
    }

    pub fn bound(&self) -> Option<(u32, u32)> {
        let n = self.round.n;
        (self.count[n] > 0).then(|| self.nodes[n][0].down.value)
    }

    /// For each door the doors behind it on every path, as masks.
    pub fn musts(&self) -> [u32; 17] {
        let n = self.round.n;
        let doors = (2u32 << n) - 2;
        // by node, for each door j the doors that come behind a j on some path from there on
        let mut later = [[0u32; 17]; 128];
        for i in (0..n).rev() {
            let mut here = [[0u32; 17]; 128];
            for a in 0..self.count[i] {
                let s = &self.nodes[i][a];
                for j in Doors(s.outs) {
                    let t = s.to[j - 1] as usize;
                    for k in 1..=n {
                        here[a][k] |= later[t][k];
                    }
                    here[a][j] |= self.nodes[i + 1][t].up.some;
                }
            }
            later = here;
        }
        // i is ahead of j in all of them unless i comes behind a j in one
        let mut musts = [0; 17];
        for i in 1..=n {
            for j in 1..=n {
                if i != j && later[0][j] >> i & 1 == 0 {
                    musts[i] |= 1 << j;
                }
            }
            musts[i] &= doors;
        }
        musts
    }

    pub fn settled(&self) -> bool {
        let n = self.round.n;
        (1..n).all(|i| (0..self.count[i]).all(|a| Self::agreeing(&self.arrivals(i, a))))
            && (0..n).all(|i| self.nodes[i][..self.count[i]].iter().all(|s| self.barred(i, s, &self.nodes[i + 1]) == 0))
    }
}
