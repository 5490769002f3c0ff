//! The running tables and the operations on them: a move, a contraction, its undo. A gain is kept
//! in two halves: what a vertex frees by leaving its block, and what it draws in at each other
//! one; gain(x, b) is `freed[x] - drawn[x][b]`. B is the width of rows by block, at least k.

use super::bits::{contains, insert, ones, remove, Bits, WORDS};
use super::index::Index;
use super::reading::Catalogue;

/// The block of a vertex that is contracted into another.
pub const OFF_BOARD: u8 = u8::MAX;

/// What going to a vertex's own block, or to one past the last, draws in: more than any gain
/// makes up for, so that a search needs no test for these.
pub const CLOSED: i32 = 1 << 29;

pub struct Board<const B: usize> {
    /// How many vertices were ever there: their numbers are in use or free.
    pub vertices: usize,
    /// How many of them are there now, contracted ones too.
    pub present: usize,
    pub withdrawn: Bits,
    /// The vertices withdrawn and not there again, the latest last.
    pub free: Vec<u16>,
    pub nets: usize,
    pub blocks: usize,
    pub average: u32,
    pub capacity: u32,
    pub total: i32,
    pub loads: [u32; B],
    pub weights: [u32; 1024],
    pub block: [u8; 1024],
    /// The vertex that one off the board was contracted into.
    pub above: [u16; 1024],
    /// How many vertices fixed by the file each vertex stands for.
    pub fixed_counts: [u16; 1024],
    /// The vertices on the board that stand for such a one, and so stay in their block.
    pub fixed: Bits,
    /// The nets of each vertex, kept as they were for one off the board.
    pub incidence: [Bits; 1024],
    pub net_weights: [i32; 1024],
    pub firsts: [u16; 1025],
    pub sizes: [u16; 1024],
    /// A net's present pins are the first `sizes[e]` of its stretch; a pin removed by a
    /// contraction lies just past them until the undo.
    pub pins: [u16; 8192],
    pub counts: [[u16; B]; 1024],
    /// The sum of a net's pins in a block, modulo 2^16: where the count is 1, that pin itself.
    pub sums: [[u16; B]; 1024],
    pub freed: [i32; 1024],
    pub drawn: [[i32; B]; 1024],
    /// The index of gains, if one is kept: every operation leaves it right.
    pub index: Option<Box<Index<B>>>,
    pub contractions: Vec<(u16, u16)>,
    pub journal: Vec<(u16, u8)>,
}

impl<const B: usize> Default for Board<B> {
    fn default() -> Self {
        Board {
            vertices: 0,
            present: 0,
            withdrawn: [0; WORDS],
            free: Vec::with_capacity(1024),
            nets: 0,
            blocks: 0,
            average: 0,
            capacity: 0,
            total: 0,
            loads: [0; B],
            weights: [0; 1024],
            block: [0; 1024],
            above: [0; 1024],
            fixed_counts: [0; 1024],
            fixed: [0; WORDS],
            incidence: [[0; 16]; 1024],
            net_weights: [0; 1024],
            firsts: [0; 1025],
            sizes: [0; 1024],
            pins: [0; 8192],
            counts: [[0; B]; 1024],
            sums: [[0; B]; 1024],
            freed: [0; 1024],
            drawn: [[0; B]; 1024],
            index: None,
            contractions: Vec::with_capacity(1024),
            journal: Vec::with_capacity(1024),
        }
    }
}

impl<const B: usize> Board<B> {
    /// Takes over a catalogue: the draft's blocks, no contractions, an empty journal.
    pub fn open(&mut self, catalogue: &Catalogue) {
        let (n, m) = (catalogue.vertices, catalogue.nets);
        let filled = catalogue.firsts[m] as usize;
        self.vertices = n;
        self.present = n;
        self.withdrawn = [0; WORDS];
        self.free.clear();
        self.nets = m;
        self.blocks = catalogue.blocks;
        self.average = catalogue.average;
        self.capacity = catalogue.capacity;
        self.contractions.clear();
        self.journal.clear();
        self.weights[..n].copy_from_slice(&catalogue.weights[..n]);
        self.block[..n].copy_from_slice(&catalogue.draft[..n]);
        self.above[..n].fill(0);
        self.fixed = catalogue.fixed;
        self.fixed_counts[..n].fill(0);
        for x in ones(&self.fixed) {
            self.fixed_counts[x] = 1;
        }
        self.net_weights[..m].copy_from_slice(&catalogue.net_weights[..m]);
        self.firsts[..=m].copy_from_slice(&catalogue.firsts[..=m]);
        self.pins[..filled].copy_from_slice(&catalogue.pins[..filled]);
        self.loads = [0; B];
        for x in 0..n {
            self.loads[self.block[x] as usize] += self.weights[x];
            self.incidence[x] = [0; 16];
            self.shut(x);
        }
        self.total = 0;
        for e in 0..m {
            self.open_net(e);
        }
        self.rank_all();
    }

    /// A vertex's halves of gains before any net is counted.
    fn shut(&mut self, x: usize) {
        self.freed[x] = 0;
        self.drawn[x] = [0; B];
        self.drawn[x][self.blocks..].fill(CLOSED);
        self.drawn[x][self.block[x] as usize] = CLOSED;
    }

    fn open_net(&mut self, e: usize) {
        self.sizes[e] = self.firsts[e + 1] - self.firsts[e];
        let mut counts = [0; B];
        let mut sums = [0u16; B];
        for &pin in &self.pins[self.firsts[e] as usize..self.firsts[e + 1] as usize] {
            let b = self.block[pin as usize] as usize;
            counts[b] += 1;
            sums[b] = sums[b].wrapping_add(pin);
            insert(&mut self.incidence[pin as usize], e);
        }
        self.counts[e] = counts;
        self.sums[e] = sums;
        let cost = self.net_weights[e];
        self.total += cost * (self.connectivity(e) as i32 - 1);
        let drawn = draws(&counts, cost);
        for &pin in &self.pins[self.firsts[e] as usize..self.firsts[e + 1] as usize] {
            let x = pin as usize;
            if counts[self.block[x] as usize] == 1 {
                self.freed[x] += cost;
            }
            add(&mut self.drawn[x], &drawn);
        }
    }

    /// The number of blocks that a net has pins in.
    pub fn connectivity(&self, e: usize) -> usize {
        self.counts[e].iter().filter(|&&count| count > 0).count()
    }

    pub fn on_board(&self, x: usize) -> bool {
        self.block[x] != OFF_BOARD
    }

    pub fn pins_of(&self, e: usize) -> &[u16] {
        let first = self.firsts[e] as usize;
        &self.pins[first..first + self.sizes[e] as usize]
    }

    /// Moves a vertex. Other vertices' halves change only where a count leaves or reaches 0 or 1.
    pub fn go(&mut self, x: usize, to: usize) {
        let from = self.block[x] as usize;
        let (mut left, mut met) = (0, 0);
        for e in ones(&self.incidence[x]) {
            let cost = self.net_weights[e];
            let counts = &mut self.counts[e];
            let sums = &mut self.sums[e];
            let (before, there) = (counts[from], counts[to]);
            counts[from] = before - 1;
            counts[to] = there + 1;
            sums[from] = sums[from].wrapping_sub(x as u16);
            if before == 2 {
                self.freed[sums[from] as usize] += cost;
            }
            if there == 1 {
                self.freed[sums[to] as usize] -= cost;
            }
            sums[to] = sums[to].wrapping_add(x as u16);
            let (empties, fills) = (before == 1, there == 0);
            if empties {
                left += cost;
            }
            if fills {
                met += cost;
            }
            if !empties && !fills {
                continue;
            }
            let first = self.firsts[e] as usize;
            let pins = &self.pins[first..first + self.sizes[e] as usize];
            let (at_from, at_to) = (if empties { cost } else { 0 }, if fills { cost } else { 0 });
            for &pin in pins {
                let row = &mut self.drawn[pin as usize];
                row[from] += at_from;
                row[to] -= at_to;
            }
        }
        // The vertex's own rows at the two blocks are settled here, whatever the loop left there.
        self.total += met - left;
        self.freed[x] = met;
        self.drawn[x][from] = left;
        self.drawn[x][to] = CLOSED;
        self.loads[from] -= self.weights[x];
        self.loads[to] += self.weights[x];
        self.block[x] = to as u8;
        if self.index.is_some() {
            let nets = self.incidence[x];
            self.rank_near(x, &nets, |counts| counts[from] == 0 || counts[to] == 1);
        }
    }

    /// Contracts v into u, of the same block. Only u's gains change: every other pin of a net
    /// that v leaves still has u beside it.
    pub fn contract(&mut self, u: usize, v: usize) {
        let b = self.block[u] as usize;
        for e in ones(&self.incidence[v]) {
            let cost = self.net_weights[e];
            let first = self.firsts[e] as usize;
            let size = self.sizes[e] as usize;
            let at = first + place(&self.pins[first..first + size], v as u16);
            if contains(&self.incidence[u], e) {
                let last = first + size - 1;
                self.pins[at] = self.pins[last];
                self.pins[last] = v as u16;
                self.sizes[e] -= 1;
                self.counts[e][b] -= 1;
                self.sums[e][b] = self.sums[e][b].wrapping_sub(v as u16);
                if self.counts[e][b] == 1 {
                    self.freed[u] += cost;
                }
            } else {
                self.pins[at] = u as u16;
                self.sums[e][b] = self.sums[e][b]
                    .wrapping_sub(v as u16)
                    .wrapping_add(u as u16);
                if self.counts[e][b] == 1 {
                    self.freed[u] += cost;
                }
                let drawn = draws(&self.counts[e], cost);
                add(&mut self.drawn[u], &drawn);
            }
        }
        let gone = self.incidence[v];
        for (word, more) in self.incidence[u].iter_mut().zip(gone) {
            *word |= more;
        }
        self.weights[u] += self.weights[v];
        if self.fixed_counts[v] > 0 {
            self.fixed_counts[u] += self.fixed_counts[v];
            insert(&mut self.fixed, u);
            remove(&mut self.fixed, v);
        }
        self.block[v] = OFF_BOARD;
        self.above[v] = u as u16;
        self.contractions.push((u as u16, v as u16));
        self.rank(u);
    }

    /// Undoes the latest contraction: v returns in u's present block.
    pub fn uncontract(&mut self) -> Option<(usize, usize)> {
        let (u, v) = self.contractions.pop()?;
        let (u, v) = (u as usize, v as usize);
        let b = self.block[u] as usize;
        self.block[v] = b as u8;
        self.weights[u] -= self.weights[v];
        if self.fixed_counts[v] > 0 {
            self.fixed_counts[u] -= self.fixed_counts[v];
            insert(&mut self.fixed, v);
            if self.fixed_counts[u] == 0 {
                remove(&mut self.fixed, u);
            }
        }
        self.shut(v);
        for e in ones(&self.incidence[v]) {
            let cost = self.net_weights[e];
            let first = self.firsts[e] as usize;
            let size = self.sizes[e] as usize;
            let drawn = draws(&self.counts[e], cost);
            add(&mut self.drawn[v], &drawn);
            let past = first + size;
            if past < self.firsts[e + 1] as usize && self.pins[past] == v as u16 {
                self.sizes[e] += 1;
                if self.counts[e][b] == 1 {
                    self.freed[u] -= cost;
                }
                self.counts[e][b] += 1;
                self.sums[e][b] = self.sums[e][b].wrapping_add(v as u16);
            } else {
                let at = first + place(&self.pins[first..past], u as u16);
                self.pins[at] = v as u16;
                self.sums[e][b] = self.sums[e][b]
                    .wrapping_sub(u as u16)
                    .wrapping_add(v as u16);
                if self.counts[e][b] == 1 {
                    self.freed[u] -= cost;
                    self.freed[v] += cost;
                }
                for (old, less) in self.drawn[u].iter_mut().zip(drawn) {
                    *old -= less;
                }
                remove(&mut self.incidence[u], e);
            }
        }
        self.rank(u);
        self.rank(v);
        Some((u, v))
    }

    /// Takes a vertex and its pins out; no contraction stands. As in a move, others' halves change
    /// only where a count leaves 1 or reaches it.
    pub fn withdraw(&mut self, x: usize) {
        let b = self.block[x] as usize;
        let nets = self.incidence[x];
        for e in ones(&nets) {
            let cost = self.net_weights[e];
            let before = self.counts[e][b];
            self.counts[e][b] = before - 1;
            self.sums[e][b] = self.sums[e][b].wrapping_sub(x as u16);
            if before == 2 {
                self.freed[self.sums[e][b] as usize] += cost;
            }
            // A net left without pins added nothing before, either.
            if before == 1 && self.sizes[e] > 1 {
                self.total -= cost;
                let first = self.firsts[e] as usize;
                for &pin in &self.pins[first..first + self.sizes[e] as usize] {
                    self.drawn[pin as usize][b] += cost;
                }
            }
        }
        self.take_pins_out(x);
        self.loads[b] -= self.weights[x];
        self.weights[x] = 0;
        self.block[x] = OFF_BOARD;
        self.fixed_counts[x] = 0;
        remove(&mut self.fixed, x);
        insert(&mut self.withdrawn, x);
        self.free.push(x as u16);
        self.present -= 1;
        if self.index.is_some() {
            self.rank_near(x, &nets, |counts| counts[b] == 0);
        }
    }

    /// Closes the gaps that a vertex's pins leave, in one pass over the pins behind the first.
    fn take_pins_out(&mut self, x: usize) {
        let end = self.firsts[self.nets] as usize;
        let (mut write, mut read) = (end, end);
        for e in ones(&self.incidence[x]) {
            let first = self.firsts[e] as usize;
            let at = first + place(&self.pins[first..first + self.sizes[e] as usize], x as u16);
            if write == end {
                write = at;
            } else {
                self.pins.copy_within(read..at, write);
                write += at - read;
            }
            read = at + 1;
            self.sizes[e] -= 1;
        }
        self.pins.copy_within(read..end, write);
        let mut gone = 0;
        for e in 0..self.nets {
            self.firsts[e] -= gone;
            gone += u16::from(contains(&self.incidence[x], e));
        }
        self.firsts[self.nets] -= gone;
        self.incidence[x] = [0; WORDS];
    }

    /// Adds a vertex with a pin in each of these nets, under the number withdrawn last or the next
    /// unused one, which is returned; no contraction stands.
    pub fn add(&mut self, weight: u32, b: usize, nets: &Bits) -> usize {
        let x = match self.free.pop() {
            Some(x) => x as usize,
            None => {
                self.vertices += 1;
                self.vertices - 1
            }
        };
        self.present += 1;
        remove(&mut self.withdrawn, x);
        remove(&mut self.fixed, x);
        self.fixed_counts[x] = 0;
        self.above[x] = 0;
        self.weights[x] = weight;
        self.block[x] = b as u8;
        self.loads[b] += weight;
        self.incidence[x] = *nets;
        self.shut(x);
        for e in ones(nets) {
            let cost = self.net_weights[e];
            let there = self.counts[e][b];
            if there == 1 {
                self.freed[self.sums[e][b] as usize] -= cost;
            }
            if there == 0 {
                self.freed[x] += cost;
                let first = self.firsts[e] as usize;
                let size = self.sizes[e] as usize;
                if size > 0 {
                    self.total += cost;
                }
                for &pin in &self.pins[first..first + size] {
                    self.drawn[pin as usize][b] -= cost;
                }
            }
            self.counts[e][b] = there + 1;
            self.sums[e][b] = self.sums[e][b].wrapping_add(x as u16);
            let drawn = draws(&self.counts[e], cost);
            add(&mut self.drawn[x], &drawn);
        }
        self.put_pins_in(x);
        if self.index.is_some() {
            self.rank_near(x, nets, |counts| counts[b] == 1);
        }
        x
    }

    /// Makes room for a vertex's pin behind each of its nets' others, in one pass from the end.
    fn put_pins_in(&mut self, x: usize) {
        let mut places = [0u16; 1024];
        let mut count = 0;
        for e in ones(&self.incidence[x]) {
            places[count] = self.firsts[e + 1];
            self.sizes[e] += 1;
            count += 1;
        }
        let mut stop = self.firsts[self.nets] as usize;
        for i in (0..count).rev() {
            let at = places[i] as usize;
            self.pins.copy_within(at..stop, at + i + 1);
            self.pins[at + i] = x as u16;
            stop = at;
        }
        let mut come = 0;
        for e in 0..self.nets {
            self.firsts[e] += come;
            come += u16::from(contains(&self.incidence[x], e));
        }
        self.firsts[self.nets] += come;
    }
}

/// What a net of this weight draws in at each block: its weight where it has no pin.
#[inline(always)]
fn draws<const B: usize>(counts: &[u16; B], cost: i32) -> [i32; B] {
    counts.map(|count| if count == 0 { cost } else { 0 })
}

#[inline(always)]
fn add<const B: usize>(row: &mut [i32; B], more: &[i32; B]) {
    for (old, new) in row.iter_mut().zip(more) {
        *old += new;
    }
}

/// The place of a pin that is in the list; whole chunks are compared at a time.
fn place(pins: &[u16], pin: u16) -> usize {
    const CHUNK: usize = 16;
    let mut first = 0;
    for chunk in pins.chunks_exact(CHUNK) {
        if chunk
            .iter()
            .fold(false, |found, &other| found | (other == pin))
        {
            break;
        }
        first += CHUNK;
    }
    let rest = &pins[first..];
    first
        + rest
            .iter()
            .position(|&other| other == pin)
            .expect("the pin is in the list")
}
