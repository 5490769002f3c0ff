//! The searches: a walk from two vertices, and a polish over the board. Each move is chosen by a
//! search of all open pairs, a vertex's row at a time, or from the index where one is kept.

use super::bits::{insert, ones, take_out, Bits, WORDS};
use super::board::Board;
use super::index::Index;

/// A walk stops this many moves after the prefix that it would keep.
const PATIENCE: usize = 25;

/// Below every gain, and above a gain to a closed block.
const NO_GAIN: i32 = -(1 << 28);

pub struct Walk {
    pub tried: u32,
    pub kept: u32,
}

struct Pair {
    vertex: usize,
    block: usize,
    gain: i32,
}

impl<const B: usize> Board<B> {
    /// The open pair of highest gain, then lowest vertex, then lowest block.
    fn best_pair(&self, candidates: &Bits) -> Option<Pair> {
        match &self.index {
            None => self.best_of_all(candidates),
            Some(index) => self.best_ranked(index, candidates),
        }
    }

    fn best_of_all(&self, candidates: &Bits) -> Option<Pair> {
        // Signed like the gains, so that both are compared lane by lane; weights fit.
        let room = self.loads.map(|load| (self.capacity - load) as i32);
        let mut best = Pair {
            vertex: 0,
            block: 0,
            gain: NO_GAIN,
        };
        for x in ones(candidates) {
            // Nothing drawn in is below 0, so no gain passes what the vertex frees.
            if self.freed[x] <= best.gain {
                continue;
            }
            let weight = self.weights[x] as i32;
            let mut gains = [NO_GAIN; B];
            for b in 0..B {
                if weight <= room[b] {
                    gains[b] = self.freed[x] - self.drawn[x][b];
                }
            }
            let top = gains.iter().fold(NO_GAIN, |top, &gain| top.max(gain));
            if top > best.gain {
                let block = gains.iter().position(|&gain| gain == top);
                best = Pair {
                    vertex: x,
                    block: block.expect("the highest gain is one of them"),
                    gain: top,
                };
            }
        }
        (best.gain > NO_GAIN).then_some(best)
    }

    /// The same from the index: of a row only the first open block counts.
    fn best_ranked(&self, index: &Index<B>, candidates: &Bits) -> Option<Pair> {
        let mut best = Pair {
            vertex: 0,
            block: 0,
            gain: NO_GAIN,
        };
        for x in ones(candidates) {
            if self.freed[x] <= best.gain {
                continue;
            }
            for &block in index.others(x, self.blocks) {
                let block = block as usize;
                let gain = self.freed[x] - self.drawn[x][block];
                if gain <= best.gain {
                    break;
                }
                if self.loads[block] + self.weights[x] <= self.capacity {
                    best = Pair {
                        vertex: x,
                        block,
                        gain,
                    };
                    break;
                }
            }
        }
        (best.gain > NO_GAIN).then_some(best)
    }

    /// The load of the heaviest block.
    fn heaviest(&self) -> u32 {
        self.loads.iter().fold(0, |top, &load| top.max(load))
    }

    /// A walk from the board vertices u and v. Of its prefixes that of lowest total is kept, then of
    /// lowest heaviest block, then the first.
    pub fn walk(&mut self, u: usize, v: usize) -> Walk {
        let mut candidates: Bits = [0; WORDS];
        insert(&mut candidates, u);
        insert(&mut candidates, v);
        // Fixed vertices count as moved from the start.
        let mut moved = self.fixed;
        take_out(&mut candidates, &moved);
        // Nets whose pins are candidates already.
        let mut spread: Bits = [0; WORDS];
        // Moved vertices with their old blocks; each moves once.
        let mut moves = [(0u16, 0u8); 1024];
        let (mut tried, mut kept, mut lowest) = (0, 0, (self.total, self.heaviest()));
        while tried - kept < PATIENCE {
            let Some(pair) = self.best_pair(&candidates) else {
                break;
            };
            let x = pair.vertex;
            moves[tried] = (x as u16, self.block[x]);
            tried += 1;
            self.go(x, pair.block);
            insert(&mut moved, x);
            let mut fresh = self.incidence[x];
            for (new, old) in fresh.iter_mut().zip(&mut spread) {
                *new &= !*old;
                *old |= *new;
            }
            for e in ones(&fresh) {
                for &pin in self.pins_of(e) {
                    insert(&mut candidates, pin as usize);
                }
            }
            take_out(&mut candidates, &moved);
            if self.total <= lowest.0 {
                let reached = (self.total, self.heaviest());
                if reached < lowest {
                    (kept, lowest) = (tried, reached);
                }
            }
        }
        for &(x, old) in moves[kept..tried].iter().rev() {
            self.go(x as usize, old as usize);
        }
        Walk {
            tried: tried as u32,
            kept: kept as u32,
        }
    }

    /// The best move of a vertex that is not fixed while its gain is at least 1; how many were made.
    pub fn polish(&mut self) -> u32 {
        let mut board: Bits = [0; WORDS];
        for x in 0..self.vertices {
            if self.on_board(x) {
                insert(&mut board, x);
            }
        }
        take_out(&mut board, &self.fixed);
        let mut moves = 0;
        while let Some(pair) = self.best_pair(&board) {
            if pair.gain < 1 {
                break;
            }
            self.go(pair.vertex, pair.block);
            moves += 1;
        }
        moves
    }
}
