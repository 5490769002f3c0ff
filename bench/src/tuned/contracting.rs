//! The pairs that a cycle contracts. A vertex's best rating with a later one is kept as a bound
//! and rated afresh only when the bound is the highest of all and may be too high. Ratings of
//! standing pairs never fall: a contraction joins two rows of nets, and a net that loses a pin
//! counts for more. So after a contraction of v into u a bound rises by what the shrunk nets of
//! its vertex gained, and the ratings with u, worked out at once, are the only other ones that
//! changed.

use super::bits::{insert, ones, Bits, WORDS};
use super::board::Board;

pub struct Ratings {
    /// What a net adds to the rating of two of its pins.
    terms: [u64; 1024],
    /// No pair of the vertex with a later one rates higher; 0 off the board.
    bounds: [u64; 1024],
    /// Whether the bound is the rating with `partners`, the lowest of the best ones.
    exact: [bool; 1024],
    partners: [u16; 1024],
    /// Sums over nets of the vertex in hand, 0 between uses.
    sums: [u64; 1024],
}

impl Default for Ratings {
    fn default() -> Self {
        Ratings {
            terms: [0; 1024],
            bounds: [0; 1024],
            exact: [false; 1024],
            partners: [0; 1024],
            sums: [0; 1024],
        }
    }
}

fn term(weight: i32, size: u16) -> u64 {
    if size < 2 {
        0
    } else {
        5_040 * weight as u64 / (u64::from(size) - 1)
    }
}

impl Ratings {
    /// Before any contraction: a vertex's ratings are at most the sum of its nets' terms.
    fn start<const B: usize>(&mut self, board: &Board<B>) {
        for e in 0..board.nets {
            self.terms[e] = term(board.net_weights[e], board.sizes[e]);
        }
        for x in 0..board.vertices {
            self.bounds[x] = ones(&board.incidence[x]).map(|e| self.terms[e]).sum();
            self.exact[x] = false;
        }
    }

    /// The pair of highest rating, then lowest u, then lowest v.
    fn best<const B: usize>(&mut self, board: &Board<B>) -> Option<(usize, usize)> {
        loop {
            let (mut u, mut highest) = (0, 0);
            for (x, &bound) in self.bounds[..board.vertices].iter().enumerate() {
                if bound > highest {
                    (u, highest) = (x, bound);
                }
            }
            if highest == 0 {
                return None;
            }
            let v = self.partners[u] as usize;
            if self.exact[u] && board.may_contract(u, v) {
                return Some((u, v));
            }
            self.rate(board, u);
        }
    }

    /// Adds up u's ratings with all vertices into `sums`; these are the ones met.
    fn add_up<const B: usize>(&mut self, board: &Board<B>, u: usize) -> Bits {
        let mut met: Bits = [0; WORDS];
        for e in ones(&board.incidence[u]) {
            let term = self.terms[e];
            for &pin in board.pins_of(e) {
                self.sums[pin as usize] += term;
                insert(&mut met, pin as usize);
            }
        }
        met
    }

    /// Works out the best partner of u among the vertices after it.
    fn rate<const B: usize>(&mut self, board: &Board<B>, u: usize) {
        let met = self.add_up(board, u);
        let (mut partner, mut highest) = (0, 0);
        for x in ones(&met) {
            let rating = std::mem::take(&mut self.sums[x]);
            if x > u && rating > highest && board.may_contract(u, x) {
                (partner, highest) = (x, rating);
            }
        }
        self.settle(u, partner, highest);
    }

    fn settle(&mut self, u: usize, partner: usize, rating: u64) {
        self.bounds[u] = rating;
        self.partners[u] = partner as u16;
        self.exact[u] = true;
    }

    /// Brings the bounds up to date after v was contracted into u; both were pins of `shared`.
    fn contracted<const B: usize>(&mut self, board: &Board<B>, shared: &Bits, u: usize, v: usize) {
        self.bounds[v] = 0;
        for e in ones(shared) {
            let new = term(board.net_weights[e], board.sizes[e]);
            // A net whose only pin is u is in no rating any more.
            let rise = new.saturating_sub(self.terms[e]);
            self.terms[e] = new;
            if rise > 0 {
                for &pin in board.pins_of(e) {
                    self.bounds[pin as usize] += rise;
                    self.exact[pin as usize] = false;
                }
            }
        }
        let met = self.add_up(board, u);
        let (mut partner, mut highest) = (0, 0);
        for x in ones(&met) {
            let rating = std::mem::take(&mut self.sums[x]);
            if x == u || !board.may_contract(u, x) {
                continue;
            }
            if x > u {
                if rating > highest {
                    (partner, highest) = (x, rating);
                }
            } else if rating > self.bounds[x] {
                self.settle(x, u, rating);
            } else if rating == self.bounds[x] && self.exact[x] && u < self.partners[x] as usize {
                self.partners[x] = u as u16;
            }
        }
        self.settle(u, partner, highest);
    }
}

impl<const B: usize> Board<B> {
    /// Whether both are on the board, in one block, not fixed, and not too heavy together.
    fn may_contract(&self, u: usize, v: usize) -> bool {
        self.block[u] == self.block[v]
            && self.on_board(v)
            && self.weights[u] + self.weights[v] <= self.average
            && self.fixed_counts[u] + self.fixed_counts[v] == 0
    }

    /// Contracts the best pair while more than 2 × k vertices are on the board; how many.
    pub fn coarsen(&mut self, ratings: &mut Ratings) -> u32 {
        let mut left = self.present;
        if left > 2 * self.blocks {
            ratings.start(self);
        }
        while left > 2 * self.blocks {
            let Some((u, v)) = ratings.best(self) else {
                break;
            };
            let mut shared = self.incidence[u];
            for (word, other) in shared.iter_mut().zip(&self.incidence[v]) {
                *word &= other;
            }
            self.contract(u, v);
            ratings.contracted(self, &shared, u, v);
            left -= 1;
        }
        (self.present - left) as u32
    }
}
