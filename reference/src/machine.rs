//! The plain machine: its state, the effect of each call and its refusals, 9 to 16, 20, 22, 23 and 25.
//! Rests on `measure` for every number it answers and on `search` for W, P and A.

use std::collections::BTreeSet;
use std::rc::Rc;

use crate::catalogue::{Call, Catalogue, Limits, MAX_BALES, MAX_MARKS};
use crate::measure::{cap, Halves, Standing, View};
use crate::search;

/// A call's lot, session or buyer is unknown, or N's bales are outside loading's range.
pub const NO_SUCH_NUMBER: u32 = 9;
/// The lot is joined into another or withdrawn.
pub const OFF_THE_BOARD: u32 = 10;
/// J with u = v.
pub const SAME_LOT: u32 = 11;
/// M to the lot's own session.
pub const ALREADY_THERE: u32 = 12;
/// J across sessions.
pub const TWO_SESSIONS: u32 = 13;
/// M or N to a session whose bales and the lot's are together above the cap.
pub const OVER_THE_CAP: u32 = 14;
/// S without a join, B without a record.
pub const NOTHING_TO_UNDO: u32 = 15;
/// A, X or N while a join stands.
pub const JOINS_STANDING: u32 = 16;
/// M on a kept lot.
pub const KEPT_LOT: u32 = 20;
/// N with a buyer named twice.
pub const BUYER_TWICE: u32 = 22;
/// N with the entry's limit of lots present, or its marks and those in use above 8,192; in a hall
/// the lots and marks of all catalogues count.
pub const FULL_TABLES: u32 = 23;
/// M, N or B to a session whose bales over the hall and the lot's are together above the hall limit.
pub const OVER_THE_HALL_LIMIT: u32 = 25;

/// What an accepted call answers.
#[derive(Clone, Copy, Debug, PartialEq, Eq)]
pub enum Answer {
    J {
        bales: u64,
    },
    S {
        u: usize,
        v: usize,
    },
    M {
        freed: u64,
        drawn: u64,
        total: u64,
    },
    B {
        u: usize,
        session: usize,
        total: u64,
    },
    W {
        tried: u64,
        kept: u64,
        total: u64,
    },
    P {
        moves: u64,
        total: u64,
    },
    A {
        joins: u64,
        tried: u64,
        kept: u64,
        moves: u64,
        total: u64,
    },
    X {
        total: u64,
    },
    N {
        lot: usize,
        total: u64,
    },
}

/// All that a call knows of the hall around its catalogue: the hall limit, if there is a hall, and of
/// the other catalogues together the bales of each session (session 1 first, a session past the end has
/// none), the lots in the sale and the marks in use.
#[derive(Clone, Debug, Default, PartialEq, Eq)]
pub struct Beside {
    pub limit: Option<u64>,
    pub bales: Vec<u64>,
    pub lots: u64,
    pub marks: usize,
}

impl Beside {
    /// The bales that the others have in a session.
    pub fn bales_in(&self, session: usize) -> u64 {
        self.bales.get(session - 1).copied().unwrap_or(0)
    }

    /// Whether the hall limit allows a session so many bales of the catalogue's own.
    pub fn allows(&self, session: usize, own: u64) -> bool {
        let all = self.bales_in(session) + own;
        self.limit.is_none_or(|limit| all <= limit)
    }

    /// The bales that a session with so many of the catalogue's own may still take.
    fn room(&self, session: usize, own: u64) -> u64 {
        let all = self.bales_in(session) + own;
        self.limit
            .map_or(u64::MAX, |limit| limit.saturating_sub(all))
    }
}

/// The state: the catalogue, the stack of joins, a session for each board lot (0 off the
/// board, place 0 unused) and the record of moves as lots with their old sessions. The cap, the
/// joining limit and the draft total go by `loaded`; `catalogue` is that of loading less withdrawals
/// plus additions. `beside` is no part of the state: it is what a call goes by in a hall.
#[derive(Clone, Debug, PartialEq, Eq)]
pub struct Machine<'a> {
    pub loaded: &'a Catalogue,
    pub limits: Limits,
    pub catalogue: Rc<Catalogue>,
    /// The numbers withdrawn and still free, the latest last.
    pub free_numbers: Vec<usize>,
    /// Whether an X or N was accepted, so that the tables of marks were gathered.
    pub gathered: bool,
    pub joins: Vec<(usize, usize)>,
    pub sessions: Vec<usize>,
    pub record: Vec<(usize, usize)>,
    pub beside: Beside,
}

impl<'a> Machine<'a> {
    /// The draft's sessions, no joins, an empty record.
    pub fn fresh(loaded: &'a Catalogue) -> Self {
        Machine::fresh_within(loaded, &Limits::default())
    }

    /// The same at an entry with the given limits, of which 23 asks.
    pub fn fresh_within(loaded: &'a Catalogue, limits: &Limits) -> Self {
        let mut sessions = vec![0];
        sessions.extend(loaded.lots.iter().map(|lot| lot.session));
        Machine {
            loaded,
            limits: *limits,
            catalogue: Rc::new(loaded.clone()),
            free_numbers: Vec::new(),
            gathered: false,
            joins: Vec::new(),
            sessions,
            record: Vec::new(),
            beside: Beside::default(),
        }
    }

    /// The standing lots of the present state.
    pub fn standing(&self) -> Standing<'a> {
        Standing::of(self.loaded, &self.catalogue, &self.joins)
    }

    /// The total of the present state.
    pub fn total(&self) -> u64 {
        View::of(&self.standing(), &self.sessions).total()
    }

    /// Lot v leaves the board and u stands for it.
    pub(crate) fn join(&mut self, u: usize, v: usize) {
        self.joins.push((u, v));
        self.sessions[v] = 0;
    }

    /// The top join comes off and its lot returns; nothing if no join stands.
    pub(crate) fn split(&mut self) -> Option<(usize, usize)> {
        let (u, v) = self.joins.pop()?;
        self.sessions[v] = self.sessions[u];
        Some((u, v))
    }

    /// Whether the hall limit allows session `t` so many bales more.
    fn hall_space(&self, view: &View, bales: u64, t: usize) -> bool {
        self.beside.allows(t, view.session_bales(t) + bales)
    }

    /// Whether session `t` has space for board lot `u` under the cap and under the hall limit.
    pub fn space(&self, view: &View, u: usize, t: usize) -> bool {
        view.space(u, t) && self.hall_space(view, view.standing().bales(u), t)
    }

    /// The bales that session `t` may still take under the cap and under the hall limit.
    pub fn room(&self, view: &View, t: usize) -> u64 {
        let own = view.session_bales(t);
        let under_cap = cap(self.loaded).saturating_sub(own);
        under_cap.min(self.beside.room(t, own))
    }

    /// The bales of each session, session 1 first.
    pub fn session_bales(&self) -> Vec<u64> {
        let standing = self.standing();
        let view = View::of(&standing, &self.sessions);
        let sessions = self.catalogue.session_numbers();
        sessions
            .map(|session| view.session_bales(session))
            .collect()
    }

    /// Runs one call. A refused one gives its number and changes nothing.
    pub fn call(&mut self, call: &Call) -> Result<Answer, u32> {
        let answer = match *call {
            Call::J { u, v } => self.call_j(u, v)?,
            Call::S => self.call_s()?,
            Call::M { u, t } => self.call_m(u, t)?,
            Call::B => self.call_b()?,
            Call::W { u, v } => self.call_w(u, v)?,
            Call::P => {
                let moves = search::improve(self);
                Answer::P {
                    moves,
                    total: self.total(),
                }
            }
            Call::A => self.call_a()?,
            Call::X { lot } => self.call_x(lot)?,
            Call::N {
                bales,
                session,
                ref buyers,
            } => self.call_n(bales, session, buyers)?,
        };
        if !matches!(call, Call::M { .. } | Call::B) {
            self.record.clear();
        }
        Ok(answer)
    }

    fn known_lot(&self, number: u64) -> Result<usize, u32> {
        known(number, self.catalogue.lots.len())
    }

    fn on_board(&self, lot: usize) -> Result<(), u32> {
        let joined = self.joins.iter().any(|&(_, v)| v == lot);
        if joined || !self.catalogue.in_sale(lot) {
            Err(OFF_THE_BOARD)
        } else {
            Ok(())
        }
    }

    fn no_join_stands(&self) -> Result<(), u32> {
        if self.joins.is_empty() {
            Ok(())
        } else {
            Err(JOINS_STANDING)
        }
    }

    fn call_j(&mut self, u: u64, v: u64) -> Result<Answer, u32> {
        let (u, v) = (self.known_lot(u)?, self.known_lot(v)?);
        if u == v {
            return Err(SAME_LOT);
        }
        self.on_board(u)?;
        self.on_board(v)?;
        if self.sessions[u] != self.sessions[v] {
            return Err(TWO_SESSIONS);
        }
        self.join(u, v);
        Ok(Answer::J {
            bales: self.standing().bales(u),
        })
    }

    fn call_s(&mut self) -> Result<Answer, u32> {
        let (u, v) = self.split().ok_or(NOTHING_TO_UNDO)?;
        Ok(Answer::S { u, v })
    }

    fn call_m(&mut self, u: u64, t: u64) -> Result<Answer, u32> {
        let u = self.known_lot(u)?;
        let t = known(t, self.catalogue.sessions)?;
        self.on_board(u)?;
        if self.sessions[u] == t {
            return Err(ALREADY_THERE);
        }
        let standing = self.standing();
        if standing.kept(u) {
            return Err(KEPT_LOT);
        }
        let view = View::of(&standing, &self.sessions);
        if !view.space(u, t) {
            return Err(OVER_THE_CAP);
        }
        if !self.hall_space(&view, standing.bales(u), t) {
            return Err(OVER_THE_HALL_LIMIT);
        }
        let Halves { freed, drawn } = view.halves(u, t);
        self.record.push((u, self.sessions[u]));
        self.sessions[u] = t;
        Ok(Answer::M {
            freed,
            drawn,
            total: self.total(),
        })
    }

    fn call_b(&mut self) -> Result<Answer, u32> {
        let &(u, session) = self.record.last().ok_or(NOTHING_TO_UNDO)?;
        let standing = self.standing();
        let view = View::of(&standing, &self.sessions);
        if !self.hall_space(&view, standing.bales(u), session) {
            return Err(OVER_THE_HALL_LIMIT);
        }
        self.record.pop();
        self.sessions[u] = session;
        Ok(Answer::B {
            u,
            session,
            total: self.total(),
        })
    }

    fn call_w(&mut self, u: u64, v: u64) -> Result<Answer, u32> {
        let (u, v) = (self.known_lot(u)?, self.known_lot(v)?);
        self.on_board(u)?;
        self.on_board(v)?;
        let walk = search::walk(self, u, v);
        Ok(Answer::W {
            tried: walk.tried,
            kept: walk.kept,
            total: self.total(),
        })
    }

    fn call_a(&mut self) -> Result<Answer, u32> {
        self.no_join_stands()?;
        let joins = search::join_down(self);
        let (mut tried, mut kept) = (0, 0);
        while let Some((u, v)) = self.split() {
            let walk = search::walk(self, u, v);
            tried += walk.tried;
            kept += walk.kept;
        }
        let moves = search::improve(self);
        Ok(Answer::A {
            joins,
            tried,
            kept,
            moves,
            total: self.total(),
        })
    }

    fn call_x(&mut self, lot: u64) -> Result<Answer, u32> {
        let lot = self.known_lot(lot)?;
        self.no_join_stands()?;
        self.on_board(lot)?;
        Rc::make_mut(&mut self.catalogue).withdraw(lot);
        self.sessions[lot] = 0;
        self.free_numbers.push(lot);
        self.gathered = true;
        Ok(Answer::X {
            total: self.total(),
        })
    }

    fn call_n(&mut self, bales: u64, session: u64, buyers: &[u64]) -> Result<Answer, u32> {
        known(bales, MAX_BALES as usize)?;
        let session = known(session, self.catalogue.sessions)?;
        let buyers = buyers
            .iter()
            .map(|&buyer| known(buyer, self.catalogue.buyers.len()))
            .collect::<Result<Vec<usize>, u32>>()?;
        self.no_join_stands()?;
        let different: BTreeSet<&usize> = buyers.iter().collect();
        if different.len() < buyers.len() {
            return Err(BUYER_TWICE);
        }
        let lots = self.beside.lots + self.catalogue.lots_in_sale().count() as u64;
        let marks = self.beside.marks + self.catalogue.mark_count() + buyers.len();
        if lots == self.limits.lots || marks > MAX_MARKS {
            return Err(FULL_TABLES);
        }
        let standing = self.standing();
        let view = View::of(&standing, &self.sessions);
        if !view.space_for(bales, session) {
            return Err(OVER_THE_CAP);
        }
        if !self.hall_space(&view, bales, session) {
            return Err(OVER_THE_HALL_LIMIT);
        }
        // The number withdrawn last and still free, or the next that was never used.
        let next = self.catalogue.lots.len() + 1;
        let lot = self.free_numbers.pop().unwrap_or(next);
        if lot == next {
            self.sessions.push(0);
        }
        Rc::make_mut(&mut self.catalogue).add(lot, bales, session, &buyers);
        self.sessions[lot] = session;
        self.gathered = true;
        Ok(Answer::N {
            lot,
            total: self.total(),
        })
    }
}

/// A number of 1 to `highest` names something; any other is refused.
fn known(number: u64, highest: usize) -> Result<usize, u32> {
    if (1..=highest as u64).contains(&number) {
        Ok(number as usize)
    } else {
        Err(NO_SUCH_NUMBER)
    }
}
