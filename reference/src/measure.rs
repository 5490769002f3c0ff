//! Cap, stand, kept lots, present mark sets, bales, counts, total and gain, each worked out afresh.
//! Rests on the loaded catalogue, with what was withdrawn and added since, the stack of joins and the
//! session of each board lot.

use std::collections::BTreeSet;
use std::rc::Rc;

use crate::catalogue::Catalogue;

/// All loaded bales, by their lows, shared out evenly over the sessions, rounded up: ⌈W/k⌉.
pub fn fair_share(catalogue: &Catalogue) -> u64 {
    let all: u64 = catalogue.lots.iter().map(|lot| lot.low).sum();
    all.div_ceil(catalogue.sessions as u64)
}

/// The cap of every session: (1,000 + slack) × ⌈W/k⌉ / 1,000 to the nearest bale, an exact half
/// to the even number.
pub fn cap(catalogue: &Catalogue) -> u64 {
    let thousandths = (1_000 + catalogue.slack) * fair_share(catalogue);
    let (whole, rest) = (thousandths / 1_000, thousandths % 1_000);
    let even = whole % 2 == 0;
    if rest < 500 || (rest == 500 && even) {
        whole
    } else {
        whole + 1
    }
}

/// The bales of a session in the draft: 0 past the catalogue's session count.
fn draft_bales(catalogue: &Catalogue, session: usize) -> u64 {
    let lots = catalogue.lots.iter();
    lots.filter(|lot| lot.session == session)
        .map(|lot| lot.bales)
        .sum()
}

/// Whether the draft has a session above the cap.
pub fn overfull_draft(catalogue: &Catalogue) -> bool {
    let cap = cap(catalogue);
    catalogue
        .session_numbers()
        .any(|session| draft_bales(catalogue, session) > cap)
}

/// Whether the drafts of a hall's catalogues have a session that is above the hall limit together.
pub fn drafts_above(catalogues: &[Catalogue], limit: u64) -> bool {
    let most = catalogues.iter().map(|catalogue| catalogue.sessions).max();
    (1..=most.unwrap_or(0)).any(|session| {
        let bales = catalogues
            .iter()
            .map(|catalogue| draft_bales(catalogue, session));
        bales.sum::<u64>() > limit
    })
}

/// What follows from the catalogue and the stack of joins, whatever the sessions are.
/// Tables by lot or by buyer number leave place 0 unused. The cap is that of `loaded`, the catalogue
/// as its file has it; all else goes by `catalogue`, that of loading less withdrawals plus additions.
pub struct Standing<'a> {
    loaded: &'a Catalogue,
    catalogue: Rc<Catalogue>,
    joins: Vec<(usize, usize)>,
    above: Vec<usize>,
    stand: Vec<usize>,
    bales: Vec<u64>,
    kept: Vec<bool>,
    present: Vec<Vec<usize>>,
    buyers: Vec<Vec<usize>>,
}

impl<'a> Standing<'a> {
    /// Works everything out from the two catalogues and the joins.
    pub fn of(loaded: &'a Catalogue, catalogue: &Rc<Catalogue>, joins: &[(usize, usize)]) -> Self {
        let places = catalogue.lots.len() + 1;

        let mut above = vec![0; places];
        for &(u, v) in joins {
            above[v] = u;
        }

        let mut stand = vec![0; places];
        let mut bales = vec![0; places];
        let mut kept = vec![false; places];
        for lot in catalogue.lots_in_sale() {
            let own = catalogue.lot(lot);
            let mut reached = lot;
            bales[reached] += own.bales;
            kept[reached] |= own.kept;
            while above[reached] != 0 {
                reached = above[reached];
                bales[reached] += own.bales;
                kept[reached] |= own.kept;
            }
            stand[lot] = reached;
        }

        let mut present = vec![Vec::new(); catalogue.buyers.len() + 1];
        let mut buyers = vec![Vec::new(); places];
        for buyer in catalogue.buyer_numbers() {
            let marks = &catalogue.buyer(buyer).marks;
            let mut set: Vec<usize> = marks.iter().map(|&lot| stand[lot]).collect();
            set.sort_unstable();
            set.dedup();
            for &lot in &set {
                buyers[lot].push(buyer);
            }
            present[buyer] = set;
        }

        Standing {
            loaded,
            catalogue: Rc::clone(catalogue),
            joins: joins.to_vec(),
            above,
            stand,
            bales,
            kept,
            present,
            buyers,
        }
    }

    /// The lot this one was joined into, 0 on the board.
    pub fn above(&self, lot: usize) -> usize {
        self.above[lot]
    }

    /// The board lot that stands for this one; 0 for a withdrawn lot, which has no stand.
    pub fn stand(&self, lot: usize) -> usize {
        self.stand[lot]
    }

    /// The loaded bales of this lot and of all lots below it. Off the board these are the
    /// bales it had when joined, as nothing below it changes until it returns.
    pub fn bales(&self, lot: usize) -> u64 {
        self.bales[lot]
    }

    /// Whether this board lot is kept, as it is while any lot that it stands for is.
    pub fn kept(&self, lot: usize) -> bool {
        self.kept[lot]
    }

    /// A buyer's present mark set, in rising order.
    pub fn present(&self, buyer: usize) -> &[usize] {
        &self.present[buyer]
    }

    /// The buyers whose present mark set holds this lot: none for a lot off the board.
    pub fn buyers(&self, lot: usize) -> &[usize] {
        &self.buyers[lot]
    }

    /// The marks that joins took out of a buyer's mark set, the last one first: of each join of two
    /// lots that the buyer had both as present marks at that time, the one that left the board.
    pub fn taken_out(&self, buyer: usize) -> Vec<usize> {
        let marks = &self.catalogue.buyer(buyer).marks;
        let mut present: BTreeSet<usize> = marks.iter().copied().collect();
        let mut taken_out = Vec::new();
        for &(u, v) in &self.joins {
            if present.remove(&v) && !present.insert(u) {
                taken_out.push(v);
            }
        }
        taken_out.reverse();
        taken_out
    }

    /// Whether the lot is on the board: in the sale and not joined into another.
    pub fn on_board(&self, lot: usize) -> bool {
        self.catalogue.in_sale(lot) && self.above[lot] == 0
    }

    /// All board lots, in rising order.
    pub fn board(&self) -> Vec<usize> {
        self.catalogue
            .lot_numbers()
            .filter(|&lot| self.on_board(lot))
            .collect()
    }
}

/// What a move frees and what it costs, as sums of the lot's buyers' weights.
#[derive(Clone, Copy, Debug, PartialEq, Eq)]
pub struct Halves {
    /// Of the buyers whose only mark in the lot's session is the lot.
    pub freed: u64,
    /// Of the buyers with no mark in the target.
    pub drawn: u64,
}

impl Halves {
    /// The difference, which may be negative.
    pub fn gain(&self) -> i64 {
        self.freed as i64 - self.drawn as i64
    }
}

/// What follows from the standing lots together with their sessions.
pub struct View<'a> {
    standing: &'a Standing<'a>,
    sessions: Vec<usize>,
    counts: Vec<u64>,
    session_bales: Vec<u64>,
    cap: u64,
}

impl<'a> View<'a> {
    /// Works everything out afresh. `sessions` has a place for each lot number.
    pub fn of(standing: &'a Standing<'a>, sessions: &[usize]) -> Self {
        let catalogue = &standing.catalogue;
        let width = catalogue.sessions + 1;

        let mut counts = vec![0; (catalogue.buyers.len() + 1) * width];
        for buyer in catalogue.buyer_numbers() {
            for &lot in standing.present(buyer) {
                counts[buyer * width + sessions[lot]] += 1;
            }
        }

        let mut session_bales = vec![0; width];
        for lot in standing.board() {
            session_bales[sessions[lot]] += standing.bales(lot);
        }

        View {
            standing,
            sessions: sessions.to_vec(),
            counts,
            session_bales,
            cap: cap(standing.loaded),
        }
    }

    /// The standing lots this view was made over.
    pub fn standing(&self) -> &'a Standing<'a> {
        self.standing
    }

    /// The session of a board lot.
    pub fn session(&self, lot: usize) -> usize {
        self.sessions[lot]
    }

    /// The bales of a session's board lots together.
    pub fn session_bales(&self, session: usize) -> u64 {
        self.session_bales[session]
    }

    /// The bales of the session that has most of them.
    pub fn heaviest_session(&self) -> u64 {
        let sessions = self.standing.catalogue.session_numbers();
        sessions
            .map(|session| self.session_bales(session))
            .max()
            .expect("there are at least two sessions")
    }

    /// The number of a buyer's present marks in a session.
    pub fn count(&self, buyer: usize, session: usize) -> u64 {
        self.counts[buyer * (self.standing.catalogue.sessions + 1) + session]
    }

    /// The sessions a buyer visits, in rising order.
    pub fn visited(&self, buyer: usize) -> Vec<usize> {
        self.standing
            .catalogue
            .session_numbers()
            .filter(|&session| self.count(buyer, session) > 0)
            .collect()
    }

    /// Weight × (visited − 1), summed over all buyers; one left without marks adds 0.
    pub fn total(&self) -> u64 {
        let catalogue = &self.standing.catalogue;
        catalogue
            .buyer_numbers()
            .map(|buyer| {
                let visited = catalogue
                    .session_numbers()
                    .filter(|&session| self.count(buyer, session) > 0)
                    .count() as u64;
                catalogue.buyer(buyer).weight * visited.saturating_sub(1)
            })
            .sum()
    }

    /// The two halves of board lot `u`'s gain to session `t`; nothing at its own session.
    pub fn halves(&self, u: usize, t: usize) -> Halves {
        let s = self.session(u);
        let mut halves = Halves { freed: 0, drawn: 0 };
        if t == s {
            return halves;
        }
        for &buyer in self.standing.buyers(u) {
            let weight = self.standing.catalogue.buyer(buyer).weight;
            if self.count(buyer, s) == 1 {
                halves.freed += weight;
            }
            if self.count(buyer, t) == 0 {
                halves.drawn += weight;
            }
        }
        halves
    }

    /// By how much the total falls if board lot `u` goes to session `t`.
    pub fn gain(&self, u: usize, t: usize) -> i64 {
        self.halves(u, t).gain()
    }

    /// Whether session `t` has space for board lot `u` under the cap.
    pub fn space(&self, u: usize, t: usize) -> bool {
        self.space_for(self.standing.bales(u), t)
    }

    /// Whether session `t` has space for so many bales more under the cap.
    pub fn space_for(&self, bales: u64, t: usize) -> bool {
        self.session_bales(t) + bales <= self.cap
    }
}
