//! Seeded sales of many kinds, call lists and damaged files; one seed gives one file.
//! Rests on `machine` only to steer random calls towards lots that are on the board.

use crate::catalogue::{Buyer, Call, Catalogue, Lot, Sale};
use crate::machine::Machine;
use crate::measure;

/// A small generator of pseudo-random numbers (splitmix64).
pub struct Random {
    state: u64,
}

impl Random {
    pub fn new(seed: u64) -> Self {
        Random { state: seed }
    }

    /// The next 64 bits.
    pub fn bits(&mut self) -> u64 {
        self.state = self.state.wrapping_add(0x9E37_79B9_7F4A_7C15);
        let mut mixed = self.state;
        mixed = (mixed ^ (mixed >> 30)).wrapping_mul(0xBF58_476D_1CE4_E5B9);
        mixed = (mixed ^ (mixed >> 27)).wrapping_mul(0x94D0_49BB_1331_11EB);
        mixed ^ (mixed >> 31)
    }

    /// A number from `lowest` to `highest`, both included.
    pub fn between(&mut self, lowest: u64, highest: u64) -> u64 {
        lowest + self.bits() % (highest - lowest + 1)
    }

    /// True in `chances` of 100 cases.
    pub fn in_hundred(&mut self, chances: u64) -> bool {
        self.bits() % 100 < chances
    }

    /// One item of a list that is not empty.
    pub fn pick<'a, T>(&mut self, items: &'a [T]) -> &'a T {
        &items[self.between(0, items.len() as u64 - 1) as usize]
    }

    /// `count` different lots of 1 to `lots`, in random order.
    pub fn some_lots(&mut self, lots: usize, count: usize) -> Vec<usize> {
        let mut numbers: Vec<usize> = (1..=lots).collect();
        for place in 0..count {
            let other = self.between(place as u64, lots as u64 - 1) as usize;
            numbers.swap(place, other);
        }
        numbers.truncate(count);
        numbers
    }
}

/// The kinds of sale the generator can make.
#[derive(Clone, Copy, Debug, PartialEq, Eq)]
pub enum Kind {
    /// Random sizes, mark lists and calls of every sort.
    Mixed,
    /// One lot alone.
    OneLot,
    /// No buyers at all.
    NoBuyers,
    /// Every buyer marks one lot.
    SingleMarks,
    /// Every buyer marks nearly all lots.
    Broad,
    /// Every buyer's list lies within the one before.
    Nested,
    /// All buyers have the same lots, in different orders.
    Identical,
    /// Neighbouring lists share some lots.
    Overlapping,
    /// Slack 0 and little space or none.
    Tight,
    /// Two sessions.
    TwoSessions,
    /// Sixteen sessions.
    SixteenSessions,
    /// Joins that make a chain, then splits.
    Chain,
    /// Joins into one lot, then splits.
    Star,
    /// Joins of equal trees, then splits.
    Tree,
    /// Mostly walks, moves and reversals.
    Walks,
    /// Mostly calls of A and P.
    Rounds,
    /// Many calls, up to 512.
    ManyCalls,
    /// Calls that are mostly refused.
    BadCalls,
    /// Hundreds of lots and some calls of A, P and W.
    Large,
    /// A cap that is an exact half before it is rounded, and sessions near it.
    HalfCaps,
    /// Most lots in session 1 and few lists, some of all lots, so that walks are long and have
    /// prefixes of equal total that are not equally heavy.
    Lopsided,
    /// Lots and sessions around the superfine desk's limits, 256 and 8.
    Superfine,
    /// Some lots kept, few or all of them.
    Kept,
    /// Bales not yet counted.
    Estimates,
    /// Many sessions, most of them full, and gains that are often equal, so that the best pairs of W
    /// and P are tied and the first of them have no space.
    Crowded,
    /// Lots withdrawn and added between the other calls.
    Withdrawn,
    /// Lots and marks around the limits that an added lot may meet, 256 or 1,024 and 8,192.
    Full,
}

/// All kinds with the names that the program takes.
pub const KINDS: [(&str, Kind); 27] = [
    ("mixed", Kind::Mixed),
    ("one-lot", Kind::OneLot),
    ("no-buyers", Kind::NoBuyers),
    ("single-marks", Kind::SingleMarks),
    ("broad", Kind::Broad),
    ("nested", Kind::Nested),
    ("identical", Kind::Identical),
    ("overlapping", Kind::Overlapping),
    ("tight", Kind::Tight),
    ("two-sessions", Kind::TwoSessions),
    ("sixteen-sessions", Kind::SixteenSessions),
    ("chain", Kind::Chain),
    ("star", Kind::Star),
    ("tree", Kind::Tree),
    ("walks", Kind::Walks),
    ("rounds", Kind::Rounds),
    ("many-calls", Kind::ManyCalls),
    ("bad-calls", Kind::BadCalls),
    ("large", Kind::Large),
    ("half-caps", Kind::HalfCaps),
    ("lopsided", Kind::Lopsided),
    ("superfine", Kind::Superfine),
    ("kept", Kind::Kept),
    ("estimates", Kind::Estimates),
    ("crowded", Kind::Crowded),
    ("withdrawn", Kind::Withdrawn),
    ("full", Kind::Full),
];

/// An accepted sale of a kind that the seed settles; mostly a small one.
pub fn sale(seed: u64) -> Vec<u8> {
    let mut random = Random::new(seed ^ 0x53_41_4C_45);
    let kind = if random.in_hundred(40) {
        Kind::Mixed
    } else {
        random.pick(&KINDS).1
    };
    // These sales take long, so only few draws of them stand.
    let stands = match kind {
        Kind::Large => random.in_hundred(1),
        Kind::Superfine => random.in_hundred(20),
        Kind::Full => random.in_hundred(4),
        _ => true,
    };
    let kind = if stands { kind } else { Kind::Mixed };
    let mut catalogue = catalogue_of_kind(seed, kind);
    if random.in_hundred(25) {
        keep_some(&mut random, &mut catalogue);
    }
    if random.in_hundred(25) {
        estimate(&mut random, &mut catalogue);
    }
    let mut calls = calls_of_kind(&mut random, &catalogue, kind);
    if random.in_hundred(20) {
        calls = with_late_lots(&mut random, &catalogue, calls);
    }
    write_sale(&Sale { catalogue, calls })
}

/// An accepted sale of the given kind.
pub fn sale_of_kind(seed: u64, kind: Kind) -> Vec<u8> {
    let mut random = Random::new(seed);
    let catalogue = catalogue(&mut random, kind);
    let calls = calls_of_kind(&mut random, &catalogue, kind);
    write_sale(&Sale { catalogue, calls })
}

/// The catalogue of an accepted sale of the given kind.
pub(crate) fn catalogue_of_kind(seed: u64, kind: Kind) -> Catalogue {
    catalogue(&mut Random::new(seed), kind)
}

/// A list of `count` random calls for a catalogue, most of them accepted.
pub fn calls(seed: u64, catalogue: &Catalogue, count: usize) -> Vec<Call> {
    let mut random = Random::new(seed);
    steered_calls(
        &mut random,
        catalogue,
        count,
        &[18, 12, 22, 12, 14, 6, 6, 10],
    )
}

/// The same with lots withdrawn and added between the other calls.
pub fn late_calls(seed: u64, catalogue: &Catalogue, count: usize) -> Vec<Call> {
    let mut random = Random::new(seed);
    steered_calls(&mut random, catalogue, count, &LATE)
}

/// The bytes of a sale file.
pub fn write_sale(sale: &Sale) -> Vec<u8> {
    let catalogue = &sale.catalogue;
    let mut text = format!(
        "{},{},{},{},{}\n",
        if catalogue.estimated { "EST" } else { "SALE" },
        catalogue.lots.len(),
        catalogue.buyers.len(),
        catalogue.sessions,
        catalogue.slack
    );
    for lot in &catalogue.lots {
        text.push_str("LOT,");
        if catalogue.estimated {
            text.push_str(&format!("{},", lot.low));
        }
        let kept = if lot.kept { ",K" } else { "" };
        text.push_str(&format!("{},{}{kept}\n", lot.bales, lot.session));
    }
    for buyer in &catalogue.buyers {
        text.push_str(&format!("BUY,{}", buyer.weight));
        for mark in &buyer.marks {
            text.push_str(&format!(",{mark}"));
        }
        text.push('\n');
    }
    for call in &sale.calls {
        text.push_str(&call_line(call));
    }
    text.into_bytes()
}

/// The line of a call, as a sale file has it.
pub(crate) fn call_line(call: &Call) -> String {
    match call {
        Call::J { u, v } => format!("J,{u},{v}\n"),
        Call::S => "S\n".to_string(),
        Call::M { u, t } => format!("M,{u},{t}\n"),
        Call::B => "B\n".to_string(),
        Call::W { u, v } => format!("W,{u},{v}\n"),
        Call::P => "P\n".to_string(),
        Call::A => "A\n".to_string(),
        Call::X { lot } => format!("X,{lot}\n"),
        Call::N {
            bales,
            session,
            buyers,
        } => {
            let named: String = buyers.iter().map(|buyer| format!(",{buyer}")).collect();
            format!("N,{bales},{session}{named}\n")
        }
    }
}

fn catalogue(random: &mut Random, kind: Kind) -> Catalogue {
    let sessions = match kind {
        Kind::TwoSessions => 2,
        Kind::SixteenSessions => 16,
        Kind::Superfine => random.between(7, 9) as usize,
        Kind::Full => random.between(2, 8) as usize,
        Kind::Walks | Kind::Lopsided => random.between(2, 3) as usize,
        Kind::Crowded => *random.pick(&[6, 8, 15, 16, 16]),
        _ if random.in_hundred(60) => random.between(2, 4) as usize,
        _ => random.between(2, 16) as usize,
    };
    let lot_count = match kind {
        Kind::OneLot => 1,
        Kind::Large => random.between(150, 400) as usize,
        Kind::Superfine => *random.pick(&[20, 255, 256, 256, 257, 258]),
        Kind::Full => *random.pick(&[200, 253, 255, 256, 256, 1_020, 1_023, 1_024]),
        Kind::SixteenSessions | Kind::Rounds => random.between(8, 70) as usize,
        Kind::Walks | Kind::Lopsided => random.between(5, 50) as usize,
        Kind::Crowded => random.between(16, 50) as usize,
        _ if random.in_hundred(75) => random.between(1, 14) as usize,
        _ => random.between(10, 60) as usize,
    };
    let buyers = mark_lists(random, kind, lot_count);

    let widest = *random.pick(&[1, 1, 3, 10, 50, 65_535]);
    let mut lots: Vec<Lot> = (0..lot_count)
        .map(|_| {
            let bales = random.between(1, widest);
            Lot::free(bales, random.between(1, sessions as u64) as usize)
        })
        .collect();
    if kind == Kind::Tight {
        lots.iter_mut().for_each(|lot| lot.count(widest));
    }
    let mut made = Catalogue {
        estimated: false,
        sessions,
        slack: match kind {
            Kind::Tight => 0,
            Kind::HalfCaps => 500,
            Kind::Lopsided | Kind::Full => 1_000,
            Kind::Crowded => *random.pick(&[0, 0, 100, 300]),
            Kind::Walks | Kind::Rounds => random.between(100, 1_000),
            _ => *random.pick(&[0, 20, 100, 200, 500, 999, 1_000]),
        },
        lots,
        buyers,
    };
    if kind == Kind::HalfCaps {
        half_the_cap(random, &mut made);
    }
    if kind == Kind::Lopsided {
        fill_first_session(random, &mut made);
    }
    if kind == Kind::Crowded {
        fill_by_turns(random, &mut made);
    }
    settle_draft(&mut made);
    match kind {
        Kind::Kept => keep_some(random, &mut made),
        Kind::Estimates => estimate(random, &mut made),
        _ => {}
    }
    made
}

/// All lots of some times their bales, so that the smallest leave room for a range; if the draft
/// stays within the cap.
fn heavier(random: &mut Random, made: &mut Catalogue) {
    let times = *random.pick(&[1, 4, 10]);
    let mut heavy = made.clone();
    for lot in &mut heavy.lots {
        lot.count((lot.bales * times).min(65_535));
    }
    if !measure::overfull_draft(&heavy) {
        *made = heavy;
    }
}

/// Lows below the bales that the draft was settled with, which are the highs. The slack, and then
/// the lows, rise until the draft is within the cap.
pub(crate) fn estimate(random: &mut Random, made: &mut Catalogue) {
    made.estimated = true;
    heavier(random, made);
    let counted = *random.pick(&[0, 0, 30, 80]);
    for lot in &mut made.lots {
        lot.low = if random.in_hundred(counted) {
            lot.bales
        } else {
            random.between(1, lot.bales)
        };
    }
    while measure::overfull_draft(made) {
        if made.slack < 1_000 {
            made.slack = (made.slack + 100).min(1_000);
            continue;
        }
        for lot in &mut made.lots {
            lot.low = (lot.low + lot.bales).div_ceil(2);
        }
    }
}

/// Some lots kept, one at least: few, many or all of them.
pub(crate) fn keep_some(random: &mut Random, made: &mut Catalogue) {
    let chances = *random.pick(&[30, 10, 30, 60, 100]);
    for lot in &mut made.lots {
        lot.kept = random.in_hundred(chances);
    }
    let one = random.between(0, made.lots.len() as u64 - 1) as usize;
    made.lots[one].kept = true;
}

/// Few bales to a lot and an odd even share, so that slack 500 gives an exact half.
fn half_the_cap(random: &mut Random, made: &mut Catalogue) {
    for lot in &mut made.lots {
        lot.count(random.between(1, 3));
    }
    while measure::fair_share(made).is_multiple_of(2) {
        let more = made.lots[0].bales + 1;
        made.lots[0].count(more);
    }
}

/// Lots of 1 to 3 bales go to session 1 while it has space, all but some of them.
fn fill_first_session(random: &mut Random, made: &mut Catalogue) {
    for lot in &mut made.lots {
        lot.count(random.between(1, 3));
        lot.session = made.sessions;
    }
    let cap = measure::cap(made);
    let mut filled = 0;
    for lot in &mut made.lots {
        if filled + lot.bales <= cap && random.in_hundred(90) {
            lot.session = 1;
            filled += lot.bales;
        }
    }
}

/// Lots of 1 or 2 bales go to the first session with space, the sessions in random order, so that
/// the last of them alone have some left.
fn fill_by_turns(random: &mut Random, made: &mut Catalogue) {
    for lot in &mut made.lots {
        lot.count(random.between(1, 2));
    }
    let cap = measure::cap(made);
    let order = random.some_lots(made.sessions, made.sessions);
    let mut filled = vec![0; made.sessions + 1];
    for lot in &mut made.lots {
        let space = |session: &&usize| filled[**session] + lot.bales <= cap;
        // Where two bales fit nowhere the draft is overfull, and is settled like others.
        lot.session = *order.iter().find(space).unwrap_or(&order[0]);
        filled[lot.session] += lot.bales;
    }
}

/// Changes sessions, and bales if need be, until no session is above the cap.
pub(crate) fn settle_draft(made: &mut Catalogue) {
    if !measure::overfull_draft(made) {
        return;
    }
    // Each lot, heaviest first, into the session with fewest bales.
    let mut order: Vec<usize> = (0..made.lots.len()).collect();
    order.sort_by_key(|&place| std::cmp::Reverse(made.lots[place].bales));
    let mut session_bales = vec![0; made.sessions];
    for place in order {
        let lightest = (0..made.sessions)
            .min_by_key(|&session| session_bales[session])
            .expect("there are at least two sessions");
        session_bales[lightest] += made.lots[place].bales;
        made.lots[place].session = lightest + 1;
    }
    while measure::overfull_draft(made) && made.slack < 1_000 {
        made.slack = (made.slack + 50).min(1_000);
    }
    if measure::overfull_draft(made) {
        // Lots of one bale in turn never exceed the cap, whatever the slack.
        let sessions = made.sessions;
        for (place, lot) in made.lots.iter_mut().enumerate() {
            *lot = Lot::free(1, place % sessions + 1);
        }
    }
}

/// Lists of all lots, or nearly all, up to 8,192 marks or some less; or few marks.
pub(crate) fn full_lists(random: &mut Random, lots: usize) -> Vec<Buyer> {
    let mut left = match random.between(0, 3) {
        0 => random.between(0, 300) as usize,
        _ => 8_192 - random.between(0, 6) as usize,
    };
    let mut buyers = Vec::new();
    while left > 0 {
        let count = lots.min(left);
        buyers.push(Buyer {
            weight: random.between(1, 9),
            marks: random.some_lots(lots, count),
        });
        left -= count;
    }
    buyers
}

fn mark_lists(random: &mut Random, kind: Kind, lots: usize) -> Vec<Buyer> {
    if kind == Kind::Full {
        return full_lists(random, lots);
    }
    let buyer_count = match kind {
        Kind::NoBuyers => 0,
        Kind::Lopsided => random.between(0, 5) as usize,
        Kind::Large => random.between(100, 400) as usize,
        Kind::Superfine => random.between(10, 120) as usize,
        Kind::Walks | Kind::Rounds | Kind::SixteenSessions => random.between(5, 60) as usize,
        Kind::Crowded => random.between(8, 40) as usize,
        _ if random.in_hundred(80) => random.between(0, 15) as usize,
        _ => random.between(10, 60) as usize,
    };
    let heaviest = match kind {
        Kind::Crowded => *random.pick(&[1, 2]),
        _ => *random.pick(&[1, 3, 10, 1_000]),
    };
    let whole = random.some_lots(lots, lots);
    let mut buyers = Vec::new();
    for place in 0..buyer_count {
        let weight = random.between(1, heaviest);
        let marks = match kind {
            Kind::SingleMarks => random.some_lots(lots, 1),
            Kind::Lopsided if random.in_hundred(50) => whole.clone(),
            Kind::Broad => {
                let fewest = lots.saturating_sub(2).max(1) as u64;
                let count = random.between(fewest, lots as u64) as usize;
                random.some_lots(lots, count)
            }
            Kind::Nested => whole[..lots.saturating_sub(place).max(1)].to_vec(),
            Kind::Identical => {
                let first = lots.div_ceil(2);
                let order = random.some_lots(first, first);
                order.into_iter().map(|index| whole[index - 1]).collect()
            }
            Kind::Overlapping => {
                let length = lots.min(4);
                (0..length)
                    .map(|step| whole[(place * 2 + step) % lots])
                    .collect()
            }
            _ => {
                let most = if random.in_hundred(85) { 4 } else { 60 };
                let count = random.between(1, most.min(lots) as u64) as usize;
                random.some_lots(lots, count)
            }
        };
        buyers.push(Buyer { weight, marks });
    }
    buyers
}

fn calls_of_kind(random: &mut Random, catalogue: &Catalogue, kind: Kind) -> Vec<Call> {
    let lots = catalogue.lots.len() as u64;
    let together =
        |u: u64, v: u64| catalogue.lot(u as usize).session == catalogue.lot(v as usize).session;
    let shaped = |pairs: Vec<(u64, u64)>, random: &mut Random| {
        let mut calls: Vec<Call> = pairs
            .into_iter()
            .take(100)
            .map(|(u, v)| Call::J { u, v })
            .collect();
        let joins = calls.len();
        calls.push(Call::P);
        calls.extend(steered_calls(
            random,
            catalogue,
            6,
            &[0, 0, 60, 20, 20, 0, 0, 0],
        ));
        for _ in 0..=joins {
            calls.push(Call::S);
            if random.in_hundred(30) {
                let lot = random.between(1, lots);
                calls.push(Call::W { u: lot, v: lot });
            }
        }
        calls.push(Call::A);
        calls
    };
    match kind {
        Kind::Chain => {
            let mut lots_of_one: Vec<u64> = (1..=lots).filter(|&lot| together(1, lot)).collect();
            if random.in_hundred(50) {
                lots_of_one.reverse();
            }
            let pairs = lots_of_one.windows(2).map(|pair| (pair[1], pair[0]));
            shaped(pairs.collect(), random)
        }
        Kind::Star => {
            let hub = random.between(1, lots);
            let pairs = (1..=lots).filter(|&lot| lot != hub && together(hub, lot));
            shaped(pairs.map(|lot| (hub, lot)).collect(), random)
        }
        Kind::Tree => {
            let mut pairs = Vec::new();
            for session in catalogue.session_numbers() {
                let mut level: Vec<u64> = (1..=lots)
                    .filter(|&lot| catalogue.lot(lot as usize).session == session)
                    .collect();
                while level.len() > 1 {
                    pairs.extend(level.chunks_exact(2).map(|pair| (pair[0], pair[1])));
                    level = level.chunks(2).map(|pair| pair[0]).collect();
                }
            }
            shaped(pairs, random)
        }
        Kind::Walks => steered_calls(random, catalogue, 14, &[14, 10, 26, 16, 28, 2, 0, 4]),
        Kind::Superfine => steered_calls(random, catalogue, 8, &[28, 15, 25, 10, 15, 5, 2, 0]),
        Kind::Kept => steered_calls(random, catalogue, 16, &[22, 14, 24, 4, 16, 6, 10, 4]),
        Kind::Estimates => steered_calls(random, catalogue, 16, &[12, 10, 28, 6, 18, 8, 12, 6]),
        Kind::Lopsided => steered_calls(random, catalogue, 10, &[20, 10, 20, 10, 35, 0, 5, 0]),
        Kind::Crowded => steered_calls(random, catalogue, 12, &[18, 14, 22, 10, 26, 6, 4, 0]),
        Kind::Withdrawn => {
            let count = random.between(4, 40) as usize;
            steered_calls(random, catalogue, count, &LATE)
        }
        Kind::Full => {
            let chances = &[4, 6, 8, 4, 2, 0, 0, 0, 24, 44, 8];
            let count = random.between(4, 30) as usize;
            steered_calls(random, catalogue, count, chances)
        }
        Kind::Rounds => {
            let mut calls = steered_calls(random, catalogue, 4, &[0, 0, 50, 10, 20, 20, 0, 0]);
            calls.push(Call::A);
            calls.extend(steered_calls(
                random,
                catalogue,
                5,
                &[20, 20, 20, 5, 5, 5, 25, 0],
            ));
            calls
        }
        Kind::ManyCalls => {
            let count = if random.in_hundred(20) {
                512
            } else {
                random.between(60, 300) as usize
            };
            steered_calls(random, catalogue, count, &[24, 20, 26, 14, 7, 2, 1, 6])
        }
        Kind::BadCalls => {
            let count = random.between(5, 25) as usize;
            steered_calls(random, catalogue, count, &[5, 5, 5, 5, 5, 3, 3, 69])
        }
        Kind::Large => {
            let mut calls = steered_calls(random, catalogue, 8, &[30, 5, 30, 10, 20, 5, 0, 0]);
            calls.extend(vec![Call::S; 8]);
            calls.push(Call::A);
            calls
        }
        _ => {
            let count = random.between(0, 22) as usize;
            steered_calls(random, catalogue, count, &[18, 12, 22, 12, 14, 6, 6, 10])
        }
    }
}

/// Chances, as `steered_call` takes them, of lists with lots withdrawn and added.
pub(crate) const LATE: [u64; 11] = [10, 10, 16, 8, 10, 4, 5, 2, 14, 18, 3];

/// Random calls with the given chances, as `steered_call` takes them. A machine runs along, so that
/// most calls find what they need.
fn steered_calls(
    random: &mut Random,
    catalogue: &Catalogue,
    count: usize,
    chances: &[u64],
) -> Vec<Call> {
    let mut machine = Machine::fresh(catalogue);
    let mut calls = Vec::new();
    for _ in 0..count {
        let call = steered_call(random, &machine, chances);
        // An answer or a refusal serves alike: only the state after the call is used.
        let _ = machine.call(&call);
        calls.push(call);
    }
    calls
}

/// A random call for a machine with the given chances of J, S, M, B, W, P, A and of a call with any
/// numbers at all, and then, where there are so many, of X, of N and of one of these with any numbers.
pub(crate) fn steered_call(random: &mut Random, machine: &Machine, chances: &[u64]) -> Call {
    let all: u64 = chances.iter().sum();
    let mut drawn = random.between(0, all - 1);
    let mut choice = 0;
    while drawn >= chances[choice] {
        drawn -= chances[choice];
        choice += 1;
    }
    let nothing_to_undo = match choice {
        1 => machine.joins.is_empty(),
        3 => machine.record.is_empty(),
        _ => false,
    };
    if nothing_to_undo && random.in_hundred(90) {
        // Something to undo later: a join in place of S, a move in place of B.
        choice -= 1;
    }
    match choice {
        0 => steered_join(random, machine),
        1 => Call::S,
        2 => steered_move(random, machine),
        3 => Call::B,
        4 => {
            let board = machine.standing().board();
            let u = one_of(random, &board) as u64;
            let v = one_of(random, &board) as u64;
            let v = if random.in_hundred(30) { u } else { v };
            Call::W { u, v }
        }
        5 => Call::P,
        6 => Call::A,
        7 => any_call(random, machine.loaded),
        // No lot is withdrawn or added while a join stands.
        8 | 9 if !machine.joins.is_empty() && random.in_hundred(85) => Call::S,
        8 => steered_withdrawal(random, machine),
        9 => steered_addition(random, machine),
        _ => any_late_call(random, machine),
    }
}

/// A board lot; lot 1 where all are withdrawn.
fn one_of(random: &mut Random, board: &[usize]) -> usize {
    if board.is_empty() {
        1
    } else {
        *random.pick(board)
    }
}

/// A join of two board lots, mostly of one session.
fn steered_join(random: &mut Random, machine: &Machine) -> Call {
    let board = machine.standing().board();
    let u = one_of(random, &board);
    let mates: Vec<usize> = board
        .iter()
        .copied()
        .filter(|&v| v != u && machine.sessions[v] == machine.sessions[u])
        .collect();
    let v = if mates.is_empty() || random.in_hundred(5) {
        one_of(random, &board)
    } else {
        *random.pick(&mates)
    };
    Call::J {
        u: u as u64,
        v: v as u64,
    }
}

/// A move of a board lot, mostly to a session with space.
fn steered_move(random: &mut Random, machine: &Machine) -> Call {
    let standing = machine.standing();
    let view = measure::View::of(&standing, &machine.sessions);
    let u = one_of(random, &standing.board());
    let open: Vec<usize> = machine
        .catalogue
        .session_numbers()
        .filter(|&t| t != machine.sessions[u] && machine.space(&view, u, t))
        .collect();
    let t = if open.is_empty() || random.in_hundred(5) {
        random.between(1, machine.catalogue.sessions as u64)
    } else {
        *random.pick(&open) as u64
    };
    Call::M { u: u as u64, t }
}

/// A withdrawal, mostly of a lot on the board.
fn steered_withdrawal(random: &mut Random, machine: &Machine) -> Call {
    let lot = if random.in_hundred(6) {
        random.between(1, machine.catalogue.lots.len() as u64)
    } else {
        one_of(random, &machine.standing().board()) as u64
    };
    Call::X { lot }
}

/// An addition to a session with space, mostly, with few buyers or many.
fn steered_addition(random: &mut Random, machine: &Machine) -> Call {
    let standing = machine.standing();
    let view = measure::View::of(&standing, &machine.sessions);
    let catalogue = &machine.catalogue;
    let open: Vec<usize> = catalogue
        .session_numbers()
        .filter(|&t| machine.room(&view, t) > 0)
        .collect();
    let session = if open.is_empty() || random.in_hundred(4) {
        random.between(1, catalogue.sessions as u64)
    } else {
        *random.pick(&open) as u64
    };
    let room = machine.room(&view, session as usize);
    let bales = match random.between(0, 19) {
        0 => room + 1,
        1..=3 => room,
        _ => random.between(1, room.max(1)),
    };
    let count = catalogue.buyers.len();
    let named = match random.between(0, 9) {
        0 => 0,
        1 => count.min(60),
        _ => random.between(0, count.min(4) as u64) as usize,
    };
    let mut buyers = random.some_lots(count, named);
    if named > 0 && random.in_hundred(4) {
        let place = random.between(0, named as u64) as usize;
        let twice = *random.pick(&buyers);
        buyers.insert(place, twice);
    }
    Call::N {
        bales: bales.clamp(1, 65_535),
        session,
        buyers: buyers.into_iter().map(|buyer| buyer as u64).collect(),
    }
}

/// A withdrawal or an addition whose numbers may be unknown, off the board or named twice.
fn any_late_call(random: &mut Random, machine: &Machine) -> Call {
    let catalogue = &machine.catalogue;
    let number = |random: &mut Random, highest: u64| match random.between(0, 9) {
        0 => 0,
        1 => highest + 1,
        2 => *random.pick(&[999_999_999, 65_536, 65_535, 1_025, 257, 17]),
        _ => random.between(1, highest.max(1)),
    };
    if random.in_hundred(40) {
        return Call::X {
            lot: number(random, catalogue.lots.len() as u64),
        };
    }
    let bales = match random.between(0, 5) {
        0 => *random.pick(&[0, 65_536, 65_535, 999_999_999]),
        _ => random.between(1, 3),
    };
    let session = number(random, catalogue.sessions as u64);
    let count = random.between(0, 4);
    let buyers = (0..count)
        .map(|_| number(random, catalogue.buyers.len() as u64))
        .collect();
    Call::N {
        bales,
        session,
        buyers,
    }
}

/// A list with some lots withdrawn and added in between, at most 40.
fn with_late_lots(random: &mut Random, catalogue: &Catalogue, calls: Vec<Call>) -> Vec<Call> {
    let often = *random.pick(&[10, 30, 60]);
    let mut spare = (512 - calls.len()).min(40);
    let mut machine = Machine::fresh(catalogue);
    let mut mixed = Vec::new();
    for call in calls {
        while spare > 0 && machine.joins.is_empty() && random.in_hundred(often) {
            let late = match random.between(0, 9) {
                0..=4 => steered_addition(random, &machine),
                5..=8 => steered_withdrawal(random, &machine),
                _ => any_late_call(random, &machine),
            };
            // An answer or a refusal serves alike: only the state after the call is used.
            let _ = machine.call(&late);
            mixed.push(late);
            spare -= 1;
        }
        let _ = machine.call(&call);
        mixed.push(call);
    }
    mixed
}

/// A call whose numbers may be off the board, too high, 0 or of nine digits.
fn any_call(random: &mut Random, catalogue: &Catalogue) -> Call {
    let lots = catalogue.lots.len() as u64;
    let sessions = catalogue.sessions as u64;
    let number = |random: &mut Random, highest: u64| match random.between(0, 9) {
        0 => 0,
        1 => highest + 1,
        2 => *random.pick(&[999_999_999, 65_536, 1_025, 17, 4_294_967]),
        _ => random.between(1, highest),
    };
    match random.between(0, 11) {
        0..=3 => Call::J {
            u: number(random, lots),
            v: number(random, lots),
        },
        4..=6 => Call::M {
            u: number(random, lots),
            t: number(random, sessions),
        },
        7..=8 => Call::W {
            u: number(random, lots),
            v: number(random, lots),
        },
        9 => Call::S,
        10 => Call::B,
        _ => Call::A,
    }
}

/// A sale file with one to three faults put in, or random bytes. It may still be accepted.
pub fn damaged(seed: u64) -> Vec<u8> {
    let mut random = Random::new(seed ^ 0x44_41_4D_41_47_45);
    let kind = if random.in_hundred(3) {
        Kind::Superfine
    } else {
        *random.pick(&[
            Kind::Mixed,
            Kind::OneLot,
            Kind::Nested,
            Kind::Overlapping,
            Kind::BadCalls,
            Kind::NoBuyers,
            Kind::Kept,
            Kind::Estimates,
            Kind::Withdrawn,
            Kind::Withdrawn,
        ])
    };
    let mut file = sale_of_kind(random.bits(), kind);
    for _ in 0..random.between(1, 3) {
        file = damage(&mut random, file);
    }
    file
}

pub(crate) fn damage(random: &mut Random, mut file: Vec<u8>) -> Vec<u8> {
    if file.is_empty() {
        return file;
    }
    let length = file.len() as u64;
    let place = random.between(0, length - 1) as usize;
    match random.between(0, 38) {
        0 => {
            file[place] = random.bits() as u8;
            file
        }
        1 => {
            file[place] = *random.pick(b"0123456789,,\n\r JSMBWPAXNLOTUYEK");
            file
        }
        2 => {
            file.remove(place);
            file
        }
        3 => {
            let byte = file[place];
            file.insert(place, byte);
            file
        }
        4 => {
            file.truncate(place);
            file
        }
        5 => file[place..].to_vec(),
        6 => {
            file.pop();
            file
        }
        7 => {
            file.push(b'\n');
            file
        }
        8 => {
            file.insert(place, b'\n');
            file
        }
        9 => file
            .into_iter()
            .flat_map(|byte| match byte {
                b'\n' => vec![b'\r', b'\n'],
                other => vec![other],
            })
            .collect(),
        10 => {
            let random_bytes = random.between(0, 200);
            (0..random_bytes).map(|_| random.bits() as u8).collect()
        }
        11 => {
            let mut twice = file.clone();
            twice.extend(file);
            twice
        }
        12 => change_lines(random, &file, |random, lines| {
            let place = random.between(0, lines.len() as u64 - 1) as usize;
            lines.remove(place);
        }),
        13 => change_lines(random, &file, |random, lines| {
            let first = random.between(0, lines.len() as u64 - 1) as usize;
            let second = random.between(0, lines.len() as u64 - 1) as usize;
            lines.swap(first, second);
        }),
        14 => change_lines(random, &file, |random, lines| {
            let place = random.between(0, lines.len() as u64 - 1) as usize;
            let line = lines[place].clone();
            lines.insert(place, line);
        }),
        15..=20 => change_lines(random, &file, |random, lines| {
            let place = random.between(0, lines.len() as u64 - 1) as usize;
            lines[place] = change_field(random, &lines[place]);
        }),
        21 => {
            // More calls than a file may hold, the last one perhaps without its end.
            let more = random.between(500, 520);
            for _ in 0..more {
                file.extend_from_slice(b"S\n");
            }
            if random.in_hundred(30) {
                file.pop();
            }
            file
        }
        22 => {
            file.resize(random.between(59_990, 60_010) as usize, b'\n');
            file
        }
        23..=24 => change_lines(random, &file, |random, lines| {
            let place = random.between(0, lines.len() as u64 - 1) as usize;
            lines[place] = change_end(random, &lines[place]);
        }),
        25 => change_lines(random, &file, |random, lines| {
            lines[0] = change_head(random, &lines[0]);
        }),
        26..=27 => change_lines(random, &file, |random, lines| {
            let place = random.between(0, lines.len() as u64 - 1) as usize;
            lines[place] = swap_numbers(&lines[place]);
        }),
        28..=31 => change_lines(random, &file, |random, lines| {
            // Mostly behind the catalogue, where a call may stand.
            let last = lines.len() as u64;
            let place = random.between(last - last.min(4), last) as usize;
            lines.insert(place, late_line(random));
        }),
        _ => change_lines(random, &file, |random, lines| {
            let place = random.between(0, lines.len() as u64 - 1) as usize;
            lines[place] = change_number(random, &lines[place]);
        }),
    }
}

/// A line near that of a withdrawal or an addition, of a bad form or with numbers that name nothing.
fn late_line(random: &mut Random) -> Vec<u8> {
    let lines: [&[u8]; 32] = [
        b"X",
        b"X,",
        b"X,1,",
        b"X,1,2",
        b"X,01",
        b"X,-1",
        b"X,1000000000",
        b"X,999999999",
        b"X,0",
        b"X,1",
        b"X,1,K",
        b"X 1",
        b"x,1",
        b"XX,1",
        b"N",
        b"N,",
        b"N,1",
        b"N,1,",
        b"N,1,1,",
        b"N,1,1,,1",
        b"N,1,1,01",
        b"N,1,1,K",
        b"N,1,1,x",
        b"N,1,1,1000000000",
        b"N,1,1,999999999",
        b"N,00,1",
        b"N,0,1",
        b"N,65536,1",
        b"N,1,0",
        b"N,1,1",
        b"n,1,1",
        b"NO,1,1",
    ];
    [*random.pick(&lines), b"\n"].concat()
}

/// Applies a change to the lines of a file and puts them together again.
pub(crate) fn change_lines(
    random: &mut Random,
    file: &[u8],
    change: impl Fn(&mut Random, &mut Vec<Vec<u8>>),
) -> Vec<u8> {
    let mut lines: Vec<Vec<u8>> = file
        .split_inclusive(|&byte| byte == b'\n')
        .map(<[u8]>::to_vec)
        .collect();
    change(random, &mut lines);
    lines.concat()
}

/// Replaces one number of a line by another well-formed one, often by one on the line.
fn change_number(random: &mut Random, line: &[u8]) -> Vec<u8> {
    let mut fields: Vec<Vec<u8>> = line
        .strip_suffix(b"\n")
        .unwrap_or(line)
        .split(|&byte| byte == b',')
        .map(<[u8]>::to_vec)
        .collect();
    if fields.len() > 1 {
        let place = random.between(1, fields.len() as u64 - 1) as usize;
        let texts: [&[u8]; 13] = [
            b"0",
            b"1",
            b"2",
            b"8",
            b"9",
            b"16",
            b"17",
            b"256",
            b"257",
            b"1001",
            b"1025",
            b"65536",
            b"999999999",
        ];
        fields[place] = if random.in_hundred(40) {
            random.pick(&fields[1..]).clone()
        } else {
            random.pick(&texts).to_vec()
        };
    }
    let mut changed = fields.join(&b',');
    if line.ends_with(b"\n") {
        changed.push(b'\n');
    }
    changed
}

/// Adds to the end of a line what a kept lot's line has there, or something near it.
fn change_end(random: &mut Random, line: &[u8]) -> Vec<u8> {
    let ends: [&[u8]; 10] = [
        b",K", b",K", b",K", b",k", b",K,", b",KK", b",K,K", b",1", b",1,K", b"K",
    ];
    let text = line.strip_suffix(b"\n").unwrap_or(line);
    let mut changed = [text, *random.pick(&ends)].concat();
    if line.ends_with(b"\n") {
        changed.push(b'\n');
    }
    changed
}

/// Gives line 1 another name, mostly that of the other sort of file.
fn change_head(random: &mut Random, line: &[u8]) -> Vec<u8> {
    let (name, rest) = line.split_at(line.iter().position(|&byte| byte == b',').unwrap_or(0));
    let other: &[u8] = match random.between(0, 3) {
        0 => random.pick::<&[u8]>(&[b"est", b"ES", b"ESTS", b"", b"HALL"]),
        _ if name == b"EST" => b"SALE",
        _ => b"EST",
    };
    [other, rest].concat()
}

/// Swaps the first two numbers of a line, where it has two.
fn swap_numbers(line: &[u8]) -> Vec<u8> {
    let mut fields: Vec<&[u8]> = line.split(|&byte| byte == b',').collect();
    if fields.len() > 3 {
        fields.swap(1, 2);
    }
    fields.join(&b',')
}

/// Replaces one field of a line, or adds or removes one.
fn change_field(random: &mut Random, line: &[u8]) -> Vec<u8> {
    let ended = line.ends_with(b"\n");
    let text = if ended { &line[..line.len() - 1] } else { line };
    let mut fields: Vec<Vec<u8>> = text
        .split(|&byte| byte == b',')
        .map(<[u8]>::to_vec)
        .collect();
    let place = random.between(0, fields.len() as u64 - 1) as usize;
    let texts: [&[u8]; 20] = [
        b"",
        b"0",
        b"00",
        b"-1",
        b"+1",
        b" 1",
        b"1 ",
        b"1.5",
        b"1e3",
        b"17",
        b"1001",
        b"1025",
        b"65536",
        b"999999999",
        b"1000000000",
        b"4294967297",
        b"18446744073709551617",
        b"\xff",
        b"K",
        b"k",
    ];
    match random.between(0, 7) {
        0 => {
            fields.remove(place);
        }
        1 => {
            let field = fields[place].clone();
            fields.insert(place, field);
        }
        2 => fields[place].insert(0, b'0'),
        3 => fields[place].make_ascii_lowercase(),
        _ => fields[place] = random.pick(&texts).to_vec(),
    }
    let mut changed = fields.join(&b',');
    if ended {
        changed.push(b'\n');
    }
    changed
}
