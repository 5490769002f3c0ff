//! Seeded halls of several kinds, accepted ones and ones with faults; one seed gives one file.
//! Rests on `generator` for catalogues and single calls, and on `halls` to steer the calls of all
//! brokers towards sessions that are full or nearly so.

use crate::catalogue::{Buyer, Call, Catalogue, Hall, LedCall, Lot, Sale, MAX_HALL_LIMIT};
use crate::generator::{
    call_line, catalogue_of_kind, change_lines, damage, estimate, full_lists, keep_some,
    settle_draft, steered_call, write_sale, Kind, Random, LATE,
};
use crate::halls::HallMachine;
use crate::machine::Machine;
use crate::measure::View;
use crate::parse::parse_hall;

/// The kinds of hall the generator can make.
#[derive(Clone, Copy, Debug, PartialEq, Eq)]
pub enum HallKind {
    /// Random catalogues, limits and calls of every sort.
    Mixed,
    /// A limit that leaves little space or none; moves, and moves taken back.
    Moves,
    /// The same with walks, P and A.
    Searches,
    /// The same with lots withdrawn and added.
    Late,
    /// Four catalogues that share what space there is.
    FourCatalogues,
    /// Few sessions beside many.
    SessionCounts,
    /// A limit that bars nothing.
    HighLimit,
    /// Many calls, up to 512.
    ManyCalls,
    /// Calls that are mostly refused.
    BadCalls,
    /// Lots and marks of all catalogues around 1,024 and 8,192.
    Full,
    /// Hundreds of lots and some calls of A, P and W.
    Large,
}

/// All kinds with the names that the program takes.
pub const HALL_KINDS: [(&str, HallKind); 11] = [
    ("mixed", HallKind::Mixed),
    ("moves", HallKind::Moves),
    ("searches", HallKind::Searches),
    ("late", HallKind::Late),
    ("four-catalogues", HallKind::FourCatalogues),
    ("session-counts", HallKind::SessionCounts),
    ("high-limit", HallKind::HighLimit),
    ("many-calls", HallKind::ManyCalls),
    ("bad-calls", HallKind::BadCalls),
    ("full", HallKind::Full),
    ("large", HallKind::Large),
];

/// An accepted hall of a kind that the seed settles; mostly a small one.
pub fn hall_file(seed: u64) -> Vec<u8> {
    let mut random = Random::new(seed ^ 0x48_41_4C_4C);
    let (_, kind) = *random.pick(&HALL_KINDS);
    // These halls take long, so only few draws of them stand.
    let stands = match kind {
        HallKind::Large => random.in_hundred(1),
        HallKind::Full | HallKind::ManyCalls => random.in_hundred(6),
        _ => true,
    };
    let kind = if stands { kind } else { HallKind::Mixed };
    hall_of_kind(random.bits(), kind)
}

/// An accepted hall of the given kind.
pub fn hall_of_kind(seed: u64, kind: HallKind) -> Vec<u8> {
    let mut random = Random::new(seed);
    loop {
        let file = write_hall(&hall(&mut random, kind));
        // All catalogues together may have too many marks or bytes; then others are drawn.
        if parse_hall(&file).is_ok() {
            return file;
        }
    }
}

/// The bytes of a hall file. Nothing is tested, so the hall may be one that is turned down.
pub fn write_hall(hall: &Hall) -> Vec<u8> {
    let mut text = format!("HALL,{},{}\n", hall.catalogues.len(), hall.limit).into_bytes();
    for catalogue in &hall.catalogues {
        text.extend(write_sale(&Sale {
            catalogue: catalogue.clone(),
            calls: Vec::new(),
        }));
    }
    for led in &hall.calls {
        text.extend(format!("{},{}", led.catalogue, call_line(&led.call)).into_bytes());
    }
    text
}

/// The bales of each session over all drafts, session 1 first.
fn draft_bales(catalogues: &[Catalogue]) -> Vec<u64> {
    HallMachine::fresh(catalogues, MAX_HALL_LIMIT).session_bales()
}

fn heaviest_session(catalogues: &[Catalogue]) -> u64 {
    let bales = draft_bales(catalogues);
    bales.into_iter().max().expect("there are sessions")
}

fn hall(random: &mut Random, kind: HallKind) -> Hall {
    let count = match kind {
        HallKind::FourCatalogues => 4,
        HallKind::Large => 2,
        _ => random.between(2, 4),
    };
    // One size of lots for all, mostly, so that no catalogue's bales are lost beside the others'.
    let widest = *random.pick(&[1, 1, 3, 6, 20, 65_535]);
    let one_size = random.in_hundred(80);
    let mut catalogues: Vec<Catalogue> = match kind {
        HallKind::Full => full_catalogues(random, count),
        _ => (0..count).map(|_| catalogue(random, kind)).collect(),
    };
    if one_size {
        let lots = catalogues
            .iter_mut()
            .flat_map(|catalogue| &mut catalogue.lots);
        lots.for_each(|lot| lot.count(random.between(1, widest)));
    }
    let levelled = match kind {
        HallKind::SessionCounts | HallKind::Full => 0,
        HallKind::Moves | HallKind::Searches | HallKind::Late | HallKind::FourCatalogues => 80,
        _ => 40,
    };
    if random.in_hundred(levelled) {
        level(random, &mut catalogues);
    }
    for catalogue in &mut catalogues {
        settle_draft(catalogue);
        if random.in_hundred(20) {
            keep_some(random, catalogue);
        }
        if random.in_hundred(20) {
            estimate(random, catalogue);
        }
    }
    let limit = limit(random, kind, &catalogues);
    let calls = calls(random, kind, &catalogues, limit);
    Hall {
        limit,
        catalogues,
        calls,
    }
}

/// One number of sessions for all and a wide slack, and each lot in the session that has fewest bales
/// over the hall, so that a tight limit is nearer than the caps in every session.
fn level(random: &mut Random, catalogues: &mut [Catalogue]) {
    let sessions = random.between(2, 4) as usize;
    let mut bales = vec![0; sessions];
    for catalogue in catalogues {
        catalogue.sessions = sessions;
        catalogue.slack = *random.pick(&[400, 700, 1_000]);
        for lot in &mut catalogue.lots {
            let lightest = (0..sessions)
                .min_by_key(|&session| bales[session])
                .expect("there are at least two sessions");
            lot.session = lightest + 1;
            bales[lightest] += lot.bales;
        }
    }
}

/// The catalogue of a sale of some small kind.
fn catalogue(random: &mut Random, kind: HallKind) -> Catalogue {
    let of = match kind {
        HallKind::SessionCounts => *random.pick(&[Kind::TwoSessions, Kind::SixteenSessions]),
        HallKind::Searches => *random.pick(&[Kind::Walks, Kind::Rounds, Kind::Lopsided]),
        HallKind::Large => Kind::Large,
        _ => *random.pick(&[
            Kind::Mixed,
            Kind::Mixed,
            Kind::OneLot,
            Kind::NoBuyers,
            Kind::Overlapping,
            Kind::Tight,
            Kind::TwoSessions,
            Kind::Crowded,
            Kind::Lopsided,
        ]),
    };
    catalogue_of_kind(random.bits(), of)
}

/// Catalogues of 1,024 lots or some less together, and of 8,192 marks or some less, or of few.
fn full_catalogues(random: &mut Random, count: u64) -> Vec<Catalogue> {
    let mut lots_left = 1_024 - *random.pick(&[0, 0, 1, 2, 5, 300]);
    let mut marks_left = 8_192;
    let mut made = Vec::new();
    for place in 0..count {
        let others = count - 1 - place;
        let lots = match others {
            0 => lots_left,
            _ => random.between(1, lots_left - others),
        };
        lots_left -= lots;
        let mut buyers = full_lists(random, lots as usize);
        if others > 0 {
            let few = random.between(0, 4) as usize;
            buyers.truncate(few);
        }
        buyers.truncate(200);
        // No more marks than are left; a buyer without any is none.
        for buyer in &mut buyers {
            buyer.marks.truncate(marks_left);
            marks_left -= buyer.marks.len();
        }
        buyers.retain(|buyer| !buyer.marks.is_empty());
        let sessions = random.between(2, 5) as usize;
        made.push(Catalogue {
            estimated: false,
            sessions,
            slack: 1_000,
            lots: (0..lots as usize)
                .map(|place| Lot::free(1, place % sessions + 1))
                .collect(),
            buyers,
        });
    }
    made
}

/// A limit that the drafts keep: exactly theirs, or with space for few lots or for all.
fn limit(random: &mut Random, kind: HallKind, catalogues: &[Catalogue]) -> u64 {
    let heaviest = heaviest_session(catalogues);
    let lots = catalogues.iter().flat_map(|catalogue| &catalogue.lots);
    let largest_lot = lots.map(|lot| lot.bales).max().expect("there are lots");
    let more = match (kind, random.between(0, 9)) {
        (HallKind::HighLimit, 0..=4) => MAX_HALL_LIMIT,
        (HallKind::HighLimit, _) => 5 * heaviest + 100_000,
        (_, 0..=2) => 0,
        (_, 3..=5) => random.between(1, largest_lot),
        (_, 6) => largest_lot,
        (_, 7) => 1,
        (_, 8) => random.between(0, heaviest),
        _ => random.between(0, 2 * largest_lot),
    };
    (heaviest + more).min(MAX_HALL_LIMIT)
}

fn calls(
    random: &mut Random,
    kind: HallKind,
    catalogues: &[Catalogue],
    limit: u64,
) -> Vec<LedCall> {
    // Of J, S, M, B, W, P, A, any call, X, N, any X or N.
    let chances: &[u64] = match kind {
        HallKind::Moves => &[6, 4, 50, 30, 4, 2, 0, 4],
        HallKind::Searches => &[12, 10, 24, 8, 26, 10, 10, 0],
        HallKind::Late => &LATE,
        HallKind::BadCalls => &[5, 5, 5, 5, 5, 3, 3, 40, 5, 5, 19],
        HallKind::ManyCalls => &[16, 14, 26, 14, 4, 2, 1, 4, 7, 10, 2],
        HallKind::Full => &[4, 6, 12, 6, 1, 0, 0, 0, 24, 40, 7],
        HallKind::Large => &[20, 15, 30, 10, 15, 5, 0, 0],
        _ => &[12, 10, 24, 12, 12, 5, 5, 6, 5, 8, 1],
    };
    let count = match kind {
        HallKind::ManyCalls if random.in_hundred(30) => 512,
        HallKind::ManyCalls => random.between(100, 400),
        HallKind::Moves => random.between(10, 60),
        HallKind::Searches => random.between(4, 16),
        HallKind::Large => 10,
        _ => random.between(0, 40),
    };
    let mut list = steered_list(random, catalogues, limit, count as usize, chances);
    if kind == HallKind::Large {
        for _ in 0..8 {
            list.extend((1..=catalogues.len()).map(|number| led(number, Call::S)));
        }
        list.extend((1..=catalogues.len()).map(|number| led(number, Call::A)));
    }
    list
}

fn led(catalogue: usize, call: Call) -> LedCall {
    LedCall { catalogue, call }
}

/// So many calls of all brokers. A hall runs along, so that most calls find what they need; now and
/// then a call looks at its cap alone, so that the limit may refuse it, and now and then the session
/// that a lot left is filled by another broker, so that the limit may refuse its return.
fn steered_list(
    random: &mut Random,
    catalogues: &[Catalogue],
    limit: u64,
    count: usize,
    chances: &[u64],
) -> Vec<LedCall> {
    let mut hall = HallMachine::fresh(catalogues, limit);
    let mut list: Vec<LedCall> = Vec::new();
    let heedless = *random.pick(&[10, 30, 60]);
    let filled = *random.pick(&[0, 20, 50]);
    while list.len() < count {
        let number = random.between(1, catalogues.len() as u64) as usize;
        let mut machine = hall.machines[number - 1].clone();
        if !random.in_hundred(heedless) {
            machine.beside = hall.beside(number);
        }
        let mut next = vec![led(number, steered_call(random, &machine, chances))];
        let moved = hall.call(&next[0]).is_ok() && matches!(next[0].call, Call::M { .. });
        if moved && random.in_hundred(filled) {
            let &(_, left) = hall.machines[number - 1]
                .record
                .last()
                .expect("a move is on the record");
            let filling = filling(random, &hall, number, left, count - list.len());
            for call in &filling {
                // An answer or a refusal serves alike: only the state after the call is used.
                let _ = hall.call(call);
            }
            next.extend(filling);
        }
        list.extend(next);
    }
    list.truncate(count);
    list
}

/// Calls of another broker that fill a session, then B of the one whose lot left it; then, mostly,
/// something that may free the space again, and B once more.
fn filling(
    random: &mut Random,
    hall: &HallMachine,
    number: usize,
    session: usize,
    most: usize,
) -> Vec<LedCall> {
    let mut hall = hall.clone();
    let mut list = Vec::new();
    let others: Vec<usize> = (1..=hall.machines.len())
        .filter(|&other| other != number && session <= hall.machines[other - 1].catalogue.sessions)
        .collect();
    if others.is_empty() || most < 6 {
        return list;
    }
    let other = *random.pick(&others);
    for _ in 0..random.between(1, 2) {
        let mut machine = hall.machines[other - 1].clone();
        machine.beside = hall.beside(other);
        let call = entering(random, &machine, session);
        let _ = hall.call(&led(other, call.clone()));
        list.push(led(other, call));
    }
    list.push(led(number, Call::B));
    if random.in_hundred(60) {
        let free = match list[0].call {
            Call::N { .. } => Call::X {
                lot: hall.machines[other - 1].catalogue.lots.len() as u64,
            },
            _ => Call::B,
        };
        list.extend([led(other, free), led(number, Call::B)]);
    }
    list
}

/// A move of a lot into the session, the heaviest that has space there, or an addition that fills it.
fn entering(random: &mut Random, machine: &Machine, session: usize) -> Call {
    let standing = machine.standing();
    let view = View::of(&standing, &machine.sessions);
    let lot = standing
        .board()
        .into_iter()
        .filter(|&lot| machine.sessions[lot] != session && !standing.kept(lot))
        .filter(|&lot| machine.space(&view, lot, session))
        .max_by_key(|&lot| standing.bales(lot));
    match lot {
        Some(lot) if random.in_hundred(70) => Call::M {
            u: lot as u64,
            t: session as u64,
        },
        _ => Call::N {
            bales: machine.room(&view, session).clamp(1, 65_535),
            session: session as u64,
            buyers: Vec::new(),
        },
    }
}

/// A hall file with faults: some in the hall that is written down, some in its bytes. It may still be
/// accepted.
pub fn damaged_hall(seed: u64) -> Vec<u8> {
    let mut random = Random::new(seed ^ 0x46_41_55_4C_54);
    let kind = match random.between(0, 99) {
        0..=2 => HallKind::Full,
        3..=20 => HallKind::BadCalls,
        21..=30 => HallKind::FourCatalogues,
        31..=40 => HallKind::SessionCounts,
        _ => *random.pick(&[HallKind::Mixed, HallKind::Late, HallKind::Moves]),
    };
    let file = hall_of_kind(random.bits(), kind);
    let mut hall = parse_hall(&file).expect("a generated hall is accepted");
    if random.in_hundred(40) {
        for _ in 0..random.between(1, 2) {
            put_fault(&mut random, &mut hall);
        }
    }
    let mut file = write_hall(&hall);
    if random.in_hundred(65) {
        for _ in 0..random.between(1, 2) {
            file = damage_hall(&mut random, file);
        }
    }
    file
}

/// Puts a fault into a hall that keeps the form of every line.
fn put_fault(random: &mut Random, hall: &mut Hall) {
    let last = hall.catalogues.len() as u64 - 1;
    let place = random.between(0, last) as usize;
    let heaviest = heaviest_session(&hall.catalogues);
    let catalogue = &mut hall.catalogues[place];
    let lot = random.between(0, catalogue.lots.len() as u64 - 1) as usize;
    match random.between(0, 11) {
        0..=2 => hall.limit = random.between(heaviest.saturating_sub(2), heaviest),
        3 => {
            // All lots of one session: mostly an overfull draft.
            for lot in &mut catalogue.lots {
                lot.session = 1;
            }
        }
        4 => catalogue.lots[lot].bales = random.between(60_000, 65_536),
        5 => {
            let low = catalogue.lots[lot].bales + random.between(0, 1);
            catalogue.estimated = true;
            catalogue.lots[lot].low = low;
        }
        6 => {
            if let Some(buyer) = catalogue.buyers.last_mut() {
                let mark = *random.pick(&buyer.marks);
                buyer.marks.push(mark);
            }
        }
        7 => too_many_marks(random, catalogue),
        8 => {
            let lots = *random.pick(&[1_024, 1_025]) - catalogue.lots.len().min(1_024);
            catalogue.lots.extend(vec![Lot::free(1, 1); lots]);
        }
        9 => {
            let buyers = *random.pick(&[1_024, 1_025]) - catalogue.buyers.len().min(1_024);
            let marks = vec![1];
            catalogue
                .buyers
                .extend(vec![Buyer { weight: 1, marks }; buyers]);
        }
        10 => {
            let number = *random.pick(&[0, 3, 4, 5, 9, 999_999_999]);
            let place = random.between(0, hall.calls.len() as u64) as usize;
            hall.calls.insert(place, led(number, Call::P));
        }
        _ => {
            let more = 510 + random.between(0, 4) as usize - hall.calls.len().min(510);
            hall.calls.extend(vec![led(place + 1, Call::S); more]);
        }
    }
}

/// Buyers of few lots each until the catalogue alone has 8,192 marks or a few more.
fn too_many_marks(random: &mut Random, catalogue: &mut Catalogue) {
    let marks: Vec<usize> = catalogue.lot_numbers().collect();
    let wanted = 8_191 + random.between(0, 3) as usize;
    let mut had = catalogue.mark_count();
    while had < wanted && catalogue.buyers.len() < 1_024 {
        let few = marks[..marks.len().min(wanted - had)].to_vec();
        had += few.len();
        catalogue.buyers.push(Buyer {
            weight: 1,
            marks: few,
        });
    }
}

/// Damages the bytes of a hall file: as those of a sale's, or where a hall's lines are others.
fn damage_hall(random: &mut Random, file: Vec<u8>) -> Vec<u8> {
    if file.is_empty() {
        return file;
    }
    match random.between(0, 9) {
        0..=3 => damage(random, file),
        4 => change_lines(random, &file, |random, lines| {
            lines[0] = random.pick(&HEADS).to_vec();
        }),
        5 => change_lines(random, &file, |random, lines| {
            // Mostly behind the catalogues, where a call may stand.
            let last = lines.len() as u64;
            let place = random.between(last - last.min(4), last) as usize;
            lines.insert(place, [*random.pick(&LED_LINES), b"\n"].concat());
        }),
        6 => change_lines(random, &file, |random, lines| {
            // Another lead, or none.
            let place = random.between(lines.len() as u64 / 2, lines.len() as u64 - 1) as usize;
            let line = lines[place].clone();
            let comma = line.iter().position(|&byte| byte == b',');
            let rest = comma.map_or(0, |comma| comma + 1);
            lines[place] = [*random.pick(&LEADS), &line[rest..]].concat();
        }),
        7 => change_lines(random, &file, |random, lines| {
            // A catalogue less.
            let starts: Vec<usize> = catalogue_starts(lines);
            if let [.., _, _] = starts[..] {
                let which = random.between(0, starts.len() as u64 - 2) as usize;
                lines.drain(starts[which]..starts[which + 1]);
            }
        }),
        8 => change_lines(random, &file, |random, lines| {
            // A catalogue more.
            let starts: Vec<usize> = catalogue_starts(lines);
            if let [.., _, _] = starts[..] {
                let which = random.between(0, starts.len() as u64 - 2) as usize;
                let again = lines[starts[which]..starts[which + 1]].to_vec();
                lines.splice(starts[which]..starts[which], again);
            }
        }),
        _ => change_lines(random, &file, |random, lines| {
            // Another number of catalogues than follow.
            let count: &[u8] = random.pick::<&[u8]>(&[b"0", b"1", b"2", b"3", b"4", b"5"]);
            let fields: Vec<&[u8]> = lines[0].split(|&byte| byte == b',').collect();
            if let [name, _, limit] = fields[..] {
                lines[0] = [name, count, limit].join(&b',');
            }
        }),
    }
}

/// Where the lines of each catalogue begin.
fn catalogue_starts(lines: &[Vec<u8>]) -> Vec<usize> {
    (0..lines.len())
        .filter(|&place| lines[place].starts_with(b"SALE") || lines[place].starts_with(b"EST"))
        .collect()
}

/// First lines near that of a hall.
const HEADS: [&[u8]; 20] = [
    b"HALL,2,1\n",
    b"HALL,2,5\n",
    b"HALL,3,999999999\n",
    b"HALL,2,0\n",
    b"HALL,1,9\n",
    b"HALL,5,9\n",
    b"HALL,0,9\n",
    b"HALL,0,0\n",
    b"HALL,2,1000000000\n",
    b"HALL,2,09\n",
    b"HALL,02,9\n",
    b"HALL,2\n",
    b"HALL\n",
    b"HALL,2,9,1\n",
    b"HALL,2,9,\n",
    b"HALL,2,9,K\n",
    b"HALLS,2,9\n",
    b"hall,2,9\n",
    b"SALE,2,9\n",
    b"\n",
];

/// Leads and what is near them.
const LEADS: [&[u8]; 14] = [
    b"",
    b"0,",
    b"1,",
    b"2,",
    b"3,",
    b"4,",
    b"5,",
    b"9,",
    b"01,",
    b",",
    b"-1,",
    b"1,1,",
    b"1000000000,",
    b"999999999,",
];

/// Call lines of a hall, of a bad form, with leads or numbers that name nothing, or sound.
const LED_LINES: [&[u8]; 32] = [
    b"Q",
    b"1",
    b"1,",
    b",",
    b"P",
    b"01,P",
    b"9,P",
    b"0,P",
    b"9,Q",
    b"1,Q",
    b"1,P,",
    b"1,,P",
    b",P",
    b"1,1,P",
    b"1 P",
    b"1,M,1",
    b"1,M,1,2,3",
    b"1,M,1,02",
    b"1,M,999999999,1",
    b"1,M,1,1000000000",
    b"1,X",
    b"1,X,1",
    b"2,N,1",
    b"2,N,1,1",
    b"2,N,1,1,1,1",
    b"2,N,0,1",
    b"4,A",
    b"3,W,1,1",
    b"1,NO,9",
    b"HALL,2,9",
    b"SALE,1,0,2,0",
    b"2,B",
];
