//! The sales that are measured: seeded, so that every run has the same ones. Drafts go round the
//! sessions in turn; marks, bales and weights are random.

use crate::clusters::{self, clustered, moves, walks};
use reference::catalogue::{Buyer, Lot};
use reference::generator::{calls, write_sale, Random};
use reference::hall_generator::write_hall;
use reference::{Call, Catalogue, Hall, LedCall, Machine, Sale};

/// What the workloads of a part of the table and of the picture have in common.
#[derive(Clone, Copy, Debug, PartialEq, Eq)]
pub enum Group {
    Large,
    Small,
    Single,
    Loading,
    Changes,
    HallsAndSheets,
}

impl Group {
    /// In the order that they are shown in.
    pub const ALL: [Group; 6] = [
        Group::Large,
        Group::Small,
        Group::Single,
        Group::Loading,
        Group::Changes,
        Group::HallsAndSheets,
    ];

    pub fn title(self) -> &'static str {
        match self {
            Group::Large => "A, large and broad",
            Group::Small => "A on small sales",
            Group::Single => "single calls",
            Group::Loading => "loading",
            Group::Changes => "changes (M-111)",
            Group::HallsAndSheets => "halls and sheets (M-112, M-113)",
        }
    }
}

pub struct Workload {
    pub group: Group,
    pub name: &'static str,
    pub file: Vec<u8>,
    /// Whether it is measured against the tuned splitter with its index as well.
    pub indexed: bool,
}

/// A hall, and its catalogues as sales with their own calls.
pub struct HallWorkload {
    pub name: &'static str,
    pub hall: Vec<u8>,
    pub sales: Vec<Vec<u8>>,
}

/// A catalogue of `buyers` lists of `marks` marks.
fn catalogue(lots: usize, buyers: usize, marks: usize, sessions: usize) -> Catalogue {
    let seed = (lots * buyers + marks * sessions) as u64;
    seeded_catalogue(seed, lots, buyers, marks, sessions)
}

fn seeded_catalogue(
    seed: u64,
    lots: usize,
    buyers: usize,
    marks: usize,
    sessions: usize,
) -> Catalogue {
    let mut random = Random::new(seed);
    Catalogue {
        estimated: false,
        sessions,
        slack: 100,
        lots: (0..lots)
            .map(|place| Lot::free(random.between(1, 9), place % sessions + 1))
            .collect(),
        buyers: (0..buyers)
            .map(|_| Buyer {
                weight: random.between(1, 10),
                marks: random.some_lots(lots, marks),
            })
            .collect(),
    }
}

fn workload(group: Group, name: &'static str, catalogue: Catalogue, calls: Vec<Call>) -> Workload {
    let file = write_sale(&Sale { catalogue, calls });
    Workload {
        group,
        name,
        file,
        indexed: false,
    }
}

/// A join of two random lots of one session of the draft and its split, by turns. The draft goes round.
fn joins_and_splits(catalogue: &Catalogue, pairs: usize) -> Vec<Call> {
    let mut random = Random::new(pairs as u64);
    let (lots, sessions) = (catalogue.lots.len() as u64, catalogue.sessions as u64);
    let mut list = Vec::new();
    for _ in 0..pairs {
        let u = random.between(1, lots);
        // The drafts go round the sessions in turn, so lots of one session are so far apart.
        let v = (u - 1 + sessions * random.between(1, lots / sessions - 1)) % lots + 1;
        list.extend([Call::J { u, v }, Call::S]);
    }
    list
}

/// The buyers of a lot.
fn buyers_of(catalogue: &Catalogue, lot: usize) -> Vec<u64> {
    let numbers = catalogue.buyer_numbers();
    let of_lot = numbers.filter(|&buyer| catalogue.buyer(buyer).marks.contains(&lot));
    of_lot.map(|buyer| buyer as u64).collect()
}

/// A lot of few buyers withdrawn, so that the file is not too long, and the same added again, by
/// turns: behind each addition all marks are in use.
fn withdrawn_and_added(catalogue: &Catalogue, pairs: usize) -> Vec<Call> {
    let mut random = Random::new(pairs as u64);
    let mut list = Vec::new();
    while list.len() < 2 * pairs {
        let lot = random.between(1, catalogue.lots.len() as u64);
        let buyers = buyers_of(catalogue, lot as usize);
        if buyers.len() > 8 {
            continue;
        }
        let same = catalogue.lot(lot as usize);
        let added = Call::N {
            bales: same.bales,
            session: same.session as u64,
            buyers,
        };
        list.extend([Call::X { lot }, added]);
    }
    list
}

/// Of X, N, M and W one each by turns, all of them accepted: a lot withdrawn, one of other buyers
/// added, a lot moved, and a walk from two lots.
fn late_and_moved(catalogue: &Catalogue, rounds: usize) -> Vec<Call> {
    let mut random = Random::new(rounds as u64);
    let (lots, sessions) = (catalogue.lots.len() as u64, catalogue.sessions as u64);
    let mut machine = Machine::fresh(catalogue);
    let mut list = Vec::new();
    while list.len() < 4 * rounds {
        let call = match list.len() % 4 {
            0 => Call::X {
                lot: random.between(1, lots),
            },
            1 => Call::N {
                bales: random.between(1, 9),
                session: random.between(1, sessions),
                buyers: buyers_of(catalogue, random.between(1, lots) as usize),
            },
            2 => Call::M {
                u: random.between(1, lots),
                t: random.between(1, sessions),
            },
            _ => Call::W {
                u: random.between(1, lots),
                v: random.between(1, lots),
            },
        };
        if machine.call(&call).is_ok() {
            list.push(call);
        }
    }
    list
}

/// All sales that are measured, group by group.
pub fn workloads() -> Vec<Workload> {
    let mut all = large();
    all.extend(small());
    all.extend(single());
    all.extend(loading());
    all.extend(changes());
    all
}

fn large() -> Vec<Workload> {
    let cycle = |name, buyers, marks, sessions| {
        let catalogue = catalogue(1024, buyers, marks, sessions);
        workload(Group::Large, name, catalogue, vec![Call::A])
    };
    vec![
        cycle("A, 1,024 lists of 8", 1024, 8, 4),
        cycle("A, 128 lists of 64", 128, 64, 4),
        cycle("A, 32 lists of 256", 32, 256, 4),
        cycle("A, 8 lists of 1,024", 8, 1024, 4),
        cycle("A, 16 sessions, 1,024 lists of 8", 1024, 8, 16),
        cycle("A, 16 sessions, 128 lists of 64", 128, 64, 16),
        cycle("A, 16 sessions, 8 lists of 1,024", 8, 1024, 16),
    ]
}

fn small() -> Vec<Workload> {
    let cycle = |name, lots, sessions| {
        let catalogue = clustered(lots, sessions);
        workload(Group::Small, name, catalogue, vec![Call::A])
    };
    vec![
        cycle("A, 25 lots in clusters, 4 sessions", 25, 4),
        cycle("A, 50 lots in clusters, 4 sessions", 50, 4),
        cycle("A, 100 lots in clusters, 5 sessions", 100, 5),
        cycle("A, 200 lots in clusters, 5 sessions", 200, 5),
        cycle("A, 400 lots in clusters, 6 sessions", 400, 6),
        cycle("A, 800 lots in clusters, 6 sessions", 800, 6),
    ]
}

fn single() -> Vec<Workload> {
    let of_calls = |name, catalogue, calls| workload(Group::Single, name, catalogue, calls);
    let mixed = catalogue(256, 256, 8, 4);
    let list = calls(1, &mixed, 512);
    let broad = catalogue(1024, 8, 1024, 4);
    let broad_turns = joins_and_splits(&broad, 256);
    let sale = clustered(800, 5);
    let (from_two, turns) = (walks(&sale, 512), clusters::joins_and_splits(&sale, 256));
    let moved = |name, lots, sessions| {
        let catalogue = clustered(lots, sessions);
        let calls = moves(&catalogue, 512);
        Workload {
            indexed: true,
            ..of_calls(name, catalogue, calls)
        }
    };
    vec![
        of_calls("512 mixed calls, 256 lots", mixed, list),
        of_calls(
            "P, 800 lots in clusters, 5 sessions",
            sale.clone(),
            vec![Call::P],
        ),
        of_calls("512 W, 800 lots in clusters", sale.clone(), from_two),
        of_calls("J and S by turns, 800 lots in clusters", sale, turns),
        of_calls("J and S by turns on 8 lists of 1,024", broad, broad_turns),
        moved("512 M, 2 sessions, 1,024 lots in clusters", 1024, 2),
        moved("512 M, 6 sessions, 200 lots in clusters", 200, 6),
        moved("512 M, 16 sessions, 100 lots in clusters", 100, 16),
        moved("512 M, 16 sessions, 1,024 lots in clusters", 1024, 16),
    ]
}

fn loading() -> Vec<Workload> {
    let loaded = |name, catalogue| workload(Group::Loading, name, catalogue, vec![]);
    vec![
        loaded("loading, 25 lots in clusters", clustered(25, 4)),
        loaded("loading, 100 lots in clusters", clustered(100, 5)),
        loaded("loading, 1,024 lists of 8", catalogue(1024, 1024, 8, 4)),
        // Each list of marks is in random order, and the present marks stand in rising order.
        loaded(
            "loading, 8 lists of 1,024 in random order",
            catalogue(1024, 8, 1024, 4),
        ),
    ]
}

fn changes() -> Vec<Workload> {
    let full = catalogue(1024, 1024, 8, 4);
    let changed = |name, calls| workload(Group::Changes, name, full.clone(), calls);
    vec![
        changed(
            "512 X and N by turns, 8,192 marks",
            withdrawn_and_added(&full, 256),
        ),
        changed("X, N, M, W mixed, 8,192 marks", late_and_moved(&full, 128)),
    ]
}

/// A hall of four catalogues of 256 lots, full tables together, with an A of each, beside the four sales.
/// Its limit bars nothing, so that both do the same work.
pub fn hall() -> HallWorkload {
    let catalogues: Vec<Catalogue> = (1..=4)
        .map(|seed| seeded_catalogue(seed, 256, 256, 8, 4))
        .collect();
    let sales = catalogues.iter().map(|catalogue| {
        write_sale(&Sale {
            catalogue: catalogue.clone(),
            calls: vec![Call::A],
        })
    });
    let sales = sales.collect();
    let numbers = 1..=catalogues.len();
    let hall = Hall {
        limit: 999_999_999,
        calls: numbers
            .map(|catalogue| LedCall {
                catalogue,
                call: Call::A,
            })
            .collect(),
        catalogues,
    };
    HallWorkload {
        name: "hall of 4 × 256 lots, A each, over 4 sales (no tuned hall)",
        hall: write_hall(&hall),
        sales,
    }
}

/// The largest sales, without calls, whose sheets are measured: 8,192 marks in short and in long lists.
pub fn largest() -> Vec<Workload> {
    let sale = |name, buyers, marks| {
        let catalogue = catalogue(1024, buyers, marks, 16);
        workload(Group::HallsAndSheets, name, catalogue, vec![])
    };
    vec![
        sale("1,024 lists of 8", 1024, 8),
        sale("8 lists of 1,024", 8, 1024),
    ]
}

/// The catalogue of the loading workload as an hMETIS file with its partition listing.
pub fn hmetis() -> Vec<u8> {
    let catalogue = catalogue(1024, 1024, 8, 4);
    let mut text = format!("HGR,{},{}\n", catalogue.sessions, catalogue.slack);
    text += &format!("{} {} 11\n", catalogue.buyers.len(), catalogue.lots.len());
    for buyer in &catalogue.buyers {
        text += &buyer.weight.to_string();
        for mark in &buyer.marks {
            text += &format!(" {mark}");
        }
        text.push('\n');
    }
    for lot in &catalogue.lots {
        text += &format!("{}\n", lot.bales);
    }
    text += "PART\n";
    for lot in &catalogue.lots {
        text += &format!("{}\n", lot.session - 1);
    }
    text.into_bytes()
}
