//! Sales of the sizes that brokers have: lots in clusters of about ten that the same buyers mark, and
//! calls of one kind on them. Seeded, so that every run has the same ones. Rests on `reference` to tell
//! which calls are accepted.

use reference::catalogue::{Buyer, Lot};
use reference::generator::Random;
use reference::{Call, Catalogue, Machine};

/// Of a hundred marks, how many are of a lot outside the buyer's cluster.
const STRAY: u64 = 15;

/// As many buyers as lots, each with 4 or 5 marks in one cluster, of which some stray. The draft evens
/// out the bales and knows no cluster, so that each is spread over the sessions.
pub fn clustered(lots: usize, sessions: usize) -> Catalogue {
    let mut random = Random::new((lots + sessions) as u64);
    let clusters = clusters(&mut random, lots);
    let bales: Vec<u64> = (0..lots).map(|_| random.between(1, 9)).collect();
    let draft = even_draft(&bales, sessions);
    Catalogue {
        estimated: false,
        sessions,
        slack: 100,
        lots: bales
            .iter()
            .zip(draft)
            .map(|(&bales, session)| Lot::free(bales, session))
            .collect(),
        buyers: (0..lots)
            .map(|_| Buyer {
                weight: random.between(1, 10),
                marks: marks(&mut random, lots, &clusters),
            })
            .collect(),
    }
}

/// The heaviest lot first, each in the session of fewest bales so far.
fn even_draft(bales: &[u64], sessions: usize) -> Vec<usize> {
    let mut places: Vec<usize> = (0..bales.len()).collect();
    places.sort_by_key(|&place| std::cmp::Reverse(bales[place]));
    let mut loads = vec![0; sessions];
    let mut draft = vec![0; bales.len()];
    for place in places {
        let lightest = (0..sessions).min_by_key(|&session| loads[session]);
        let session = lightest.expect("there are sessions");
        loads[session] += bales[place];
        draft[place] = session + 1;
    }
    draft
}

/// All lots in random order, cut into clusters of 8 to 12; the last takes what is left.
fn clusters(random: &mut Random, lots: usize) -> Vec<Vec<usize>> {
    let mut rest = random.some_lots(lots, lots);
    let mut clusters = Vec::new();
    while rest.len() > 12 {
        let size = random.between(8, 12).min(rest.len() as u64 - 5);
        let behind = rest.split_off(size as usize);
        clusters.push(std::mem::replace(&mut rest, behind));
    }
    clusters.push(rest);
    clusters
}

fn marks(random: &mut Random, lots: usize, clusters: &[Vec<usize>]) -> Vec<usize> {
    let cluster = random.pick(clusters);
    let size = random.between(4, 5) as usize;
    let mut marks: Vec<usize> = Vec::new();
    while marks.len() < size {
        let lot = if random.in_hundred(STRAY) {
            random.between(1, lots as u64) as usize
        } else {
            *random.pick(cluster)
        };
        if !marks.contains(&lot) {
            marks.push(lot);
        }
    }
    marks
}

/// So many moves of random lots to random sessions, all of them accepted.
pub fn moves(catalogue: &Catalogue, count: usize) -> Vec<Call> {
    let mut random = Random::new(count as u64);
    let (lots, sessions) = (catalogue.lots.len() as u64, catalogue.sessions as u64);
    let mut machine = Machine::fresh(catalogue);
    let mut list = Vec::new();
    while list.len() < count {
        let call = Call::M {
            u: random.between(1, lots),
            t: random.between(1, sessions),
        };
        if machine.call(&call).is_ok() {
            list.push(call);
        }
    }
    list
}

/// A join of two random lots of one session of the draft and its split, by turns.
pub fn joins_and_splits(catalogue: &Catalogue, pairs: usize) -> Vec<Call> {
    let mut random = Random::new(pairs as u64);
    let lots = catalogue.lots.len() as u64;
    let mut list = Vec::new();
    while list.len() < 2 * pairs {
        let (u, v) = (random.between(1, lots), random.between(1, lots));
        let session = |number| catalogue.lot(number as usize).session;
        if u != v && session(u) == session(v) {
            list.extend([Call::J { u, v }, Call::S]);
        }
    }
    list
}

/// So many walks from two random lots; none is refused.
pub fn walks(catalogue: &Catalogue, count: usize) -> Vec<Call> {
    let mut random = Random::new(count as u64);
    let lots = catalogue.lots.len() as u64;
    let mut lot = || random.between(1, lots);
    (0..count).map(|_| Call::W { u: lot(), v: lot() }).collect()
}
