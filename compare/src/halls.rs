//! Halls through the engine's entry for them against the reference: return, report and all lent sets,
//! those without a catalogue and those past the fourth included. What two lists of calls leave of a hall
//! that must leave the same. Rests on the bindings and on the reference.

use crate::Set;
use kapokdrill::lent::{
    self, LentSets, Lot, NetTables, Outcome, HALL_VERTICES, NETS, OUTPUT, PINS, ROWS, SETS,
    VERTICES,
};
use reference::generator::Random;
use reference::hall_generator::write_hall;
use reference::{
    parse_hall, report, run_hall_calls, Call, Hall, HallMachine, LedCall, Machine, Tables,
};

/// Lent memory of lengths that the caller settles: a table has a set for each catalogue, and the lots
/// are the sets' records in a row.
#[derive(Clone, Debug, PartialEq, Eq)]
pub struct HallMemory {
    pub lots: Vec<Lot>,
    pub output: Vec<u8>,
    pub loadedpins: Vec<[u16; PINS]>,
    pub presentpins: Vec<[u16; PINS]>,
    pub firsts: Vec<[u16; NETS]>,
    pub loadedsizes: Vec<[u16; NETS]>,
    pub presentsizes: Vec<[u16; NETS]>,
    pub counts: Vec<[u16; ROWS]>,
    pub gains: Vec<[i32; ROWS]>,
    pub index: Vec<[u16; ROWS]>,
    pub visited: Vec<[u16; NETS]>,
}

/// Four sets of random entries, now and then one or two more.
fn sets<const N: usize>(random: &mut Random) -> Vec<[u16; N]> {
    let mut made = vec![[0; N]; count(random)];
    for four in made.as_flattened_mut().chunks_mut(4) {
        let bits = random.bits();
        for (place, entry) in four.iter_mut().enumerate() {
            *entry = (bits >> (16 * place)) as u16;
        }
    }
    made
}

fn count(random: &mut Random) -> usize {
    SETS + *random.pick(&[0, 0, 0, 1, 2])
}

impl HallMemory {
    /// Memory filled with random bytes, some of it longer than it must be.
    pub fn noise(random: &mut Random) -> Self {
        let records = HALL_VERTICES + *random.pick(&[0, 0, 1, 3, VERTICES]);
        let bytes = OUTPUT + random.between(0, 3) as usize;
        let mut gains = vec![[0; ROWS]; count(random)];
        for two in gains.as_flattened_mut().chunks_mut(2) {
            let bits = random.bits();
            (two[0], two[1]) = (bits as i32, (bits >> 32) as i32);
        }
        HallMemory {
            lots: (0..records)
                .map(|_| {
                    let bits = random.bits();
                    Lot {
                        bales: bits as u32,
                        session: (bits >> 32) as u16,
                        above: (bits >> 48) as u16,
                        kept: (bits >> 24) as u16,
                    }
                })
                .collect(),
            output: (0..bytes / 8 + 1)
                .flat_map(|_| random.bits().to_le_bytes())
                .take(bytes)
                .collect(),
            loadedpins: sets(random),
            presentpins: sets(random),
            firsts: sets(random),
            loadedsizes: sets(random),
            presentsizes: sets(random),
            counts: sets(random),
            gains,
            index: sets(random),
            visited: sets(random),
        }
    }

    /// Runs the engine on this memory.
    pub fn run(&mut self, file: &[u8]) -> Outcome {
        let lent = LentSets {
            output: &mut self.output,
            loadedpins: &mut self.loadedpins,
            presentpins: &mut self.presentpins,
            firsts: &mut self.firsts,
            loadedsizes: &mut self.loadedsizes,
            presentsizes: &mut self.presentsizes,
            counts: &mut self.counts,
            gains: &mut self.gains,
            index: &mut self.index,
            visited: &mut self.visited,
        };
        lent::hall(file, &mut self.lots, lent)
    }

    /// Puts in what the reference says that the catalogue of this place, from 0, has in its set.
    fn finish(&mut self, place: usize, tables: &Tables) {
        let set = Set {
            lots: &mut self.lots[VERTICES * place..][..VERTICES],
            loadedpins: &mut self.loadedpins[place],
            presentpins: &mut self.presentpins[place],
            firsts: &mut self.firsts[place],
            loadedsizes: &mut self.loadedsizes[place],
            presentsizes: &mut self.presentsizes[place],
            counts: &mut self.counts[place],
            gains: &mut self.gains[place],
            index: &mut self.index[place],
            visited: &mut self.visited[place],
        };
        set.finish(tables);
    }

    /// After a refused file the tables are free, so they are taken from `found`; the output is not.
    fn free_tables(&mut self, found: &HallMemory) {
        let output = std::mem::take(&mut self.output);
        *self = found.clone();
        self.output = output;
    }

    /// An error names the first table that differs, with its set, counted from 1.
    fn same_as(&self, other: &HallMemory) -> Result<(), String> {
        if self.lots != other.lots {
            return Err("lots".into());
        }
        if self.output != other.output {
            return Err("output".into());
        }
        same("loadedpins", &self.loadedpins, &other.loadedpins)?;
        same("presentpins", &self.presentpins, &other.presentpins)?;
        same("firsts", &self.firsts, &other.firsts)?;
        same("loadedsizes", &self.loadedsizes, &other.loadedsizes)?;
        same("presentsizes", &self.presentsizes, &other.presentsizes)?;
        same("counts", &self.counts, &other.counts)?;
        same("gains", &self.gains, &other.gains)?;
        same("index", &self.index, &other.index)?;
        same("visited", &self.visited, &other.visited)
    }

    /// Compares the marks that the engine hands out of a catalogue's set with those of the reference, for
    /// every buyer.
    fn compare_pins(&self, place: usize, tables: &Tables) -> Result<(), String> {
        let sets = NetTables {
            loadedpins: &self.loadedpins[place],
            presentpins: &self.presentpins[place],
            firsts: &self.firsts[place],
            loadedsizes: &self.loadedsizes[place],
            presentsizes: &self.presentsizes[place],
        };
        for (net, (buyer, marks)) in (1..).zip(tables.buyers.iter().zip(&tables.present_marks)) {
            let loaded = &tables.loaded_marks[buyer.first_place..][..buyer.loaded_marks];
            for (present, wanted) in [(false, loaded), (true, marks)] {
                let stretch = lent::pins(sets, present, net);
                let table = if present {
                    sets.presentpins
                } else {
                    sets.loadedpins
                };
                let found = &table[stretch.first..][..stretch.size];
                if !found
                    .iter()
                    .map(|&mark| usize::from(mark))
                    .eq(wanted.iter().copied())
                {
                    let number = place + 1;
                    return Err(format!("catalogue {number}, net {net}, present {present}"));
                }
            }
        }
        Ok(())
    }
}

fn same<T: PartialEq>(name: &str, found: &[T], wanted: &[T]) -> Result<(), String> {
    if found == wanted {
        return Ok(());
    }
    match found
        .iter()
        .zip(wanted)
        .position(|(one, other)| one != other)
    {
        Some(place) => Err(format!("{name}, set {}", place + 1)),
        None => Err(format!("{name}, sets")),
    }
}

/// Runs a hall's file on memory of random bytes and compares all with the reference: the return, or what
/// differs. Sets without a catalogue, sets past the fourth, records past the lots and past the fourth
/// set's keep what they held.
pub fn compare_hall(file: &[u8], random: &mut Random) -> Result<u32, String> {
    let before = HallMemory::noise(random);
    let mut found = before.clone();
    let outcome = found.run(file);

    let mut wanted = before;
    let (code, text) = match parse_hall(file) {
        Ok(hall) => {
            let end = run_hall_calls(&hall.catalogues, hall.limit, &hall.calls);
            for (place, catalogue) in end.catalogues.iter().enumerate() {
                wanted.finish(place, &catalogue.tables);
                found.compare_pins(place, &catalogue.tables)?;
            }
            (0, end.report)
        }
        Err(refusal) => {
            wanted.free_tables(&found);
            (refusal.number, report::refused_file(&refusal).into_bytes())
        }
    };
    let written = text.len();
    if outcome != (Outcome { code, written }) {
        return Err(format!("{outcome:?}, not {code} and {written}"));
    }
    wanted.output[..written].copy_from_slice(&text);
    found.same_as(&wanted)?;
    Ok(code)
}

/// A hall after a list of calls, refused ones among them.
fn after<'a>(hall: &'a Hall, calls: &[LedCall]) -> HallMachine<'a> {
    let mut machine = HallMachine::fresh(&hall.catalogues, hall.limit);
    for led in calls {
        // a refused call changes nothing
        let _ = machine.call(led);
    }
    machine
}

/// The hall with other calls.
fn with_calls(hall: &Hall, calls: Vec<LedCall>) -> Hall {
    Hall {
        calls,
        ..hall.clone()
    }
}

/// Runs two lists of calls on the catalogues of a hall, on equal memory of random bytes: what differs in
/// the tables, which are compared in every entry of every set, or in the closing reports.
pub fn same_left(hall: &Hall, lists: [&[LedCall]; 2], random: &mut Random) -> Result<(), String> {
    let before = HallMemory::noise(random);
    let run = |calls: &[LedCall]| -> Result<(Vec<u8>, HallMemory), String> {
        let mut memory = before.clone();
        let outcome = memory.run(&write_hall(&with_calls(hall, calls.to_vec())));
        if outcome.code != 0 {
            return Err(format!("turned down as {}", outcome.code));
        }
        let lines = memory.output[..outcome.written].split_inclusive(|&byte| byte == b'\n');
        // an answer for each call stands before
        let closing = lines.skip(calls.len()).flatten().copied().collect();
        memory.output.clear();
        Ok((closing, memory))
    };
    let (one, other) = (run(lists[0])?, run(lists[1])?);
    if one.0 != other.0 {
        return Err("the closing reports".into());
    }
    one.1.same_as(&other.1)
}

/// Runs a hall's file, and the same without the call lines that the reference refuses: how many are
/// refused, or what differs. Nothing is refused in a file that is turned down.
pub fn same_hall_without_refused(file: &[u8], random: &mut Random) -> Result<usize, String> {
    let Ok(hall) = parse_hall(file) else {
        return Ok(0);
    };
    let mut machine = HallMachine::fresh(&hall.catalogues, hall.limit);
    let mut taken = hall.calls.clone();
    taken.retain(|led| machine.call(led).is_ok());
    same_left(&hall, [&hall.calls, &taken], random)?;
    Ok(hall.calls.len() - taken.len())
}

/// Any move of any catalogue's lots; it may be one that is refused.
fn any_move(machine: &HallMachine, random: &mut Random) -> LedCall {
    let catalogue = random.between(1, machine.machines.len() as u64) as usize;
    let own = &machine.machines[catalogue - 1].catalogue;
    let call = Call::M {
        u: random.between(1, own.lots.len() as u64),
        t: random.between(1, own.sessions as u64),
    };
    LedCall { catalogue, call }
}

/// The sessions of all catalogues' lots.
fn sessions<'a>(machine: &'a HallMachine) -> Vec<&'a Vec<usize>> {
    let own = |machine: &'a Machine| &machine.sessions;
    machine.machines.iter().map(own).collect()
}

/// Accepted moves of all catalogues behind a list of calls, then others behind the same list that leave
/// each lot in the same session: in another order, with detours and returns. None where no such way was
/// found.
pub fn two_ways(hall: &Hall, before: &[LedCall], random: &mut Random) -> Option<[Vec<LedCall>; 2]> {
    let start = after(hall, before);
    let mut one = start.clone();
    let mut moves = Vec::new();
    for _ in 0..random.between(1, 16) {
        let led = any_move(&one, random);
        if one.call(&led).is_ok() {
            moves.push(led);
        }
    }
    let mut other = start;
    let mut others = Vec::new();
    let detours = random.between(0, 6);
    for turn in 0..4_000 {
        let mut led = any_move(&other, random);
        if let (Call::M { u, t }, true) = (&mut led.call, turn >= detours) {
            *t = one.machines[led.catalogue - 1].sessions[*u as usize] as u64;
        }
        if other.call(&led).is_ok() {
            others.push(led);
        }
        if turn >= detours && sessions(&other) == sessions(&one) {
            return Some([moves, others]);
        }
    }
    None
}
