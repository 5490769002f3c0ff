//! Seeded inputs of the converter and damaged ones; one seed gives one input.
//! Rests on `generator` for random numbers, catalogues and drafts within their caps.

use crate::catalogue::{Buyer, Catalogue, Lot};
use crate::generator::{catalogue_of_kind, settle_draft, write_sale, Kind, Random};
use crate::Sale;

/// The weight codes that an hMETIS file may have; 0 stands for none.
const CODES: [u64; 4] = [0, 1, 10, 11];

/// An input that the seed settles; most can be converted, and some lie just past a limit.
pub fn hgr(seed: u64) -> Vec<u8> {
    let mut random = Random::new(seed ^ 0x48_47_52);
    let code = *random.pick(&CODES);
    let mut made = match random.between(0, 199) {
        0 => random_sizes(&mut random, (1_022, 1_026), (0, 40)),
        1 => random_sizes(&mut random, (5, 60), (1_022, 1_026)),
        2 => marks_near_8_192(&mut random),
        3 => return output_near_60_000_bytes(&mut random),
        4 => return input_near_60_000_bytes(&mut random),
        _ => {
            let kind = *random.pick(&[
                Kind::Mixed,
                Kind::OneLot,
                Kind::NoBuyers,
                Kind::SingleMarks,
                Kind::Nested,
                Kind::Overlapping,
                Kind::SixteenSessions,
                Kind::Tight,
                Kind::HalfCaps,
            ]);
            catalogue_of_kind(random.bits(), kind)
        }
    };
    drop_weights(&mut made, code);
    settle_draft(&mut made);
    if random.in_hundred(5) {
        // Some blocks may be overfull then.
        let sessions = made.sessions as u64;
        for lot in &mut made.lots {
            lot.session = random.between(1, sessions) as usize;
        }
    }
    let lines = lines_of(&mut random, &made, code);
    with_comments(&mut random, lines)
}

/// An input with one to three faults put in, or random bytes. It may still be converted.
pub fn damaged_hgr(seed: u64) -> Vec<u8> {
    let mut random = Random::new(seed ^ 0x44_48_47_52);
    let mut input = hgr(random.bits());
    for _ in 0..random.between(1, 3) {
        input = damage(&mut random, input);
    }
    input
}

/// Weights that the code has no place for are 1.
fn drop_weights(made: &mut Catalogue, code: u64) {
    if code == 0 || code == 10 {
        made.buyers.iter_mut().for_each(|buyer| buyer.weight = 1);
    }
    if code == 0 || code == 1 {
        made.lots.iter_mut().for_each(|lot| lot.count(1));
    }
}

/// A catalogue of so many lots and buyers with one to three marks each.
fn random_sizes(random: &mut Random, lots: (u64, u64), buyers: (u64, u64)) -> Catalogue {
    let sessions = random.between(2, 16) as usize;
    let lot_count = random.between(lots.0, lots.1) as usize;
    let buyer_count = random.between(buyers.0, buyers.1);
    Catalogue {
        estimated: false,
        sessions,
        slack: random.between(0, 1_000),
        lots: (0..lot_count)
            .map(|place| Lot::free(1, place % sessions + 1))
            .collect(),
        buyers: (0..buyer_count)
            .map(|_| {
                let count = random.between(1, 3) as usize;
                Buyer {
                    weight: random.between(1, 1_000),
                    marks: random.some_lots(lot_count, count),
                }
            })
            .collect(),
    }
}

/// Broad lists of 8,190 to 8,194 marks together.
fn marks_near_8_192(random: &mut Random) -> Catalogue {
    let mut made = random_sizes(random, (820, 900), (0, 0));
    let lots = made.lots.len();
    let mut left = random.between(8_190, 8_194) as usize;
    while left > 0 {
        let count = left.min(lots);
        made.buyers.push(Buyer {
            weight: 1,
            marks: random.some_lots(lots, count),
        });
        left -= count;
    }
    made
}

/// An input whose catalogue has 59,997 to 60,003 bytes.
fn output_near_60_000_bytes(random: &mut Random) -> Vec<u8> {
    let mut made = Catalogue {
        estimated: false,
        sessions: 16,
        slack: 1_000,
        lots: (0..1_024)
            .map(|place| Lot::free(65_535, place % 16 + 1))
            .collect(),
        // Only lots of four digits are marked: eight of 1,000 to 1,024.
        buyers: (0..1_024)
            .map(|_| Buyer {
                weight: 1_000,
                marks: random
                    .some_lots(25, 8)
                    .iter()
                    .map(|lot| lot + 999)
                    .collect(),
            })
            .collect(),
    };
    let length = |made: &Catalogue| {
        let sale = Sale {
            catalogue: made.clone(),
            calls: Vec::new(),
        };
        write_sale(&sale).len()
    };
    let target = random.between(59_997, 60_003) as usize;
    let excess = length(&made) - target;
    // A mark of four digits less is five bytes less; bales of four digits are one byte less.
    for buyer in &mut made.buyers[..excess / 5] {
        buyer.marks.pop();
    }
    for lot in &mut made.lots[..excess % 5] {
        lot.count(9_999);
    }
    lines_of(random, &made, 11).concat()
}

/// An input of 59,998 to 60,002 bytes, filled up with a comment.
fn input_near_60_000_bytes(random: &mut Random) -> Vec<u8> {
    let made = random_sizes(random, (5, 20), (0, 20));
    let mut lines = lines_of(random, &made, 11);
    let length: usize = lines.iter().map(Vec::len).sum();
    let target = random.between(59_998, 60_002) as usize;
    let mut comment = vec![b'%'; target - length - 1];
    comment.push(b'\n');
    lines.insert(1, comment);
    lines.concat()
}

/// The lines of an input, with one or more spaces between numbers.
fn lines_of(random: &mut Random, made: &Catalogue, code: u64) -> Vec<Vec<u8>> {
    let wide = random.in_hundred(20);
    let mut spaced = |numbers: &[u64]| {
        let mut line = String::new();
        for (place, number) in numbers.iter().enumerate() {
            if place > 0 {
                let spaces = if wide { random.between(1, 4) } else { 1 };
                line.push_str(&" ".repeat(spaces as usize));
            }
            line.push_str(&number.to_string());
        }
        line.push('\n');
        line.into_bytes()
    };

    let mut lines = vec![format!("HGR,{},{}\n", made.sessions, made.slack).into_bytes()];
    let (edges, vertices) = (made.buyers.len() as u64, made.lots.len() as u64);
    lines.push(match code {
        0 => spaced(&[edges, vertices]),
        _ => spaced(&[edges, vertices, code]),
    });
    for buyer in &made.buyers {
        let mut numbers: Vec<u64> = buyer.marks.iter().map(|&mark| mark as u64).collect();
        if code == 1 || code == 11 {
            numbers.insert(0, buyer.weight);
        }
        lines.push(spaced(&numbers));
    }
    if code == 10 || code == 11 {
        lines.extend(
            made.lots
                .iter()
                .map(|lot| format!("{}\n", lot.bales).into_bytes()),
        );
    }
    lines.push(b"PART\n".to_vec());
    lines.extend(
        made.lots
            .iter()
            .map(|lot| format!("{}\n", lot.session - 1).into_bytes()),
    );
    lines
}

/// Puts comment lines into the hMETIS file, in some inputs at nearly every place.
fn with_comments(random: &mut Random, lines: Vec<Vec<u8>>) -> Vec<u8> {
    let chances = *random.pick(&[0, 0, 5, 80]);
    let mut text = Vec::new();
    let mut within = false;
    for line in lines {
        while within && random.in_hundred(chances) {
            text.extend(comment(random));
        }
        within = (within || line.starts_with(b"HGR")) && line != b"PART\n";
        text.extend(line);
    }
    text
}

/// A comment line: what stands behind the sign is free.
fn comment(random: &mut Random) -> Vec<u8> {
    let whole: [&[u8]; 6] = [
        b"",
        b"PART",
        b"1 2 3",
        b" 2 4 11 ",
        b"HGR,2,0",
        b"%\r\t\0\xff",
    ];
    let text = random.pick(&whole);
    [b"%", *text, b"\n"].concat()
}

fn damage(random: &mut Random, mut input: Vec<u8>) -> Vec<u8> {
    if input.is_empty() {
        return input;
    }
    let place = random.between(0, input.len() as u64 - 1) as usize;
    match random.between(0, 29) {
        0 => input[place] = random.bits() as u8,
        1..=2 => input[place] = *random.pick(b"0123456789   ,%\n\n\r\tPARTHG"),
        3 => {
            input.remove(place);
        }
        4 => input.insert(place, *random.pick(b"0123456789   ,%\n\n\r\tPART")),
        5 => input.truncate(place),
        6 => {
            input.pop();
        }
        7 => input.push(b'\n'),
        8 => {
            let length = random.between(0, 100);
            input = (0..length).map(|_| random.bits() as u8).collect();
        }
        9 => {
            let twice = input.clone();
            input.extend(twice);
        }
        10..=17 => return change_line(random, &input),
        _ => return change_number(random, &input),
    }
    input
}

/// Removes, doubles or swaps lines, or puts a line in.
fn change_line(random: &mut Random, input: &[u8]) -> Vec<u8> {
    let mut lines: Vec<Vec<u8>> = input
        .split_inclusive(|&byte| byte == b'\n')
        .map(<[u8]>::to_vec)
        .collect();
    let last = lines.len() as u64 - 1;
    let place = random.between(0, last) as usize;
    match random.between(0, 5) {
        0 => {
            lines.remove(place);
        }
        1 => {
            let line = lines[place].clone();
            lines.insert(place, line);
        }
        2 => {
            let other = random.between(0, last) as usize;
            lines.swap(place, other);
        }
        3 => lines.insert(place, comment(random)),
        4 => lines.push(format!("{}\n", random.between(0, 16)).into_bytes()),
        _ => {
            let whole: [&[u8]; 5] = [b"\n", b"PART\n", b"1\n", b"1 2\n", b"HGR,2,0\n"];
            let line = random.pick(&whole).to_vec();
            lines.insert(place, line);
        }
    }
    lines.concat()
}

/// Replaces one number of a line by another text, mostly by a well-formed number.
fn change_number(random: &mut Random, input: &[u8]) -> Vec<u8> {
    let mut lines: Vec<Vec<u8>> = input
        .split_inclusive(|&byte| byte == b'\n')
        .map(<[u8]>::to_vec)
        .collect();
    // The first two lines and the last ones come up more often than in a uniform draw.
    let last = lines.len() as u64 - 1;
    let place = match random.between(0, 3) {
        0 => random.between(0, last.min(1)),
        1 => random.between(last.saturating_sub(3), last),
        _ => random.between(0, last),
    } as usize;
    let line = lines[place].strip_suffix(b"\n").unwrap_or(&lines[place]);
    let sign = if line.contains(&b',') { b',' } else { b' ' };
    let mut fields: Vec<Vec<u8>> = line
        .split(|&byte| byte == sign)
        .map(<[u8]>::to_vec)
        .collect();
    let texts: [&[u8]; 22] = [
        b"0",
        b"0",
        b"1",
        b"1",
        b"2",
        b"3",
        b"10",
        b"11",
        b"15",
        b"16",
        b"17",
        b"100",
        b"1001",
        b"1025",
        b"65536",
        b"999999999",
        b"1000000000",
        b"01",
        b"-1",
        b"",
        b" ",
        b"%",
    ];
    let field = random.between(0, fields.len() as u64 - 1) as usize;
    match random.between(0, 5) {
        0 => fields.insert(field, random.pick(&texts).to_vec()),
        1 => {
            fields.remove(field);
        }
        2 => {
            let other = random.pick(&fields).clone();
            fields[field] = other;
        }
        _ => fields[field] = random.pick(&texts).to_vec(),
    }
    let ended = lines[place].ends_with(b"\n");
    lines[place] = fields.join(&sign);
    if ended {
        lines[place].push(b'\n');
    }
    lines.concat()
}
