//! The converter: a line `HGR,sessions,slack`, an hMETIS file, a line `PART` and its partition
//! listing become a catalogue without calls, or are refused with 17, 18 or 19.
//! Rests on `catalogue` for the ranges, on `parse` for what a number is, on `measure` for the cap.

use crate::catalogue::{
    Buyer, Catalogue, Limits, Lot, MAX_BALES, MAX_BUYERS, MAX_BYTES, MAX_MARKS, MAX_SLACK,
    MAX_WEIGHT,
};
use crate::parse::{number, numbers_after_name};
use crate::{measure, Outcome};

/// A badly written input.
pub const BADLY_WRITTEN: u32 = 17;
/// What a catalogue cannot carry.
pub const NOT_CARRIED: u32 = 18;
/// A listing of the wrong length or with an unknown block.
pub const WRONG_LISTING: u32 = 19;

/// An edge as its line has it: its weight, 1 if none is given, and its vertices in that order.
#[derive(Clone, Debug, PartialEq, Eq)]
pub struct Edge {
    pub weight: u64,
    pub vertices: Vec<u64>,
}

/// What an input says, in the format's own terms and whatever the ranges are. Vertices count
/// from 1, blocks from 0; the listing has a block for each vertex, if it is of the right length.
#[derive(Clone, Debug, PartialEq, Eq)]
pub struct Input {
    pub sessions: u64,
    pub slack: u64,
    pub vertices: u64,
    pub edges: Vec<Edge>,
    /// One weight for each vertex, or nothing if the file has none.
    pub vertex_weights: Option<Vec<u64>>,
    pub listing: Vec<u64>,
}

impl Input {
    /// The weight of a vertex; a missing one is 1.
    pub fn vertex_weight(&self, vertex: u64) -> u64 {
        match &self.vertex_weights {
            Some(weights) => weights[vertex as usize - 1],
            None => 1,
        }
    }

    /// The block of a vertex.
    pub fn block(&self, vertex: u64) -> u64 {
        self.listing[vertex as usize - 1]
    }
}

/// The numbers of an hMETIS line, one or more spaces apart, none before the first or after the
/// last; an empty line has none.
fn spaced_numbers(line: &[u8]) -> Option<Vec<u64>> {
    if line.starts_with(b" ") || line.ends_with(b" ") {
        return None;
    }
    line.split(|&byte| byte == b' ')
        .filter(|field| !field.is_empty())
        .map(number)
        .collect()
}

/// Reads an input, or gives nothing if it is badly written.
pub fn read(input: &[u8]) -> Option<Input> {
    // Every line ends in a line feed, the last one too.
    let lines: Vec<&[u8]> = input
        .strip_suffix(b"\n")?
        .split(|&byte| byte == b'\n')
        .collect();

    let [sessions, slack] = numbers_after_name(lines[0], b"HGR")?[..] else {
        return None;
    };

    // The hMETIS file ends before the first line `PART`; comments within it are passed over.
    let part = lines.iter().position(|&line| line == b"PART")?;
    let mut hmetis = lines[1..part]
        .iter()
        .copied()
        .filter(|line| !line.starts_with(b"%"));

    let (edge_count, vertices, code) = match spaced_numbers(hmetis.next()?)?[..] {
        [edges, vertices] => (edges, vertices, 0),
        [edges, vertices, code @ (1 | 10 | 11)] => (edges, vertices, code),
        _ => return None,
    };
    let edges_weighted = code == 1 || code == 11;
    let vertices_weighted = code == 10 || code == 11;

    let mut edges = Vec::new();
    for _ in 0..edge_count {
        let mut vertices = spaced_numbers(hmetis.next()?)?;
        let weight = if edges_weighted {
            if vertices.is_empty() {
                return None;
            }
            vertices.remove(0)
        } else {
            1
        };
        if vertices.is_empty() {
            return None;
        }
        edges.push(Edge { weight, vertices });
    }

    let mut vertex_weights = None;
    if vertices_weighted {
        let mut weights = Vec::new();
        for _ in 0..vertices {
            weights.push(number(hmetis.next()?)?);
        }
        vertex_weights = Some(weights);
    }

    if hmetis.next().is_some() {
        return None;
    }
    let listing = lines[part + 1..]
        .iter()
        .map(|line| number(line))
        .collect::<Option<Vec<u64>>>()?;

    Some(Input {
        sessions,
        slack,
        vertices,
        edges,
        vertex_weights,
        listing,
    })
}

/// Whether every count, weight and vertex is one that a catalogue can carry.
fn can_be_carried(input: &Input) -> bool {
    let limits = Limits::default();
    let marks: usize = input.edges.iter().map(|edge| edge.vertices.len()).sum();
    let counts = (2..=limits.sessions).contains(&input.sessions)
        && input.slack <= MAX_SLACK
        && (1..=limits.lots).contains(&input.vertices)
        && input.edges.len() as u64 <= MAX_BUYERS
        && marks <= MAX_MARKS;
    counts
        && input
            .edges
            .iter()
            .all(|edge| edge_can_be_carried(input, edge))
        && (1..=input.vertices).all(|vertex| (1..=MAX_BALES).contains(&input.vertex_weight(vertex)))
}

/// Whether an edge's weight is in range and its vertices are known and different.
fn edge_can_be_carried(input: &Input, edge: &Edge) -> bool {
    let known = |vertex: &u64| (1..=input.vertices).contains(vertex);
    let mut different = edge.vertices.clone();
    different.sort_unstable();
    different.dedup();
    (1..=MAX_WEIGHT).contains(&edge.weight)
        && edge.vertices.iter().all(known)
        && different.len() == edge.vertices.len()
}

/// Whether the listing has a block for each vertex, and each block is known.
fn listing_fits(input: &Input) -> bool {
    input.listing.len() as u64 == input.vertices
        && input.listing.iter().all(|&block| block < input.sessions)
}

/// The catalogue of an input that can be carried and whose listing fits: vertices are lots,
/// edges are buyers, and block b is session b + 1.
fn catalogue_of(input: &Input) -> Catalogue {
    Catalogue {
        estimated: false,
        sessions: input.sessions as usize,
        slack: input.slack,
        lots: (1..=input.vertices)
            .map(|vertex| {
                Lot::free(
                    input.vertex_weight(vertex),
                    input.block(vertex) as usize + 1,
                )
            })
            .collect(),
        buyers: input
            .edges
            .iter()
            .map(|edge| Buyer {
                weight: edge.weight,
                marks: edge
                    .vertices
                    .iter()
                    .map(|&vertex| vertex as usize)
                    .collect(),
            })
            .collect(),
    }
}

/// The lines of a catalogue.
fn catalogue_text(catalogue: &Catalogue) -> String {
    let mut text = format!(
        "SALE,{},{},{},{}\n",
        catalogue.lots.len(),
        catalogue.buyers.len(),
        catalogue.sessions,
        catalogue.slack
    );
    for lot in &catalogue.lots {
        text.push_str(&format!("LOT,{},{}\n", lot.bales, lot.session));
    }
    for buyer in &catalogue.buyers {
        text.push_str(&format!("BUY,{}", buyer.weight));
        for mark in &buyer.marks {
            text.push_str(&format!(",{mark}"));
        }
        text.push('\n');
    }
    text
}

/// The text of the catalogue, or the number under which the input is refused.
fn converted(input: &[u8]) -> Result<String, u32> {
    if input.len() > MAX_BYTES {
        return Err(NOT_CARRIED);
    }
    let input = read(input).ok_or(BADLY_WRITTEN)?;
    if !can_be_carried(&input) {
        return Err(NOT_CARRIED);
    }
    if !listing_fits(&input) {
        return Err(WRONG_LISTING);
    }
    let catalogue = catalogue_of(&input);
    let text = catalogue_text(&catalogue);
    if measure::overfull_draft(&catalogue) || text.len() > MAX_BYTES {
        return Err(NOT_CARRIED);
    }
    Ok(text)
}

/// Converts an input: 0 and the catalogue, or the number and the line `NO,number`.
pub fn convert(input: &[u8]) -> Outcome {
    match converted(input) {
        Ok(text) => Outcome {
            code: 0,
            report: text.into_bytes(),
        },
        Err(code) => Outcome {
            code,
            report: format!("NO,{code}\n").into_bytes(),
        },
    }
}
