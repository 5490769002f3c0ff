//! A sale file read in one pass into flat tables, or its first refusal of 1 to 7 or 21.

use super::bits::{insert, Bits, WORDS};

/// The number and the line of a file turned down.
#[derive(Clone, Copy)]
pub struct Refusal {
    pub number: u32,
    pub line: usize,
}

/// A call line; numbers as written, so they may name nothing.
#[derive(Clone, Copy)]
pub enum Call {
    Contract {
        u: u32,
        v: u32,
    },
    Uncontract,
    Move {
        u: u32,
        t: u32,
    },
    Reverse,
    Walk {
        u: u32,
        v: u32,
    },
    Polish,
    Cycle,
    Withdraw {
        x: u32,
    },
    /// The vertex's weight, its block and its nets are so many of the catalogue's `operands`.
    Add {
        first: usize,
        count: usize,
    },
}

/// The catalogue and the calls of the file read last.
pub struct Catalogue {
    /// The most vertices that the entry takes.
    pub limit: usize,
    pub vertices: usize,
    pub nets: usize,
    pub blocks: usize,
    /// ⌈W/k⌉ by the lows, which the weight of a contracted pair must not pass.
    pub average: u32,
    pub capacity: u32,
    /// The highs of an estimate.
    pub weights: Box<[u32; 1024]>,
    pub draft: Box<[u8; 1024]>,
    /// The vertices that stay in their block.
    pub fixed: Bits,
    pub net_weights: Box<[i32; 1024]>,
    /// Where a net's pins begin; the entry after the last net is their end.
    pub firsts: Box<[u16; 1025]>,
    pub pins: Box<[u16; 8192]>,
    pub calls: Vec<Call>,
    pub operands: Vec<u32>,
    /// The numbers of the line in hand.
    fields: Vec<u32>,
    /// The last net, from 1, that each vertex was a pin of: tells a pin named twice.
    marked: Box<[u16; 1024]>,
}

impl Default for Catalogue {
    fn default() -> Self {
        Catalogue {
            limit: 0,
            vertices: 0,
            nets: 0,
            blocks: 0,
            average: 0,
            capacity: 0,
            weights: Box::new([0; 1024]),
            draft: Box::new([0; 1024]),
            fixed: [0; WORDS],
            net_weights: Box::new([0; 1024]),
            firsts: Box::new([0; 1025]),
            pins: Box::new([0; 8192]),
            calls: Vec::with_capacity(512),
            operands: Vec::with_capacity(30_000),
            fields: Vec::with_capacity(30_000),
            marked: Box::new([0; 1024]),
        }
    }
}

/// The bytes not yet read, and the number of the last line read.
struct Lines<'a> {
    rest: &'a [u8],
    line: usize,
}

impl Lines<'_> {
    /// Reads the numbers of a line `name,number,...` whose count `fits`; 2 for any other form.
    #[inline(always)]
    fn next(
        &mut self,
        name: &[u8],
        fields: &mut Vec<u32>,
        fits: impl Fn(usize) -> bool,
    ) -> Result<(), Refusal> {
        self.line += 1;
        fields.clear();
        match numbers::<false>(self.rest, name, fields) {
            Some((end, _)) if fits(fields.len()) => {
                self.rest = &self.rest[end..];
                Ok(())
            }
            _ => Err(self.refused(2)),
        }
    }

    /// Reads a vertex's line of so many numbers, which may end in `,K`: whether it does.
    #[inline(always)]
    fn next_vertex(&mut self, fields: &mut Vec<u32>, wanted: usize) -> Result<bool, Refusal> {
        self.line += 1;
        fields.clear();
        match numbers::<true>(self.rest, b"LOT", fields) {
            Some((end, fixed)) if fields.len() == wanted => {
                self.rest = &self.rest[end..];
                Ok(fixed)
            }
            _ => Err(self.refused(2)),
        }
    }

    fn refused(&self, number: u32) -> Refusal {
        Refusal {
            number,
            line: self.line,
        }
    }

    fn in_range(&self, value: u32, lowest: u32, highest: u32) -> Result<u32, Refusal> {
        if lowest <= value && value <= highest {
            Ok(value)
        } else {
            Err(self.refused(3))
        }
    }
}

/// The place after the line feed of a well-formed line, and whether the line ends in `,K`, which
/// only FIXED lines may.
#[inline(always)]
fn numbers<const FIXED: bool>(
    rest: &[u8],
    name: &[u8],
    fields: &mut Vec<u32>,
) -> Option<(usize, bool)> {
    if !rest.starts_with(name) {
        return None;
    }
    let mut at = name.len();
    loop {
        match rest.get(at)? {
            b'\n' => return Some((at + 1, false)),
            b',' => {
                let start = at + 1;
                at = start;
                let mut value: u32 = 0;
                loop {
                    let digit = rest.get(at)?.wrapping_sub(b'0');
                    if digit > 9 {
                        break;
                    }
                    // More than nine digits are turned down below, whatever the value.
                    value = value.wrapping_mul(10).wrapping_add(u32::from(digit));
                    at += 1;
                }
                let digits = at - start;
                if FIXED && digits == 0 && rest[start..].starts_with(b"K\n") {
                    return Some((start + 2, true));
                }
                if digits == 0 || digits > 9 || (digits > 1 && rest[start] == b'0') {
                    return None;
                }
                fields.push(value);
            }
            _ => return None,
        }
    }
}

impl Catalogue {
    /// Reads a whole file of at most so many vertices and blocks.
    pub fn read(&mut self, file: &[u8], vertices: u32, blocks: u32) -> Result<(), Refusal> {
        if file.len() > 60_000 {
            return Err(Refusal { number: 1, line: 0 });
        }
        let mut lines = Lines {
            rest: file,
            line: 0,
        };
        self.limit = vertices as usize;
        let estimated = file.starts_with(b"EST");
        let slack = self.read_head(&mut lines, estimated, vertices, blocks)?;
        let all = if estimated {
            self.read_vertices::<true>(&mut lines)?
        } else {
            self.read_vertices::<false>(&mut lines)?
        };
        self.set_capacity(all, slack);
        self.read_nets(&mut lines)?;
        let mut loads = [0; 16];
        for x in 0..self.vertices {
            loads[self.draft[x] as usize] += self.weights[x];
        }
        if loads.iter().any(|&load| load > self.capacity) {
            return Err(lines.refused(6));
        }
        self.read_calls(&mut lines)
    }

    fn read_head(
        &mut self,
        lines: &mut Lines,
        estimated: bool,
        vertices: u32,
        blocks: u32,
    ) -> Result<u32, Refusal> {
        let name: &[u8] = if estimated { b"EST" } else { b"SALE" };
        lines.next(name, &mut self.fields, |count| count == 4)?;
        self.vertices = lines.in_range(self.fields[0], 1, vertices)? as usize;
        self.nets = lines.in_range(self.fields[1], 0, 1024)? as usize;
        self.blocks = lines.in_range(self.fields[2], 2, blocks)? as usize;
        lines.in_range(self.fields[3], 0, 1000)
    }

    /// Reads the vertices, of two numbers for their weight if ESTIMATED: the sum of the lows.
    fn read_vertices<const ESTIMATED: bool>(&mut self, lines: &mut Lines) -> Result<u32, Refusal> {
        let mut all = 0;
        self.fixed = [0; WORDS];
        let last = if ESTIMATED { 2 } else { 1 };
        for x in 0..self.vertices {
            if lines.next_vertex(&mut self.fields, last + 1)? {
                insert(&mut self.fixed, x);
            }
            let low = lines.in_range(self.fields[0], 1, 65_535)?;
            self.weights[x] = lines.in_range(self.fields[last - 1], 1, 65_535)?;
            if low > self.weights[x] {
                return Err(lines.refused(21));
            }
            self.draft[x] = lines.in_range(self.fields[last], 1, self.blocks as u32)? as u8 - 1;
            all += low;
        }
        Ok(all)
    }

    fn set_capacity(&mut self, all: u32, slack: u32) {
        self.average = all.div_ceil(self.blocks as u32);
        // The product passes 32 bits.
        let thousandths = u64::from(1_000 + slack) * u64::from(self.average);
        let (whole, rest) = (thousandths / 1_000, thousandths % 1_000);
        let up = rest > 500 || rest == 500 && whole % 2 == 1;
        self.capacity = whole as u32 + u32::from(up);
    }

    fn read_nets(&mut self, lines: &mut Lines) -> Result<(), Refusal> {
        self.marked.fill(0);
        let mut filled = 0;
        for e in 0..self.nets {
            self.firsts[e] = filled as u16;
            lines.next(b"BUY", &mut self.fields, |count| count >= 2)?;
            self.net_weights[e] = lines.in_range(self.fields[0], 1, 1_000)? as i32;
            for &field in &self.fields[1..] {
                let x = lines.in_range(field, 1, self.vertices as u32)? as usize - 1;
                if self.marked[x] == e as u16 + 1 {
                    return Err(lines.refused(4));
                }
                if filled == 8192 {
                    return Err(lines.refused(5));
                }
                self.marked[x] = e as u16 + 1;
                self.pins[filled] = x as u16;
                filled += 1;
            }
        }
        self.firsts[self.nets] = filled as u16;
        Ok(())
    }

    fn read_calls(&mut self, lines: &mut Lines) -> Result<(), Refusal> {
        self.calls.clear();
        self.operands.clear();
        while let Some(&letter) = lines.rest.first() {
            if self.calls.len() == 512 {
                lines.line += 1;
                return Err(lines.refused(7));
            }
            let (least, most) = match letter {
                b'J' | b'M' | b'W' => (2, 2),
                b'X' => (1, 1),
                b'N' => (2, usize::MAX),
                _ => (0, 0),
            };
            lines.next(&[letter], &mut self.fields, |count| {
                least <= count && count <= most
            })?;
            let pair = || (self.fields[0], self.fields[1]);
            self.calls.push(match letter {
                b'J' => {
                    let (u, v) = pair();
                    Call::Contract { u, v }
                }
                b'S' => Call::Uncontract,
                b'M' => {
                    let (u, t) = pair();
                    Call::Move { u, t }
                }
                b'B' => Call::Reverse,
                b'W' => {
                    let (u, v) = pair();
                    Call::Walk { u, v }
                }
                b'P' => Call::Polish,
                b'A' => Call::Cycle,
                b'X' => Call::Withdraw { x: self.fields[0] },
                b'N' => {
                    let first = self.operands.len();
                    self.operands.extend_from_slice(&self.fields);
                    let count = self.fields.len();
                    Call::Add { first, count }
                }
                _ => return Err(lines.refused(2)),
            });
        }
        Ok(())
    }
}
