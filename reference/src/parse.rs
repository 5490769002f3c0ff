//! Reading a file: a sale's accepted as a `Sale`, a hall's as a `Hall`, or refused with a number of
//! 1 to 7, 21 or 24 and a line. Rests on `catalogue` for the limits and on `measure` for the cap of
//! the draft and the bales of all drafts.

use crate::catalogue::{
    Buyer, Call, Catalogue, Hall, LedCall, Limits, Lot, Sale, MAX_BALES, MAX_BUYERS, MAX_BYTES,
    MAX_CALLS, MAX_CATALOGUES, MAX_HALL_LIMIT, MAX_MARKS, MAX_SLACK, MAX_WEIGHT, MIN_CATALOGUES,
};
use crate::measure;

/// Over 60,000 bytes.
pub const TOO_LONG: u32 = 1;
/// A line's form, a line missing, no last line feed.
pub const BADLY_WRITTEN: u32 = 2;
/// A catalogue field outside its range.
pub const OUT_OF_RANGE: u32 = 3;
/// A lot twice with one buyer.
pub const MARKED_TWICE: u32 = 4;
/// The 8,193rd mark.
pub const TOO_MANY_MARKS: u32 = 5;
/// A session above its cap in the draft.
pub const OVERFULL_DRAFT: u32 = 6;
/// The 513th call line.
pub const TOO_MANY_CALLS: u32 = 7;
/// A lot's low above its high.
pub const LOW_ABOVE_HIGH: u32 = 21;
/// A session of all drafts of a hall together above the hall limit.
pub const DRAFTS_ABOVE_THE_LIMIT: u32 = 24;

/// Why a whole file is turned down, and on which line (0 for a file too long).
#[derive(Clone, Copy, Debug, PartialEq, Eq)]
pub struct Refusal {
    pub number: u32,
    pub line: usize,
}

/// One line of the file, without its line feed.
struct Line<'a> {
    number: usize,
    text: &'a [u8],
    ended: bool,
}

/// The lines not yet read. A line feed ends a line, so none follows the last one.
struct Lines<'a> {
    rest: &'a [u8],
    read: usize,
}

impl<'a> Lines<'a> {
    fn next(&mut self) -> Option<Line<'a>> {
        if self.rest.is_empty() {
            return None;
        }
        self.read += 1;
        let (text, ended, rest): (&[u8], bool, &[u8]) =
            match self.rest.iter().position(|&byte| byte == b'\n') {
                Some(place) => (&self.rest[..place], true, &self.rest[place + 1..]),
                None => (self.rest, false, &[]),
            };
        self.rest = rest;
        Some(Line {
            number: self.read,
            text,
            ended,
        })
    }

    /// The numbers on the next catalogue line, which must open with `name` and have a number
    /// of numbers that `fits`. Refused with 2 if it is missing or its form is wrong.
    fn catalogue_line(
        &mut self,
        name: &[u8],
        fits: impl Fn(usize) -> bool,
    ) -> Result<(usize, Vec<u64>), Refusal> {
        let line = self.due_line()?;
        let numbers = fitting_numbers(&line, name, fits)?;
        Ok((line.number, numbers))
    }

    /// The numbers on line 1, and whether it opens with `EST` and not with `SALE`. Refused with 2
    /// as other catalogue lines are.
    fn head_line(&mut self) -> Result<(usize, Vec<u64>, bool), Refusal> {
        let line = self.due_line()?;
        let estimated = line.text.starts_with(b"EST,");
        let name: &[u8] = if estimated { b"EST" } else { b"SALE" };
        let numbers = fitting_numbers(&line, name, |count| count == 4)?;
        Ok((line.number, numbers, estimated))
    }

    /// The numbers on the next line, which must be a lot's, and whether the lot is kept: the line
    /// may then end in `,K`. With estimates a lot has a low and a high before its session. Refused
    /// with 2 as other catalogue lines are.
    fn lot_line(&mut self, estimated: bool) -> Result<(usize, Vec<u64>, bool), Refusal> {
        let (line, kept) = without_kept_mark(&self.due_line()?);
        let wanted = if estimated { 3 } else { 2 };
        let numbers = fitting_numbers(&line, b"LOT", |count| count == wanted)?;
        Ok((line.number, numbers, kept))
    }

    /// The next line, which must be there.
    fn due_line(&mut self) -> Result<Line<'a>, Refusal> {
        let missing = self.read + 1;
        self.next().ok_or(badly_written(missing))
    }
}

fn badly_written(line: usize) -> Refusal {
    Refusal {
        number: BADLY_WRITTEN,
        line,
    }
}

/// A number is 1 to 9 digits without a leading zero; 0 alone is allowed.
pub(crate) fn number(field: &[u8]) -> Option<u64> {
    let digits = (1..=9).contains(&field.len()) && field.iter().all(u8::is_ascii_digit);
    let leading_zero = field.len() > 1 && field[0] == b'0';
    if !digits || leading_zero {
        return None;
    }
    Some(
        field
            .iter()
            .fold(0, |value, digit| value * 10 + u64::from(digit - b'0')),
    )
}

/// The numbers of a line `name,number,...` if their number `fits`; refused with 2 otherwise.
fn fitting_numbers(
    line: &Line,
    name: &[u8],
    fits: impl Fn(usize) -> bool,
) -> Result<Vec<u64>, Refusal> {
    numbers_after(line, name)
        .filter(|numbers| fits(numbers.len()))
        .ok_or(badly_written(line.number))
}

/// The numbers of a line `name,number,...`, or nothing if the line has another form or lacks
/// its line feed.
fn numbers_after(line: &Line, name: &[u8]) -> Option<Vec<u64>> {
    if !line.ended {
        return None;
    }
    numbers_after_name(line.text, name)
}

/// The numbers of a text `name,number,...`, or nothing if it has another form.
pub(crate) fn numbers_after_name(text: &[u8], name: &[u8]) -> Option<Vec<u64>> {
    let mut fields = text.split(|&byte| byte == b',');
    if fields.next() != Some(name) {
        return None;
    }
    fields.map(number).collect()
}

/// A line without the `,K` that it may end in, and whether it does.
fn without_kept_mark<'a>(line: &Line<'a>) -> (Line<'a>, bool) {
    let marked = line.text.strip_suffix(b",K");
    let unmarked = Line {
        text: marked.unwrap_or(line.text),
        ..*line
    };
    (unmarked, marked.is_some())
}

/// The call of a call line, or nothing if the form is wrong.
fn call(line: &Line) -> Option<Call> {
    let numbers = |name: &[u8]| numbers_after(line, name);
    let pair = |name: &[u8]| match numbers(name)?[..] {
        [first, second] => Some((first, second)),
        _ => None,
    };
    let alone = |name: &[u8]| numbers(name).filter(|found| found.is_empty());
    match line.text.first()? {
        b'J' => pair(b"J").map(|(u, v)| Call::J { u, v }),
        b'S' => alone(b"S").map(|_| Call::S),
        b'M' => pair(b"M").map(|(u, t)| Call::M { u, t }),
        b'B' => alone(b"B").map(|_| Call::B),
        b'W' => pair(b"W").map(|(u, v)| Call::W { u, v }),
        b'P' => alone(b"P").map(|_| Call::P),
        b'A' => alone(b"A").map(|_| Call::A),
        b'X' => match numbers(b"X")?[..] {
            [lot] => Some(Call::X { lot }),
            _ => None,
        },
        b'N' => match numbers(b"N")?[..] {
            [bales, session, ref buyers @ ..] => Some(Call::N {
                bales,
                session,
                buyers: buyers.to_vec(),
            }),
            _ => None,
        },
        _ => None,
    }
}

/// The call of a hall's call line and the catalogue that it names: 2 if the form is wrong, the lead
/// included, then 3 if there is no such catalogue.
fn led_call(line: &Line, catalogues: usize) -> Result<LedCall, Refusal> {
    let wrong = badly_written(line.number);
    let comma = line.text.iter().position(|&byte| byte == b',');
    let (lead, rest) = line.text.split_at(comma.ok_or(wrong)?);
    let lead = number(lead).ok_or(wrong)?;
    let unled = Line {
        text: &rest[1..],
        ..*line
    };
    let call = call(&unled).ok_or(wrong)?;
    let catalogue = in_range(line.number, lead, 1, catalogues as u64)? as usize;
    Ok(LedCall { catalogue, call })
}

/// A field of the line of this number within its range, or 3.
fn in_range(line: usize, value: u64, lowest: u64, highest: u64) -> Result<u64, Refusal> {
    if (lowest..=highest).contains(&value) {
        Ok(value)
    } else {
        Err(Refusal {
            number: OUT_OF_RANGE,
            line,
        })
    }
}

/// The most that a catalogue may have of each: in a hall what the earlier ones have left.
struct Room {
    lots: u64,
    buyers: u64,
    sessions: u64,
    marks: usize,
}

impl Room {
    fn of(limits: &Limits) -> Self {
        Room {
            lots: limits.lots,
            buyers: MAX_BUYERS,
            sessions: limits.sessions,
            marks: MAX_MARKS,
        }
    }

    /// What is left beside the catalogue.
    fn beside(&self, catalogue: &Catalogue) -> Self {
        Room {
            lots: self.lots - catalogue.lots.len() as u64,
            buyers: self.buyers - catalogue.buyers.len() as u64,
            sessions: self.sessions,
            marks: self.marks - catalogue.mark_count(),
        }
    }
}

/// Reads a file within the limits of document 01.
pub fn parse(file: &[u8]) -> Result<Sale, Refusal> {
    parse_within(file, &Limits::default())
}

/// Reads a file within the given limits.
pub fn parse_within(file: &[u8], limits: &Limits) -> Result<Sale, Refusal> {
    let mut lines = lines_of(file)?;
    let catalogue = read_catalogue_and_draft(&mut lines, &Room::of(limits))?;
    let calls = read_calls(&mut lines, |line| {
        call(line).ok_or(badly_written(line.number))
    })?;
    Ok(Sale { catalogue, calls })
}

/// Reads a hall's file.
pub fn parse_hall(file: &[u8]) -> Result<Hall, Refusal> {
    let mut lines = lines_of(file)?;
    let (line, fields) = lines.catalogue_line(b"HALL", |count| count == 2)?;
    let count = in_range(line, fields[0], MIN_CATALOGUES, MAX_CATALOGUES)? as usize;
    let limit = in_range(line, fields[1], 1, MAX_HALL_LIMIT)?;

    let mut room = Room::of(&Limits::default());
    let mut catalogues = Vec::new();
    for _ in 0..count {
        let catalogue = read_catalogue_and_draft(&mut lines, &room)?;
        room = room.beside(&catalogue);
        catalogues.push(catalogue);
    }
    if measure::drafts_above(&catalogues, limit) {
        return Err(Refusal {
            number: DRAFTS_ABOVE_THE_LIMIT,
            line: lines.read,
        });
    }
    let calls = read_calls(&mut lines, |line| led_call(line, count))?;
    Ok(Hall {
        limit,
        catalogues,
        calls,
    })
}

/// The lines of a file that is not too long.
fn lines_of(file: &[u8]) -> Result<Lines<'_>, Refusal> {
    if file.len() > MAX_BYTES {
        return Err(Refusal {
            number: TOO_LONG,
            line: 0,
        });
    }
    Ok(Lines {
        rest: file,
        read: 0,
    })
}

/// The catalogue of the next lines, whose draft must be within the cap: 6 is placed on its last line.
fn read_catalogue_and_draft(lines: &mut Lines, room: &Room) -> Result<Catalogue, Refusal> {
    let catalogue = read_catalogue(lines, room)?;
    if measure::overfull_draft(&catalogue) {
        return Err(Refusal {
            number: OVERFULL_DRAFT,
            line: lines.read,
        });
    }
    Ok(catalogue)
}

fn read_catalogue(lines: &mut Lines, room: &Room) -> Result<Catalogue, Refusal> {
    let (line, fields, estimated) = lines.head_line()?;
    let lot_count = in_range(line, fields[0], 1, room.lots)?;
    let buyer_count = in_range(line, fields[1], 0, room.buyers)?;
    let session_count = in_range(line, fields[2], 2, room.sessions)?;
    let slack = in_range(line, fields[3], 0, MAX_SLACK)?;

    let mut lots = Vec::new();
    for _ in 0..lot_count {
        let (line, fields, kept) = lines.lot_line(estimated)?;
        let (given, draft) = fields.split_at(fields.len() - 1);
        // Bales that are counted are given once, as low and high alike.
        let (low, high) = (given[0], given[given.len() - 1]);
        in_range(line, low, 1, MAX_BALES)?;
        in_range(line, high, 1, MAX_BALES)?;
        if low > high {
            return Err(Refusal {
                number: LOW_ABOVE_HIGH,
                line,
            });
        }
        let session = in_range(line, draft[0], 1, session_count)? as usize;
        lots.push(Lot {
            low,
            bales: high,
            session,
            kept,
        });
    }

    let mut buyers = Vec::new();
    let mut marks_so_far = 0;
    for _ in 0..buyer_count {
        let (line, fields) = lines.catalogue_line(b"BUY", |count| count >= 2)?;
        let weight = in_range(line, fields[0], 1, MAX_WEIGHT)?;
        let mut marks = Vec::new();
        for &field in &fields[1..] {
            let mark = in_range(line, field, 1, lot_count)? as usize;
            if marks.contains(&mark) {
                return Err(Refusal {
                    number: MARKED_TWICE,
                    line,
                });
            }
            if marks_so_far == room.marks {
                return Err(Refusal {
                    number: TOO_MANY_MARKS,
                    line,
                });
            }
            marks.push(mark);
            marks_so_far += 1;
        }
        buyers.push(Buyer { weight, marks });
    }

    Ok(Catalogue {
        estimated,
        sessions: session_count as usize,
        slack,
        lots,
        buyers,
    })
}

/// The calls of all lines that are left, each as `read` has it; 7 comes before the form of its line.
fn read_calls<T>(
    lines: &mut Lines,
    read: impl Fn(&Line) -> Result<T, Refusal>,
) -> Result<Vec<T>, Refusal> {
    let mut calls = Vec::new();
    while let Some(line) = lines.next() {
        if calls.len() == MAX_CALLS {
            return Err(Refusal {
                number: TOO_MANY_CALLS,
                line: line.number,
            });
        }
        calls.push(read(&line)?);
    }
    Ok(calls)
}
