//! Lists of calls as the list's entry takes them: three numbers for each call, and the operands that
//! N's two numbers point into. Made from calls, from a seed, and read back as the entry reads them.

use reference::generator::{calls, late_calls, Random};
use reference::{parse, Call};

/// The most calls of a list.
const MOST: usize = 512;

/// The numbers of the calls and the operands.
#[derive(Clone, Debug, Default, PartialEq, Eq)]
pub struct List {
    pub calls: Vec<u32>,
    pub operands: Vec<u32>,
}

impl List {
    /// A list of these calls. Numbers that a call does not have are 0, and each N's operands stand
    /// behind those of the one before.
    pub fn of(calls: &[Call]) -> Self {
        List::with(calls, || 0, |_| ())
    }

    /// The same with other numbers where a call has none; `gap` may put operands before an N's own.
    pub fn with(
        calls: &[Call],
        mut spare: impl FnMut() -> u64,
        mut gap: impl FnMut(&mut Vec<u32>),
    ) -> Self {
        let mut list = List::default();
        for call in calls {
            let (letter, x, y) = match call {
                Call::J { u, v } => (b'J', *u, *v),
                Call::S => (b'S', spare(), spare()),
                Call::M { u, t } => (b'M', *u, *t),
                Call::B => (b'B', spare(), spare()),
                Call::W { u, v } => (b'W', *u, *v),
                Call::P => (b'P', spare(), spare()),
                Call::A => (b'A', spare(), spare()),
                Call::X { lot } => (b'X', *lot, spare()),
                Call::N {
                    bales,
                    session,
                    buyers,
                } => {
                    gap(&mut list.operands);
                    let first = list.operands.len();
                    let numbers = [*bales, *session].into_iter().chain(buyers.iter().copied());
                    list.operands.extend(numbers.map(|number| number as u32));
                    (
                        b'N',
                        first as u64,
                        list.operands.len() as u64 - first as u64,
                    )
                }
            };
            list.calls.extend([letter.into(), x as u32, y as u32]);
        }
        list
    }

    /// The first so many calls, with all operands.
    pub fn first(&self, count: usize) -> Self {
        List {
            calls: self.calls[..3 * count].to_vec(),
            operands: self.operands.clone(),
        }
    }

    /// The calls that the list has; the refusal's number where it is none.
    pub fn read(&self) -> Result<Vec<Call>, u32> {
        if self.calls.len() > 3 * MOST {
            return Err(7);
        }
        self.calls
            .chunks(3)
            .map(|numbers| self.call(numbers))
            .collect()
    }

    fn call(&self, numbers: &[u32]) -> Result<Call, u32> {
        let &[letter, x, y] = numbers else {
            return Err(2);
        };
        let (first, second) = (x.into(), y.into());
        match u8::try_from(letter) {
            Ok(b'J') => Ok(Call::J {
                u: first,
                v: second,
            }),
            Ok(b'S') => Ok(Call::S),
            Ok(b'M') => Ok(Call::M {
                u: first,
                t: second,
            }),
            Ok(b'B') => Ok(Call::B),
            Ok(b'W') => Ok(Call::W {
                u: first,
                v: second,
            }),
            Ok(b'P') => Ok(Call::P),
            Ok(b'A') => Ok(Call::A),
            Ok(b'X') => Ok(Call::X { lot: first }),
            Ok(b'N') => {
                let (first, count) = (x as usize, y as usize);
                match self.operands.get(first..first + count) {
                    Some([bales, session, buyers @ ..]) => Ok(Call::N {
                        bales: (*bales).into(),
                        session: (*session).into(),
                        buyers: buyers.iter().map(|&buyer| buyer.into()).collect(),
                    }),
                    _ => Err(2),
                }
            }
            _ => Err(2),
        }
    }
}

/// A list of calls for the catalogue of a file, now and then one that is refused.
pub fn random_list(seed: u64, file: &[u8]) -> List {
    let mut random = Random::new(seed);
    let count = if random.in_hundred(2) {
        MOST
    } else {
        random.between(0, 24) as usize
    };
    let late = random.in_hundred(50);
    let calls = match parse(file) {
        Ok(sale) if late => late_calls(seed, &sale.catalogue, count),
        Ok(sale) => calls(seed, &sale.catalogue, count),
        Err(_) => vec![Call::A; count],
    };
    let mut gaps = Random::new(random.bits());
    let mut list = List::with(
        &calls,
        || random.bits(),
        |operands| {
            let more = gaps.between(0, 9).saturating_sub(6) as usize;
            operands.extend((0..more).map(|_| gaps.bits() as u32));
        },
    );
    let all = list.operands.len() as u64;
    match random.between(0, 24) {
        0 => list.calls.push(b'A'.into()),
        1 => list.calls.extend([random.bits() as u32, 1, 2]),
        2 => list.calls.resize(3 * (MOST + 1), b'A'.into()),
        3 => {
            // An N anywhere in the operands, or beyond them.
            let first = random.between(0, all + 1) as u32;
            let count = *random.pick(&[0, 1, 2, 3, all as u32, u32::MAX, 1 << 31]);
            let first = *random.pick(&[first, first, u32::MAX, 0]);
            list.calls.extend([b'N'.into(), first, count]);
        }
        4 => {
            list.operands.pop();
        }
        5 => {
            // Numbers of 32 bits name nothing, whatever a file may write.
            for operand in &mut list.operands {
                if random.in_hundred(5) {
                    *operand = random.bits() as u32;
                }
            }
        }
        6 => list.operands.extend([1, 1, 1, 1]),
        _ => {}
    }
    list
}
