//! The proved sheets against the reference's: return, text and the output past it, which holds random
//! bytes beforehand. Rests on the bindings and on the reference.

use kapokdrill::lent::{self, Outcome, SHEETS_OUTPUT};
use reference::generator::Random;

/// What a file should give. The product has no entry for halls yet: it takes each file as a sale's, and
/// turns down one that begins with `HALL` as the main entry does.
pub fn wanted(file: &[u8]) -> reference::Outcome {
    if file.starts_with(b"HALL") {
        reference::run(file)
    } else {
        reference::sheets(file)
    }
}

/// Prints the sheets of a file on an output of random bytes and compares all with the reference: the
/// return, or what differs.
pub fn compare_sheets(file: &[u8], random: &mut Random) -> Result<u32, String> {
    let length = SHEETS_OUTPUT + random.between(0, 3) as usize;
    let eights = (0..length / 8 + 1).flat_map(|_| random.bits().to_le_bytes());
    let mut output: Vec<u8> = eights.take(length).collect();
    let mut found = output.clone();
    let outcome = lent::sheets(file, &mut found);
    let wanted = wanted(file);
    let (code, written) = (wanted.code, wanted.report.len());
    if outcome != (Outcome { code, written }) {
        return Err(format!("{outcome:?}, not {code} and {written}"));
    }
    output[..written].copy_from_slice(&wanted.report);
    if found[..written] != output[..written] {
        return Err("the text".into());
    }
    if found[written..] != output[written..] {
        return Err("the output past the text".into());
    }
    Ok(code)
}
