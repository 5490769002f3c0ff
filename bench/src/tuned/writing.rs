//! The bytes of a report.

use super::reading::Refusal;

pub struct Report {
    bytes: Vec<u8>,
}

impl Default for Report {
    fn default() -> Self {
        Report {
            bytes: Vec::with_capacity(60_000),
        }
    }
}

impl Report {
    pub fn clear(&mut self) {
        self.bytes.clear();
    }

    pub fn bytes(&self) -> &[u8] {
        &self.bytes
    }

    /// A line of a name and numbers.
    pub fn line<const N: usize>(&mut self, name: &[u8], numbers: [u32; N]) {
        self.bytes.extend_from_slice(name);
        for number in numbers {
            self.bytes.push(b',');
            self.number(number);
        }
        self.bytes.push(b'\n');
    }

    pub fn refused_file(&mut self, refusal: Refusal) {
        self.line(b"NO", [refusal.number, refusal.line as u32]);
    }

    fn number(&mut self, mut value: u32) {
        let mut digits = [0; 10];
        let mut first = digits.len();
        loop {
            first -= 1;
            digits[first] = b'0' + (value % 10) as u8;
            value /= 10;
            if value == 0 {
                break;
            }
        }
        self.bytes.extend_from_slice(&digits[first..]);
    }
}
