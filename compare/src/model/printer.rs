//! The plan printer: "It reads one line, v, g and disk in decimal".

use super::answer::{Geometry, Refusal};
use super::fault::{Fault, Plant};
use super::{held, Model};

impl Model {
    /// What the printer prints for all that it reads: "one triple a line. A refusal prints `refused`, a space and its
    /// number; a line of another form prints `unread`."
    pub fn print(&mut self, input: &[u8]) -> String {
        let Some(question) = question(input, self.plant) else { return "unread\n".into() };
        match self.triples(question) {
            Ok(numbers) => numbers.chunks(3).map(|n| format!("{} {} {}\n", n[0], n[1], n[2])).collect(),
            Err(Refusal { number, .. }) => format!("refused {number}\n"),
        }
    }

    /// "takes the held set of v and u = 1": refusal 1 and then those of the plan, whose list is as long as any plan.
    fn triples(&mut self, [v, g, disk]: [u32; 3]) -> Result<Vec<u32>, Refusal> {
        if self.plant.has(Fault::PrinterSixFirst) && !(2..=13).contains(&g) {
            return Err(Refusal::placeless(6));
        }
        let (b, _, _, k, _, _) = held::line(v, self.plant)?;
        let mut design = vec![0; (b * k) as usize];
        self.fill(v, &mut design)?;
        let mut list = vec![0; 1 << 16];
        let count = self.plan(&Geometry { v, k, g, u: 1, design: &design }, disk, &mut list)?;
        list.truncate(3 * count as usize);
        Ok(list)
    }
}

/// "v, g and disk in decimal, one to nine digits each, with single spaces, with or without a line end".
fn question(input: &[u8], plant: Plant) -> Option<[u32; 3]> {
    let mut line = input.strip_suffix(b"\n").unwrap_or(input);
    if plant.has(Fault::PrinterFirstLine) {
        line = line.split(|byte| *byte == b'\n').next().unwrap_or(line);
    }
    if plant.has(Fault::PrinterCarriageReturn) {
        line = line.strip_suffix(b"\r").unwrap_or(line);
    }
    if plant.has(Fault::PrinterTrims) {
        line = line.trim_ascii();
    }
    let blank = |byte: &u8| *byte == b' ' || *byte == b'\t' && plant.has(Fault::PrinterTabs);
    let mut words: Vec<&[u8]> = line.split(blank).collect();
    words.retain(|word| !word.is_empty() || !plant.has(Fault::PrinterDoubledSpaces));
    words.truncate(plant.or(usize::MAX, Fault::PrinterFourthWord, 3));
    let numbers: Option<Vec<u32>> = words.into_iter().map(|word| number(word, plant)).collect();
    if input.last() != Some(&b'\n') && plant.has(Fault::PrinterNeedsLineEnd) {
        return None;
    }
    numbers?.try_into().ok()
}

/// One to nine digits.
fn number(word: &[u8], plant: Plant) -> Option<u32> {
    let signed = plant.has(Fault::PrinterSigns) && word.len() > 1;
    let word = if signed { word.strip_prefix(b"+").unwrap_or(word) } else { word };
    let zero = word.len() > 1 && word[0] == b'0' && plant.has(Fault::PrinterLeadingZero);
    let most = plant.or(plant.or(9, Fault::PrinterTenDigits, 10), Fault::PrinterEightDigits, 8);
    if zero || !(1..=most).contains(&word.len()) || !word.iter().all(u8::is_ascii_digit) {
        return None;
    }
    Some(word.iter().fold(0u32, |number, digit| number.wrapping_mul(10).wrapping_add(u32::from(digit - b'0'))))
}
