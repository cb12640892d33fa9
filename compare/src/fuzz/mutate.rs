//! Changes of raw strings.

use compare::random::Random;

/// The longest string.
const LONGEST: usize = 400;

/// Bytes at which a number or a length takes another form, or that are bounds of the rules.
const EDGES: [u8; 20] = [0, 1, 2, 3, 4, 9, 10, 11, 12, 13, 14, 90, 91, 92, 250, 251, 252, 253, 254, 255];

/// A string of the corpus with one to four changes.
pub fn mutated(corpus: &[Vec<u8>], random: &mut Random) -> Vec<u8> {
    let mut input = corpus[random.below(corpus.len())].clone();
    for _ in 0..1 + random.below(4) {
        change(&mut input, corpus, random);
    }
    input.truncate(LONGEST);
    input
}

fn change(input: &mut Vec<u8>, corpus: &[Vec<u8>], random: &mut Random) {
    let at = random.below(input.len() + 1);
    let Some(byte) = input.get_mut(at) else { return input.push(random.next() as u8) };
    match random.below(7) {
        0 => *byte ^= 1 << random.below(8),
        1 => *byte = random.pick(&EDGES),
        2 => *byte = byte.wrapping_add(1 + 254 * random.below(2) as u8),
        3 => *byte = random.next() as u8,
        4 => input.insert(at, random.pick(&EDGES)),
        5 => drop(input.remove(at)),
        _ => {
            let other = &corpus[random.below(corpus.len())];
            input.truncate(at);
            input.extend(other.iter().skip(at));
        }
    }
}
