//! The lines: good ones for every held v, such as are refused, and malformed ones of every kind.

use crate::pool::{Design, HELD};
use compare::random::Random;

/// How many lines are good or refused ones with a few bytes changed.
const CHANGED: usize = 300;

/// All lines of a seed, each with its line end if it has one.
pub fn all(seed: u64) -> Vec<Vec<u8>> {
    let mut random = Random::new(seed);
    let mut lines = malformed();
    lines.extend(long());
    let numbers = plans().into_iter().chain(refused());
    let mut good: Vec<Vec<u8>> = numbers.map(|[v, g, disk]| format!("{v} {g} {disk}").into_bytes()).collect();
    good.iter_mut().for_each(|line| line.extend((!random.one_in(3)).then_some(b'\n')));
    lines.extend((0..CHANGED).map(|_| changed(&good[random.below(good.len())], &mut random)));
    lines.extend(good);
    lines
}

/// Every held v with every g: the first disks, some in the middle and the last.
fn plans() -> Vec<[u32; 3]> {
    let mut plans = vec![[7, 3, 9]];
    for (v, k) in HELD {
        for g in Design::held(v, k).groups() {
            let disks = v * g;
            plans.extend([0, 1, g - 1, g, disks / 2, disks - g, disks - 1].map(|disk| [v, g, disk]));
        }
    }
    plans
}

/// Refusals 1, 6 and 9, alone and several at once: the first must win.
fn refused() -> Vec<[u32; 3]> {
    let not_held = [0, 1, 2, 6, 8, 9, 12, 14, 20, 51, 56, 58, 72, 74, 90, 92, 133, 256 + 7, 65536 + 7, 999_999_999];
    let mut refused: Vec<[u32; 3]> = not_held.map(|v| [[v, 3, 0], [v, 4, 999_999_999]]).concat();
    for (v, k) in HELD {
        let not_allowed = [0, 1, 4, 6, 8, 9, 10, 12, 14, 15, 17, 256 + 11, 65536 + 13, 999_999_999];
        refused.extend(not_allowed.map(|g| [v, g, 0]));
        refused.extend([2, 3, 5, 7].into_iter().filter(|g| *g < k).map(|g| [v, g, 999_999_999]));
        let g = Design::held(v, k).groups()[0];
        refused.extend([v * g, v * g + 1, 65536 + g, 16_777_216, 999_999_999].map(|disk| [v, g, disk]));
    }
    refused
}

/// Lines of another form and some near them that are read, parted by bars: words and spaces; other bytes about and between
/// digits; blanks, CR and NUL; bytes beyond ASCII; ten digits and leading zeros.
const FORMS: [&[u8]; 6] = [
    b"|7|7 3|7 3 |7 | |  |   | 3 9|7  9|7 3 9 |7 3 9  | 7 3 9|  7 3 9|7  3 9|7 3  9|7   3 9|7 3 9 1|7 3 9 1 |7 3 9 x",
    b"7 3 9x|x7 3 9|7x 3 9|7 x 9|+7 3 9|7 +3 9|7 3 +9|-7 3 9|7 -3 9|7 3 -9|7 3 -0|7,3,9|7, 3, 9|7.0 3 9|7 3 9.|7e0 3 9",
    b"0x7 3 9|0x7 0x3 0x9|7 3 9_|1_3 5 9|\"7 3 9\"|7 3 /|7 3 :|v g disk|unread|7 3 9\x1A|7 3 nine|seven three nine",
    b"7\t3\t9|7\t3 9|7 3\t9|\t7 3 9|7 3 9\t|7\x0B3 9|7\x0C3 9|7 3 9\r|\r7 3 9|7\r3 9|7 3 9\0|\x007 3 9|7\x003 9|7 3\0 9|\0",
    b"7 3 \xD9\xA9|\xEF\xBB\xBF7 3 9|7\xC2\xA03 9|\xFF|7 3 9\xFF|7 3 \xEF\xBC\x99|7 3 \xB9|\xB27 3 9|7 3 \xB0\xB9",
    b"0000000007 3 9|7 0000000003 9|7 3 0000000009|4294967303 3 9|7 3 4294967305|7 4294967299 9|18446744073709551623 3 9|\
      7 3 99999999999999999999|007 03 009|000000007 000000003 000000009|000000000 000000000 000000000|7 3 00|00 3 0",
];

/// The forms without and with a line end, and what may come behind a good line.
fn malformed() -> Vec<Vec<u8>> {
    let lines = || FORMS.iter().flat_map(|forms| forms.split(|byte| *byte == b'|'));
    let mut all: Vec<Vec<u8>> = lines().map(<[u8]>::to_vec).collect();
    all.extend(lines().map(|line| [line, b"\n"].concat()));
    let behind: [&[u8]; 9] =
        [b"\r\n", b"\n\n", b"\n\r", b"\n\0", b"\n ", b"\n7 3 9", b"\n7 3 9\n", b"\nx", b"\r\n\r\n"];
    all.extend(behind.map(|end| [b"7 3 9", end].concat()));
    all.extend([b"\n7 3 9".to_vec(), b"\n\n".to_vec(), b"7\n3\n9\n".to_vec(), b"7 3\n9\n".to_vec()]);
    all
}

/// Long inputs, up to 100,000 bytes, some with a good line in front or behind; and every length about that of the longest
/// good line.
fn long() -> Vec<Vec<u8>> {
    let mut long = Vec::new();
    let lengths =
        [28, 29, 30, 31, 32, 33, 34, 63, 64, 65, 127, 128, 129, 255, 256, 257, 4095, 4096, 4097, 65_537, 100_000];
    for length in lengths {
        let of = |front: &[u8], byte: u8| [front, &vec![byte; length - front.len()]].concat();
        long.extend([b'7', b'0', b' ', b'x', b'\n', b'\0'].map(|byte| of(b"", byte)));
        long.extend([b' ', b'\n', b'9', b'\0', b'x'].map(|byte| of(b"7 3 9\n", byte)));
        long.extend([of(b"7 3 ", b'0'), of(b"7 3 9", b' '), of(b"7 3 9 ", b'9')]);
        long.push([of(b"", b' '), b"7 3 9\n".to_vec()].concat());
        long.push([of(b"7 3 ", b'0'), b"9\n".to_vec()].concat());
    }
    long
}

/// A line with one to three bytes inserted, left out, doubled or exchanged.
fn changed(line: &[u8], random: &mut Random) -> Vec<u8> {
    let mut line = line.to_vec();
    for _ in 0..random.pick(&[1, 1, 1, 2, 3]) {
        let (at, any) = (random.below(line.len()), random.next() as u8);
        let byte = random.pick(&[b' ', b'\n', b'\r', b'\t', b'0', b'9', b'-', b'+', 0, any]);
        match random.below(4) {
            0 => line.insert(at, byte),
            1 if line.len() > 1 => drop(line.remove(at)),
            2 => line.insert(at, line[at]),
            _ => line[at] = byte,
        }
    }
    line
}

#[test]
fn the_lines_have_every_answer_often() {
    use compare::model::{Model, Plant};
    let mut model = Model::new(Plant::NONE);
    let printed: Vec<String> = all(1).iter().map(|line| model.print(line)).collect();
    for answer in ["refused 1\n", "refused 6\n", "refused 9\n", "unread\n"] {
        assert!(printed.iter().filter(|text| *text == answer).count() >= 40, "{answer}");
    }
    assert!(printed.iter().filter(|text| text.starts_with('0')).count() >= 150);
}
