//! Which disks are lost: losses of several shapes, some near the bound of what can be rebuilt.

use compare::random::Random;

/// The most disks of a random loss.
const MOST: usize = 9;

/// At most nine lost disks, upwards: any; some of two or three groups; one group as far as nine reach and one disk of
/// others; or two disks of each of two groups, and perhaps one of another.
pub fn drawn(v: u32, g: u32, random: &mut Random) -> Vec<usize> {
    let (v, g) = (v as usize, g as usize);
    let mut groups: Vec<usize> = (0..v).collect();
    random.shuffle(&mut groups);
    let count = random.below(MOST + 1);
    let mut lost: Vec<usize> = match random.below(9) {
        0..=2 => random.ascending(count.min(v * g), v * g).into_iter().map(usize::from).collect(),
        3..=5 => some_of(&groups[..v.min(2 + random.below(2))], g, count, random),
        6 => {
            let mut lost = some_of(&groups[..1], g, g.min(MOST), random);
            lost.extend(groups[1..].iter().take(count).map(|group| group * g + random.below(g)));
            lost
        }
        _ => {
            let mut lost = some_of(&groups[..1], g, 2, random);
            lost.extend(some_of(&groups[1..2], g, 2, random));
            lost.extend(groups[2..].iter().take(random.below(2)).map(|group| group * g + random.below(g)));
            lost
        }
    };
    lost.truncate(MOST);
    lost.sort();
    lost
}

/// `count` disks of the groups, or all of them if they have fewer.
fn some_of(groups: &[usize], g: usize, count: usize, random: &mut Random) -> Vec<usize> {
    let mut disks: Vec<usize> = groups.iter().flat_map(|group| (0..g).map(move |column| group * g + column)).collect();
    random.shuffle(&mut disks);
    disks.truncate(count);
    disks
}

/// A loss that can't be rebuilt: two whole groups, perhaps with other disks, or all disks.
pub fn hopeless(v: u32, g: u32, random: &mut Random) -> Vec<usize> {
    let (v, g) = (v as usize, g as usize);
    let two = random.ascending(2, v);
    let all = random.one_in(8);
    let more = random.one_in(3);
    (0..v * g).filter(|disk| all || two.contains(&((disk / g) as u16)) || more && random.one_in(4)).collect()
}

/// The marks of lost disks.
pub fn marks(disks: u32, lost: &[usize]) -> Vec<u8> {
    let mut marks = vec![0; disks as usize];
    lost.iter().for_each(|disk| marks[*disk] = 1);
    marks
}

#[test]
fn a_drawn_loss_has_at_most_nine_different_disks() {
    let mut random = Random::new(1);
    for (v, g) in [(2, 2), (2, 13), (3, 2), (7, 3), (91, 13)] {
        for _ in 0..2000 {
            let lost = drawn(v, g, &mut random);
            assert!(lost.len() <= 9 && lost.windows(2).all(|two| two[0] < two[1]));
            assert!(lost.iter().all(|disk| *disk < (v * g) as usize));
            assert!(hopeless(v, g, &mut random).len() >= 2 * g as usize);
        }
    }
}
