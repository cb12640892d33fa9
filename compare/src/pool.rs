//! Valid designs to ask about: the held ones, design F, complete graphs, single rows, planes and spaces over small
//! fields, triple systems and cyclic families.

mod families;
mod spaces;

use compare::model::{Model, Plant};
use compare::random::Random;
use families::{cyclic, triples_of_bose, triples_of_skolem, FAMILIES};
use spaces::{affine, projective};

/// A valid design.
#[derive(Clone)]
pub struct Design {
    pub v: u32,
    pub k: u32,
    pub numbers: Vec<u16>,
}

/// Document 000's equation 1.
pub const F: [u16; 21] = [0, 2, 6, 0, 1, 3, 1, 2, 4, 2, 3, 5, 3, 4, 6, 0, 4, 5, 1, 5, 6];

/// The v and k of the held sets.
pub const HELD: [(u32, u32); 7] = [(7, 3), (13, 4), (21, 5), (31, 6), (57, 8), (73, 9), (91, 10)];

impl Design {
    fn of_rows(v: u32, rows: Vec<Vec<u16>>) -> Design {
        Design { v, k: rows[0].len() as u32, numbers: rows.concat() }
    }

    pub fn f() -> Design {
        Design { v: 7, k: 3, numbers: F.to_vec() }
    }

    /// The design of a held v, from the independent program.
    pub fn held(v: u32, k: u32) -> Design {
        let mut numbers = vec![0; (v * k) as usize];
        Model::new(Plant::NONE).fill(v, &mut numbers).expect("v is held");
        Design { v, k, numbers }
    }

    /// "k = 2 is the complete graph of document 000 section 6".
    pub fn complete(v: u16) -> Design {
        Design::of_rows(v.into(), (0..v).flat_map(|a| (a + 1..v).map(move |b| vec![a, b])).collect())
    }

    /// "k = v is allowed and has one row".
    pub fn single(k: u16) -> Design {
        Design::of_rows(k.into(), vec![(0..k).collect()])
    }

    /// The g that are allowed with the design.
    pub fn groups(&self) -> Vec<u32> {
        [2, 3, 5, 7, 11, 13].into_iter().filter(|g| *g >= self.k).collect()
    }

    /// About how long a search through all pairs and rows takes.
    pub fn cost(&self) -> usize {
        (self.v * self.v) as usize * self.numbers.len() / self.k as usize
    }

    /// The same design with other group numbers and its rows in another order.
    pub fn relabelled(&self, random: &mut Random) -> Design {
        let mut names: Vec<u16> = (0..self.v as u16).collect();
        random.shuffle(&mut names);
        let renamed = |row: &[u16]| sorted(row.iter().map(|group| names[usize::from(*group)]).collect());
        let mut rows: Vec<Vec<u16>> = self.numbers.chunks(self.k as usize).map(renamed).collect();
        random.shuffle(&mut rows);
        Design::of_rows(self.v, rows)
    }
}

fn sorted(mut row: Vec<u16>) -> Vec<u16> {
    row.sort();
    row
}

/// All designs of the pool.
pub fn all() -> Vec<Design> {
    let mut pool = vec![Design::f()];
    pool.extend(HELD.map(|(v, k)| Design::held(v, k)));
    pool.extend((2..=91).map(Design::complete));
    pool.extend((3..=10).map(Design::single));
    pool.extend([(2, 3), (3, 3), (4, 3), (5, 3), (7, 3), (8, 3), (9, 3)].map(|(q, d)| projective(q, d)));
    pool.extend([(2, 4), (3, 4), (4, 4), (2, 5), (2, 6)].map(|(q, d)| projective(q, d)));
    pool.extend([(3, 2), (4, 2), (5, 2), (7, 2), (8, 2), (9, 2), (3, 3), (4, 3), (3, 4)].map(|(q, d)| affine(q, d)));
    pool.extend((1..=14).map(triples_of_bose));
    pool.extend((1..=15).map(triples_of_skolem));
    pool.extend(FAMILIES.map(|(v, sets)| cyclic(v, sets)));
    pool
}

#[test]
fn every_design_of_the_pool_is_one() {
    let (model, mut random) = (Model::new(Plant::NONE), Random::new(1));
    for design in all() {
        let other = design.relabelled(&mut random);
        assert_eq!(model.check(design.v, design.k, &design.numbers), Ok(()));
        assert_eq!(model.check(other.v, other.k, &other.numbers), Ok(()));
    }
}
