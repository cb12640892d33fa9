//! Losses of design F, all of a kind.

use super::held::Held;
use super::Seen;
use crate::given::Given;
use crate::pool::F;
use crate::sequences::array::Array;
use crate::sequences::crash::{self, At};
use compare::model::Model;
use compare::random::Random;

/// How many losses of none to five disks of F with g = 3 there are, and how many can be rebuilt.
const OF_F: [(u64, u64); 6] = [(1, 1), (21, 21), (210, 210), (1_330, 1_330), (5_985, 5_796), (20_349, 17_388)];

/// Design F: with g = 3 every loss of up to five disks, and of a group and one disk of each other group; with g = 5 and 7
/// every loss of two disks in each of two groups.
pub fn run(seed: u64, model: &mut Model) -> Result<(), String> {
    let (mut random, mut counts) = (Random::new(seed), Vec::new());
    for (count, (all, right)) in OF_F.into_iter().enumerate() {
        let losses = choices(21, count);
        let rebuilt = each_of_f(3, &losses, &mut random, model)?;
        if (losses.len() as u64, rebuilt) != (all, right) {
            return Err(format!("{rebuilt} of {} losses of {count} disks rebuilt, not {right} of {all}", losses.len()));
        }
        counts.push(format!("{rebuilt} of {all}"));
    }
    println!("F, g = 3, every loss of 0, 1, 2 .. 5 disks: {} rebuilt", counts.join(", "));
    let losses: Vec<Vec<usize>> = (0..7 * 729).map(group_and_one_of_each).collect();
    let rebuilt = each_of_f(3, &losses, &mut random, model)?;
    println!("F, g = 3, a group and one disk of each other: {rebuilt} of {} rebuilt", losses.len());
    if rebuilt != losses.len() as u64 {
        return Err("a group and one disk of each other are rebuilt".into());
    }
    for g in [5, 7] {
        let (groups, pairs) = (choices(7, 2), choices(g, 2));
        let both = |two: &[usize], a: &[usize], b: &[usize]| {
            vec![two[0] * g + a[0], two[0] * g + a[1], two[1] * g + b[0], two[1] * g + b[1]]
        };
        let of =
            |two: &Vec<usize>| pairs.iter().flat_map(|a| pairs.iter().map(|b| both(two, a, b))).collect::<Vec<_>>();
        let losses: Vec<Vec<usize>> = groups.iter().flat_map(of).collect();
        let rebuilt = each_of_f(g as u32, &losses, &mut random, model)?;
        println!("F, g = {g}, two disks in each of two groups: {rebuilt} of {} rebuilt", losses.len());
    }
    Ok(())
}

/// All disks of a group of F with g = 3 and one disk of each other, in one of 7·3^6 ways.
fn group_and_one_of_each(number: usize) -> Vec<usize> {
    let (whole, mut columns) = (number % 7, number / 7);
    let mut lost = Vec::new();
    for group in 0..7 {
        if group == whole {
            lost.extend([3 * group, 3 * group + 1, 3 * group + 2]);
        } else {
            lost.push(3 * group + columns % 3);
            columns /= 3;
        }
    }
    lost
}

/// All losses on F with right parities and with any bytes: how many were rebuilt, the same of both.
fn each_of_f(g: u32, losses: &[Vec<usize>], random: &mut Random, model: &mut Model) -> Result<u64, String> {
    let array = || Array::of(Given { v: 7, k: 3, g, u: 1, list: F.to_vec() });
    let both = [true, false].map(|settled| Held::of(array(), settled, random));
    let mut seen = Seen::default();
    for (number, lost) in losses.iter().enumerate() {
        crash::at(At::DesignF, losses.len() as u64, number as u64);
        for held in &both {
            seen.add(held.settled, &held.lose(lost, random, model)?);
        }
    }
    let [right, wrong] = seen.rebuilt;
    if right == wrong {
        Ok(right)
    } else {
        Err(format!("{right} losses rebuilt on right parities, {wrong} on any bytes"))
    }
}

/// All choices of `count` numbers below n, each upwards.
fn choices(n: usize, count: usize) -> Vec<Vec<usize>> {
    (0..count).fold(vec![Vec::new()], |chosen, _| {
        let longer = |choice: &Vec<usize>| {
            let from = choice.last().map_or(0, |last| last + 1);
            (from..n).map(|next| [&choice[..], &[next]].concat()).collect::<Vec<_>>()
        };
        chosen.iter().flat_map(longer).collect()
    })
}

#[test]
fn there_are_as_many_choices_as_losses_of_f() {
    OF_F.into_iter().enumerate().for_each(|(count, (all, _))| assert_eq!(choices(21, count).len() as u64, all));
}
