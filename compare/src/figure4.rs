//! `figure4`: document 000's figure 4, as typed into a data file, compared with the proved library.

use crate::library;
use crate::pool::F;
use compare::model::Geometry;

/// Design F with g = 3: the array of the figure.
const ARRAY: Geometry = Geometry { v: 7, k: 3, g: 3, u: 1, design: &F };
const DISKS: usize = 21;
const UNITS: usize = 9;

/// The figure's cells by offset, then disk, and its inner codes: P0 = 1⊕5 is ("P0", [1, 5]).
struct Figure {
    cells: Vec<Vec<String>>,
    codes: Vec<(String, Vec<u32>)>,
}

impl Figure {
    /// Lines are: comments after `#`; `row OFFSET: 21 cells`; `code NAME: labels`.
    fn read(text: &str) -> Result<Figure, String> {
        let mut figure = Figure { cells: Vec::new(), codes: Vec::new() };
        let lines = text.lines().map(|line| line.split('#').next().unwrap_or("").trim());
        for line in lines.filter(|line| !line.is_empty()) {
            let (head, words) = line.split_once(':').ok_or(format!("no colon in: {line}"))?;
            let words: Vec<String> = words.split_whitespace().map(str::to_string).collect();
            match head.split_once(' ') {
                Some(("row", offset)) if offset == figure.cells.len().to_string() && words.len() == DISKS => {
                    figure.cells.push(words);
                }
                Some(("code", name)) => figure.codes.push((name.into(), numbers(&words)?)),
                _ => return Err(format!("not a line of the figure: {line}")),
            }
        }
        if figure.cells.len() == UNITS {
            Ok(figure)
        } else {
            Err(format!("not {UNITS} rows"))
        }
    }

    /// The cells with disk and unit.
    fn each(&self) -> impl Iterator<Item = (u32, u32, &str)> {
        self.cells.iter().enumerate().flat_map(|(unit, row)| {
            row.iter().enumerate().map(move |(disk, cell)| (disk as u32, unit as u32, cell.as_str()))
        })
    }
}

fn numbers(words: &[String]) -> Result<Vec<u32>, String> {
    words.iter().map(|word| word.parse().map_err(|_| format!("not a number: {word}"))).collect()
}

/// Reads the file and compares every cell and every inner code.
pub fn run(path: &str) -> Result<(), String> {
    let text = std::fs::read_to_string(path).map_err(|error| format!("{path}: {error}"))?;
    let figure = Figure::read(&text)?;
    let (mut labels, mut parities) = (0, 0);
    for (disk, unit, cell) in figure.each() {
        match cell.parse() {
            Ok(label) => {
                label_agrees(disk, unit, label)?;
                labels += 1;
            }
            Err(_) => {
                parity_agrees(&figure, disk, unit)?;
                parities += 1;
            }
        }
    }
    for (name, members) in &figure.codes {
        code_agrees(&figure, name, members)?;
    }
    println!("{labels} labels, {parities} inner parities, {} inner codes, no difference", figure.codes.len());
    Ok(())
}

/// A label of the figure is t·6 + i·3 + c: the unit's outer set has that t, i and c, and so has its user number.
fn label_agrees(disk: u32, unit: u32, label: u32) -> Result<(), String> {
    let role = library::role(&ARRAY, disk, unit);
    let outer = match role.kind {
        0 => {
            let map = library::map(&ARRAY, role.a);
            library::role(&ARRAY, map.outer_disk, map.outer_unit)
        }
        _ => role,
    };
    let numbered = role.kind != 0 || role.a / 12 * 6 + role.a % 6 == label;
    let fits = (role.refusal, outer.refusal, outer.kind) == (0, 0, 1);
    if fits && numbered && outer.a * 6 + outer.b * 3 + outer.c == label {
        return Ok(());
    }
    Err(format!("{disk}/{unit}: the figure has label {label}, the library {role:?} with outer parity {outer:?}"))
}

/// The third row of each region holds inner parities: of the tuple and position to which the region belongs.
fn parity_agrees(figure: &Figure, disk: u32, unit: u32) -> Result<(), String> {
    let role = library::role(&ARRAY, disk, unit);
    let above = &figure.cells[unit as usize / 3 * 3][disk as usize];
    let tuple = above.parse::<u32>().map_err(|_| format!("no label above {disk}/{unit}"))? / 6;
    let group = F.get((role.a * 3 + role.b) as usize).copied().map(u32::from);
    let fits = (role.refusal, role.kind, role.a) == (0, 2, tuple) && role.b < 3 && group == Some(disk / 3);
    if fits {
        Ok(())
    } else {
        Err(format!("{disk}/{unit}: inner parity of tuple {tuple} expected, the library has {role:?}"))
    }
}

/// P0 = 1⊕5: of the region's units, just those labelled 1 and 5 have their inner parity where the figure has P0.
fn code_agrees(figure: &Figure, name: &str, members: &[u32]) -> Result<(), String> {
    let (disk, unit, _) = figure.each().find(|cell| cell.2 == name).ok_or(format!("no cell {name}"))?;
    let mut found = Vec::new();
    for (at, row, cell) in figure.each().filter(|cell| (cell.0 / 3, cell.1 / 3) == (disk / 3, unit / 3)) {
        let Ok(label) = cell.parse::<u32>() else { continue };
        let role = library::role(&ARRAY, at, row);
        if role.kind != 0 {
            return Err(format!("{at}/{row} holds no user unit: {role:?}"));
        }
        let map = library::map(&ARRAY, role.a);
        if (map.inner_disk, map.inner_unit) == (disk, unit) {
            found.push(label);
        }
    }
    if found == members {
        Ok(())
    } else {
        Err(format!("{name} is of {members:?} in the figure, of {found:?} in the library"))
    }
}
