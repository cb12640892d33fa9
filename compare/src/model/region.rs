//! A tuple's regions as matrices of labels, with their diagonals.

use super::fault::{Fault, Plant};

/// A cell of a region: row and column.
pub(super) type Cell = (usize, usize);

/// A label: "for rows i below g-1, label (i,c)".
pub(super) type Label = (u32, u32);

/// "Let a region be one part of all g disks of a group, rows and columns 0 to g-1": a tuple's region at one position.
/// All tuples' regions at a position are alike: "the code design of different tuples are the same".
pub(super) struct Region {
    /// The labels of rows 0 to g-2: "the last g storage units which are in last row will be used to store parity blocks
    /// of the inner layer code".
    pub labels: Vec<Vec<Label>>,
    /// The cells of each diagonal and the cell that holds its parity.
    pub diagonals: Vec<(Vec<Cell>, Cell)>,
}

impl Region {
    /// The first region is labelled in row-major order; for each further position "we circularly shift all labels" of
    /// row i to the right by i once more: L_l = (P_{i,(j-i·l) mod g}).
    pub fn at_position(l: usize, g: usize, plant: Plant) -> Region {
        let row = |i| (0..g as u32).map(|c| (i, c)).collect();
        let mut labels: Vec<Vec<Label>> = (0..g as u32 - 1).map(row).collect();
        for _ in 0..plant.or(l, Fault::ShiftByRowAlone, l.min(1)) {
            for (i, row) in labels.iter_mut().enumerate() {
                row.rotate_right(plant.or(i, Fault::ShiftLeft, g - i));
            }
        }
        Region { labels, diagonals: (0..g).map(|j| diagonal(j, g, plant)).collect() }
    }

    /// The cell that bears a label, searched row by row.
    pub fn find(&self, label: Label) -> Cell {
        let rows = self.labels.iter().enumerate();
        let mut found = rows.filter_map(|(row, labels)| Some((row, labels.iter().position(|at| *at == label)?)));
        found.next().expect("every label stands in every region")
    }

    /// The cell with the parity of the diagonal through a cell, searched diagonal by diagonal.
    fn parity_of(&self, cell: Cell) -> Cell {
        self.diagonals.iter().find(|(cells, _)| cells.contains(&cell)).expect("diagonals cover a region").1
    }
}

/// "diagonal j of a region has the units of row i, column (i - j) mod g, for all i from 0 to g-1": diagonal 0 starts in
/// column 0, each further one starts a column to the left, and each goes down and to the right. "Row g-1 holds its
/// parity".
fn diagonal(j: usize, g: usize, plant: Plant) -> (Vec<Cell>, Cell) {
    let left_of = |column| (column + g - 1) % g;
    let right_of = |column| (column + 1) % g;
    let mut column = (0..j).fold(0, |column, _| left_of(column));
    let mut cells = Vec::new();
    for row in 0..g {
        cells.push((row, column));
        column = plant.or(right_of(column), Fault::DiagonalsRunLeft, left_of(column));
    }
    let parity = plant.or(cells[g - 1], Fault::ParityInColumnJ, (g - 1, j));
    (cells, parity)
}

/// "The unit at position k-1 is its parity, the XOR of the others."
pub(super) fn parity_position(regions: &[Region], plant: Plant) -> usize {
    plant.or(regions.len() - 1, Fault::OuterParityFirst, 0)
}

/// For each user unit of a tuple, in order: its position, and the cells of data, outer parity, inner parity of the data
/// unit and inner parity of the outer parity unit. The first region's labels stand in order, row by row.
pub(super) fn user_cells(regions: &[Region], plant: Plant) -> Vec<(usize, [Cell; 4])> {
    let parity = parity_position(regions, plant);
    let labels = regions[0].labels.concat();
    let positions = (0..regions.len()).filter(|l| *l != parity);
    let mut order: Vec<(usize, Label)> = positions.flat_map(|l| labels.iter().map(move |at| (l, *at))).collect();
    if plant.has(Fault::PositionInnermost) {
        order.sort_by_key(|(l, label)| (*label, *l));
    }
    let four = |(l, label): (usize, Label)| {
        let (data, outer) = (regions[l].find(label), regions[parity].find(label));
        (l, [data, outer, regions[l].parity_of(data), regions[parity].parity_of(outer)])
    };
    order.into_iter().map(four).collect()
}
