//! Points and lines of projective and affine spaces over small fields.

use super::{sorted, Design};

/// The lines through all pairs of points, each line once.
fn lines(points: u16, line: impl Fn(u16, u16) -> Vec<u16>) -> Design {
    let mut joined = vec![vec![false; points.into()]; points.into()];
    let mut rows = Vec::new();
    for a in 0..points {
        for b in a + 1..points {
            if !joined[usize::from(a)][usize::from(b)] {
                let row = sorted(line(a, b));
                row.iter().for_each(|x| row.iter().for_each(|y| joined[usize::from(*x)][usize::from(*y)] = true));
                rows.push(row);
            }
        }
    }
    Design::of_rows(points.into(), rows)
}

/// A field of q elements, numbered 0 to q-1; an element's digits to the base p are the coefficients of a polynomial.
struct Field {
    q: usize,
    p: usize,
    /// The digits of the polynomial that x to the degree is equal to.
    reduced: &'static [usize],
}

impl Field {
    fn of(q: usize) -> Field {
        match q {
            4 => Field { q, p: 2, reduced: &[1, 1] },
            8 => Field { q, p: 2, reduced: &[1, 1, 0] },
            9 => Field { q, p: 3, reduced: &[2, 0] },
            _ => Field { q, p: q, reduced: &[0] },
        }
    }

    fn digits(&self, x: usize) -> Vec<usize> {
        (0..self.reduced.len()).map(|place| x / self.p.pow(place as u32) % self.p).collect()
    }

    fn number(&self, digits: &[usize]) -> usize {
        digits.iter().rev().fold(0, |number, digit| number * self.p + digit % self.p)
    }

    fn add(&self, x: usize, y: usize) -> usize {
        let sums: Vec<usize> = self.digits(x).iter().zip(self.digits(y)).map(|(a, b)| a + b).collect();
        self.number(&sums)
    }

    /// x times y: y's digits from the highest down, multiplying by the polynomial x between them.
    fn multiply(&self, x: usize, y: usize) -> usize {
        self.digits(y).iter().rev().fold(0, |sum, digit| (0..*digit).fold(self.raise(sum), |sum, _| self.add(sum, x)))
    }

    /// An element times the polynomial x. In a prime field there is one digit, and nothing is raised.
    fn raise(&self, x: usize) -> usize {
        let mut digits = self.digits(x);
        digits.rotate_right(1);
        let top = std::mem::replace(&mut digits[0], 0);
        let raised: Vec<usize> = digits.iter().zip(self.reduced).map(|(digit, back)| digit + top * back).collect();
        self.number(&raised)
    }

    /// All vectors of a length.
    fn vectors(&self, length: usize) -> Vec<Vec<usize>> {
        let place = |number: usize, at: usize| number / self.q.pow(at as u32) % self.q;
        (0..self.q.pow(length as u32)).map(|n| (0..length).map(|at| place(n, at)).collect()).collect()
    }

    /// a times x plus b times y.
    fn combined(&self, a: usize, x: &[usize], b: usize, y: &[usize]) -> Vec<usize> {
        x.iter().zip(y).map(|(x, y)| self.add(self.multiply(a, *x), self.multiply(b, *y))).collect()
    }
}

fn found(points: &[Vec<usize>], point: &[usize]) -> Option<u16> {
    points.iter().position(|at| at == point).map(|at| at as u16)
}

/// Points and lines of the projective space of vectors with d coordinates: q+1 points a line. A point is the vector
/// whose first coordinate that is not 0 is 1.
pub fn projective(q: usize, d: usize) -> Design {
    let field = Field::of(q);
    let mut points = field.vectors(d);
    points.retain(|vector| vector.iter().find(|x| **x != 0) == Some(&1));
    lines(points.len() as u16, |a, b| {
        let both: Vec<(usize, usize)> = (0..q * q).map(|n| (n / q, n % q)).collect();
        let ends = (&points[usize::from(a)], &points[usize::from(b)]);
        both.into_iter().filter_map(|(m, n)| found(&points, &field.combined(m, ends.0, n, ends.1))).collect()
    })
}

/// Points and lines of the affine space of d coordinates: q points a line, the weights of two points adding to 1.
pub fn affine(q: usize, d: usize) -> Design {
    let field = Field::of(q);
    let points = field.vectors(d);
    let weights: Vec<(usize, usize)> =
        (0..q * q).map(|n| (n / q, n % q)).filter(|(m, n)| field.add(*m, *n) == 1).collect();
    lines(points.len() as u16, |a, b| {
        let ends = (&points[usize::from(a)], &points[usize::from(b)]);
        weights.iter().filter_map(|(m, n)| found(&points, &field.combined(*m, ends.0, *n, ends.1))).collect()
    })
}
