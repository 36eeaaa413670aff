//! Plans spoiled a little, so that they are hardly told from real ones by
//! counting: the checks of E have to find what is wrong, and in which column.

use super::words::{extended, Row, Shape, Word};
use crate::rng::Rng;

/// Spoils a plan a little, so that the number of rows often stays right: a
/// word dropped, doubled, extended, shortened, or two words swapped.
pub fn near_miss(rng: &mut Rng, shape: Shape, rows: &mut Vec<Row>) {
    let index = rng.below(rows.len());
    let other = rng.below(rows.len());
    let in_from = rng.chance(50);
    match rng.below(7) {
        0 => {
            rows.remove(index);
        }
        1 => {
            let row = rows[index].clone();
            rows.push(row);
        }
        2 => {
            let way = rng.between(1, shape.n);
            let word = column(rows, index, in_from);
            *word = extended(word, way);
        }
        3 => {
            let word = column(rows, index, in_from);
            word.pop();
        }
        4 => {
            let word = column(rows, other, in_from).clone();
            let kept = std::mem::replace(column(rows, index, in_from), word);
            *column(rows, other, in_from) = kept;
        }
        5 => {
            let word = column(rows, other, in_from).clone();
            *column(rows, index, in_from) = word;
        }
        _ => {
            let way = rng.between(1, shape.n);
            let word = column(rows, index, in_from);
            *word = extended(word, way);
            column(rows, other, in_from).pop();
        }
    }
}

fn column(rows: &mut [Row], index: usize, in_from: bool) -> &mut Word {
    let (from, to) = &mut rows[index];
    if in_from {
        from
    } else {
        to
    }
}

#[cfg(test)]
mod tests {
    use super::*;
    use crate::plans::any_plan;
    use crate::plans::check::{columns, is_basis};

    #[test]
    fn near_misses_spoil_both_columns_and_keep_some_counts() {
        let mut rng = Rng::new(15);
        let shape = Shape { n: 2, r: 1 };
        let (mut spoiled_from, mut spoiled_to, mut same_count) = (0, 0, 0);
        for _ in 0..200 {
            let good = any_plan(&mut rng, shape, 5);
            let mut rows = good.clone();
            near_miss(&mut rng, shape, &mut rows);
            let (from, to) = columns(&rows);
            let from_bad = from.contains(&Word::new()) || !is_basis(shape, &from);
            let to_bad = to.contains(&Word::new()) || !is_basis(shape, &to);
            spoiled_from += usize::from(from_bad);
            spoiled_to += usize::from(to_bad && !from_bad);
            same_count += usize::from((from_bad || to_bad) && rows.len() == good.len());
        }
        assert!(spoiled_from > 20 && spoiled_to > 20 && same_count > 20);
    }
}
