//! A listing read as rows, and what E10 says of it beside a table of pairs with the
//! same action: the table has no fewer pairs, and its from-words each begin with a
//! listed one. The action is taken from a table that owes nothing to the listing.

use std::collections::BTreeSet;

use reference::tables::{from_is_basis, image, only_to_word, telling_code};
use reference::{Shape, Word};

use crate::packed::Row;

/// The shape and the pairs of a listing, as its lines have them.
#[derive(Clone, Debug, PartialEq, Eq)]
pub struct Listed {
    pub shape: Shape,
    pub rows: Vec<Row>,
}

impl Listed {
    /// Reads a P record, M records and an E record.
    pub fn read(listing: &[u8]) -> Listed {
        let text = std::str::from_utf8(listing).expect("digits and letters");
        let mut lines = text.lines();
        let opening = lines.next().and_then(shape_of);
        assert_eq!(lines.next_back(), Some("E"), "the end of {text}");
        let rows: Option<Vec<Row>> = lines.map(row_of).collect();
        Listed {
            shape: opening.unwrap_or_else(|| panic!("the beginning of {text}")),
            rows: rows.unwrap_or_else(|| panic!("the pairs of {text}")),
        }
    }

    /// Fails unless this is a table as E10 has them, and acts as this one does.
    pub fn assert_acts_as(&self, table: &[Row]) {
        let (shape, rows) = (self.shape, &self.rows);
        assert!(
            from_is_basis(shape, rows),
            "the listed from-words are no basis: {self}"
        );
        let belted = rows.iter().all(|(_, to)| !to.is_empty());
        assert!(belted, "a listed to-word isn't of at least a belt: {self}");
        if let Some(code) = telling_code(shape, rows, table) {
            let images = [rows, table].map(|rows| text(&image(rows, &code).unwrap_or_default()));
            let code = text(&code);
            panic!("the listing acts otherwise: {code} goes to {images:?} by {self}");
        }
    }

    /// Fails where this table, which acts as the listing does, is shorter, or has a
    /// from-word that doesn't begin with exactly one listed one. One of as many
    /// pairs is the listing itself.
    pub fn assert_not_longer_than(&self, table: &[Row]) {
        let (listed, pairs) = (self.rows.len(), table.len());
        assert!(
            listed <= pairs,
            "a table of {pairs} pairs is shorter than {self}"
        );
        for (from, _) in table {
            let beginnings = self.rows.iter().filter(|(word, _)| from.starts_with(word));
            let count = beginnings.count();
            let from = text(from);
            assert_eq!(count, 1, "listed from-words that begin {from}: {self}");
        }
        if listed == pairs {
            let mut rows = table.to_vec();
            rows.sort();
            assert!(rows == self.rows, "another table of as many pairs: {self}");
        }
    }

    /// Fails where a word above the listed from-words has a to-word of at least a
    /// belt with which it acts as the table does: it could stand in a table whose
    /// from-words don't all begin with listed ones. Says how many words there are.
    pub fn assert_nothing_above(&self, table: &[Row]) -> usize {
        let above = self.words_above();
        for word in &above {
            let goal = only_to_word(table, word).filter(|goal| !goal.is_empty());
            let word = text(word);
            assert_eq!(goal, None, "{word} needn't be parted in {self}");
        }
        above.len()
    }

    /// The words of at least a belt that properly begin listed from-words.
    fn words_above(&self) -> BTreeSet<Word> {
        let words = self.rows.iter().map(|(from, _)| from);
        let above = words.flat_map(|word| (1..word.len()).map(|end| word[..end].to_vec()));
        above.collect()
    }
}

impl std::fmt::Display for Listed {
    fn fmt(&self, f: &mut std::fmt::Formatter) -> std::fmt::Result {
        let Shape { arity, roots } = self.shape;
        write!(f, "({arity}, {roots}), {} pairs:", self.rows.len())?;
        for (from, to) in &self.rows {
            write!(f, " {}>{}", text(from), text(to))?;
        }
        Ok(())
    }
}

/// The shape in a P record.
fn shape_of(line: &str) -> Option<Shape> {
    let mut fields = line.strip_prefix("P\t")?.split('\t').skip(1);
    let mut number = || fields.next()?.parse().ok();
    Some(Shape {
        arity: number()?,
        roots: number()?,
    })
}

/// The pair in an M record.
fn row_of(line: &str) -> Option<Row> {
    let (from, to) = line.strip_prefix("M\t")?.split_once('\t')?;
    Some((from.into(), to.into()))
}

fn text(word: &[u8]) -> String {
    String::from_utf8_lossy(word).into_owned()
}

#[cfg(test)]
mod tests {
    use super::*;

    /// ψ, of which each failure below is shown.
    fn psi() -> Listed {
        Listed::read(b"P\tA\t2\t1\nM\t111\t11\nM\t112\t121\nM\t12\t122\nE\n")
    }

    fn rows(typed: &[(&str, &str)]) -> Vec<Row> {
        let rows = typed.iter();
        rows.map(|(from, to)| ((*from).into(), (*to).into()))
            .collect()
    }

    #[test]
    fn a_listing_by_hand() {
        let listed = Listed::read(b"P\tB\t2\t3\nM\t1\t21\nM\t22\t1\nE\n");
        assert_eq!(listed.shape, Shape { arity: 2, roots: 3 });
        assert_eq!(listed.rows, rows(&[("1", "21"), ("22", "1")]));
        assert_eq!(listed.words_above(), BTreeSet::from([b"2".to_vec()]));
        assert_eq!(listed.to_string(), "(2, 3), 2 pairs: 1>21 22>1");
    }

    #[test]
    fn a_table_beside_psi() {
        let split = rows(&[
            ("12", "122"),
            ("1112", "112"),
            ("1111", "111"),
            ("112", "121"),
        ]);
        psi().assert_acts_as(&split);
        psi().assert_not_longer_than(&split);
        psi().assert_not_longer_than(&psi().rows);
        assert_eq!(psi().assert_nothing_above(&split), 2);
    }

    #[test]
    #[should_panic(expected = "the end of")]
    fn a_listing_without_an_end() {
        Listed::read(b"P\tB\t2\t3\nM\t1\t1\n");
    }

    #[test]
    #[should_panic(expected = "111 goes to [\"11\", \"12\"]")]
    fn a_table_that_acts_otherwise() {
        psi().assert_acts_as(&rows(&[("111", "12"), ("112", "121"), ("12", "122")]));
    }

    #[test]
    #[should_panic(expected = "a table of 2 pairs is shorter")]
    fn a_shorter_table() {
        psi().assert_not_longer_than(&rows(&[("11", "1"), ("12", "12")]));
    }

    #[test]
    #[should_panic(expected = "listed from-words that begin 11")]
    fn a_from_word_above_the_listing() {
        psi().assert_not_longer_than(&rows(&[("11", "11"), ("121", "121"), ("122", "122")]));
    }

    #[test]
    #[should_panic(expected = "another table of as many pairs")]
    fn another_table_of_as_many_pairs() {
        psi().assert_not_longer_than(&rows(&[("111", "11"), ("112", "122"), ("12", "121")]));
    }

    #[test]
    #[should_panic(expected = "11 needn't be parted")]
    fn a_word_above_that_has_a_to_word() {
        psi().assert_nothing_above(&rows(&[("11", "11"), ("12", "122")]));
    }
}
