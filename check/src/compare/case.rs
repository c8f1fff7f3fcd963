//! A case of the comparison: how it is put, counted and made smaller.

use super::product::Product;
use super::shrink::shrink;
use super::summary::Summary;
use std::fmt::{self, Debug, Display};

/// What this program expects and what the product gave.
#[derive(Clone, Debug, PartialEq, Eq)]
pub struct Mismatch {
    pub expected: String,
    pub found: String,
}

impl Mismatch {
    pub fn new(expected: impl Debug, found: impl Debug) -> Mismatch {
        Mismatch { expected: format!("{expected:?}"), found: format!("{found:?}") }
    }
}

/// Equal, or a mismatch that shows both.
pub fn same<T: PartialEq + Debug>(expected: &T, found: &T) -> Result<(), Mismatch> {
    if expected == found {
        Ok(())
    } else {
        Err(Mismatch::new(expected, found))
    }
}

/// What kinds of answers a case had, for the summary.
pub type Kinds = Vec<String>;

/// The answer of a product that lacks what a case asks for.
pub fn not_offered() -> Kinds {
    vec!["not offered".to_string()]
}

/// Something to put to a product. It shows itself for people.
pub trait Case: Clone + Display {
    /// Puts the case and judges what comes back.
    fn judge<P: Product>(&self, product: &mut P) -> Result<Kinds, Mismatch>;

    /// Smaller cases, the smallest first; each is strictly smaller, so that shrinking ends.
    fn smaller(&self) -> Box<dyn Iterator<Item = Self> + '_>;
}

/// A difference, with the smallest case that was found to show one.
#[derive(Clone, Debug)]
pub struct Difference {
    pub kind: &'static str,
    pub case: String,
    pub mismatch: Mismatch,
}

impl Display for Difference {
    fn fmt(&self, out: &mut fmt::Formatter) -> fmt::Result {
        let Difference { kind, case, mismatch } = self;
        writeln!(out, "difference in {kind}, smallest case:\n{}", case.trim_end())?;
        writeln!(out, "expected {}", mismatch.expected)?;
        write!(out, "found    {}", mismatch.found)
    }
}

/// Puts a case and counts it; a case that differs is made as small as can be.
pub fn put<P: Product, C: Case>(
    product: &mut P,
    kind: &'static str,
    case: C,
    summary: &mut Summary,
) -> Result<(), Difference> {
    match case.judge(product) {
        Ok(kinds) => {
            summary.count(kind, kinds);
            Ok(())
        }
        Err(mismatch) => {
            let (case, mismatch) = shrink(case, mismatch, |smaller| smaller.judge(product).err());
            Err(Difference { kind, case: case.to_string(), mismatch })
        }
    }
}
