//! Cases of matching circuits: those the product works out, and widths outside the bounds.

use super::case::{not_offered, same, Case, Kinds, Mismatch};
use super::product::Product;
use crate::generate::matching::{worked_out, WIDEST};
use std::fmt::{self, Display};

/// A width to ask for.
#[derive(Clone)]
pub struct WidthCase(u32);

/// The first widths and the last, and the nearest outside the bounds.
pub fn cases() -> impl Iterator<Item = WidthCase> {
    (0..=64).chain([WIDEST - 1, WIDEST, WIDEST + 1, u32::MAX]).map(WidthCase)
}

impl Case for WidthCase {
    fn judge<P: Product>(&self, product: &mut P) -> Result<Kinds, Mismatch> {
        let Some(found) = product.matching(self.0) else {
            return Ok(not_offered());
        };
        let expected = worked_out(self.0);
        same(&expected, &found)?;
        Ok(vec![match expected {
            Ok(_) => "circuit".to_string(),
            Err(number) => format!("refused {number}"),
        }])
    }

    fn smaller(&self) -> Box<dyn Iterator<Item = Self> + '_> {
        Box::new((0..self.0.min(WIDEST)).map(WidthCase))
    }
}

impl Display for WidthCase {
    fn fmt(&self, out: &mut fmt::Formatter) -> fmt::Result {
        writeln!(out, "width {}", self.0)
    }
}
