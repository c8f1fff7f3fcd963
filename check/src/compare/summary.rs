//! Counts of the cases put, by kind and by what they answered.

use super::case::Kinds;
use std::collections::BTreeMap;
use std::fmt::{self, Display};

#[derive(Clone, Debug, Default)]
struct Row {
    cases: u64,
    answers: BTreeMap<String, u64>,
}

/// What was compared so far, in the order the kinds first came.
#[derive(Clone, Debug, Default)]
pub struct Summary {
    rows: Vec<(&'static str, Row)>,
}

impl Summary {
    pub fn count(&mut self, kind: &'static str, answers: Kinds) {
        let index = self.rows.iter().position(|(name, _)| *name == kind).unwrap_or_else(|| {
            self.rows.push((kind, Row::default()));
            self.rows.len() - 1
        });
        let row = &mut self.rows[index].1;
        row.cases += 1;
        for answer in answers {
            *row.answers.entry(answer).or_default() += 1;
        }
    }

    pub fn cases(&self) -> u64 {
        self.rows.iter().map(|(_, row)| row.cases).sum()
    }

    /// How often an answer came, over all kinds of cases.
    pub fn answers(&self, answer: &str) -> u64 {
        self.rows.iter().filter_map(|(_, row)| row.answers.get(answer)).sum()
    }
}

impl Display for Summary {
    fn fmt(&self, out: &mut fmt::Formatter) -> fmt::Result {
        for (kind, row) in &self.rows {
            let answers: Vec<String> = row.answers.iter().map(|(answer, count)| format!("{answer} {count}")).collect();
            writeln!(out, "{kind:<22}{:>7}  {}", row.cases, answers.join(", "))?;
        }
        Ok(())
    }
}
