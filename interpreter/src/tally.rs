//! Counts over a set of cases: answers, kinds of rows, sizes.

use crate::cases::{evaluate, Case};
use crate::form::Form;
use crate::table::rows_of;
use crate::text;
use std::collections::BTreeMap;
use std::fmt::Write;

#[derive(Default)]
pub struct Tally {
    pub cases: usize,
    pub bytes: usize,
    /// Endings, and refusals by number.
    pub answers: BTreeMap<String, usize>,
    /// Rows of each kind in accepted programs.
    pub kinds: BTreeMap<i32, usize>,
    /// Accepted programs that hold the kind.
    pub programs_with: BTreeMap<i32, usize>,
    pub accepted: usize,
    pub rows: usize,
    pub most_rows: usize,
    pub steps: u64,
    pub most_steps: u32,
}

impl Tally {
    pub fn add(&mut self, form: Form, case: &Case) {
        self.cases += 1;
        self.bytes += case.text.len();
        let answer = match evaluate(form, case) {
            Ok((outcome, _)) => {
                self.steps += u64::from(outcome.count);
                self.most_steps = self.most_steps.max(outcome.count);
                self.add_rows(form, &case.text);
                outcome.ending.name().to_string()
            }
            Err(refusal) => format!("refused {:2}", refusal.number),
        };
        *self.answers.entry(answer).or_default() += 1;
    }

    fn add_rows(&mut self, form: Form, bytes: &[u8]) {
        let Ok((_, words)) = text::read(form, bytes) else { return };
        let rows = rows_of(&words);
        self.accepted += 1;
        self.rows += rows.len();
        self.most_rows = self.most_rows.max(rows.len());
        let mut own: BTreeMap<i32, usize> = BTreeMap::new();
        for row in rows {
            *own.entry(row[0]).or_default() += 1;
        }
        for (kind, count) in own {
            *self.kinds.entry(kind).or_default() += count;
            *self.programs_with.entry(kind).or_default() += 1;
        }
    }

    pub fn report(&self) -> String {
        let mut report = String::new();
        let _ = writeln!(report, "cases {}, bytes of text {}", self.cases, self.bytes);
        let mean = self.rows / self.accepted.max(1);
        let _ = writeln!(
            report,
            "accepted {}, rows {} (mean {mean}, most {}), steps {} (most {})",
            self.accepted, self.rows, self.most_rows, self.steps, self.most_steps
        );
        for (answer, count) in &self.answers {
            let percent = *count as f64 * 100.0 / self.cases as f64;
            let _ = writeln!(report, "{answer}: {count} ({percent:.1}%)");
        }
        for (kind, count) in &self.kinds {
            let programs = self.programs_with[kind];
            let _ = writeln!(report, "kind {kind}: {count} rows in {programs} programs");
        }
        report
    }
}
