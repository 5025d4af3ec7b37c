//! The measurements as tables.

use crate::calls::{Measured, MeasuredCard};
use crate::sheet::MeasuredSheet;
use crate::timing::Times;

/// The main table, in Markdown: nanoseconds of the library, of the rival, and their ratio.
pub fn markdown(list: &[Measured]) -> String {
    let mut text = String::from(
        "| workload | number | words | items | Read: library | rival | ratio \
         | Check: library | rival | ratio | Pairs: library | rival | ratio |\n\
         |---|---|---|---|---|---|---|---|---|---|---|---|---|\n",
    );
    for measured in list {
        let [check, pairs] = match &measured.plan {
            Some(plan) => [cells(&plan.check), cells(&plan.pairs)],
            None => [String::from("– | – | –"), String::from("– | – | –")],
        };
        text += &format!(
            "| {} | {} | {} | {} | {} | {check} | {pairs} |\n",
            measured.name,
            measured.number,
            measured.words,
            measured.items,
            cells(&measured.read),
        );
    }
    text
}

/// The calls on a card alone, in Markdown.
pub fn cards_markdown(list: &[MeasuredCard]) -> String {
    let mut text = String::from(
        "| card | Card check: library | rival | ratio | Name: library | rival | ratio |\n\
         |---|---|---|---|---|---|---|\n",
    );
    for MeasuredCard {
        name,
        card_check,
        name_of_word,
    } in list
    {
        text += &format!(
            "| {name} | {} | {} |\n",
            cells(card_check),
            cells(name_of_word)
        );
    }
    text
}

/// Sheets, in Markdown: beside the rival, and beside the library's own calls on the lines.
pub fn sheets_markdown(list: &[MeasuredSheet]) -> String {
    let mut text = String::from(
        "| sheet | words | items | Sheet: library | rival | ratio \
         | library, Read and Pairs for each line | ratio |\n\
         |---|---|---|---|---|---|---|---|\n",
    );
    for measured in list {
        text += &format!(
            "| {} | {} | {} | {} | {:.0} | {:.2} |\n",
            measured.name,
            measured.words,
            measured.items,
            cells(&measured.sheet),
            measured.by_line.lines,
            measured.by_line.ratio(),
        );
    }
    text
}

/// The figure that a sheet is for.
pub fn sheet_figure(measured: &MeasuredSheet) -> String {
    format!(
        "The library's {} takes {:.2} times as long as Read and Pairs for each line: \
         {:.0} and {:.0}.\n",
        measured.name,
        measured.by_line.ratio(),
        measured.by_line.sheet,
        measured.by_line.lines,
    )
}

/// How Read grows, in Markdown.
pub fn growth_markdown(list: &[Measured]) -> String {
    let mut text = String::from(
        "| workload | words | items | Read: library | rival | ratio | library, ns an item |\n\
         |---|---|---|---|---|---|---|\n",
    );
    for measured in list {
        text += &format!(
            "| {} | {} | {} | {} | {:.0} |\n",
            measured.name,
            measured.words,
            measured.items,
            cells(&measured.read),
            measured.read.library / measured.items as f64,
        );
    }
    text
}

fn cells(times: &Times) -> String {
    format!(
        "{:.0} | {:.0} | {:.2}",
        times.library,
        times.rival,
        times.ratio()
    )
}

/// One call on one workload.
pub struct Row<'a> {
    workload: &'a str,
    call: &'static str,
    number: u16,
    /// Words and derivable items, where the call takes a line or a sheet.
    counts: Option<(usize, usize)>,
    times: &'a Times,
}

impl Measured {
    pub fn rows(&self) -> Vec<Row<'_>> {
        let row = |call, times| Row {
            workload: &self.name,
            call,
            number: self.number,
            counts: Some((self.words, self.items)),
            times,
        };
        let mut rows = vec![row("Read", &self.read)];
        if let Some(plan) = &self.plan {
            rows.extend([row("Check", &plan.check), row("Pairs", &plan.pairs)]);
        }
        rows
    }
}

impl MeasuredCard {
    pub fn rows(&self) -> Vec<Row<'_>> {
        let row = |call, times| Row {
            workload: &self.name,
            call,
            number: 0,
            counts: None,
            times,
        };
        vec![
            row("Card check", &self.card_check),
            row("Name", &self.name_of_word),
        ]
    }
}

impl MeasuredSheet {
    pub fn row(&self) -> Row<'_> {
        Row {
            workload: &self.name,
            call: "Sheet",
            number: 0,
            counts: Some((self.words, self.items)),
            times: &self.sheet,
        }
    }
}

/// For each call, the row where the library takes longest, in Markdown.
pub fn longest_markdown(rows: &[Row]) -> String {
    let mut text = String::from("| longest of each call | library | workload |\n|---|---|---|\n");
    for call in ["Card check", "Read", "Check", "Pairs", "Name", "Sheet"] {
        let of_call = rows.iter().filter(|row| row.call == call);
        let longest = of_call.max_by(|a, b| a.times.library.total_cmp(&b.times.library));
        let Row {
            workload, times, ..
        } = longest.expect("every call is measured");
        text += &format!("| {call} | {:.0} | {workload} |\n", times.library);
    }
    text
}

pub fn csv(rows: &[Row]) -> String {
    let mut text = String::from("workload,call,number,words,items,library_ns,rival_ns\n");
    for row in rows {
        let counts = row.counts.map_or(String::from(","), |(words, items)| {
            format!("{words},{items}")
        });
        text += &format!(
            "\"{}\",{},{},{counts},{:.1},{:.1}\n",
            row.workload, row.call, row.number, row.times.library, row.times.rival
        );
    }
    text
}
