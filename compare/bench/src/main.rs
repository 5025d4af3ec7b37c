//! Times of the six calls, of the library and of a rival made for speed.
//! Nothing is asserted about times; that both answer alike is.
//!
//! `bench [--csv FILE] [--plot FILE]`

mod calls;
mod plot;
mod report;
mod sheet;
mod timing;
mod workload;

use calls::{Measured, MeasuredCard, measure_all, measure_card, measure_read};
use plot::{Panel, curves};
use report::Row;
use sheet::{MeasuredSheet, measure_sheet};
use std::error::Error;
use std::fs;
use workload::{Workload, ambiguous_of, dense, tomato_of};

const ITEM_STEPS: [usize; 9] = [250, 500, 1_000, 2_000, 4_000, 8_000, 16_000, 32_000, 60_000];

fn main() -> Result<(), Box<dyn Error>> {
    let options = Options::from_arguments()?;
    println!("Nanoseconds a call, medians.\n");
    let table: Vec<Measured> = workload::all().iter().map(measure_all).collect();
    println!("{}", report::markdown(&table));
    let cards = workload::cards().map(measure_card);
    println!("{}", report::cards_markdown(&cards));
    let sheets = workload::sheets().each_ref().map(measure_sheet);
    println!("{}", report::sheets_markdown(&sheets));
    println!("{}", report::sheet_figure(&sheets[0]));
    let ambiguous = growth((1..=24).map(ambiguous_of));
    let tomato = growth((0..=11).map(tomato_of));
    let items = growth(ITEM_STEPS.map(dense).into_iter());
    let measured = table.iter().chain(&ambiguous).chain(&tomato).chain(&items);
    let mut rows: Vec<Row> = measured.flat_map(Measured::rows).collect();
    rows.extend(cards.iter().flat_map(MeasuredCard::rows));
    rows.extend(sheets.iter().map(MeasuredSheet::row));
    println!("{}", report::longest_markdown(&rows));
    if let Some(file) = &options.csv {
        fs::write(file, report::csv(&rows))?;
    }
    if let Some(file) = &options.plot {
        fs::write(file, plot::svg(&panels(&ambiguous, &tomato, &items)))?;
    }
    Ok(())
}

/// Measures a series and prints it.
fn growth(series: impl Iterator<Item = Workload>) -> Vec<Measured> {
    let list: Vec<Measured> = series.map(|workload| measure_read(&workload)).collect();
    println!("{}", report::growth_markdown(&list));
    list
}

fn panels(ambiguous: &[Measured], tomato: &[Measured], items: &[Measured]) -> [Panel; 2] {
    let mut by_words = Vec::from(curves("ambiguous", "#b03a2e", ambiguous, |m| m.words));
    by_words.extend(curves("tomato", "#1f618d", tomato, |m| m.words));
    let mut by_items = Vec::from(curves("ambiguous", "#b03a2e", ambiguous, |m| m.items));
    by_items.extend(curves("dense", "#1e8449", items, |m| m.items));
    [
        Panel {
            title: "Read: time and words",
            x_label: "words of the line",
            x_logarithmic: false,
            curves: by_words,
        },
        Panel {
            title: "Read: time and items",
            x_label: "derivable items",
            x_logarithmic: true,
            curves: by_items,
        },
    ]
}

#[derive(Default)]
struct Options {
    csv: Option<String>,
    plot: Option<String>,
}

impl Options {
    fn from_arguments() -> Result<Self, Box<dyn Error>> {
        let mut options = Options::default();
        let mut arguments = std::env::args().skip(1);
        while let Some(option) = arguments.next() {
            let value = arguments.next().ok_or("an option lacks its value")?;
            match option.as_str() {
                "--csv" => options.csv = Some(value),
                "--plot" => options.plot = Some(value),
                _ => return Err(format!("unknown option {option}").into()),
            }
        }
        Ok(options)
    }
}
