//! A whole sheet put to both, and its lines put to the library one by one.

use crate::timing::{Times, in_turn, measure};
use crate::workload::{FULL_ROOM, PLAN_ROOM, Workload};
use independent::answers::SheetAnswer;
use independent::chart;
use std::cell::RefCell;
use std::hint::black_box;

/// A sheet of equal lines, all of which are read.
pub struct SheetWorkload {
    pub line: Workload,
    pub lines: usize,
}

pub struct MeasuredSheet {
    pub name: String,
    /// Words and derivable items of all lines together.
    pub words: usize,
    pub items: usize,
    pub sheet: Times,
    pub by_line: LineByLine,
}

/// The library alone: nanoseconds of the sheet, and of Read and then Pairs for each of its lines.
pub struct LineByLine {
    pub sheet: f64,
    pub lines: f64,
}

impl LineByLine {
    /// How many times as long the sheet takes.
    pub fn ratio(&self) -> f64 {
        self.sheet / self.lines
    }
}

/// No sheet has more records: eleven pairs in each of 64 lines.
const OUTPUT_ROOM: usize = 3 * 11 * 64;

impl SheetWorkload {
    fn bytes(&self) -> Vec<u8> {
        [self.line.line.as_slice(), b"\n"]
            .concat()
            .repeat(self.lines)
    }

    /// Derivable items of one line.
    fn items_of_line(&self) -> usize {
        let Workload { card, line, .. } = &self.line;
        let mut room = vec![0; FULL_ROOM];
        let answer = chart::read(card, line, &mut room, &mut [0; PLAN_ROOM]);
        answer.items.into()
    }
}

pub fn measure_sheet(workload: &SheetWorkload) -> MeasuredSheet {
    let name = format!("sheet of {}: {}", workload.lines, workload.line.name);
    let mut chart = vec![0; FULL_ROOM];
    let mut output = [0; OUTPUT_ROOM];
    let (card, sheet) = (&workload.line.card, &workload.bytes());
    let library = linked::sheet(card, sheet, &mut chart, &mut output);
    let rival = chart::sheet(card, sheet, &mut chart, &mut output);
    assert_eq!([library.number, rival.number], [0; 2], "{name}");
    MeasuredSheet {
        name,
        words: workload.lines * workload.line.words,
        items: workload.lines * workload.items_of_line(),
        sheet: sheet_times(card, sheet),
        by_line: line_by_line(card, sheet),
    }
}

/// What all of them write to, so that none has it nearer.
struct Rooms {
    chart: Vec<u8>,
    output: [u8; OUTPUT_ROOM],
    plan: [u8; PLAN_ROOM],
}

fn rooms() -> RefCell<Rooms> {
    RefCell::new(Rooms {
        chart: vec![0; FULL_ROOM],
        output: [0; OUTPUT_ROOM],
        plan: [0; PLAN_ROOM],
    })
}

fn sheet_times(card: &[u8], sheet: &[u8]) -> Times {
    let rooms = rooms();
    measure(
        || put(card, sheet, &rooms, linked::sheet),
        || put(card, sheet, &rooms, chart::sheet),
    )
}

fn put(
    card: &[u8],
    sheet: &[u8],
    rooms: &RefCell<Rooms>,
    call: impl Fn(&[u8], &[u8], &mut [u8], &mut [u8]) -> SheetAnswer,
) {
    let Rooms { chart, output, .. } = &mut *rooms.borrow_mut();
    black_box(call(
        black_box(card),
        black_box(sheet),
        black_box(chart),
        black_box(output),
    ));
}

fn line_by_line(card: &[u8], sheet: &[u8]) -> LineByLine {
    let lines = independent::sheet::lines(sheet).expect("no more lines than a sheet has");
    let rooms = rooms();
    let [sheet, lines] = in_turn(
        || put(card, sheet, &rooms, linked::sheet),
        || {
            for line in &lines {
                read_and_pair(card, line, &rooms);
            }
        },
    );
    LineByLine { sheet, lines }
}

fn read_and_pair(card: &[u8], line: &[u8], rooms: &RefCell<Rooms>) {
    let Rooms {
        chart,
        output,
        plan,
    } = &mut *rooms.borrow_mut();
    let (card, line) = (black_box(card), black_box(line));
    let answer = linked::read(card, line, black_box(chart), black_box(plan));
    let plan = &plan[..4 * usize::from(answer.steps)];
    black_box(linked::pairs(card, line, plan, black_box(output)));
}
