//! One workload put to both.

use crate::timing::{Times, measure};
use crate::workload::{FULL_ROOM, PLAN_ROOM, Workload};
use independent::answers::ReadAnswer;
use independent::chart;
use independent::write::CardText;
use std::hint::black_box;

pub struct Measured {
    pub name: String,
    pub words: usize,
    /// Derivable items, also where the room does not hold them.
    pub items: usize,
    pub number: u16,
    pub read: Times,
    /// Check and Pairs, where there is a plan.
    pub plan: Option<PlanTimes>,
}

pub struct PlanTimes {
    pub check: Times,
    pub pairs: Times,
}

/// The calls on a card alone.
pub struct MeasuredCard {
    pub name: String,
    pub card_check: Times,
    pub name_of_word: Times,
}

/// Read alone.
pub fn measure_read(workload: &Workload) -> Measured {
    let (answer, _) = answers(workload);
    Measured {
        name: workload.name.clone(),
        words: workload.words,
        items: derivable(workload),
        number: answer.number,
        read: read_times(workload),
        plan: None,
    }
}

/// Read, and Check and Pairs where there is a plan.
pub fn measure_all(workload: &Workload) -> Measured {
    let (answer, plan) = answers(workload);
    let plan_times = || PlanTimes {
        check: check_times(workload, &plan),
        pairs: pairs_times(workload, &plan),
    };
    Measured {
        plan: (answer.number == 0).then(plan_times),
        ..measure_read(workload)
    }
}

/// The card check, and Name for the card's last word. The card has to be accepted.
pub fn measure_card((name, text): (&str, CardText)) -> MeasuredCard {
    let card = &text.bytes();
    let last = text.words.len() - 1;
    let library = (linked::card_check(card), linked::name(card, last).0);
    let rival = (chart::card_check(card).into(), chart::name(card, last));
    assert_eq!(library, rival, "{name}");
    assert_eq!(library.0, 0, "{name}");
    MeasuredCard {
        name: format!("{name}, {} bytes", card.len()),
        card_check: card_check_times(card),
        name_of_word: name_times(card, last),
    }
}

/// Both answers, which have to be equal, and the rival's plan.
fn answers(workload: &Workload) -> (ReadAnswer, Vec<u8>) {
    let Workload { card, line, .. } = workload;
    let mut chart = vec![0; workload.chart_room];
    let mut plan = vec![0; PLAN_ROOM];
    let library = linked::read(card, line, &mut chart, &mut plan);
    let rival = chart::read(card, line, &mut chart, &mut plan);
    assert_eq!(library, rival, "{}", workload.name);
    plan.truncate(4 * usize::from(rival.steps));
    (rival, plan)
}

fn derivable(workload: &Workload) -> usize {
    let mut room = vec![0; FULL_ROOM];
    let answer = chart::read(
        &workload.card,
        &workload.line,
        &mut room,
        &mut [0; PLAN_ROOM],
    );
    answer.items.into()
}

fn read_times(workload: &Workload) -> Times {
    let Workload { card, line, .. } = workload;
    // Both use the same rooms, so that neither has them nearer.
    let chart = std::cell::RefCell::new(vec![0; workload.chart_room]);
    let plan = std::cell::RefCell::new([0; PLAN_ROOM]);
    measure(
        || {
            black_box(linked::read(
                black_box(card),
                black_box(line),
                black_box(&mut chart.borrow_mut()),
                black_box(&mut *plan.borrow_mut()),
            ));
        },
        || {
            black_box(chart::read(
                black_box(card),
                black_box(line),
                black_box(&mut chart.borrow_mut()),
                black_box(&mut *plan.borrow_mut()),
            ));
        },
    )
}

fn check_times(workload: &Workload, plan: &[u8]) -> Times {
    let Workload { card, line, .. } = workload;
    measure(
        || {
            black_box(linked::check(
                black_box(card),
                black_box(line),
                black_box(plan),
            ));
        },
        || {
            black_box(chart::check(
                black_box(card),
                black_box(line),
                black_box(plan),
            ));
        },
    )
}

fn pairs_times(workload: &Workload, plan: &[u8]) -> Times {
    let Workload { card, line, .. } = workload;
    let mut library_room = [0; PLAN_ROOM];
    let mut rival_room = [0; PLAN_ROOM];
    measure(
        || {
            black_box(linked::pairs(
                black_box(card),
                black_box(line),
                black_box(plan),
                black_box(&mut library_room),
            ));
        },
        || {
            black_box(chart::pairs(
                black_box(card),
                black_box(line),
                black_box(plan),
                black_box(&mut rival_room),
            ));
        },
    )
}

fn card_check_times(card: &[u8]) -> Times {
    measure(
        || {
            black_box(linked::card_check(black_box(card)));
        },
        || {
            black_box(chart::card_check(black_box(card)));
        },
    )
}

fn name_times(card: &[u8], word: usize) -> Times {
    measure(
        || {
            black_box(linked::name(black_box(card), black_box(word)));
        },
        || {
            black_box(chart::name(black_box(card), black_box(word)));
        },
    )
}
