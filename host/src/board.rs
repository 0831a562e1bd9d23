//! The drum board, numbers 17, 18 and 33: drums that are opened, given events and closed, by plans of four sections.

use crate::answers::*;
use crate::book::*;
use crate::due::{DUE_NODES, DUE_SETTINGS, MOST_DUE};
use crate::form::{improper, settings_proper};
use crate::read;

pub use crate::answers::Reading;

/// The holding slots of a drum.
pub const DRUM_SLOTS: usize = 64;

/// The drums that a board has at most; the list may be longer.
pub const MOST_DRUMS: u32 = 32;

/// The most events that a drum takes.
pub const MOST_EVENTS: u32 = 65_535;

/// The most records that a drum may claim.
pub const MOST_RECORDS: u32 = 67_042_305;

/// A drum as C has it: node and label of each held part, the label in the high half, and its counts.
#[repr(C)]
#[derive(Clone, Copy, Debug, PartialEq, Eq)]
pub struct Drum {
    pub slots: [u32; DRUM_SLOTS],
    pub held: u32,
    pub events: u32,
    pub records: u32,
    pub due: u32,
}

/// A plan taken apart: its settings and nodes, the row of each node, and its number of events due.
pub struct Plan<'a> {
    pub book: Book,
    rows: Vec<&'a [u8]>,
    due: Vec<u16>,
}

/// A held part: its node, and the label that it was held with.
#[derive(Clone, Copy)]
struct Held {
    node: u16,
    label: u16,
}

/// What a drum stands for: its held parts, the one held last at the end, and its counts.
struct State {
    held: Vec<Held>,
    events: u32,
    records: u32,
}

/// Opens a drum, or opens it afresh.
pub fn open(plan: &[u8], drums: &mut [Drum], number: u32) -> Reading {
    opened(plan, drums, number).unwrap_or_else(|refused| refused)
}

/// Gives a drum an event.
pub fn event(plan: &[u8], drums: &mut [Drum], number: u32, kind: u8) -> Reading {
    given(plan, drums, number, kind).unwrap_or_else(|refused| refused)
}

/// Closes a drum.
pub fn close(plan: &[u8], drums: &mut [Drum], number: u32) -> Reading {
    closed(plan, drums, number).unwrap_or_else(|refused| refused)
}

/// Opening: the start is held, and nothing was taken yet.
fn opened(plan: &[u8], drums: &mut [Drum], number: u32) -> Result<Reading, Reading> {
    let plan = Plan::of(plan)?;
    let drum = listed(drums, number)?;
    let start = State::at_start(&plan);
    *drum = start.drum(&plan);
    Ok(start.so_far())
}

/// An event: the drum goes on, or is idle.
fn given(plan: &[u8], drums: &mut [Drum], number: u32, kind: u8) -> Result<Reading, Reading> {
    let plan = Plan::of(plan)?;
    let drum = listed(drums, number)?;
    let before = State::of(drum, &plan)?;
    let after = before.taken(&plan, kind);
    *drum = after.as_ref().map_or(Drum::IDLE, |after| after.drum(&plan));
    after
        .map(|after| after.so_far())
        .map_err(|refusal| before.refused(&plan, refusal))
}

/// Closing: the drum is idle whatever the answer.
fn closed(plan: &[u8], drums: &mut [Drum], number: u32) -> Result<Reading, Reading> {
    let plan = Plan::of(plan)?;
    let drum = listed(drums, number)?;
    let state = State::of(drum, &plan)?;
    *drum = Drum::IDLE;
    if state.held.iter().all(|part| plan.nullable(part.node)) {
        let records = state.records + state.held.len() as u32;
        Ok(reading(DONE, state.events, records))
    } else {
        Err(state.refused(&plan, END))
    }
}

/// The drum of this number, or NO DRUM.
fn listed(drums: &mut [Drum], number: u32) -> Result<&mut Drum, Reading> {
    let listed = drums.get_mut(number as usize);
    listed
        .filter(|_| number < MOST_DRUMS)
        .ok_or(reading(NO_DRUM, 0, 0))
}

/// An answer that tells no label and no kinds.
fn reading(number: u32, place: u32, records: u32) -> Reading {
    Reading {
        number,
        place,
        records,
        label: 0,
        expected: 0,
    }
}

impl Drum {
    /// A drum that is not open.
    pub const IDLE: Drum = Drum {
        slots: [0; DRUM_SLOTS],
        held: 0,
        events: 0,
        records: 0,
        due: 0,
    };

    /// The drum with this number in all its fields.
    pub fn filled(value: u32) -> Drum {
        Drum {
            slots: [value; DRUM_SLOTS],
            held: value,
            events: value,
            records: value,
            due: value,
        }
    }

    /// Its fields in turn.
    pub fn words(&self) -> Vec<u32> {
        let counts = [self.held, self.events, self.records, self.due];
        [&self.slots[..], &counts].concat()
    }

    /// The drum with these fields in turn.
    pub fn of_words(words: &[u32]) -> Drum {
        let (slots, counts) = words.split_at(DRUM_SLOTS);
        Drum {
            slots: slots.try_into().expect("a number for each slot"),
            held: counts[0],
            events: counts[1],
            records: counts[2],
            due: counts[3],
        }
    }

    /// Whether it claims more than any drum can have under a plan of so many nodes.
    fn stale(&self, nodes: usize) -> bool {
        let Some(held) = self.slots.get(..self.held as usize) else {
            return true;
        };
        held.iter().any(|slot| slot % 65_536 >= nodes as u32)
            || self.events > MOST_EVENTS
            || self.records > MOST_RECORDS
    }
}

impl State {
    /// A drum just opened.
    fn at_start(plan: &Plan) -> State {
        let start = Held {
            node: plan.book.start,
            label: 0,
        };
        State {
            held: vec![start],
            events: 0,
            records: 0,
        }
    }

    /// What an open drum stands for; IDLE or STALE.
    fn of(drum: &Drum, plan: &Plan) -> Result<State, Reading> {
        if *drum == Drum::IDLE {
            return Err(reading(IDLE, 0, 0));
        }
        if drum.stale(plan.book.nodes.len()) {
            return Err(reading(STALE, 0, 0));
        }
        let held = drum.slots[..drum.held as usize].iter().map(|slot| Held {
            node: *slot as u16,
            label: (slot >> 16) as u16,
        });
        Ok(State {
            held: held.collect(),
            events: drum.events,
            records: drum.records,
        })
    }

    /// The drum that stands for this, with the events due by the plan.
    fn drum(&self, plan: &Plan) -> Drum {
        let mut drum = Drum {
            held: self.held.len() as u32,
            events: self.events,
            records: self.records,
            ..Drum::IDLE
        };
        for (slot, part) in drum.slots.iter_mut().zip(&self.held) {
            *slot = u32::from(part.label) << 16 | u32::from(part.node);
        }
        let due = self
            .held
            .iter()
            .map(|part| u32::from(plan.due[usize::from(part.node)]));
        drum.due = due.sum::<u32>().min(MOST_DUE.into());
        drum
    }

    /// The answer to an opening or an event that is taken.
    fn so_far(&self) -> Reading {
        reading(DONE, self.events, self.records)
    }

    /// The answer to a refusal by this number of what comes next, or of the end.
    fn refused(&self, plan: &Plan, number: u32) -> Reading {
        let place = if number == LONG { 0 } else { self.events };
        let bare = reading(number, place, 0);
        if !matches!(number, UNKNOWN | UNEXPECTED | END) {
            return bare;
        }
        Reading {
            label: self.held.last().map_or(0, |part| part.label.into()),
            expected: self.expected(plan),
            ..bare
        }
    }

    /// The kinds that could come next: FIRST of the part held last, and while parts are nullable, of the next.
    fn expected(&self, plan: &Plan) -> u64 {
        let mut set = 0;
        for part in self.held.iter().rev() {
            let kinds = (0..plan.book.kinds as u8).filter(|&kind| plan.cell(part.node, kind) != 0);
            set |= kinds.map(|kind| 1 << kind).sum::<u64>();
            if !plan.nullable(part.node) {
                break;
            }
        }
        set
    }

    /// What a drum stands for after an event, or the number of its refusal.
    fn taken(&self, plan: &Plan, kind: u8) -> Result<State, u32> {
        if self.events >= MOST_EVENTS {
            return Err(LONG);
        }
        if u16::from(kind) >= plan.book.kinds {
            return Err(UNKNOWN);
        }
        let mut after = State {
            held: self.held.clone(),
            events: self.events + 1,
            records: self.records,
        };
        loop {
            let part = after.held.pop().ok_or(UNEXPECTED)?;
            if plan.cell(part.node, kind) != 0 {
                after.walk(plan, part, kind)?;
                return Ok(after);
            }
            if !plan.nullable(part.node) {
                return Err(UNEXPECTED);
            }
            after.records += 1;
        }
    }

    /// Walks from a part that was taken off down to the event; a part is held with the label of the tagged node visited
    /// last, at first that of the part taken off.
    fn walk(&mut self, plan: &Plan, part: Held, kind: u8) -> Result<(), u32> {
        let Held {
            mut node,
            mut label,
        } = part;
        for _ in 0..plan.book.nodes.len() {
            let Node { form, left, right } = plan.book.nodes[usize::from(node)];
            self.records += 1;
            if form == TAGGED {
                label = right;
            }
            node = match plan.cell(node, kind) {
                1 => return Ok(()),
                2 => left,
                3 if self.held.len() == DRUM_SLOTS => return Err(DEEP),
                3 => {
                    self.held.push(Held { node: right, label });
                    left
                }
                4 => {
                    self.records += 1;
                    right
                }
                5 => right,
                _ => return Err(UNEXPECTED),
            };
        }
        Err(RUNAWAY)
    }
}

impl Plan<'_> {
    /// The plan that these bytes are; PLAN FORM or CELL.
    pub fn of(bytes: &[u8]) -> Result<Plan<'_>, Reading> {
        let plan = Plan::formed(bytes).ok_or(reading(PLAN_FORM, 0, 0))?;
        let cells = plan.rows.concat();
        let width = usize::from(plan.book.kinds) + 1;
        let bad = cells.iter().enumerate().position(|(at, &cell)| {
            let form = plan.book.nodes[at / width].form;
            !legal(form, at % width + 1 == width, cell)
        });
        match bad {
            Some(place) => Err(reading(CELL, place as u32, 0)),
            None => Ok(plan),
        }
    }

    /// The plan that these bytes are, if length, contents, settings and nodes are right.
    fn formed(bytes: &[u8]) -> Option<Plan<'_>> {
        let kinds = usize::from(*words_of(bytes.get(DUE_SETTINGS..DUE_NODES)?).first()?);
        let a_node = NODE_BYTES + kinds + 1 + 2;
        let count = (bytes.len() - DUE_NODES) / a_node;
        let rows_at = DUE_NODES + NODE_BYTES * count;
        let due_at = rows_at + count * (kinds + 1);
        let contents = [
            [1, DUE_SETTINGS, 4],
            [2, DUE_NODES, NODE_BYTES * count],
            [3, rows_at, count * (kinds + 1)],
            [4, due_at, 2 * count],
        ];
        let contents = std::iter::once(4).chain(contents.concat());
        let right = (1..=MOST_NODES).contains(&count)
            && bytes.len() == due_at + 2 * count
            && contents.eq(words_of(&bytes[..DUE_SETTINGS])
                .into_iter()
                .map(usize::from));
        if !right {
            return None;
        }
        let book = Book::of(&bytes[DUE_SETTINGS..rows_at]);
        let right = settings_proper(&book) && improper(&book).is_none();
        right.then(|| Plan {
            book,
            rows: bytes[rows_at..due_at].chunks_exact(kinds + 1).collect(),
            due: words_of(&bytes[due_at..]),
        })
    }

    /// The cell of a node for a kind.
    fn cell(&self, node: u16, kind: u8) -> u8 {
        self.rows[usize::from(node)][usize::from(kind)]
    }

    /// Whether a node is nullable by its row.
    fn nullable(&self, node: u16) -> bool {
        self.rows[usize::from(node)].last() == Some(&1)
    }
}

/// Whether a node of this type may have this cell.
pub fn legal(form: u16, last: bool, cell: u8) -> bool {
    match (form, cell) {
        (_, 0) => true,
        (_, cell) if last => cell == 1,
        (TOKEN, 1) | (EITHER, 2 | 5) | (THEN, 3 | 4) | (TAGGED | REF, 2) => true,
        _ => false,
    }
}

/// What a whole reading of a run answers, with 64 slots and room enough, by the independent reader.
pub fn whole(plan: &[u8], run: &[u8]) -> Reading {
    let nodes = match Plan::of(plan) {
        Ok(plan) => plan.book.nodes.len(),
        Err(refused) => return refused,
    };
    let mut tree = vec![0; (2 * nodes + DRUM_SLOTS) * (run.len() + 1)];
    read::read(plan, run, &mut [0; DRUM_SLOTS], &mut tree)
}

#[cfg(test)]
mod tests {
    use super::*;
    use crate::books::drums::good_due_plan;
    use crate::books::examples::{nesting, rinse};
    use crate::books::limits::nested_run;
    use crate::books::loose::good_book;
    use crate::books::random::Random;
    use crate::books::runs::{any_run, Heights};
    use crate::due::due_plan;
    use crate::pending::check_held;
    use crate::worked_board::{worked_drum, worked_stages, Asked};

    /// Makes a call.
    fn ask(plan: &[u8], drums: &mut [Drum], drum: u32, asked: Asked) -> Reading {
        match asked {
            Asked::Open => open(plan, drums, drum),
            Asked::Event(kind) => event(plan, drums, drum, kind),
            Asked::Close => close(plan, drums, drum),
        }
    }

    /// The worked drums.
    #[test]
    fn worked_drums() {
        worked_drum(ask);
        worked_stages(ask);
    }

    /// The held parts and their stages are those still due by derivations.
    #[test]
    fn held_by_derivations() {
        check_held(ask, 1, 1_000);
    }

    /// Plan, drum's number, idle, stale and too many events, in this order; an opening asks for the first two only.
    #[test]
    fn order_of_refusals() {
        let plan = due_plan(&rinse());
        let claims = |events| Drum {
            events,
            ..Drum::IDLE
        };
        let number = |plan: &[u8], drum, at, asked| ask(plan, &mut [drum; 40], at, asked).number;
        let event = Asked::Event(9);
        assert_eq!(number(&plan[1..], claims(65_536), 32, event), PLAN_FORM);
        assert_eq!(number(&plan, claims(65_536), 32, event), NO_DRUM);
        assert_eq!(number(&plan, claims(0), 31, event), IDLE);
        assert_eq!(number(&plan, claims(65_536), 31, event), STALE);
        assert_eq!(number(&plan, claims(65_535), 31, event), LONG);
        assert_eq!(number(&plan, claims(65_534), 31, event), UNKNOWN);
        assert_eq!(number(&plan, claims(65_535), 31, Asked::Close), DONE);
        assert_eq!(number(&plan, claims(65_536), 31, Asked::Open), DONE);
        assert_eq!(open(&plan, &mut [Drum::IDLE; 3], 3).number, NO_DRUM);
    }

    /// The 65th part that must be held is DEEP.
    #[test]
    fn depth() {
        let plan = due_plan(&nesting());
        for (pairs, number) in [(63, DONE), (64, DONE), (65, DEEP)] {
            let mut drums = [Drum::IDLE];
            open(&plan, &mut drums, 0);
            let run = nested_run(pairs);
            let mut numbers = run
                .iter()
                .map(|&kind| event(&plan, &mut drums, 0, kind).number);
            let refused = numbers.find(|&number| number != DONE);
            assert_eq!(refused.unwrap_or(DONE), number, "{pairs} pairs");
            assert_eq!(whole(&plan, &run).number, number, "{pairs} pairs");
        }
    }

    /// Open, events and close answer as a whole reading does.
    #[test]
    fn answers_as_readings() {
        let mut random = Random::new(6);
        let mut tally = Tally::default();
        for _ in 0..5_000 {
            let book = good_book(&mut random);
            let plan = good_due_plan(&mut random, &book);
            let run = any_run(&mut random, &book, &Heights::of(&book));
            let mut drums = [Drum::filled(7)];
            open(&plan, &mut drums, 0);
            let refused = run
                .iter()
                .map(|&kind| event(&plan, &mut drums, 0, kind))
                .find(|reading| reading.number != DONE);
            let last = refused.unwrap_or_else(|| close(&plan, &mut drums, 0));
            assert_eq!(last, whole(&plan, &run), "run {run:?} of {plan:?}");
            tally.count(last.number);
        }
        tally.expect(&[DONE, UNKNOWN, UNEXPECTED, END], 300);
        tally.expect(&[RUNAWAY], 50);
    }
}
