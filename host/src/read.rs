//! The reader, numbers 8 to 16: a plan run over a list of held parts.

use crate::answers::*;
use crate::book::*;
use crate::form::{improper, settings_proper};

/// The most events that are read.
pub const MOST_EVENTS: usize = 65_535;

const REFUSE: u8 = 0;
const TAKE: u8 = 1;
pub const GO_LEFT: u8 = 2;
const HOLD_RIGHT: u8 = 3;
const SKIP_LEFT: u8 = 4;
const GO_RIGHT: u8 = 5;

/// A plan taken apart: its settings and nodes, and its rows.
pub struct Plan<'a> {
    pub book: Book,
    pub cells: &'a [u8],
}

/// A held part: its node, and its label, 0 for none.
#[derive(Clone, Copy)]
struct Part {
    node: u16,
    label: u16,
}

/// A plan being run: the held parts, the last one held last, and the records so far; of the event or end under way the
/// parts that it has taken off, the one held last first, and how many it has left untouched.
struct Running<'a> {
    plan: &'a Plan<'a>,
    slots: usize,
    held: Vec<Part>,
    records: Vec<u16>,
    taken_off: Vec<Part>,
    untouched: usize,
}

/// Reads a run by a plan.
pub fn read(plan: &[u8], run: &[u8], held: &mut [u32], tree: &mut [u16]) -> Reading {
    let outcome = records_of(plan, run, held.len());
    held.fill(0);
    tree.fill(0);
    match outcome {
        Ok(records) if records.len() <= tree.len() => {
            tree[..records.len()].copy_from_slice(&records);
            reading(DONE, run.len(), records.len())
        }
        Ok(records) => reading(NO_ROOM, 0, records.len()),
        Err(refusal) => refusal,
    }
}

/// An answer of the reader that tells no stage and no kinds.
fn reading(number: u32, place: usize, records: usize) -> Reading {
    Reading {
        number,
        place: place as u32,
        records: records as u32,
        label: 0,
        expected: 0,
    }
}

/// Whether a run is refused in a walk that has held parts in the place of those that were taken off.
pub fn written_over(plan: &[u8], run: &[u8], slots: usize) -> bool {
    let Some(plan) = well_formed(plan) else {
        return false;
    };
    if improper_cell(&plan).is_some() || slots == 0 {
        return false;
    }
    let mut running = Running::of(&plan, slots);
    let refused = run.iter().find_map(|&kind| running.event(kind).err());
    refused == Some(UNEXPECTED) && running.held.len() > running.untouched
}

/// The records of an accepted run, or the refusal.
fn records_of(plan: &[u8], run: &[u8], slots: usize) -> Result<Vec<u16>, Reading> {
    let plan = well_formed(plan).ok_or(reading(PLAN_FORM, 0, 0))?;
    if let Some(place) = improper_cell(&plan) {
        return Err(reading(CELL, place, 0));
    }
    if run.len() > MOST_EVENTS {
        return Err(reading(LONG, 0, 0));
    }
    if slots == 0 {
        return Err(reading(DEEP, 0, 0));
    }
    let mut running = Running::of(&plan, slots);
    for (place, &kind) in run.iter().enumerate() {
        let outcome = running.event(kind);
        outcome.map_err(|number| running.refusal(number, place))?;
    }
    let outcome = running.end();
    outcome.map_err(|number| running.refusal(number, run.len()))?;
    Ok(running.records)
}

/// The plan taken apart, if its length, contents, settings and nodes are right.
fn well_formed(plan: &[u8]) -> Option<Plan<'_>> {
    let plan = taken_apart(plan)?;
    let right = (1..=MOST_NODES).contains(&plan.book.nodes.len())
        && settings_proper(&plan.book)
        && improper(&plan.book).is_none();
    right.then_some(plan)
}

/// The plan taken apart, if its contents are those of its number of nodes and kinds, and its length is by them.
pub fn taken_apart(plan: &[u8]) -> Option<Plan<'_>> {
    let contents = words_of(plan.get(..PLAN_SETTINGS)?);
    let rows_at = usize::from(contents[8]);
    let book = Book::of(plan.get(PLAN_SETTINGS..rows_at.max(PLAN_NODES))?);
    let cells = &plan[rows_at.max(PLAN_NODES)..];
    let count = book.nodes.len();
    let row_bytes = count * (usize::from(book.kinds) + 1);
    let nodes_bytes = NODE_BYTES * count;
    let due_bytes = DUE_BYTES * count;
    let fixed = [
        4,
        1,
        PLAN_SETTINGS,
        4,
        2,
        PLAN_NODES,
        nodes_bytes,
        3,
        PLAN_NODES + nodes_bytes,
        row_bytes,
        4,
        PLAN_NODES + nodes_bytes + row_bytes,
        due_bytes,
    ];
    let right = contents.iter().map(|&word| usize::from(word)).eq(fixed)
        && cells.len() == row_bytes + due_bytes;
    right.then(|| Plan {
        book,
        cells: &cells[..row_bytes],
    })
}

/// The first cell that its node's type never has.
fn improper_cell(plan: &Plan) -> Option<usize> {
    let width = usize::from(plan.book.kinds) + 1;
    (0..plan.cells.len()).find(|&at| {
        let cell = plan.cells[at];
        if at % width == width - 1 {
            cell > 1
        } else {
            !cells_of(plan.book.nodes[at / width].form).contains(&cell)
        }
    })
}

/// The kind cells that a node of this type may have.
pub fn cells_of(form: u16) -> &'static [u8] {
    match form {
        TOKEN => &[REFUSE, TAKE],
        EITHER => &[REFUSE, GO_LEFT, GO_RIGHT],
        THEN => &[REFUSE, HOLD_RIGHT, SKIP_LEFT],
        TAGGED | REF => &[REFUSE, GO_LEFT],
        _ => &[REFUSE],
    }
}

impl Plan<'_> {
    /// The row of a node.
    fn row(&self, own: u16) -> &[u8] {
        let width = usize::from(self.book.kinds) + 1;
        &self.cells[usize::from(own) * width..][..width]
    }

    /// The cell of a node for a kind.
    fn cell(&self, own: u16, kind: u8) -> u8 {
        self.row(own)[usize::from(kind)]
    }

    /// Whether a node is nullable by its row.
    fn nullable(&self, own: u16) -> bool {
        self.row(own)[usize::from(self.book.kinds)] == 1
    }
}

impl Running<'_> {
    /// A plan before the first event: the start is held.
    fn of<'a>(plan: &'a Plan<'a>, slots: usize) -> Running<'a> {
        Running {
            plan,
            slots,
            held: vec![Part {
                node: plan.book.start,
                label: 0,
            }],
            records: Vec::new(),
            taken_off: Vec::new(),
            untouched: 0,
        }
    }

    /// A refusal; 12, 13 and 14 tell the stage and the kinds that could have come, by the parts held before the event
    /// or the end.
    fn refusal(&self, number: u32, place: usize) -> Reading {
        let bare = reading(number, place, 0);
        if !matches!(number, UNKNOWN | UNEXPECTED | END) {
            return bare;
        }
        Reading {
            label: self.before().next().map_or(0, |part| part.label.into()),
            expected: self.expected(),
            ..bare
        }
    }

    /// The parts held before the event or the end, the one held last first.
    fn before(&self) -> impl Iterator<Item = &Part> {
        let untouched = self.held[..self.untouched].iter().rev();
        self.taken_off.iter().chain(untouched)
    }

    /// The kinds that could have come, by the rows: FIRST of the part that was held last before the event or the end, and
    /// while parts are nullable, FIRST of the next.
    fn expected(&self) -> u64 {
        let mut set = 0;
        for part in self.before() {
            for kind in 0..self.plan.book.kinds as u8 {
                if self.plan.cell(part.node, kind) != REFUSE {
                    set |= 1 << kind;
                }
            }
            if !self.plan.nullable(part.node) {
                break;
            }
        }
        set
    }

    /// Begins an event or the end: no part is taken off.
    fn begin(&mut self) {
        self.taken_off.clear();
        self.untouched = self.held.len();
    }

    /// Takes the part held last off.
    fn take_off(&mut self) -> Option<Part> {
        let part = self.held.pop()?;
        self.taken_off.push(part);
        self.untouched = self.held.len();
        Some(part)
    }

    /// Takes one event, or says which refusal it is.
    fn event(&mut self, kind: u8) -> Result<(), u32> {
        self.begin();
        if u16::from(kind) >= self.plan.book.kinds {
            return Err(UNKNOWN);
        }
        loop {
            let part = self.take_off().ok_or(UNEXPECTED)?;
            if self.plan.cell(part.node, kind) != REFUSE {
                return self.walk(part, kind);
            }
            if !self.plan.nullable(part.node) {
                return Err(UNEXPECTED);
            }
            self.records.push(part.node + EMPTY_RECORD);
        }
    }

    /// Walks from a part down to the event; the label is that of the innermost tagged node visited, at first the
    /// part's.
    fn walk(&mut self, part: Part, kind: u8) -> Result<(), u32> {
        let mut visited = part.node;
        let mut label = part.label;
        for _ in 0..self.plan.book.nodes.len() {
            let Node { form, left, right } = self.plan.book.nodes[usize::from(visited)];
            self.records.push(visited);
            if form == TAGGED {
                label = right;
            }
            match self.plan.cell(visited, kind) {
                TAKE => return Ok(()),
                GO_LEFT => visited = left,
                HOLD_RIGHT => {
                    self.hold(Part { node: right, label })?;
                    visited = left;
                }
                SKIP_LEFT => {
                    self.records.push(left + EMPTY_RECORD);
                    visited = right;
                }
                GO_RIGHT => visited = right,
                _ => return Err(UNEXPECTED),
            }
        }
        Err(RUNAWAY)
    }

    /// Holds a part, if a slot is free.
    fn hold(&mut self, part: Part) -> Result<(), u32> {
        if self.held.len() == self.slots {
            return Err(DEEP);
        }
        self.held.push(part);
        Ok(())
    }

    /// Takes all held parts off at the end.
    fn end(&mut self) -> Result<(), u32> {
        self.begin();
        while let Some(part) = self.take_off() {
            if !self.plan.nullable(part.node) {
                return Err(END);
            }
            self.records.push(part.node + EMPTY_RECORD);
        }
        Ok(())
    }
}
