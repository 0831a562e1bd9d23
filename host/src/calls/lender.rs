//! Memory lent to the calls between closed pages: inputs that can only be read, and buffers.

use super::sorts::{Sort, Way};
use super::{Answer, Argument, Left};
use crate::board::Drum;
use crate::book::bytes_of;
use crate::ffi::lent::{Edge, Lent, Sealed};
use crate::program::Delivery;
use std::collections::HashMap;
use std::ptr::null_mut;

/// How a call's memory is lent, and how the input of a program is delivered.
#[derive(Clone, Copy, Debug, PartialEq, Eq)]
pub struct Lending {
    pub edge: Edge,
    /// What the buffers hold before the call.
    pub garbage: u8,
    /// Whether a part of length 0 is lent as a null pointer.
    pub null: bool,
    pub delivery: Delivery,
}

impl Lending {
    /// At this edge, with garbage in the buffers and no null pointer.
    pub fn at(edge: Edge) -> Lending {
        Lending {
            edge,
            garbage: 0xA5,
            null: false,
            delivery: Delivery::Whole,
        }
    }
}

/// A part of memory as C has it: where it begins, and how many elements it has; of a number, the number.
#[derive(Clone, Copy, Debug)]
pub struct Part {
    pub at: *mut u8,
    pub len: usize,
}

/// A call of the archive on parts of memory, one for each parameter; what its fields are.
pub type Raw = unsafe fn(&[Part]) -> Vec<u64>;

/// The memory of one sort.
enum Region {
    Sealed(Sealed),
    Drums(Lent<Drum>),
    Bytes(Lent<u8>),
    Words(Lent<u16>),
    Slots(Lent<u32>),
    None,
}

/// Memory for the calls, for each sort as much as is lent at most, made when it is first lent.
#[derive(Default)]
pub struct Lender {
    regions: HashMap<&'static str, Region>,
}

impl Lender {
    /// What a call answers to these arguments and leaves behind.
    pub fn call(
        &mut self,
        raw: Raw,
        takes: &[&'static Sort],
        arguments: &[Argument],
        lending: Lending,
    ) -> Answer {
        assert_eq!(
            takes.len(),
            arguments.len(),
            "an argument for each parameter"
        );
        let both = || takes.iter().zip(arguments);
        let parts: Vec<Part> = both()
            .map(|(sort, argument)| self.region(sort).lend(argument, lending))
            .collect();
        // SAFETY: each part is memory of its own, open for as many elements as its length says.
        let fields = unsafe { raw(&parts) };
        let mut answer = Answer::new(fields, Vec::new());
        for (sort, argument) in takes.iter().zip(arguments) {
            if let Argument::Room(_) | Argument::Drums(_) = argument {
                let region = self.region(sort);
                answer.left.push(region.left(argument.size(), lending.edge));
                answer.kept &= region.kept_beside(argument.size(), lending);
            }
        }
        answer
    }

    /// A part of memory for each of these arguments.
    pub fn parts(
        &mut self,
        takes: &[&'static Sort],
        arguments: &[Argument],
        lending: Lending,
    ) -> Vec<Part> {
        assert_eq!(takes.len(), arguments.len(), "one for each parameter");
        let both = takes.iter().zip(arguments);
        both.map(|(sort, argument)| self.region(sort).lend(argument, lending))
            .collect()
    }

    /// The memory of this sort.
    fn region(&mut self, sort: &Sort) -> &mut Region {
        self.regions
            .entry(sort.name)
            .or_insert_with(|| match sort.way {
                Way::Read(_) => Region::Sealed(Sealed::new(sort.most)),
                Way::ReadWords => Region::Sealed(Sealed::new(2 * sort.most)),
                Way::Drums => Region::Drums(Lent::new(sort.most)),
                Way::WriteBytes => Region::Bytes(Lent::new(sort.most)),
                Way::WriteWords => Region::Words(Lent::new(sort.most)),
                Way::WriteSlots => Region::Slots(Lent::new(sort.most)),
                Way::Number => Region::None,
            })
    }
}

impl Region {
    /// Lends a part for an argument.
    fn lend(&mut self, argument: &Argument, lending: Lending) -> Part {
        let Lending { edge, garbage, .. } = lending;
        let at = match (&mut *self, argument) {
            (Region::Sealed(sealed), Argument::Given(bytes)) => {
                sealed.put(bytes, edge).as_ptr().cast_mut()
            }
            (Region::Sealed(sealed), Argument::Words(words)) => {
                sealed.put(&bytes_of(words), edge).as_ptr().cast_mut()
            }
            (Region::Drums(lent), Argument::Drums(drums)) => {
                let part = lent.lend(garbage_drum(garbage), drums.len(), edge);
                part.copy_from_slice(drums);
                part.as_mut_ptr().cast()
            }
            (Region::Bytes(lent), &Argument::Room(room)) => {
                lent.lend(garbage, room, edge).as_mut_ptr()
            }
            (Region::Words(lent), &Argument::Room(room)) => {
                lent.lend(doubled(garbage), room, edge).as_mut_ptr().cast()
            }
            (Region::Slots(lent), &Argument::Room(room)) => {
                lent.lend(fourfold(garbage), room, edge).as_mut_ptr().cast()
            }
            (Region::None, Argument::Number(_)) => null_mut(),
            _ => panic!("an argument of another sort"),
        };
        let len = argument.size();
        let null = lending.null && len == 0;
        Part {
            at: if null { null_mut() } else { at },
            len,
        }
    }

    /// What a buffer of this length holds.
    fn left(&mut self, room: usize, edge: Edge) -> Left {
        match self {
            Region::Sealed(_) | Region::None => panic!("nothing is left where nothing is written"),
            Region::Drums(lent) => Left::Drums(lent.part(room, edge).to_vec()),
            Region::Bytes(lent) => Left::Bytes(lent.part(room, edge).to_vec()),
            Region::Words(lent) => Left::Words(lent.part(room, edge).to_vec()),
            Region::Slots(lent) => Left::Slots(lent.part(room, edge).to_vec()),
        }
    }

    /// Whether memory beside a buffer of this length was kept.
    fn kept_beside(&mut self, room: usize, lending: Lending) -> bool {
        let Lending { edge, garbage, .. } = lending;
        match self {
            Region::Sealed(_) | Region::None => true,
            Region::Drums(lent) => lent.kept_beside(garbage_drum(garbage), room, edge),
            Region::Bytes(lent) => lent.kept_beside(garbage, room, edge),
            Region::Words(lent) => lent.kept_beside(doubled(garbage), room, edge),
            Region::Slots(lent) => lent.kept_beside(fourfold(garbage), room, edge),
        }
    }
}

/// A drum of this byte again and again.
fn garbage_drum(byte: u8) -> Drum {
    Drum::filled(u32::from_le_bytes([byte; 4]))
}

/// A word of this byte twice.
fn doubled(byte: u8) -> u16 {
    u16::from_le_bytes([byte; 2])
}

/// A slot of this byte four times.
fn fourfold(byte: u8) -> u32 {
    u32::from_le_bytes([byte; 4])
}
