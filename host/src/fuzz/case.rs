//! A call with its arguments, made and compared.

use crate::book::bytes_of;
use crate::calls::lender::{Lender, Lending};
use crate::calls::{Answer, Argument, Call};
use std::fmt::{Debug, Display, Formatter, Result};

/// A call, its arguments, and how they are lent.
#[derive(Clone, PartialEq)]
pub struct Case {
    pub call: &'static Call,
    pub arguments: Vec<Argument>,
    pub lending: Lending,
}

impl Case {
    /// How large the arguments are together.
    pub fn size(&self) -> usize {
        self.arguments.iter().map(Argument::size).sum()
    }

    /// What the call must answer and leave behind.
    pub fn wanted(&self) -> Answer {
        (self.call.wanted)(&self.arguments)
    }

    /// What the call under test answers and leaves behind.
    pub fn given(&self, lender: &mut Lender) -> Answer {
        self.call.given(lender, &self.arguments, self.lending)
    }
}

impl Display for Case {
    /// The call with its bytes in hexadecimal.
    fn fmt(&self, f: &mut Formatter) -> Result {
        let Lending {
            edge,
            garbage,
            null,
            delivery,
        } = self.lending;
        let empty = if null { "null" } else { "any pointer" };
        let name = self.call.name;
        writeln!(
            f,
            "{name}, lent at the {edge:?}, garbage {garbage:02x}, empty parts as {empty}, delivered {delivery:?}"
        )?;
        for (sort, argument) in self.call.takes.iter().zip(&self.arguments) {
            match argument {
                Argument::Given(bytes) => write_bytes(f, sort.name, bytes)?,
                Argument::Words(words) => write_bytes(f, sort.name, &bytes_of(words))?,
                Argument::Room(room) => writeln!(f, "  {} of {room}", sort.name)?,
                Argument::Number(number) => writeln!(f, "  {} {number}", sort.name)?,
                Argument::Drums(drums) => {
                    writeln!(f, "  {} of {}", sort.name, drums.len())?;
                    for drum in drums {
                        writeln!(f, "    {:x?}", drum.words())?;
                    }
                }
            }
        }
        Ok(())
    }
}

impl Debug for Case {
    /// As it is displayed.
    fn fmt(&self, f: &mut Formatter) -> Result {
        Display::fmt(self, f)
    }
}

/// Writes bytes in hexadecimal.
fn write_bytes(f: &mut Formatter, name: &str, bytes: &[u8]) -> Result {
    write!(f, "  {name} ({} bytes) ", bytes.len())?;
    for byte in bytes {
        write!(f, "{byte:02x}")?;
    }
    writeln!(f)
}
