//! What the fields of a branch and of a call stand for.

use crate::program::Definition;
use crate::Row;

#[derive(Clone, Copy, PartialEq, Eq)]
pub enum Use {
    /// The field says nothing and has to be 0.
    Unused,
    Constant,
    /// A slot that is read.
    Read,
    /// A slot that is written.
    Write,
}

use Use::{Constant, Read, Unused, Write};

impl Use {
    pub fn is_slot(self) -> bool {
        matches!(self, Read | Write)
    }
}

const GUARDS: [[Use; 2]; 5] =
    [[Unused, Unused], [Read, Constant], [Read, Constant], [Read, Read], [Read, Read]];

const ACTIONS: [[Use; 3]; 8] = [
    [Unused, Unused, Unused],
    [Read, Read, Unused],
    [Read, Write, Unused],
    [Write, Unused, Unused],
    [Unused, Unused, Unused],
    [Write, Constant, Unused],
    [Write, Read, Read],
    [Write, Read, Read],
];

/// The actions whose types or targets have a rule of their own.
pub const SEND: i16 = 1;
pub const RECEIVE: i16 = 2;
pub const NEW: i16 = 3;
pub const SPAWN: i16 = 4;

pub fn action(branch: &Row) -> i16 {
    branch[4]
}

/// Some fields with the use of each.
#[derive(Clone, Copy)]
pub struct Operands<'a> {
    uses: &'static [Use],
    values: &'a [i16],
}

impl Operands<'_> {
    /// Whether all of them pass the test.
    pub fn all(&self, test: impl Fn(Use, i16) -> bool) -> bool {
        self.uses.iter().zip(self.values).all(|(usage, value)| test(*usage, *value))
    }

    /// The slots of this use, one bit for each.
    fn slots(&self, wanted: Use) -> u16 {
        let bit = |usage: Use, slot: i16| if usage == wanted { 1 << slot } else { 0 };
        self.uses.iter().zip(self.values).fold(0, |all, (usage, slot)| all | bit(*usage, *slot))
    }
}

/// The two operands of a guard, or nothing if there is no such guard.
pub fn of_guard(branch: &Row) -> Option<Operands<'_>> {
    let uses = GUARDS.get(usize::try_from(branch[1]).ok()?)?;
    Some(Operands { uses, values: &branch[2..4] })
}

/// The three operands of an action, or nothing if there is no such action.
pub fn of_action(branch: &Row) -> Option<Operands<'_>> {
    let uses = ACTIONS.get(usize::try_from(action(branch)).ok()?)?;
    Some(Operands { uses, values: &branch[5..8] })
}

/// The slots that a branch in range reads, or those that it writes, one bit for each.
pub fn slots(branch: &Row, wanted: Use) -> u16 {
    let slots = |operands: Option<Operands>| operands.map_or(0, |operands| operands.slots(wanted));
    slots(of_guard(branch)) | slots(of_action(branch))
}

/// The slots that a call hands over: one for each parameter of the called definition.
pub fn arguments<'a>(call: &'a Row, called: &Definition) -> &'a [i16] {
    &call[3..3 + called.parameters]
}

/// The same, one bit for each.
pub fn argument_slots(call: &Row, called: &Definition) -> u16 {
    arguments(call, called).iter().fold(0, |all, slot| all | 1 << slot)
}
