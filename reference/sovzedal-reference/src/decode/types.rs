//! The table of types: cause 5.

use super::fields::TYPE_BYTES;
use crate::refusal::{Cause, Refusal};
use crate::set::Set;
use crate::sheet::{FunctionType, Type};

const MAX_DEPTH: u8 = 12;

pub fn decode(content: &[u8]) -> Result<Vec<Type>, Refusal> {
    let mut table = Table::default();
    for (place, record) in content.chunks_exact(TYPE_BYTES).enumerate() {
        table
            .push(record)
            .ok_or(Cause::TypeRecord.at(place as u32))?;
    }
    Ok(table.types)
}

/// The types read so far, and how deep each is nested.
#[derive(Default)]
struct Table {
    types: Vec<Type>,
    depths: Vec<u8>,
}

impl Table {
    /// Adds the next record, or gives `None` if it is at fault.
    fn push(&mut self, record: &[u8]) -> Option<()> {
        let ty = parse(record)?;
        let depth = match (self.types.len(), ty) {
            (0, Type::Bool) | (1, Type::Number) => 0,
            (2.., Type::Function(function)) => self.depth_of(function)?,
            _ => return None,
        };
        if depth > MAX_DEPTH || self.types.contains(&ty) {
            return None;
        }
        self.types.push(ty);
        self.depths.push(depth);
        Some(())
    }

    /// How deep `function` is nested, if its parts are earlier types.
    fn depth_of(&self, function: FunctionType) -> Option<u8> {
        let argument = self.depths.get(usize::from(function.argument))?;
        let result = self.depths.get(usize::from(function.result))?;
        Some(1 + argument.max(result))
    }
}

fn parse(record: &[u8]) -> Option<Type> {
    let &[kind, 0, a1, a0, r1, r0, l3, l2, l1, l0] = record else {
        return None;
    };
    let function = FunctionType {
        argument: u16::from_be_bytes([a1, a0]),
        result: u16::from_be_bytes([r1, r0]),
        latent: Set::from_bits(u32::from_be_bytes([l3, l2, l1, l0])),
    };
    let rest_is_zero = record[1..].iter().all(|&byte| byte == 0);
    match kind {
        0 if rest_is_zero => Some(Type::Bool),
        1 if rest_is_zero => Some(Type::Number),
        2 => Some(Type::Function(function)),
        _ => None,
    }
}
