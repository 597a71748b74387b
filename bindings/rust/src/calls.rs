//! Calls with values in and values out.
use crate::{error_of, raw, Error, NO_ROOM};
use std::fmt;

/// A value. A float is held by its bits; of references there is null to be given, and what one leads to is gone behind its call.
#[derive(Clone, Copy, Debug, PartialEq, Eq)]
pub enum Value {
    I32(i32),
    I64(i64),
    F32(u32),
    F64(u64),
    V128(u128),
    FuncRef { is_null: bool },
    ExternRef { is_null: bool },
    AnyRef { is_null: bool },
}

/// What bounds a call.
#[derive(Clone, Copy, Debug, PartialEq, Eq)]
pub struct Bounds {
    /// The fuel that there is; without it code consumes none.
    pub fuel: Option<u64>,
    /// How many instructions the start function, and then the call, may make, from 1 to 1,000,000,000 each.
    pub turns: u64,
    /// How many pages of 65,536 bytes all memories may have together.
    pub pages: u32,
    /// How many elements all tables may have together.
    pub elements: u32,
}

impl Default for Bounds {
    /// Those of a run whose words say nothing.
    fn default() -> Bounds {
        Bounds { fuel: None, turns: 1_000_000_000, pages: 16_384, elements: 10_000_000 }
    }
}

/// Why a call ended without results.
#[derive(Clone, Copy, Debug, PartialEq, Eq)]
pub enum Trap {
    MemoryOutOfBounds,
    TableOutOfBounds,
    IndirectCallToNull,
    BadSignature,
    IntegerDivisionByZero,
    IntegerOverflow,
    UnreachableCodeReached,
    StackOverflow,
    OutOfFuel,
    Interrupt,
}

/// Why a call was refused.
#[derive(Clone, Copy, Debug, PartialEq, Eq)]
pub enum Refusal {
    /// The module has imports, and there are none to give it.
    ImportCount,
    /// It has more memories, or tables, than a store may have.
    ResourceLimit,
    /// Its memories and tables begin with more pages, or elements, than the bounds leave.
    GrowFailed,
    /// As many turns were made as the bounds allow.
    TurnLimit,
    /// Another one, by its number in `mullerpink.h`.
    Other(u32),
}

/// Why a call has no results.
#[derive(Clone, Copy, Debug, PartialEq, Eq)]
pub enum CallError {
    Trap(Trap),
    Refused(Refusal),
    /// A reference that is not null was given.
    BadValue,
    /// No call was made, or memory ran out.
    Fault(Error),
}

impl fmt::Display for CallError {
    fn fmt(&self, f: &mut fmt::Formatter<'_>) -> fmt::Result {
        match self {
            CallError::Trap(trap) => write!(f, "trap {trap:?}"),
            CallError::Refused(refusal) => write!(f, "refused {refusal:?}"),
            CallError::BadValue => write!(f, "BadValue"),
            CallError::Fault(error) => write!(f, "{error}"),
        }
    }
}

impl std::error::Error for CallError {}

impl From<Value> for raw::Value {
    fn from(value: Value) -> raw::Value {
        let narrow = |kind, low: u64| raw::Value { kind, low, high: 0 };
        match value {
            Value::I32(number) => narrow(0, number as u32 as u64),
            Value::I64(number) => narrow(1, number as u64),
            Value::F32(bits) => narrow(2, bits as u64),
            Value::F64(bits) => narrow(3, bits),
            Value::V128(bits) => raw::Value { kind: 4, low: bits as u64, high: (bits >> 64) as u64 },
            // One that is not null has no value, and the library says so.
            Value::FuncRef { is_null } => narrow(5, !is_null as u64),
            Value::ExternRef { is_null } => narrow(6, !is_null as u64),
            Value::AnyRef { is_null } => narrow(7, !is_null as u64),
        }
    }
}

impl From<raw::Value> for Value {
    fn from(value: raw::Value) -> Value {
        let is_null = value.low == 0;
        match value.kind {
            0 => Value::I32(value.low as u32 as i32),
            1 => Value::I64(value.low as i64),
            2 => Value::F32(value.low as u32),
            3 => Value::F64(value.low),
            4 => Value::V128((value.high as u128) << 64 | value.low as u128),
            5 => Value::FuncRef { is_null },
            6 => Value::ExternRef { is_null },
            _ => Value::AnyRef { is_null },
        }
    }
}

fn trap_of(cause: u32) -> Trap {
    match cause {
        1 => Trap::MemoryOutOfBounds,
        2 => Trap::TableOutOfBounds,
        3 => Trap::IndirectCallToNull,
        4 => Trap::BadSignature,
        5 => Trap::IntegerDivisionByZero,
        6 => Trap::IntegerOverflow,
        7 => Trap::UnreachableCodeReached,
        8 => Trap::StackOverflow,
        9 => Trap::OutOfFuel,
        _ => Trap::Interrupt,
    }
}

fn refusal_of(cause: u32) -> Refusal {
    match cause {
        7 => Refusal::ImportCount,
        12 => Refusal::ResourceLimit,
        14 => Refusal::GrowFailed,
        21 => Refusal::TurnLimit,
        other => Refusal::Other(other),
    }
}

fn call_error(called: raw::Called) -> CallError {
    match called.code {
        14 => CallError::Trap(trap_of(called.cause)),
        15 => CallError::Refused(refusal_of(called.cause)),
        16 => CallError::BadValue,
        code => CallError::Fault(error_of(code)),
    }
}

fn raw_bounds(bounds: Bounds) -> raw::Bounds {
    raw::Bounds {
        has_fuel: bounds.fuel.is_some() as u32,
        pages: bounds.pages,
        elements: bounds.elements,
        fuel: bounds.fuel.unwrap_or(0),
        turns: bounds.turns,
    }
}

fn raw_values(values: &[Value]) -> Vec<raw::Value> {
    values.iter().map(|value| (*value).into()).collect()
}

/// What a call writes to room, in as much of it as it takes.
fn given<A: Clone>(none: A, mut write: impl FnMut(&mut [A]) -> raw::Called) -> Result<Vec<A>, CallError> {
    let mut room = vec![none.clone(); 64];
    loop {
        let called = write(&mut room);
        match called.code {
            0 => {
                room.truncate(called.count);
                return Ok(room);
            }
            NO_ROOM => room.resize(called.count, none.clone()),
            _ => return Err(call_error(called)),
        }
    }
}

/// The results of a call of the function that a module exports under `name`, on a new instance of the module.
pub fn call(module: &[u8], name: &str, arguments: &[Value], bounds: Bounds) -> Result<Vec<Value>, CallError> {
    let (arguments, bounds) = (raw_values(arguments), raw_bounds(bounds));
    let results = given(raw::Value::default(), |results| {
        raw::call(module, name.as_bytes(), &arguments, &bounds, results)
    })?;
    Ok(results.into_iter().map(Value::from).collect())
}

/// The bytes that the function answers which a module exports under `name`, where it is given these behind its arguments, on a
/// new instance of the module: `mullerpink.h` has what the module exports for it.
pub fn call_bytes(
    module: &[u8],
    name: &str,
    arguments: &[Value],
    bounds: Bounds,
    bytes: &[u8],
) -> Result<Vec<u8>, CallError> {
    let (arguments, bounds) = (raw_values(arguments), raw_bounds(bounds));
    given(0, |out| raw::call_bytes(module, name.as_bytes(), &arguments, &bounds, bytes, out))
}
