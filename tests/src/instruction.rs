//! Instructions and their decoding (manual 5.2.4; 01, "What the machine serves at first").

use crate::switch_table::SwitchTable;

/// What an operand's offset counts from.
#[derive(Clone, Copy, Debug, PartialEq, Eq)]
pub enum Base {
    /// FP (_L)
    Local,
    /// GP (_G)
    Global,
    /// The constants (_T)
    Constant,
    /// An address popped from the stack (_F)
    Pointer,
}

#[derive(Clone, Copy, Debug, PartialEq, Eq)]
pub enum Width {
    One,
    /// After DOUBLE
    Two,
}

/// Operations that pop Y, pop X and push one word.
#[derive(Clone, Copy, Debug, PartialEq, Eq)]
pub enum Operator {
    AddI,
    SubI,
    MulI,
    DivI,
    ModI,
    AddU,
    SubU,
    MulU,
    DivU,
    ModU,
    AddS,
    SubS,
    MulS,
    Equ,
    Neq,
    LesI,
    GrtI,
    LeqI,
    GeqI,
    LesU,
    GrtU,
    LeqU,
    GeqU,
    LeqS,
    GeqS,
    Test,
}

/// A decoded instruction. Jump targets are code offsets and may lie outside the code. A library is
/// the number that stands in the code: of the import list in a record, of the module in the copy.
#[derive(Clone, Copy, Debug, PartialEq, Eq)]
pub enum Instruction {
    LoadConstant(u32),
    Load(Base, u32, Width),
    LoadAddress(Base, u32),
    Store(Base, u32, Width),
    /// LOAD_E, LOAD_A_E and STOR_E: library and offset from its globals.
    LoadExternal(u32, u32),
    LoadAddressExternal(u32, u32),
    StoreExternal(u32, u32),
    Pop(u32),
    Swap,
    Nop,
    Binary(Operator),
    NegI,
    Neg,
    Alloc,
    Free,
    Jump(i32),
    JumpC(i32),
    JumpT(i32),
    JumpF(i32),
    Iter {
        exit: i32,
    },
    Next,
    /// SWITCH and SWITCH_X
    Switch(SwitchTable),
    Leave,
    Call(u32),
    /// CALL_E: library and procedure.
    CallExternal(u32, u32),
    Enter {
        parameters: u32,
        locals: u32,
    },
    Rtn,
}

impl Instruction {
    /// LOAD_E, LOAD_A_E, STOR_E or CALL_E: its library byte is the one after the opcode.
    pub fn is_external(self) -> bool {
        use Instruction::*;
        matches!(
            self,
            LoadExternal(..) | LoadAddressExternal(..) | StoreExternal(..) | CallExternal(..)
        )
    }
}

/// Why there is no instruction at a place.
#[derive(Clone, Copy, Debug, PartialEq, Eq)]
pub enum Fault {
    Unserved,
    /// The bytes end before the instruction does.
    Past,
}

/// What is done with a decoded instruction; `next` is the place after it.
///
/// Decoding hands each opcode's instruction on from its own arm, so that an interpreter needs no
/// second dispatch.
pub trait Visitor: Sized {
    type Output;
    type Error: From<Fault>;
    fn visit(self, instruction: Instruction, next: usize) -> Result<Self::Output, Self::Error>;
}

/// Answers the instruction itself.
struct Decode;

impl Visitor for Decode {
    type Output = (Instruction, usize);
    type Error = Fault;

    fn visit(self, instruction: Instruction, next: usize) -> Result<Self::Output, Fault> {
        Ok((instruction, next))
    }
}

/// The instruction at `place` and the place after it. No byte from `limit` on is used.
pub fn decode(code: &[u8], limit: usize, place: usize) -> Result<(Instruction, usize), Fault> {
    visit(code, limit, place, Decode)
}

/// Hands the instruction at `place` to a visitor. The opcode (and mode) decides before the
/// operand bytes are asked for.
#[inline(always)]
pub fn visit<V: Visitor>(
    code: &[u8],
    limit: usize,
    place: usize,
    visitor: V,
) -> Result<V::Output, V::Error> {
    use Instruction::*;
    use Operator::*;
    let code = &code[..limit];
    let opcode = byte(code, place)?;
    let after = place + 1;
    let low = opcode & 15;
    match opcode {
        0x00..=0x0f => visitor.visit(LoadConstant(low), after),
        0x10..=0x6f | 0x80 | 0x81 | 0x85..=0x88 | 0x94..=0x97 => {
            access(code, opcode, after, Width::One, visitor)
        }
        0x71..=0x7f => visitor.visit(Call(low), after),
        0x82 => visitor.visit(LoadConstant(signed_byte(code, after)? as u32), after + 1),
        0x83 => visitor.visit(LoadConstant(signed_half(code, after)? as u32), after + 2),
        0x84 => {
            let value = (half(code, after)? << 16) | half(code, after + 2)?;
            visitor.visit(LoadConstant(value), after + 4)
        }
        0x89 | 0x91 | 0x98 | 0xe6 => {
            let (library, operand) = (byte(code, after)?, byte(code, after + 1)?);
            external(opcode, library, operand, after + 2, visitor)
        }
        0x8d => visitor.visit(LoadAddress(Base::Local, byte(code, after)?), after + 1),
        0x8e => visitor.visit(LoadAddress(Base::Global, byte(code, after)?), after + 1),
        0x8f => visitor.visit(LoadAddress(Base::Pointer, byte(code, after)?), after + 1),
        0x90 => visitor.visit(LoadAddress(Base::Pointer, half(code, after)?), after + 2),
        0x92 => visitor.visit(LoadAddress(Base::Constant, byte(code, after)?), after + 1),
        0x93 => visitor.visit(LoadAddress(Base::Constant, half(code, after)?), after + 2),
        0x9e => visitor.visit(Pop(byte(code, after)?), after + 1),
        0x9f => visitor.visit(Swap, after),
        0xa0 => visitor.visit(Binary(AddI), after),
        0xa1 => visitor.visit(Binary(SubI), after),
        0xa2 => visitor.visit(Binary(MulI), after),
        0xa3 => visitor.visit(Binary(DivI), after),
        0xa5 => visitor.visit(Binary(ModI), after),
        0xa6 => visitor.visit(NegI, after),
        0xa8 => visitor.visit(Binary(AddU), after),
        0xa9 => visitor.visit(Binary(SubU), after),
        0xaa => visitor.visit(Binary(MulU), after),
        0xab => visitor.visit(Binary(DivU), after),
        0xad => visitor.visit(Binary(ModU), after),
        0xb8 => visitor.visit(Binary(AddS), after),
        0xb9 => visitor.visit(Binary(SubS), after),
        0xba => visitor.visit(Binary(MulS), after),
        0xbe => visitor.visit(Binary(Equ), after),
        0xbf => visitor.visit(Binary(Neq), after),
        0xc0 => visitor.visit(Binary(LesI), after),
        0xc1 => visitor.visit(Binary(GrtI), after),
        0xc2 => visitor.visit(Binary(LeqI), after),
        0xc3 => visitor.visit(Binary(GeqI), after),
        0xc4 => visitor.visit(Binary(LesU), after),
        0xc5 => visitor.visit(Binary(GrtU), after),
        0xc6 => visitor.visit(Binary(LeqU), after),
        0xc7 => visitor.visit(Binary(GeqU), after),
        0xd0 => visitor.visit(Binary(LeqS), after),
        0xd1 => visitor.visit(Binary(GeqS), after),
        0xd2 => visitor.visit(Binary(Test), after),
        0xd7 => visitor.visit(Neg, after),
        0xd8 => visitor.visit(Alloc, after),
        0xd9 => visitor.visit(Free, after),
        0xda => visitor.visit(Jump(place as i32 + signed_byte(code, after)?), after + 1),
        0xdb => visitor.visit(Jump(place as i32 + signed_half(code, after)?), after + 2),
        0xdc => visitor.visit(JumpC(place as i32 + signed_byte(code, after)?), after + 1),
        0xdd => visitor.visit(JumpC(place as i32 + signed_half(code, after)?), after + 2),
        0xde => visitor.visit(JumpT(place as i32 + byte(code, after)? as i32), after + 1),
        0xdf => visitor.visit(JumpF(place as i32 + byte(code, after)? as i32), after + 1),
        0xe0 => visitor.visit(Iter { exit: place as i32 + half(code, after)? as i32 }, after + 2),
        0xe1 => visitor.visit(Next, after),
        0xe2 | 0xe3 => {
            let table = SwitchTable { place, entries: half(code, after)?, ranges: opcode == 0xe3 };
            let next = place + table.length();
            if next > limit {
                return Err(Fault::Past.into());
            }
            visitor.visit(Switch(table), next)
        }
        0xe4 => visitor.visit(Leave, after),
        0xe5 => visitor.visit(Call(byte(code, after)?), after + 1),
        0xe8 => {
            let parameters = byte(code, after)?;
            visitor.visit(Enter { parameters, locals: byte(code, after + 1)? }, after + 2)
        }
        0xe9 => visitor.visit(Rtn, after),
        0xf5 => access(code, byte(code, after)?, after + 1, Width::Two, visitor),
        0xff => visitor.visit(Nop, after),
        _ => Err(Fault::Unserved.into()),
    }
}

/// Instructions that name a library: three bytes, which DOUBLE does not stand before.
#[inline(always)]
fn external<V: Visitor>(
    opcode: u32,
    library: u32,
    operand: u32,
    next: usize,
    visitor: V,
) -> Result<V::Output, V::Error> {
    use Instruction::*;
    match opcode {
        0x89 => visitor.visit(LoadExternal(library, operand), next),
        0x91 => visitor.visit(LoadAddressExternal(library, operand), next),
        0x98 => visitor.visit(StoreExternal(library, operand), next),
        _ => visitor.visit(CallExternal(library, operand), next),
    }
}

/// Loads and stores of variables and constants: the instructions that DOUBLE may stand before.
#[inline(always)]
fn access<V: Visitor>(
    code: &[u8],
    opcode: u32,
    after: usize,
    width: Width,
    visitor: V,
) -> Result<V::Output, V::Error> {
    use Base::*;
    use Instruction::{Load, Store};
    let low = opcode & 15;
    match opcode {
        0x10..=0x1f => visitor.visit(Load(Local, low, width), after),
        0x20..=0x2f => visitor.visit(Load(Global, low, width), after),
        0x30..=0x3f => visitor.visit(Load(Pointer, low, width), after),
        0x40..=0x4f => visitor.visit(Store(Local, low, width), after),
        0x50..=0x5f => visitor.visit(Store(Global, low, width), after),
        0x60..=0x6f => visitor.visit(Store(Pointer, low, width), after),
        0x80 => visitor.visit(Load(Constant, byte(code, after)?, width), after + 1),
        0x81 => visitor.visit(Load(Constant, half(code, after)?, width), after + 2),
        0x85 => visitor.visit(Load(Local, byte(code, after)?, width), after + 1),
        0x86 => visitor.visit(Load(Global, byte(code, after)?, width), after + 1),
        0x87 => visitor.visit(Load(Pointer, byte(code, after)?, width), after + 1),
        0x88 => visitor.visit(Load(Pointer, half(code, after)?, width), after + 2),
        0x94 => visitor.visit(Store(Local, byte(code, after)?, width), after + 1),
        0x95 => visitor.visit(Store(Global, byte(code, after)?, width), after + 1),
        0x96 => visitor.visit(Store(Pointer, byte(code, after)?, width), after + 1),
        0x97 => visitor.visit(Store(Pointer, half(code, after)?, width), after + 2),
        _ => Err(Fault::Unserved.into()),
    }
}

#[inline(always)]
fn byte(code: &[u8], at: usize) -> Result<u32, Fault> {
    code.get(at).map(|&byte| u32::from(byte)).ok_or(Fault::Past)
}

#[inline(always)]
fn half(code: &[u8], at: usize) -> Result<u32, Fault> {
    Ok((byte(code, at)? << 8) | byte(code, at + 1)?)
}

#[inline(always)]
fn signed_byte(code: &[u8], at: usize) -> Result<i32, Fault> {
    Ok(i32::from(byte(code, at)? as u8 as i8))
}

#[inline(always)]
fn signed_half(code: &[u8], at: usize) -> Result<i32, Fault> {
    Ok(i32::from(half(code, at)? as u16 as i16))
}
