//! What a listing shows of an instruction, as words (crates/mnemonic/specs/Mnemonic.antt).

use crate::instruction::{Base, Instruction, Operator, Width};

/// Number of the mnemonic, mode, operand, second operand, length in bytes.
pub const PARTS: usize = 5;

/// The parts of the instruction that stands from `place` up to `next`. Jumps show their distance.
pub fn parts(instruction: Instruction, place: usize, next: usize) -> [u32; PARTS] {
    use Instruction::*;
    let distance = |target: i32| (target - place as i32) as u32;
    let (number, mode, operand, second) = match instruction {
        LoadConstant(value) => (0, 0, value, 0),
        Load(base, offset, width) => (1 + base_place(base), mode(width), offset, 0),
        LoadAddress(base, offset) => (5 + base_place(base), 0, offset, 0),
        Store(base, offset, width) => (9 + base_place(base), mode(width), offset, 0),
        Jump(target) => (13, 0, distance(target), 0),
        JumpC(target) => (14, 0, distance(target), 0),
        JumpT(target) => (15, 0, distance(target), 0),
        JumpF(target) => (16, 0, distance(target), 0),
        Call(procedure) => (17, 0, procedure, 0),
        Pop(count) => (18, 0, count, 0),
        Swap => (19, 0, 0, 0),
        Nop => (20, 0, 0, 0),
        Binary(operator) => (operator_number(operator), 0, 0, 0),
        NegI => (31, 0, 0, 0),
        Neg => (48, 0, 0, 0),
        Alloc => (49, 0, 0, 0),
        Free => (50, 0, 0, 0),
        Iter { exit } => (51, 0, distance(exit), 0),
        Next => (52, 0, 0, 0),
        Switch(table) => (if table.ranges { 54 } else { 53 }, 0, table.entries, 0),
        Leave => (55, 0, 0, 0),
        Enter { parameters, locals } => (56, 0, parameters, locals),
        Rtn => (57, 0, 0, 0),
        LoadExternal(library, offset) => (58, 0, library, offset),
        LoadAddressExternal(library, offset) => (59, 0, library, offset),
        StoreExternal(library, offset) => (60, 0, library, offset),
        CallExternal(library, procedure) => (61, 0, library, procedure),
    };
    [number, mode, operand, second, (next - place) as u32]
}

fn base_place(base: Base) -> u32 {
    match base {
        Base::Local => 0,
        Base::Global => 1,
        Base::Constant => 2,
        Base::Pointer => 3,
    }
}

fn mode(width: Width) -> u32 {
    match width {
        Width::One => 0,
        Width::Two => 1,
    }
}

fn operator_number(operator: Operator) -> u32 {
    use Operator::*;
    match operator {
        AddI => 21,
        SubI => 22,
        MulI => 23,
        DivI => 24,
        ModI => 25,
        AddU => 26,
        SubU => 27,
        MulU => 28,
        DivU => 29,
        ModU => 30,
        Equ => 32,
        Neq => 33,
        LesI => 34,
        GrtI => 35,
        LeqI => 36,
        GeqI => 37,
        LesU => 38,
        GrtU => 39,
        LeqU => 40,
        GeqU => 41,
        AddS => 42,
        SubS => 43,
        MulS => 44,
        LeqS => 45,
        GeqS => 46,
        Test => 47,
    }
}
