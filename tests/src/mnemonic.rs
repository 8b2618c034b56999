//! The printable name of each of the 256 opcodes, for messages.

/// Opcodes 00 to 7F: families of sixteen with an implied operand.
const SHORT: [&str; 8] =
    ["LOAD_C", "LOAD_L", "LOAD_G", "LOAD_F", "STOR_L", "STOR_G", "STOR_F", "CALL"];

/// Opcodes 80 to FF.
#[rustfmt::skip]
const LONG: [&str; 128] = [
    "LOAD_T.b", "LOAD_T.h", "LOAD_C.b", "LOAD_C.h", "LOAD_C.w", "LOAD_L.b", "LOAD_G.b", "LOAD_F.b",
    "LOAD_F.h", "LOAD_E", "LOAD_X_C", "LOAD_X_V", "---", "LOAD_A_L.b", "LOAD_A_G.b", "LOAD_A_F.b",
    "LOAD_A_F.h", "LOAD_A_E", "LOAD_A_T.b", "LOAD_A_T.h", "STOR_L.b", "STOR_G.b", "STOR_F.b",
    "STOR_F.h", "STOR_E", "STOR_X_C", "STOR_X_V", "MOVE", "CAT", "COPY", "POP", "SWAP",
    "ADD_I", "SUB_I", "MUL_I", "DIV_I", "EXP_I", "MOD_I", "NEG_I", "ABS_I", "ADD_U", "SUB_U",
    "MUL_U", "DIV_U", "EXP_U", "MOD_U", "ADD_R", "SUB_R", "MUL_R", "DIV_R", "EXP_R", "NEG_R",
    "ABS_R", "ADD_D", "SUB_D", "SUB_T", "ADD_S", "SUB_S", "MUL_S", "DIV_S", "INCL", "EXCL", "EQU",
    "NEQ",
    "LES_I", "GRT_I", "LEQ_I", "GEQ_I", "LES_U", "GRT_U", "LEQ_U", "GEQ_U", "LES_R", "GRT_R",
    "LEQ_R", "GEQ_R", "LES_T", "GRT_T", "LEQ_T", "GEQ_T", "LEQ_S", "GEQ_S", "TEST", "LES_A",
    "GRT_A", "LEQ_A", "GEQ_A", "NEG", "ALLOC", "FREE", "JUMP.b", "JUMP.h", "JUMP_C.b", "JUMP_C.h",
    "JUMP_T.b", "JUMP_F.b",
    "ITER", "NEXT", "SWITCH", "SWITCH_X", "LEAVE", "CALL.b", "CALL_E", "INIT", "ENTER", "RTN",
    "TRUNC_I", "TRUNC_U", "ROUND_I", "ROUND_U", "REAL_I", "REAL_U", "SHORT_R", "LONG_R", "STR",
    "VAL", "SYS", "DOUBLE", "MULTI", "READ", "WRITE", "CHECK_I", "CHECK_0", "CHECK_U", "CHECK_R",
    "ERROR", "HALT", "NOP",
];

pub fn name(opcode: u8) -> String {
    match opcode {
        0x70 => "---".to_string(),
        0x00..=0x7f => format!("{}.{}", SHORT[opcode as usize / 16], opcode % 16),
        _ => LONG[opcode as usize - 0x80].to_string(),
    }
}

#[cfg(test)]
mod tests {
    use super::name;

    #[test]
    #[rustfmt::skip]
    fn names_stand_at_their_opcodes() {
        let known = [
            (0x0f, "LOAD_C.15"), (0x71, "CALL.1"), (0x80, "LOAD_T.b"), (0x8b, "LOAD_X_V"),
            (0x94, "STOR_L.b"), (0x9f, "SWAP"), (0xa5, "MOD_I"), (0xad, "MOD_U"), (0xb8, "ADD_S"),
            (0xbe, "EQU"), (0xc7, "GEQ_U"), (0xd2, "TEST"), (0xd7, "NEG"), (0xdf, "JUMP_F.b"),
            (0xe0, "ITER"), (0xe9, "RTN"), (0xf5, "DOUBLE"), (0xff, "NOP"),
        ];
        for (opcode, expected) in known {
            assert_eq!(name(opcode), expected);
        }
    }
}
