//! The numbers that refuse a record or a run file, and those of the traps.

/// Says what a number means, in the words of 01's table ("Numbers handed back"); 6 and 7 say what
/// its "as above" stands for. 8 is the load's: the check is lent enough workspace. The code traps,
/// 20 to 23, do not arise: only accepted code runs.
pub fn meaning(number: u32) -> &'static str {
    match number {
        1 => "record under 28 bytes",
        2 => "a size above its maximum",
        3 => "length not that of the parts",
        5 => "version word malformed",
        6 => "source table odd, or its offsets not strictly rising and below the code size",
        7 => {
            "entries not strictly rising and below the code size, \
             or entry 1 not even, at least 4 and at most 512"
        }
        8 => {
            "load: more parameters than globals, memory under 3+g+c or over 16,384, \
             stack over 1,024"
        }
        9 => "results list of wrong length or content",
        10 => "unserved instruction, or prefix before one without that mode",
        11 => "instruction runs past its region",
        12 => "a successor or switch label is no start in its region",
        13 => {
            "procedures 1 and up do not begin with ENTER, ENTER elsewhere, \
             or procedure 0's has parameters"
        }
        14 => "callee 0 or not in the entries",
        15 => "some region has no picture",
        16 => "run file malformed or too long",
        17 => {
            "an import not among the lent libraries, two libraries under one SID, \
             or over 16 modules"
        }
        18 => {
            "relocation entries not just the library bytes of the cut external instructions, \
             or such a byte 0 or past the imports"
        }
        30 => "zero divisor",
        31 => "number does not fit",
        32 => "not live",
        33 => "protected",
        34 => "not a boolean",
        35 => "memory full",
        36 => "stack full",
        37 => "64 calls",
        38 => "FREE below FP",
        _ => "a number without a meaning",
    }
}
