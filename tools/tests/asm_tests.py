"""icode asm: each instruction of the sheet, what a text may look like, record or run file, and what it says of texts that it refuses."""

from harness import *

RTN = bytes([0xE9])
HEAD = ".budget 1\n.memory 9\n.stack 1\n"


def made(tests, text, *options):
    return tests.run_bytes("asm", *options, "-", input=text if isinstance(text, bytes) else text.encode())


def expect_code(tests, name, lines, code, *options):
    """The code that the lines of procedure 0 make."""
    status, out, err = made(tests, ".procedure 0\n" + lines, *options)
    tests.expect(name, (status, out, err) == (0, record_of(b"\0\2" + code), ""), (status, out.hex(), err))


def expect_fault(tests, text, line, words):
    """A text is refused with the words, at a line where it is not 0."""
    status, out, err = made(tests, text)
    message = f"standard input:{line}: {words}" if line else words
    tests.expect(f"fault of {text[:60]!r}", (status, out) == (1, b"") and message in err, (status, out, err))


def try_instruction(tests, name, before, size):
    """Numbers at both ends of what the operand's bytes can hold are taken, and those past them are not."""
    if size == 0:
        expect_code(tests, name, f"{name}\n", before, "--no-check")
        return
    signed = name.startswith(("LOAD_C", "JUMP.", "JUMP_C"))
    low, high = (-(1 << 8 * size - 1), (1 << 8 * size - 1) - 1) if signed else (0, (1 << 8 * size) - 1)
    for number in (low, high, 0, 1):
        operand = (number % (1 << 8 * size)).to_bytes(size, "big")
        expect_code(tests, f"{name} {number}", f"{name} {number}\n", before + operand, "--no-check")
    for number in (low - 1, high + 1) if size < 4 else (low - 1, 1 << 32):
        found = f"from {low} to {high if size < 4 else (1 << 32) - 1}, found {number}"
        what = "distance" if name.startswith(("JUMP", "ITER")) else "number"
        expect_fault(tests, f".procedure 0\n{name} {number}\n", 2, f"{name} takes a {what} {found}")


def try_external(tests, name, code):
    """A library number and a global or procedure, a byte each, and the relocation entry of the first."""
    for library, operand in ((0, 0), (1, 2), (255, 255)):
        status, out, err = made(tests, f".procedure 0\nNOP\n{name} {library}, {operand}\n", "--no-check")
        record = record_of(bytes([0, 2, 0xFF]) + code + bytes([library, operand]), relocation=[4])
        tests.expect(f"{name} {library}, {operand}", (status, out, err) == (0, record, ""), (status, out.hex(), err))
    for operands, found in (("256, 0", 256), ("1, 256", 256), ("-1, 0", -1), ("0, -1", -1)):
        expect_fault(tests, f".procedure 0\n{name} {operands}\n", 2, f"{name} takes a number from 0 to 255, found {found}")
    expect_fault(tests, f".procedure 0\n{name} 1\n", 2, "expected ',', found the end of the line")
    expect_fault(tests, f".procedure 0\nDOUBLE {name} 1, 1\n", 2, "expected an instruction that has this prefix")


def test_sheet(tests):
    """Every instruction of the sheet has its code, and as many operand bytes as its length says."""
    for row in OPCODE_TABLE.read_text().splitlines():
        code, name, *rest = row.split()
        if name in ("-", "DOUBLE", "ENTER") or name.startswith("SWITCH"):
            continue
        if name.endswith("_E"):
            try_external(tests, name, bytes([int(code, 16)]))
            continue
        size, code = int(rest[0]) - 1, bytes([int(code, 16)])
        try_instruction(tests, name, code, size)
        if "double" in rest:
            try_instruction(tests, f"DOUBLE {name}", bytes([0xF5]) + code, size)
    expect_code(tests, "ENTER", "ENTER 7, 255\n", bytes([0xE8, 7, 255]), "--no-check")
    expect_fault(tests, ".procedure 0\nENTER 0, 256\n", 2, "ENTER takes a number from 0 to 255, found 256")


def test_shapes(tests):
    """What a text may look like."""
    expect_code(tests, "comments, blanks, tabs and CR", "; first\r\n\r\n\tNOP;x\r\n  ; \"\n NOP ; \xff\n\n\tRTN\t\n", b"\xff\xff" + RTN)
    expect_code(tests, "labels", "a: NOP\nb:\n c : RTN\n", b"\xff" + RTN)
    expect_code(tests, "no newline at the end", "RTN", RTN)
    numbers = bytes([0x82, 0x7F, 0x82, 0, 0x82, 5, 0x9E, 3])
    expect_code(tests, "numbers", "LOAD_C.b 0x7f\nLOAD_C.b -0\nLOAD_C.b +5\nPOP 3\nRTN\n", numbers + RTN)
    expect_code(tests, "back and forth", "JUMP.b two\none: RTN\ntwo: JUMP.h one\n", bytes([0xDA, 3]) + RTN + bytes([0xDB, 0xFF, 0xFF]))
    status, out, err = made(tests, b".procedure 0 ; \xe9\xff\nRTN ; \x00\n")
    marked = made(tests, b"\xef\xbb\xbf.procedure 0\nRTN\n")
    tests.expect("a byte order mark", marked == (0, record_of(b"\0\2" + RTN), ""), marked)
    tests.expect("any bytes in a comment", (status, out) == (0, record_of(b"\0\2" + RTN)), (status, out, err))
    text = ".procedure 0\nloop: NOP\nJUMP.b loop\n.procedure 1 p\nENTER 0, 0\nloop: JUMP.b loop\n"
    code = bytes([0, 9, 0, 4, 0xE8, 0, 0, 0xDA, 0, 0xFF, 0xDA, 0xFF])
    tests.expect("labels of each procedure", made(tests, text) == (0, record_of(code), ""), made(tests, text))


def test_parts(tests):
    """Globals, constants, version and lines of a record; the head of a run file."""
    tables = '.globals 7\n.constants 1 -1\n.constants 0x10\n.version " 3/-" 5\n.line 9 at 0\n'
    text = tables + ".procedure 0\n.line 4\nNOP\n.line 5\nRTN\n"
    version, source = b" 3/-" + word_bytes([5]), word_bytes([0, 9, 2, 4, 3, 5])
    record = record_of(bytes([0, 2, 0xFF, 0xE9]), version, source, globals_=7, constants=word_bytes([1, 2**32 - 1, 16]))
    tests.expect("parts", made(tests, text) == (0, record, ""), made(tests, text))
    head = ".parameters 1 -2\n.parameters 3\n.budget 4294967295\n.memory 4096\n.stack 1024\n"
    file = run_file_of(record, 4294967295, b"\0", [1, 2**32 - 2, 3], 4096, 1024)
    tests.expect("run file", made(tests, head + text) == (0, file, ""), made(tests, head + text))
    tests.expect("run file, results given", made(tests, text + head + ".results 0\n") == (0, file, ""), made(tests, head + text))
    for results, content in ((".results", b""), (".results 1 2", b"\1\2")):
        found = made(tests, head + results + "\n" + text, "--no-check")
        file = run_file_of(record, 4294967295, content, [1, 2**32 - 2, 3], 4096, 1024)
        tests.expect(f"{results}, unchecked", found == (0, file, ""), found)
        expect_fault(tests, head + results + "\n" + text, 0, "refused with 9: ")


def test_faults(tests):
    """Faults of the whole text, each with the line that is nearest."""
    cases = [
        ("", 1, "expected a procedure 0 too"),
        ("; nothing\n", 1, "expected a procedure 0 too"),
        (".procedure 1\nRTN\n", 1, "expected a procedure 0 too"),
        (".procedure 0\nRTN\n.procedure 2\nRTN\n", 3, "expected a procedure 1 too"),
        (".procedure 0\nRTN\n.procedure 0\nRTN\n", 3, "procedure 0 is given a second time"),
        (".procedure 0\n", 1, "procedure 0 has no instructions"),
        (".procedure 0\na:\na:\nRTN\n", 3, "procedure 0 has another 'a:'"),
        (".procedure 0 a\nRTN\n.procedure 1 a\nRTN\n", 1, "another procedure has the name 'a'"),
        (".procedure 256\n", 1, "expected a number from 0 to 255"),
        (".procedure 0\nRTN\n.line 5\n", 3, "expected an instruction behind .line"),
        (".procedure 0\n.line 5\n.line 6\nRTN\n", 3, "offset 2 has a source line already"),
        (".procedure 0\n.line 5\nRTN\n.line 6 at 2\n", 4, "offset 2 has a source line already"),
        (".line 6\n.procedure 0\nRTN\n", 1, "expected .procedure N"),
        (".budget 5\n.procedure 0\nRTN\n", 2, "a run file has .budget, .memory and .stack, a record none of them"),
        (".stack 1\n.stack 1\n", 2, ".stack is given a second time"),
        (".procedure 0\na: RTN\n.procedure 1\nENTER 0, 0\nJUMP.b a\n", 5, "expected a label of procedure 1, found no 'a:' in it"),
        (".procedure 1\n" + "NOP\n" * 65536 + ".procedure 0\nRTN\n", 65538, "the code before it is longer"),
        (HEAD + ".parameters " + "1 " * 256 + "\n.procedure 0\nRTN\n", 5, "a run file has at most 255 parameters, found 256"),
        ("x" * 5_000_000, 0, "longer than 4,194,304 bytes"),
        (".procedure 0\n" + "FROB\n" * 30, 0, "standard input: 10 more"),
    ]
    for text, line, words in cases:
        expect_fault(tests, text, line, words)


def test_refused(tests):
    """What the check or the load refuses, at the line that is behind it."""
    cases = [
        (".procedure 0\nNOP\nADD_I\nRTN\n", 1, "refused with 15: some region has no picture: procedure 0, from offset 2 to 4"),
        (".procedure 0\nCALL.1\nRTN\n", 2, "refused with 14: "),
        (".procedure 0\nNOP\n\nENTER 0, 0\nRTN\n", 4, "refused with 13: "),
        (".procedure 0\nJUMP.b end\nRTN\nend:\n", 2, "refused with 12: "),
        (".procedure 0\nRTN\n.bytes 0x9b 1 2\n", 3, "refused with 10: "),
        (".procedure 0\nRTN\n.line 3 at 3\n", 0, "refused with 6: "),
        (".globals 1025\n.procedure 0\nRTN\n", 0, "refused with 2: "),
        (".procedure 0\n" + "NOP\n" * 4096 + "RTN\n", 0, "refused with 2: "),
        (".version 5\n.procedure 0\nRTN\n", 0, "refused with 5: "),
        (HEAD + ".parameters 1\n.procedure 0\nRTN\n", 0, "refused with 8: "),
        (HEAD.replace("9", "5000") + ".procedure 0\nRTN\n", 0, "refused with 16: "),
    ]
    for text, line, words in cases:
        expect_fault(tests, text, line, words)


def test_switches(tests):
    """Rows in any order but for the values; n is counted or given; the largest table of a code."""
    rows = "LOAD_C.0\nSWITCH {}\nelse -> a\n0 -> b\nexit -> b\n1 -> +11\na: LEAVE\nb: RTN\n"
    code = bytes([0, 0xE2, 0, 1, 0, 12, 0, 11, 0, 12, 0, 11, 0xE4, 0xE9])
    for count in ("", "1", "0x1"):
        expect_code(tests, f"SWITCH {count}", rows.format(count), code, "--no-check")
    long = "LOAD_C.0\nSWITCH\nexit -> a\nelse -> a\n" + "".join(f"{value} -> a\n" for value in range(2000)) + "a: RTN\n"
    table = (1999).to_bytes(2, "big") + 2002 * (4007).to_bytes(2, "big")
    expect_code(tests, "a long SWITCH", long, bytes([0, 0xE2]) + table + RTN, "--no-check")
    empty = bytes([0, 0xE3, 0, 0, 0, 8, 0, 7, 0xE4, 0xE9])
    expect_code(tests, "SWITCH_X without ranges", "LOAD_C.0\nSWITCH_X\nexit -> a\nelse -> b\nb: LEAVE\na: RTN\n", empty)


def test(tests):
    test_sheet(tests)
    test_shapes(tests)
    test_parts(tests)
    test_faults(tests)
    test_refused(tests)
    test_switches(tests)
