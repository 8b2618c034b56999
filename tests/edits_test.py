#!/usr/bin/env python3
"""Tries the reading of edits and logs on what must fail it: edits.py itself is held to its word."""

import tempfile
import unittest
from pathlib import Path
from unittest import mock

import edits

CODE = """// A crate.
pub fn low(x: u32) -> u32
    ensures { r is above x }
{
    x + 1
}

fn hidden(x: u32) -> u32 {
    x + 2
}

pub struct Pair { pub a: u32 }

impl Pair {
    pub fn high(self) -> u32 {
        self.a + 3
    }
}
"""
SPECS = "abbrev pub Rises : Type 0\nRises = (n : ℕ) → n < suc n\n"
PROOFS = "pub rises : Rises\nrises n = omega arith\n"
BATCH = """edit: low_adds_2
function: low
file: src/lib.rt
old: x + 1
new: x + 2

edit: high_adds_4
function: Pair::high
file: src/lib.rt
old: self.a + 3
new: self.a + 4
"""
AGAIN = BATCH.replace("_2", "_0").replace("_4", "_0").replace("x + 2", "x + 0").replace("self.a + 4", "self.a + 0")
FALSE = "edit: falls\ntheorem: Order.rises\nfile: specs/Order.antt\nold: n < suc n\nnew: suc n < n\n"
PROMISES = "## one\n\n| function | promise | definition | must-fail edits |\n|---|---|---|---|\n| `low` | .. | .. | low_adds_2, low_adds_0 |\n"
PROMISES += "| `Pair::high` | .. | .. | high_adds_4, high_adds_0 |\n| `Order.rises` | .. | .. | falls |\n"

# What the checker writes, shortened.
REFUSED = "./proofs/low/Answers.antt:9:5: error: `returns`: as printed, the two types first differ where one has `2`\nfn one::low: not proved\n"
REFUSED += "./proofs/Pair/high/Answers.antt:7:3: error: `returns`: `search`: no proof of `Post`\nfn one::Pair::high: not proved\n"
UNCLOSED = "fn one::low: no proof: expected answers in ./proofs/low/Answers.antt; `search` did not prove `returns`\n"
CLAUSED = UNCLOSED.replace("`returns`", "`returns-then-x-lt2-clause-bound`; it calls `one::hidden`, which is not proved")
CALLEE = "./proofs/low/Answers.antt:9:5: error: `returns`: `close` was not admitted (it has holes), so this cannot be checked\n"
CALLEE += "fn one::low: not proved; it calls `one::hidden`, which is not proved\n"
UNFIT = "./proofs/low/Answers.antt:4:1: error: `goal.returns-2`: module `Rattle.one.proofs.low.Goals` has no `returns-2` that can be named\n"
UNFIT += "fn one::low: not proved\n"
WRONG_GOAL = "./proofs/low/Answers.antt:4:1: error: `returns`: on the face `κs = 1` this λ's body is expected, the two types differ\n"
UNKNOWN = "./proofs/low/Answers.antt:4:1: error: `returns`: something that nobody has read yet\n"
NOT_SHOWN = "note: src/lib.rt:2:1: it is not proved that what the function ensures holds when it returns (`returns-2`)"
NOT_TRUE = f"{NOT_SHOWN}; the facts known there allow values at which this goal is false\n"
FALSIFIED = "./proofs/Order.antt:2:1: error: `rises`: `omega`: the goal does not follow from what it read.\n"
LAW_BELOW = "./proofs/Order.antt:2:1: error: `rises`: `below` was not admitted (it was rejected)\n"
OTHER_LAW = FALSIFIED.replace("`rises`", "`below`")
SAID = """rt: must-fail one/code_1.edit: refused, as it must be: ./proofs/low/Answers.antt:9:5: error: `returns`: ..
rt: must-fail one/code_2.edit: BAD EDIT: an 'old:' text is in src/lib.rt 0 times, and not once
rt: must-fail one/definitions_1.edit: refused, as it must be (only because a proof file names what the edit took away, ..): ..
"""


def repository(folder, **changed):
    """Writes a repository of one crate, whose edits are in order, but for the texts given."""
    texts = {"code": CODE, "specs": SPECS, "proofs": PROOFS, "code_1": BATCH, "code_2": AGAIN, "definitions_1": FALSE, "promises": PROMISES}
    texts |= changed
    places = {"code": "src/lib.rt", "specs": "specs/Order.antt", "proofs": "proofs/Order.antt"}
    for name, text in texts.items():
        place = "docs/PROMISES.md" if name == "promises" else f"crates/one/{places.get(name, f'must-fail/{name}.edit')}"
        path = Path(folder, place)
        path.parent.mkdir(parents=True, exist_ok=True)
        path.write_text(text)
    Path(folder, "crates.txt").write_text("one:\n")
    return Path(folder)


class Before(unittest.TestCase):
    """Faults that are found before a check."""

    def faults(self, **changed):
        with tempfile.TemporaryDirectory() as folder:
            return "\n".join(edits.lint(repository(folder, **changed)))

    def test_nothing_wrong(self):
        self.assertEqual(self.faults(), "")

    def test_edit_taken_out(self):
        self.assertIn("low has 1 edits of its body", self.faults(code_2=AGAIN[AGAIN.index("edit: high") :]))

    def test_edit_of_another_body(self):
        elsewhere = BATCH.replace("old: x + 1\nnew: x + 2", "old: self.a + 3\nnew: self.a + 5").split("\n\n", maxsplit=1)[0]
        self.assertIn("low has 1 edits of its body", self.faults(code_1=elsewhere))

    def test_edit_that_does_not_apply(self):
        self.assertIn("stands 0 times", self.faults(code_1=BATCH.replace("old: x + 1", "old: x + 9")))
        self.assertIn("stands 2 times", self.faults(code_1=BATCH.replace("old: x + 1", "old: x +")))

    def test_function_broken_twice(self):
        twice = BATCH + "\nedit: low_adds_9\nfunction: low\nfile: src/lib.rt\nold: x + 2\nnew: x + 9\n"
        self.assertIn("low is broken 2 times", self.faults(code_1=twice))

    def test_function_broken_in_two_clauses(self):
        second = "\nedit: low_adds_9\nfunction: low\nclause: returns-2\nfile: src/lib.rt\nold: + 8\nnew: + 9\n"
        named = BATCH.replace("function: low\n", "function: low\nclause: returns\n")
        promises = PROMISES.replace("low_adds_0", "low_adds_0, low_adds_9")
        code = CODE.replace("x + 1", "x + 1 - 8 + 8")
        self.assertEqual(self.faults(code=code, code_1=named + second, promises=promises), "")
        self.assertIn("low is broken 2 times", self.faults(code=code, code_1=named + second.replace("returns-2", "returns")))
        self.assertIn("low is broken 2 times", self.faults(code=code, code_1=BATCH + second))

    def test_code_and_definitions_in_one_batch(self):
        self.assertIn("it changes bodies and specs", self.faults(code_1=BATCH + "\n" + FALSE))
        contract = "\nedit: low_is_below\nfunction: hidden\nfile: src/lib.rt\nold: is above\nnew: is below\n"
        self.assertIn("it changes bodies and contracts", self.faults(code_1=BATCH + contract))

    def test_edit_of_a_contract_does_not_count(self):
        contract = "edit: low_is_below\nfunction: low\nfile: src/lib.rt\nold: is above\nnew: is below\n"
        self.assertIn("low has 1 edits of its body", self.faults(code_1=contract))

    def test_edit_of_a_table(self):
        table = "const TABLE: [u32; 2] = [\n    7,\n    8,\n];\n\npub fn"
        edit = BATCH.replace("old: x + 1\nnew: x + 2", "old:     8,\nnew:     9,")
        named = CODE.replace("pub fn", table, 1).replace("x + 1", "x + 1 + TABLE[0] - 7")
        self.assertEqual(self.faults(code=named, code_1=edit), "")
        self.assertIn("low has 1 edits of its body", self.faults(code=CODE.replace("pub fn", table, 1), code_1=edit))

    def test_same_edit_twice(self):
        self.assertIn("low has 1 edits of its body", self.faults(code_2=AGAIN.replace("x + 0", "x + 2")))

    def test_edit_that_changes_nothing(self):
        self.assertIn("is the old one", self.faults(code_1=BATCH.replace("new: x + 2", "new: x  + 1")))

    def test_edit_of_a_proof(self):
        proof = FALSE.replace("specs/", "proofs/").replace("n < suc n", "omega arith").replace("suc n < n", "refl")
        self.assertIn("neither code nor a definition", self.faults(definitions_1=proof))

    def test_theorem_named_by_an_edit_of_code(self):
        self.assertIn("names a theorem", self.faults(code_1=BATCH.replace("function: low", "theorem: Order.rises")))

    def test_edit_without_a_name(self):
        with self.assertRaises(edits.Fault):
            self.faults(code_1=BATCH.replace("edit: low_adds_2\n", ""))

    def test_statement_without_an_edit(self):
        self.assertIn("no edit falsifies Rises", self.faults(definitions_1=FALSE.replace("Order.rises", "Order.below")))

    def test_statement_that_nothing_proves(self):
        self.assertIn("nothing proves the statement Rises", self.faults(proofs="pub below : (n : ℕ) → n < suc n\n"))

    def test_names_in_promises(self):
        self.assertIn("does not name the edit falls", self.faults(promises=PROMISES.replace("| falls |", "| |")))
        self.assertIn("that is not there: rises_not", self.faults(promises=PROMISES.replace("falls", "falls, rises_not")))


class After(unittest.TestCase):
    """Logs that do not show that what an edit names is refused for a fact of its own."""

    def wrong(self, log, batch=BATCH, label="code_1"):
        with tempfile.TemporaryDirectory() as folder:
            return edits.refusal(edits.parse("one", label, batch).edits[0], "one", log, repository(folder))

    def test_refused_for_the_fact(self):
        self.assertEqual(self.wrong(REFUSED), "")
        self.assertEqual(self.wrong(UNCLOSED), "")
        self.assertEqual(self.wrong(CALLEE + REFUSED), "")
        self.assertEqual(self.wrong(FALSIFIED, FALSE, "definitions_1"), "")

    def test_another_clause_is_refused(self):
        named = BATCH.replace("function: low\n", "function: low\nclause: returns\n")
        self.assertEqual(self.wrong(REFUSED, named), "")
        self.assertEqual(self.wrong(UNCLOSED, named), "")
        other = named.replace("clause: returns", "clause: returns-2")
        self.assertIn("no error of its own", self.wrong(REFUSED, other))
        self.assertIn("no error of its own", self.wrong(UNCLOSED, other))
        bound = named.replace("clause: returns", "clause: bound")
        self.assertEqual(self.wrong(CLAUSED, bound), "")
        self.assertIn("no error of its own", self.wrong(UNCLOSED, bound))

    def test_still_proved(self):
        self.assertIn("still proved", self.wrong("fn one::low: proved\nlogic=not-proved\n"))

    def test_no_proof_for_another_reason(self):
        self.assertIn("no error of its own", self.wrong(UNCLOSED[: UNCLOSED.index(";")] + "\n"))
        self.assertIn("no error of its own", self.wrong(CLAUSED.replace("`search` did not prove `returns-then-x-lt2-clause-bound`; ", "")))

    def test_only_the_callee_is_not_proved(self):
        self.assertIn("no fact of its own", self.wrong(CALLEE))

    def test_proof_file_that_does_not_fit(self):
        for log in (UNFIT, WRONG_GOAL, UNKNOWN, UNFIT + NOT_SHOWN):
            self.assertIn("no fact of its own", self.wrong(log))

    def test_goal_that_is_false(self):
        self.assertEqual(self.wrong(UNFIT + NOT_TRUE), "")
        for line in (1, 7, 8, 15):
            self.assertIn("no fact of its own", self.wrong(UNFIT + NOT_TRUE.replace(":2:", f":{line}:")))
        self.assertIn("no fact of its own", self.wrong(UNFIT + NOT_TRUE.replace("lib.rt", "other.rt")))

    def test_another_function_is_refused(self):
        self.assertIn("no error of its own", self.wrong(REFUSED.replace("/low/", "/slow/").replace("::low", "::slow")))

    def test_another_theorem_is_refused(self):
        self.assertIn("no error of its own", self.wrong(OTHER_LAW, FALSE, "definitions_1"))
        self.assertIn("no fact of its own", self.wrong(LAW_BELOW, FALSE, "definitions_1"))

    def test_another_field_of_a_theorem_is_refused(self):
        fields = PROOFS.replace("omega arith", "record {\n  low = omega arith;\n  high =\n      omega arith;\n}")
        batch = FALSE.replace("theorem: Order.rises", "theorem: Order.rises\nclause: high")
        with tempfile.TemporaryDirectory() as folder:
            root = repository(folder, proofs=fields)
            edit = edits.parse("one", "definitions_1", batch).edits[0]
            self.assertIn("no error of its own", edits.refusal(edit, "one", FALSIFIED.replace(":2:1", ":3:9"), root))
            self.assertEqual(edits.refusal(edit, "one", FALSIFIED.replace(":2:1", ":5:7"), root), "")

    def test_log_that_is_missing(self):
        with tempfile.TemporaryDirectory() as folder:
            root = repository(folder)
            results = dict(edits.read_logs(edits.batches(root), {("one", "code_1"): REFUSED}, root))
        self.assertEqual(results["one/code_1: low_adds_2: low"], "")
        self.assertEqual(results["one/code_2: low_adds_0: low"], "there is no log")
        self.assertEqual(len(results), 5)

    def followed(self, proof, **changed):
        """A proof file and the clause of its function's edit, as they are called with the edit; `changed` is what else the edit changes."""

        def named(test, *steps):
            places = [[f"{kind}1", None, ["if1", f"if-{test}"], None, []] for kind in ("Then", "Else")]
            places += [["After", "Else1", [f"word_at{number}", step], None, []] for number, step in enumerate(steps)]
            needs = [["returns", f"returns-then-{test}"], ["returns-2", "returns"]]
            by_name = [f"Then-{test}", f"Else-{test}", *(f"After-{step}" for step in steps)]
            loops = [[["loop", f"loop-{steps[0]}"], []]]
            return {"needs": needs, "places": places, "places_by_name": by_name, "loops": loops}

        now, then = named("x-lt128", "word_at", "word_at-2"), named("x-lt129", "word_at-2", "word_at-y") | changed
        now, then = ({"Rattle-one-proofs.low.Lts": lists} for lists in (now, then))
        batch = BATCH.split("\n\n", maxsplit=1)[0].replace("function: low", "function: low\nclause: returns-then-x-lt128")
        with tempfile.TemporaryDirectory() as folder, mock.patch.object(edits.edit_checks, "names", return_value=then):
            root = repository(folder, code_1=batch)
            path = root / "crates/one/proofs/low/Answers.antt"
            path.parent.mkdir()
            path.write_text(proof)
            batch, texts = edits.followed(edits.parse("one", "code_1", batch), now, root)
        self.assertEqual(texts["src/lib.rt"], CODE.replace("x + 1", "x + 2"))
        return texts.get("proofs/low/Answers.antt", proof), batch.edits[0].clause

    def test_proof_file_follows_the_code(self):
        proof = """use Rattle.one.specs.word_at.{word_at, else-x-lt128}
returns-then-x-lt128-clause-a : goal.returns-then-x-lt128-clause-a
returns-then-x-lt128-clause-a c = f (g c).if-x-lt128.true c.if-x-lt1280 c.word_at.ensures c.word_at-2 word_at c.word_at-own.x
h : (c : After-word_at) → invariant-loop-word_at c
returns c = elim [ else-x-lt128 w ↦ h 128 ]
"""
        other = """use Rattle.one.specs.word_at.{word_at, else-x-lt129}
returns-then-x-lt129-clause-a : goal.returns-then-x-lt129-clause-a
returns-then-x-lt129-clause-a c = f (g c).if-x-lt129.true c.if-x-lt1280 c.word_at-2.ensures c.word_at-y word_at c.word_at-2-own.x
h : (c : After-word_at-2) → invariant-loop-word_at-2 c
returns c = elim [ else-x-lt129 w ↦ h 128 ]
"""
        self.assertEqual(self.followed(proof), (other, "returns-then-x-lt129"))

    def test_proof_file_stays_where_goals_or_places_cannot_be_paired(self):
        proof = "returns-then-x-lt128 c = c.if-x-lt128.true\n"
        fewer, exchanged = [["returns", "returns"]], [["returns-2", "returns-then-x-lt129"], ["returns", "returns"]]
        for changed in ({"needs": fewer}, {"needs": exchanged}, {"places": []}, {"loops": []}):
            self.assertEqual(self.followed(proof, **changed), (proof, "returns-then-x-lt128"))

    def test_name_that_would_become_two(self):
        self.assertEqual(edits.single([("a", "b"), ("a", "c"), ("b", "c"), ("b", "c")]), {"b": "c"})
        self.assertEqual(edits.renamed("a b c.a-b.a", {"b": "c"}, {"a": "d"}), "a c c.a-b.d")

    def test_what_the_gate_says(self):
        with tempfile.TemporaryDirectory() as folder:
            root = repository(folder, definitions_2=FALSE.replace("falls", "falls_2"))
            results = dict(edits.read_said(SAID, root))
        self.assertEqual(results.pop("one/code_1"), "")
        self.assertEqual(set(results), {"one/code_2", "one/definitions_1", "one/definitions_2"})
        self.assertTrue(all(results.values()))

    def test_batch_that_was_read_as_it_was(self):
        with tempfile.TemporaryDirectory() as folder:
            root = repository(folder)
            one, two, _ = edits.batches(root)
            before = edits.sum_of(one, root), edits.sum_of(two, root)
            (root / "crates/one/must-fail/code_1.edit").write_text(BATCH + "\n")
            self.assertNotEqual(edits.sum_of(one, root), before[0])
            self.assertEqual(edits.sum_of(two, root), before[1])
            (root / "crates/one/specs/Order.antt").write_text(SPECS + "\n")
            self.assertNotEqual(edits.sum_of(two, root), before[1])

    def test_batch_over_a_crate_that_changed(self):
        with tempfile.TemporaryDirectory() as folder:
            root = repository(folder)
            one, *_ = edits.batches(root)
            (root / "crates.txt").write_text("one: below\nbelow:\n")
            (root / "crates/below/src").mkdir(parents=True)
            before = edits.sum_of(one, root)
            (root / "crates/below/src/lib.rt").write_text("")
            self.assertNotEqual(edits.sum_of(one, root), before)


if __name__ == "__main__":
    unittest.main(verbosity=0)
