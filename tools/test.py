"""Tests of the proof loop's parts that work on texts: what rt says taken apart, laws that stand twice, how long modules take; and of
tools/made. They need no rt and take no time; that the loop fits the toolchain shows in every proof made with it.
"""
import os
import shutil
import subprocess
import sys
import tempfile
import unittest
from pathlib import Path

sys.dont_write_bytecode = True
sys.path.insert(0, str(Path(__file__).resolve().parent))

from proofloop import alike, said, times
from proofloop.tree import Stop, Tree

SAID = """\
rt: chose --jobs 2 for bits
fn bits::wide: proved
statements std: modules loaded=24 checked=0
logic=proved functions=10 sum=0
rt: put_bytes: begins with what a check kept in crates/put_bytes
note: ./proofs/copy/Answers.antt:24: `known-1` is rattle's own name
checked put_bytes::copy, 1 of 2
./proofs/copy/Answers.antt:41:35: error: `returns`: the two types differ
  expected type `A`
./proofs/copy/Answers.antt:53:1: `add-i` is not admitted: has-holes
./proofs/copy/Answers.antt:54:16: goal ? in `add-i`
    c : goal.Else4
  ⊢ A
src/lib.rt:22:30: error[unknown-name]: cannot find value `z` in this scope
note: antt's advice
  on a search
struct put_bytes::Rank: no holes
fn put_bytes::copy: depends on a hole in `Rattle.put_bytes.proofs.copy.Answers.add-i`
fn put_bytes::put_two: no proof: expected answers in ./proofs/two/put_two/Answers.antt; `search` did not prove `put-requires`
help: write ./proofs/two/put_two/Answers.antt with these lines, and check again: each hole's goal is what is left to show there
    use Rattle.put_bytes.proofs.put_two.Goals as goal
    
    pub put-requires : goal.put-requires
    put-requires c = ?
note: `put-requires` of proofs/two/put_two/Answers.antt must prove: B c.args.at
  names you can use, by step:
note: `put-requires` of proofs/two/put_two/Answers.antt may be false: the known facts allow `c.args.at` = `0`
holes=1
rt: rt check --only put_bytes::copy checks that function and what it calls, and not the rest
"""


class WhatRtSays(unittest.TestCase):
    def test_left(self):
        self.assertEqual(said.unproved(SAID), ["put_bytes::copy", "put_bytes::put_two"])
        self.assertEqual(said.holes(SAID), ["copy.add-i", "two/put_two.put-requires"])

    def test_proved(self):
        lines = "fn a::f: proved, may abort\nfn a::g: not proved; it stands on `h`, which antt refuses\nfn a::h: could not tell\n"
        self.assertEqual(said.unproved(lines), ["a::g", "a::h"])

    def test_told(self):
        told = said.told(SAID, "the file")
        self.assertIn("\nno file yet: ./proofs/two/put_two/Answers.antt\n", told)
        self.assertIn("\n  ⊢ A\n", told)
        self.assertIn(" must prove: B c.args.at\n", told)
        self.assertTrue(told.endswith("\nholes=1"))
        self.assertNotRegex(told, "bits::wide|advice|on a search|own name|chose|--only|loaded")

    def test_errors(self):
        found = said.errors(SAID, "the file").split("\n")
        self.assertEqual(len(found), 4)
        self.assertEqual(found[-1], "goals: copy.add-i two/put_two.put-requires")

    def test_short(self):
        short = said.short(SAID, "the file").split("\n")
        self.assertEqual(short[2:], ["errors: 2", "functions not proved: put_bytes::copy put_bytes::put_two"])
        self.assertIn("cut here; the whole text is in the file", said.short(("x" * 400 + "\n") * 60, "the file"))

    def test_goal(self):
        self.assertEqual(said.goal(SAID, "add-i").split("\n")[-1], "  ⊢ A")
        self.assertIn("expected type", said.goal(SAID, "returns"))
        self.assertIn("may be false", said.goal(SAID, "put-requires"))
        self.assertIsNone(said.goal(SAID, "wide"))


class TheTree(unittest.TestCase):
    def test_crates(self):
        with tempfile.TemporaryDirectory() as top:
            Path(top, "crates.txt").write_text("# lowest first\na:\nb staticlib: a # for C\n")
            tree = Tree(top)
            self.assertEqual(tree.crates(), ["a", "b"])
            self.assertEqual(tree.short(tree.crate("b")), "crates/b")
            with self.assertRaisesRegex(Stop, "no crate c; it lists a b"):
                tree.crate("c")

    def test_the_top(self):
        with tempfile.TemporaryDirectory() as top:
            with self.assertRaisesRegex(Stop, "it has no crates.txt"):
                Tree(top)


class WhatIsMadeOfCrates(unittest.TestCase):
    def setUp(self):
        folder = tempfile.TemporaryDirectory()
        self.addCleanup(folder.cleanup)
        self.top = Path(folder.name)
        (self.top / "tools").mkdir()
        shutil.copy(Path(__file__).resolve().parent / "made", self.top / "tools")
        self.file("crates.txt", "app: b std # a: c\nb: a\na:\nc: a\nd staticlib: c b\n", 10)

    def file(self, path, text, second):
        path = self.top / path
        path.parent.mkdir(parents=True, exist_ok=True)
        path.write_text(text)
        for it in (path, path.parent):
            os.utime(it, (second, second))

    def made(self, *words):
        return subprocess.run([self.top / "tools/made", *words], stdout=subprocess.PIPE, stderr=subprocess.DEVNULL, text=True)

    def lately(self, crate):
        return self.made("lately", crate, "made").returncode == 0

    def test_order(self):
        self.assertEqual(self.made("order", "app").stdout.split(), ["a", "b", "app"])
        self.assertEqual(self.made("order", "d").stdout.split(), ["a", "c", "b", "d"])

    def test_lately(self):
        self.assertFalse(self.lately("app"))
        self.file("made", "", 20)
        self.file("crates/a/src/lib.rt", "", 15)
        self.file("crates/c/proofs/f/Answers.antt", "", 30)
        self.file("crates/a/out/rlib/stamp", "", 30)
        self.assertTrue(self.lately("app"))
        self.assertFalse(self.lately("d"))
        self.file("crates/a/specs/Lib.antt", "", 21)
        self.assertFalse(self.lately("app"))

    def test_a_file_that_is_gone(self):
        self.file("made", "", 20)
        self.file("crates/a/src/lib.rt", "", 15)
        os.utime(self.top / "crates/a/src", (25, 25))
        self.assertFalse(self.lately("app"))

    def test_usage(self):
        self.assertEqual(self.made("order").returncode, 2)


class LawsThatEndAlike(unittest.TestCase):
    def test_end(self):
        self.assertEqual(alike.end("{A : Type 0} (n : ℕ) → f (a → b) n ≡ 0 → (m : ℕ) → g n ≤ m"), "g n ≤ m")
        self.assertEqual(alike.end("(n : ℕ) g n ≤ 0"), "g n ≤ 0")

    def test_laws(self):
        text = ("pub record R (n : ℕ) : Type 0 where\n  pub is : n ≡ 0\n\nabbrev d : ℕ\nd = 0\n\n"
                "module _ (n : ℕ) where\n  pub a : n ≤ d\n      → d ≤ n\n  unfolding d\n  a = x\n\n-- c : e\nb : d ≡ d\nb = refl\n")
        self.assertEqual(list(alike.laws(text)), [(8, "a", "module _ (n : ℕ)", "n ≤ d → d ≤ n"), (14, "b", "", "d ≡ d")])

    def test_found(self):
        one, other = "a : (n m : ℕ) → n < m → length n ≤ size m\n", "module _ {k : ℕ} where\n  b : (i : ℕ) → length k ≤ size i\n"
        self.assertEqual(alike.found([("F", one), ("G", other)]), [("length x0 ≤ size x1", [("F", 1, "a"), ("G", 2, "b")])])
        self.assertEqual(alike.found([("F", one + "c : (n m : ℕ) → length n ≤ size m\n"), ("G", "b : (i : ℕ) → length i ≤ size i\n")]), [])


class Times(unittest.TestCase):
    def test_the_time_between_two_files_is_the_later_ones(self):
        with tempfile.TemporaryDirectory() as folder:
            for name, second in (("a.oantt", 10), ("b.Lts.oantt", 13), ("c.Proof.oantt", 14), ("records/d.oantt", 99)):
                path = Path(folder, "build", name)
                path.parent.mkdir(parents=True, exist_ok=True)
                path.touch()
                os.utime(path, (second, second))
            self.assertEqual(times.modules(Path(folder)), [(3.0, "b.Lts"), (1.0, "c.Proof")])

    def test_a_folder_that_is_not_there_has_none(self):
        with tempfile.TemporaryDirectory() as folder:
            self.assertEqual(times.modules(Path(folder, "none")), [])


if __name__ == "__main__":
    unittest.main()
