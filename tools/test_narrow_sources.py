"""That the check of the sources fails where a 64-bit number comes in, and only there."""

import pathlib
import re
import shutil
import subprocess
import tempfile
import unittest

HERE = pathlib.Path(__file__).resolve().parent
CRATES = HERE.parent / "crates"


def outcome(crates):
    done = subprocess.run([HERE / "narrow_sources", crates], capture_output=True, text=True, check=False)
    return done.returncode, done.stdout + done.stderr


class NarrowSources(unittest.TestCase):
    def setUp(self):
        folder = tempfile.TemporaryDirectory()
        self.addCleanup(folder.cleanup)
        self.crates = pathlib.Path(folder.name)
        for crate in ["cut", "decoder", "limits", "run", "spin"]:
            shutil.copytree(CRATES / crate / "src", self.crates / crate / "src")

    def spoilt(self, module, line):
        """What is said of the sources with one line more in a module."""
        path = self.crates / module
        whole = path.read_text()
        path.write_text(whole + line + "\n")
        said = outcome(self.crates)
        path.write_text(whole)
        return said

    def test_as_they_are(self):
        self.assertEqual((0, "narrow_sources: 17 modules, no 64-bit type\n"), outcome(self.crates))

    def test_each_kind_of_number(self):
        for line in ["fn f(x: i64) {}", "let x: u64 = 0;", "let x = 0u64;", "let x = 1_i64;", "x as i64", "[0i64; 3]", "f64", "u128", "isize"]:
            status, said = self.spoilt("decoder/src/multiplier.rt", line)
            self.assertEqual((1, True), (status, "has a 64-bit type" in said), line)

    def test_each_module(self):
        """A wide number shows in each module that is listed, and in no other."""
        listed = re.search(r"modules=\((.*?)\n\)", (HERE / "narrow_sources").read_text(), re.S)[1]
        listed = {f"{crate}/src/{name}.rt" for crate, name in re.findall(r"([a-z_]+)/([a-z_]+)", listed)}
        self.assertEqual(17, len(listed))
        for path in self.crates.glob("*/src/*.rt"):
            module = str(path.relative_to(self.crates))
            status, _ = self.spoilt(module, "let x: i64 = 0;")
            self.assertEqual(module in listed, status == 1, module)

    def test_a_lost_module(self):
        (self.crates / "run/src/half_done.rt").unlink()
        self.assertEqual((1, "narrow_sources: no run/half_done\n"), outcome(self.crates))

    def test_what_they_take(self):
        for line in ["use super::gap::gap_of;", "let x = inputs::agreement(frame, word);", "use super::round::find_word;",
                     "use limits::MAX_MULTIPLIER;", "inputs :: agreement(frame, word)"]:
            status, said = self.spoilt("decoder/src/pass.rt", line)
            self.assertEqual((1, True), (status, "which is not listed" in said), line)
        for line in ["use super::*;", "use inputs::{agreement};", "use inputs::agreement as point;"]:
            status, said = self.spoilt("decoder/src/pass.rt", line)
            self.assertEqual((1, True), (status, "no plain path" in said), line)

    def test_what_a_round_takes(self):
        status, said = self.spoilt("decoder/src/round.rt", "use super::wide_pass::pass_wide;")
        self.assertEqual((1, True), (status, "decoder/round takes super::wide_pass::pass_wide" in said))

    def test_what_is_no_number(self):
        for line in ["// an i64 would do", "ghost use Rattle·integers.specs.Signed64.{u64};", "let i: usize = 0;", "let wifi64 = 0;"]:
            self.assertEqual(0, self.spoilt("decoder/src/step.rt", line)[0], line)


if __name__ == "__main__":
    unittest.main()
