"""Proving apart from running: when it is proved, by whom, and what is said; with a stand-in for the toolchain that
counts. What stands proved in build/ serves as what it proves."""
import glob
import os
import shutil
import signal
import stat
import subprocess
import sys
import tempfile
import time
import unittest

from support import ROOT, interruptible, read

STAND_IN = """\
#!/bin/sh
# Prints what rt prints, and puts in place what is proved already.
case $1 in
version) cat "$IDENTITY" ;;
all)
    crate=${PWD##*/}
    [ "$crate" = check_graph ] || echo "$PWD" >>"$COUNTER"
    for one in folder "$crate"; do sleep 0.2; echo "== $one"; echo "fn $one::f: proved"; done
    if [ -f "$BREAK" ]; then echo "error: not so"; echo "== summary"; echo "folder: failed (1)"; exit 1; fi ;;
lib) mkdir -p out && cp "$BUILT/lib/liblaguipy.a" out/liblaguipy_c.a ;;
run) mkdir -p out && cp "$BUILT/bin/check_graph" out/ && echo "no file" ;;
esac
"""
CRATES = "folder:\nlaguipy_c staticlib: folder\ncheck_graph: folder\nother:\n"


class Checkout(unittest.TestCase):
    def setUp(self):
        room = tempfile.TemporaryDirectory()
        self.addCleanup(room.cleanup)
        self.room, self.root = room.name, os.path.join(room.name, "checkout")
        for name in ("tools", "bindings/python", "examples/pedal"):
            shutil.copytree(os.path.join(ROOT, name), os.path.join(self.root, name))
        for name in ("laguipy", "VERSION"):
            shutil.copy(os.path.join(ROOT, name), self.root)
        self.write("checkout/crates.txt", CRATES)
        for crate in ("folder", "laguipy_c", "check_graph", "other"):
            self.write(f"checkout/crates/{crate}/src/lib.rt", f"// {crate}\n")
        os.chmod(self.write("bin/rt", STAND_IN), 0o755)
        self.write("identity", "kit 1\n")
        self.counter = os.path.join(self.room, "counter")

    def write(self, name, text):
        path = os.path.join(self.room, name)
        os.makedirs(os.path.dirname(path), exist_ok=True)
        with open(path, "w", encoding="utf-8") as file:
            file.write(text)
        return path

    def environment(self, toolchain=True):
        own = [os.path.join(self.room, "bin")] if toolchain else []
        kept = [os.path.dirname(sys.executable), "/usr/bin", "/bin"]
        return {
            "PATH": os.pathsep.join(own + [place for place in kept if not os.path.exists(os.path.join(place, "rt"))]),
            "COUNTER": self.counter,
            "IDENTITY": os.path.join(self.room, "identity"),
            "BREAK": os.path.join(self.room, "break"),
            "BUILT": os.path.join(ROOT, "build"),
            "XDG_CACHE_HOME": os.path.join(self.room, "cache"),
        }

    def start(self, *words, toolchain=True):
        line = [sys.executable, os.path.join(self.root, "laguipy"), *words]
        pipes = {"stdin": subprocess.DEVNULL, "stdout": subprocess.PIPE, "stderr": subprocess.PIPE}
        return subprocess.Popen(line, env=self.environment(toolchain), preexec_fn=interruptible, **pipes)

    def run_pedal(self, **more):
        running = self.start("-q", os.path.join(self.root, "examples", "pedal"), **more)
        out, said = running.communicate()
        return running.returncode, out, said.decode()

    def copies(self, path):
        """The files of a path in the copies that were proved."""
        return glob.glob(os.path.join(self.room, "cache", "laguipy", "*", path))

    def proofs(self):
        return len(read(self.counter).splitlines()) if os.path.exists(self.counter) else 0

    def assert_report(self, came):
        self.assertEqual(came[:2], (0, read(os.path.join(ROOT, "examples", "pedal", "expected.txt"))), came[2])

    def test_once(self):
        came = self.run_pedal()
        self.assert_report(came)
        crates = ("proving 1 of 3: folder, after ", "proving 3 of 3: check_graph, after ")
        for line in ("takes some minutes", *crates, "laguipy: proved"):
            self.assertIn(line, came[2])
        again = self.run_pedal()
        self.assert_report(again)
        self.assertEqual((again[2], self.proofs()), ("", 1))

    def test_two_at_once(self):
        pedal = os.path.join(self.root, "examples", "pedal")
        running = [self.start("-q", pedal) for _ in range(4)]
        ended = [(*one.communicate(), one.returncode) for one in running]
        for out, said, status in ended:
            self.assert_report((status, out, said.decode()))
        self.assertEqual(self.proofs(), 1)
        self.assertEqual(sum(b"waiting for it" in said for _, said, _ in ended), 3)

    def test_again_where_something_changed(self):
        self.assert_report(self.run_pedal())
        changes = (
            ("checkout/crates/folder/src/lib.rt", "// another\n"),
            ("checkout/crates/folder/proofs/Law.antt", "-- a law\n"),
            ("checkout/crates.txt", CRATES.replace("check_graph: folder", "check_graph: folder other")),
            ("identity", "kit 2\n"),
        )
        for count, (path, text) in enumerate(changes, 2):
            self.write(path, text)
            self.assert_report(self.run_pedal())
            self.assertEqual(self.proofs(), count, path)
        self.assertEqual(len(self.copies("crates/folder/proofs/Law.antt")), 1)
        os.remove(os.path.join(self.root, "crates/folder/proofs/Law.antt"))
        self.assert_report(self.run_pedal())
        self.assertEqual(self.proofs(), 6)
        self.assertEqual(self.copies("crates/folder/proofs/Law.antt"), [])
        self.assertEqual(len(self.copies("crates/check_graph/out/check_graph")), 1)

    def test_not_again_for_what_it_does_not_use(self):
        self.assert_report(self.run_pedal())
        self.write("checkout/crates/other/src/lib.rt", "// another\n")
        self.write("checkout/crates/folder/must-fail/x.edit", "\n")
        self.write("checkout/README.md", "\n")
        self.assert_report(self.run_pedal())
        self.assertEqual(self.proofs(), 1)

    def test_a_program_that_is_not_the_one_proved(self):
        self.assert_report(self.run_pedal())
        with open(os.path.join(self.root, "build/bin/check_graph"), "ab") as file:
            file.write(b"x")
        self.assert_report(self.run_pedal())
        self.assertEqual(self.proofs(), 2)

    def test_without_the_toolchain(self):
        came = self.run_pedal(toolchain=False)
        self.assertEqual((came[0], came[1]), (3, b""))
        self.assertIn("no rt is here", came[2])
        self.assert_report(self.run_pedal())
        came = self.run_pedal(toolchain=False)
        self.assert_report(came)
        self.assertEqual(came[2], "")

    def test_read_only(self):
        self.assert_report(self.run_pedal())
        before = sorted(os.walk(self.root))
        self.lock_up()
        self.assert_report(self.run_pedal())
        self.assertEqual(sorted(os.walk(self.root)), before)

    def lock_up(self):
        for folder, _, _ in os.walk(self.root):
            os.chmod(folder, os.stat(folder).st_mode & ~(stat.S_IWUSR | stat.S_IWGRP | stat.S_IWOTH))
            self.addCleanup(os.chmod, folder, 0o755)

    def test_not_proved(self):
        self.write("break", "")
        came = self.run_pedal()
        self.assertEqual((came[0], came[1]), (3, b""))
        self.assertIn("error: not so", came[2])
        self.assertIn("the program is not proved; build/log has all", came[2])
        os.remove(os.path.join(self.room, "break"))
        self.assert_report(self.run_pedal())

    def test_interrupted(self):
        """The toolchain is not left at work, and the next run proves."""
        running = self.start("-q", os.path.join(self.root, "examples", "pedal"))
        while not self.proofs():
            time.sleep(0.02)
        running.send_signal(signal.SIGINT)
        out, said = running.communicate()
        self.assertEqual((running.returncode, out), (130, b""))
        self.assertNotIn(b"Traceback", said)
        time.sleep(1)
        self.assertEqual(self.copies("crates/check_graph/out/check_graph"), [])
        self.assert_report(self.run_pedal())

    def test_a_stamp_that_is_no_text(self):
        self.assert_report(self.run_pedal())
        with open(os.path.join(self.root, "build/share/laguipy/proved"), "wb") as file:
            file.write(b"# commit \xff\xfe\n")
        self.assert_report(self.run_pedal())
        self.assertEqual(self.proofs(), 2)

    def test_standard_error_closed(self):
        """What is said goes nowhere, and not to standard output; what is proved is proved."""
        line = ["sh", "-c", 'exec "$@" 2>&-', "sh", sys.executable, os.path.join(self.root, "laguipy")]
        for _ in range(2):
            came = subprocess.run(line, env=self.environment(), stdout=subprocess.PIPE, check=False)
            self.assert_report((came.returncode, came.stdout, ""))

    def test_nothing_is_proved_for_help(self):
        for word in ("--help", "--version"):
            running = self.start(word)
            running.communicate()
            self.assertEqual((running.returncode, self.proofs()), (0, 0), word)

    def test_what_was_proved_is_told(self):
        self.assert_report(self.run_pedal())
        running = self.start("--version")
        lines = running.communicate()[0].decode().splitlines()
        self.assertEqual(lines[0], "laguipy " + read(os.path.join(ROOT, "VERSION"), "r").strip())
        self.assertIn("toolchain kit 1", lines)
        checked = subprocess.run(
            ["sha256sum", "--quiet", "-c", "share/laguipy/proved"], cwd=os.path.join(self.root, "build"), check=False
        )
        self.assertEqual(checked.returncode, 0)


if __name__ == "__main__":
    unittest.main()
