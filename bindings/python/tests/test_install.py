"""What is installed needs neither toolchain nor checkout, may be copied, and works where nothing can be written."""
import os
import shlex
import shutil
import subprocess
import sys
import tempfile
import unittest

from support import EXAMPLES, ROOT, read


class Installed(unittest.TestCase):
    @classmethod
    def setUpClass(cls):
        room = tempfile.TemporaryDirectory()
        cls.addClassCleanup(room.cleanup)
        cls.room, stage = room.name, os.path.join(room.name, "stage")
        words = ["--prefix", "/usr/laguipy", "--destdir", stage]
        cls.install(*words)
        cls.staged = os.path.join(stage, "usr", "laguipy")
        # Elsewhere, and read only.
        cls.prefix = os.path.join(room.name, "else where")
        shutil.copytree(cls.staged, cls.prefix, symlinks=True)
        subprocess.run(["chmod", "-R", "a-w", cls.prefix], check=True)
        cls.addClassCleanup(subprocess.run, ["chmod", "-R", "u+w", cls.prefix], check=True)

    @classmethod
    def install(cls, *words):
        line = [sys.executable, os.path.join(ROOT, "tools", "install.py"), *words]
        subprocess.run(line, check=True, stdout=subprocess.DEVNULL)

    def start(self, *words, **more):
        """With nothing on the PATH but Python."""
        bare = os.path.join(self.room, "path")
        os.makedirs(bare, exist_ok=True)
        if not os.path.exists(os.path.join(bare, "python3")):
            os.symlink(sys.executable, os.path.join(bare, "python3"))
        environment = {"PATH": bare, **more}
        return subprocess.run(
            words, env=environment, cwd=self.room, stdout=subprocess.PIPE, stderr=subprocess.PIPE, check=False
        )

    def laguipy(self, *words):
        came = self.start(os.path.join(self.prefix, "bin", "laguipy"), *words)
        return came.returncode, came.stdout.decode(), came.stderr.decode()

    def examples(self, name):
        return os.path.join(self.prefix, "share", "doc", "laguipy", "examples", name)

    def test_commands(self):
        before = sorted(os.walk(self.prefix))
        expected = read(os.path.join(EXAMPLES, "pedal", "expected.txt"), "r")
        self.assertEqual(self.laguipy(self.examples("pedal"))[:2], (0, expected))
        self.assertEqual(self.laguipy()[:2], (0, expected))
        figures = self.laguipy("figures", self.examples("scan_loop"), "1000")
        self.assertEqual(figures[:2], (0, "within 1000 77667614 7.7667614 %\n"))
        status, out, _ = self.laguipy("explain", self.examples("refused_25"))
        self.assertEqual((status, out.splitlines()[0]), (1, "refused 25 0"))
        self.assertIn("command 0 asks for 10000000 at least", out)
        self.assertEqual(self.laguipy("show", self.examples("pedal"))[0], 0)
        built = self.laguipy("build", "-q", self.examples("pedal"), "-o", os.path.join(self.room, "built.fold"))
        self.assertEqual((built[0], built[1].splitlines()[1], built[2]), (0, "root 1000000000 100 %", ""))
        version = self.laguipy("--version")[1]
        self.assertIn("toolchain ", version)
        self.assertEqual(sorted(os.walk(self.prefix)), before)

    def test_import(self):
        python = f"python{sys.version_info[0]}.{sys.version_info[1]}"
        package = os.path.join(self.prefix, "lib", python, "site-packages")
        line = (
            "import laguipy, sys; m, g = (open(sys.argv[1] + f, 'rb').read() for f in ('/model.fold', '/graph.fold')); "
            "print(laguipy.__version__, laguipy.graph_check(m, g).root)"
        )
        came = self.start(sys.executable, "-c", line, self.examples("pedal"), PYTHONPATH=package)
        due = [read(os.path.join(ROOT, "VERSION"), "r").strip(), "10000000"]
        self.assertEqual(came.stdout.decode().split(), due, came.stderr)

    @unittest.skipUnless(shutil.which("pkg-config") and shutil.which("cc"), "no pkg-config or no C compiler")
    def test_c_by_pkg_config(self):
        environment = {**os.environ, "PKG_CONFIG_PATH": os.path.join(self.prefix, "lib", "pkgconfig")}
        asked = subprocess.run(
            ["pkg-config", "--cflags", "--libs", "laguipy"], env=environment, stdout=subprocess.PIPE, check=True
        )
        flags = shlex.split(asked.stdout.decode())
        paths = [os.path.join(self.examples("pedal"), name) for name in ("model.fold", "graph.fold")]
        for static in ([], ["-static"]):
            program = os.path.join(self.room, f"embed{len(static)}")
            line = ["cc", "-std=c99", "-Wall", "-Wextra", "-Werror", self.examples("embed/embed.c"), *static, *flags]
            subprocess.run([*line, "-o", program], check=True)
            came = self.start(program, *paths, LD_LIBRARY_PATH=os.path.join(self.prefix, "lib"))
            self.assertEqual(came.stdout, read(os.path.join(EXAMPLES, "pedal", "expected.txt")), came.stderr)

    def test_what_was_proved(self):
        checked = subprocess.run(["sha256sum", "--quiet", "-c", "share/laguipy/proved"], cwd=self.prefix, check=False)
        self.assertEqual(checked.returncode, 0)
        facts = read(os.path.join(self.prefix, "share", "laguipy", "proved"), "r")
        for word in ("commit", "toolchain", "sources", "bin/check_graph", "lib/liblaguipy.a", "lib/liblaguipy.so"):
            self.assertIn(word, facts)

    def test_no_installed_file_names_the_checkout(self):
        for folder, _, names in os.walk(self.prefix):
            for name in names:
                self.assertNotIn(ROOT.encode(), read(os.path.join(folder, name)), name)

    def test_uninstall(self):
        with tempfile.TemporaryDirectory() as room:
            self.install("--prefix", room)
            with open(os.path.join(room, "own"), "w", encoding="ascii"):
                pass
            self.install("--prefix", room, "--remove")
            self.assertEqual(os.listdir(room), ["own"])

    def test_another_version(self):
        """What a version before had, and this one has not, is taken away; what is not ours stays."""
        with tempfile.TemporaryDirectory() as room:
            self.install("--prefix", room)
            listed = os.path.join(room, "share", "laguipy", "installed")
            for name in ("lib/liblaguipy.so.0.0.0", "lib/old/own", "lib/own"):
                os.makedirs(os.path.dirname(os.path.join(room, name)), exist_ok=True)
                with open(os.path.join(room, name), "w", encoding="ascii"):
                    pass
            with open(listed, "a", encoding="utf-8") as file:
                file.write("lib/liblaguipy.so.0.0.0\nlib/old/own\nlib/gone/before\n")
            before = set(os.listdir(os.path.join(room, "lib")))
            self.install("--prefix", room)
            after = set(os.listdir(os.path.join(room, "lib")))
            self.assertEqual(before - after, {"liblaguipy.so.0.0.0", "old"})
            self.assertNotIn("lib/old/own", read(listed, "r"))

    def test_what_cannot_be_done(self):
        """A line on standard error, and exit 3."""
        tool = os.path.join(ROOT, "tools", "install.py")
        with tempfile.TemporaryDirectory() as room:
            with open(os.path.join(room, "file"), "w", encoding="ascii"):
                pass
            copy = os.path.join(room, "tools", "install.py")
            os.mkdir(os.path.dirname(copy))
            shutil.copy(tool, copy)
            for words, told in (
                ((tool, "--prefix", room, "--remove"), "there is no laguipy below"),
                ((tool, "--prefix", os.path.join(room, "file")), "file/"),
                ((copy, "--prefix", os.path.join(room, "new")), "nothing is proved yet: `make` does it"),
            ):
                line = [sys.executable, *words]
                came = subprocess.run(line, stdout=subprocess.PIPE, stderr=subprocess.PIPE, check=False)
                self.assertEqual((came.returncode, came.stdout), (3, b""), words)
                self.assertIn(told, came.stderr.decode())
                self.assertNotIn("Traceback", came.stderr.decode())


if __name__ == "__main__":
    unittest.main()
