"""The wheel, and the command of the package."""
import base64
import hashlib
import os
import shutil
import stat
import subprocess
import sys
import zipfile
from glob import glob

import dezhampul
from clones import Clone, copy, write
from made import PACKAGE, Case, Tried, answer, example, gtfs, put
from program import ROOT, read

NAME = f"dezhampul-{dezhampul.__version__}-py3-none-manylinux_2_34_x86_64.whl"
INFO = f"dezhampul-{dezhampul.__version__}.dist-info"


def run(*words, cwd=None, **changed):
    """Runs Python without what this run knows of the program and the package."""
    held = {name: value for name, value in os.environ.items() if name not in ("GTFS", "PYTHONPATH", "GLIBC_TUNABLES")}
    ran = subprocess.run([sys.executable, *words], cwd=cwd, env={**held, **changed}, stdin=subprocess.DEVNULL, stdout=subprocess.PIPE,
                         stderr=subprocess.PIPE, timeout=60)
    return ran.returncode, ran.stdout.decode(), ran.stderr.decode()


def make_clone(room):
    """A clone with the package and, in its dist/, the program that is tried, with digests of the clone's own sources."""
    clone = Clone(os.path.realpath(room))
    shutil.copytree(PACKAGE, clone.path("python"), ignore=shutil.ignore_patterns("__pycache__"))
    copy(Tried.path, clone.ready)
    write(clone.path("dist", "digests"), f"stand-in\n{clone.digests()}")
    return clone


def unpack(path, folder):
    """Unpacks a wheel with the modes of its entries, as installers do."""
    with zipfile.ZipFile(path) as packed:
        for entry in packed.infolist():
            os.chmod(packed.extract(entry, folder), stat.S_IMODE(entry.external_attr >> 16))
    return folder


def pip_of_python():
    """The wheel of pip that Python keeps for new environments, or None. It runs from there, which saves its installation."""
    try:
        import ensurepip
    except ImportError:
        return None
    folders = os.path.join(os.path.dirname(ensurepip.__file__), "_bundled"), "/usr/share/python-wheels"
    return next((path for folder in folders for path in glob(os.path.join(folder, "pip-*.whl"))), None)


class Wheels(Case):
    def setUp(self):
        super().setUp()
        os.mkdir(self.path("clone"))
        self.clone = make_clone(self.path("clone"))
        self.wheel = self.clone.path("tools", "wheel")

    def build(self, folder):
        """The path of a wheel that is made in a folder."""
        status, out, err = run("-W", "error", self.wheel, folder)
        self.assertEqual((status, err), (0, ""))
        return out.rstrip("\n")

    def test_version(self):
        """the version of the package is that of the program"""
        self.assertEqual(f"gtfs {dezhampul.__version__}\n", answer("--version"))

    def test_command(self):
        """python -m dezhampul tells both versions, or that there is no program"""
        program = os.environ["GTFS"]
        lines = f"dezhampul {dezhampul.__version__}\n", f"gtfs {dezhampul.__version__} ({program})\n"
        self.assertEqual(run("-W", "error", "-m", "dezhampul", PYTHONPATH=PACKAGE, GTFS=program), (0, "".join(lines), ""))
        status, out, err = run("-m", "dezhampul", PYTHONPATH=PACKAGE, GTFS=self.path("none"))
        self.assertEqual((status, out, err), (1, lines[0], f"dezhampul: $GTFS names no program: {self.path('none')}\n"))

    def test_failing_command(self):
        """python -m dezhampul tells how a program failed, with its error line"""
        for text, told in (("echo 'gtfs: out of memory' >&2; exit 4", "gtfs ended with status 4: out of memory"),
                           ("echo half; exit 7", "gtfs ended with status 7"), ("kill -9 $$", "gtfs ended with signal 9"),
                           ("", "gtfs told no version")):
            put(self.path("failing"), f"#!/bin/sh\n{text}\n", 0o755)
            status, out, err = run("-W", "error", "-m", "dezhampul", PYTHONPATH=PACKAGE, GTFS=self.path("failing"))
            self.assertEqual((status, out, err), (1, f"dezhampul {dezhampul.__version__}\n", f"dezhampul: {told}\n"))

    def test_same(self):
        """a wheel has the same bytes each time, at each place, and replaces an older one"""
        paths = [self.build(self.path(folder)) for folder in ("a", "b/c", "a")]
        self.assertEqual([os.path.basename(path) for path in paths], [NAME] * 3)
        self.assertEqual(read(paths[0]), read(paths[1]))
        self.assertEqual(os.listdir(self.path("a")), [NAME])

    def test_record(self):
        """the record has each entry with its digest and its length"""
        with zipfile.ZipFile(self.build(self.room)) as packed:
            held = {name: packed.read(name) for name in packed.namelist()}
        wanted = [f"{INFO}/RECORD,,"]
        for name, data in held.items():
            digest = base64.urlsafe_b64encode(hashlib.sha256(data).digest()).decode().rstrip("=")
            wanted.append(f"{name},sha256={digest},{len(data)}")
        lines = held[f"{INFO}/RECORD"].decode().splitlines()
        self.assertEqual(sorted(lines), sorted(line for line in wanted if not line.startswith(f"{INFO}/RECORD,sha")))
        self.assertEqual(held["dezhampul/bin/gtfs"], read(self.clone.ready))
        self.assertIn("dezhampul/py.typed", held)

    def test_unpacked(self):
        """a wheel that was unpacked runs with its own program, whatever else the path has"""
        folder = unpack(self.build(self.room), self.path("unpacked"))
        program = os.path.join(folder, "dezhampul", "bin", "gtfs")
        status, out, err = run("-B", "-W", "error", "-m", "dezhampul", cwd=folder)
        self.assertEqual((status, out, err), (0, f"dezhampul {dezhampul.__version__}\ngtfs {dezhampul.__version__} ({program})\n", ""))
        status, out, err = run("-B", "-c", f"import dezhampul; print(dezhampul.check({example('broken')!r}).errors)", cwd=folder)
        self.assertEqual((status, out, err), (0, "6\n", ""))

    def test_console_command(self):
        """the command gtfs is the program, with its words, status and settings"""
        folder = unpack(self.build(self.room), self.path("unpacked"))
        call = "import sys; from dezhampul.__main__ import gtfs; sys.exit(gtfs())"
        for words in (["check", example("broken")], ["--version"], [], ["check", self.path("none")]):
            self.assertEqual(run("-B", "-c", call, *words, cwd=folder, GTFS="/none"), gtfs(*words))
        program = os.path.join(folder, "dezhampul", "bin", "gtfs")
        with open(program, "w", encoding="utf-8") as file:
            file.write('#!/bin/sh\necho "${GLIBC_TUNABLES-unset}"\nexit 7\n')
        settings = read(os.path.join(ROOT, "dist", "tunables")).decode()
        for words, changed, told in (("check", {}, settings), ("merge", {}, "unset\n"), ("serve", {"GLIBC_TUNABLES": ""}, "\n")):
            self.assertEqual(run("-B", "-c", call, words, cwd=folder, **changed), (7, told, ""))

    def test_installed(self):
        """pip installs the wheel into a fresh environment, with the command gtfs"""
        path, folder, pip = self.build(self.room), self.path("environment"), pip_of_python()
        made = run("-m", "venv", "--without-pip", folder)
        if made[0] or not pip:
            self.skipTest(f"python3 -m venv does not work here, or has no pip: {(made[1] + made[2]).strip().splitlines()[-1:]}")
        python = os.path.join(folder, "bin", "python")
        how = {"stdin": subprocess.DEVNULL, "stdout": subprocess.PIPE, "stderr": subprocess.PIPE, "timeout": 60, "cwd": self.room}
        env = {name: value for name, value in os.environ.items() if name not in ("GTFS", "PYTHONPATH")}
        call = [python, os.path.join(pip, "pip"), "install", "-q", "--no-index", "--disable-pip-version-check", path]
        installed = subprocess.run(call, env=env, **how)
        self.assertEqual(installed.returncode, 0, installed.stderr)
        told = subprocess.run([python, "-m", "dezhampul"], env=env, **how).stdout.decode()
        self.assertRegex(told, rf"\Adezhampul {dezhampul.__version__}\ngtfs {dezhampul.__version__} \(.*/dezhampul/bin/gtfs\)\n\Z")
        ran = subprocess.run([os.path.join(folder, "bin", "gtfs"), "check", example("broken")], env=env, **how)
        self.assertEqual((ran.returncode, ran.stdout.decode()), gtfs("check", example("broken"))[:2])

    def test_refused(self):
        """a folder that cannot be written"""
        status, out, err = run(self.wheel, os.path.join(example("f1"), "stops.txt"))
        self.assertEqual((status, out), (1, ""))
        self.assertTrue(err.startswith("tools/wheel: "), err)

    def test_other_program(self):
        """a program that is not what the sources make is refused with a line, and no wheel is made"""
        first, second = "call tools/build and tools/dist first", "tools/digests ended with status 2"
        field, digests = self.clone.source_of("gtfs_field"), self.clone.path("dist", "digests")
        for path, line in (
            (field, f"crates/gtfs_field/src/lib.rt differs from the sources of dist/gtfs-x86_64-linux: {first}"),
            (self.clone.ready, f"dist/gtfs-x86_64-linux is not the program that dist/digests names: {first}"),
            (digests, f"crates.txt is not among the sources of dist/gtfs-x86_64-linux: {first}"),
            (self.clone.path("tools", "compare"), f"dist/ cannot be compared with the sources: {second}"),
        ):
            held, mode = read(path), os.stat(path).st_mode
            write(path, "exit 2\n", mode)
            status, out, err = run(self.wheel, self.path("out"))
            self.assertEqual((status, out, err), (1, "", f"tools/wheel: {line}\n"))
            self.assertFalse(os.path.exists(self.path("out")))
            with open(path, "wb") as file:
                file.write(held)
        self.build(self.path("out"))
