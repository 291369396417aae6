"""A stand-in repository for the tests of the launcher and of tools/, with a stand-in for `rt`."""
import hashlib
import os
import shutil
import signal
import subprocess
import tempfile
import time

from program import LIMIT, ROOT, want

# A stand-in for the program, but for its name, which is its last line.
PROGRAM = r"""#!/bin/sh
[ "$*" = --help ] && exit 0
[ "$1" = --kill ] && kill -TERM $$
case " $* " in *" --pages "*) echo "${GLIBC_TUNABLES-unset}"; exit 0 ;; esac
for word; do printf '[%s]' "$word"; done
pwd
tail -n 1 "$0"
exit 7
"""
# The stand-in for rt notes when it begins and ends, its crate and its words. As rt, it keeps others out of the folders of
# the crate and of those that it stands on, which have to be built, and wants a folder for each line of crates.txt. Crates
# that are to meet wait for one another, and those that are to stay do not end. For `run` it writes a program, which prints
# its words in brackets, where it is and its name.
RT = r"""#!/bin/sh
crate=${PWD##*/}
[ "$1" = version ] && { echo 'stand-in 7'; exit; }
is_in() { case " $2 " in *" $1 "*) ;; *) return 1 ;; esac }
for listed in $(sed -n 's/:.*//p' ../../crates.txt); do
    [ -d "../$listed/src" ] || { echo "there is no folder $listed"; exit 1; }
done
handle=3
for held in "$crate" $(sed -n "s/^$crate: *//p" ../../crates.txt); do
    is_in "$held" 'csv jiff' && continue
    eval "exec $handle<../$held" && flock "$handle"
    handle=$((handle + 1))
    [ "$held" = "$crate" ] || [ -f "../$held/out/rlib/built" ] || { echo "$held is not built"; exit 1; }
done
echo "$$" >"$RT_NOTES.$crate"
echo "begin $crate $*" >>"$RT_NOTES"
mkdir -p out/incremental
echo kept >>out/incremental/work
echo 'so far: 1 of 2 functions checked'
if is_in "$crate" "$RT_MEETS"; then
    for other in $RT_MEETS; do
        waited=0
        until [ -f "$RT_NOTES.$other" ]; do
            [ "$waited" -lt 200 ] || { echo "$other did not begin"; exit 1; }
            waited=$((waited + 1))
            sleep 0.1
        done
    done
fi
is_in "$crate" "$RT_FAILS" && { echo 'not proved'; exit 1; }
is_in "$crate" "$RT_STAYS" && sleep 600
sleep "${RT_TAKES:-0}"
mkdir -p out/rlib
echo built >out/rlib/built
echo "end $crate" >>"$RT_NOTES"
[ "$1" = run ] && ! [ "$RT_KEEPS" ] || exit 0
cat >out/gtfs <<'PROGRAM'
@PROGRAM@built
PROGRAM
chmod +x out/gtfs
exit 0
""".replace("@PROGRAM@", PROGRAM)
CRATES = """# The crates of a small clone, of which two in the middle have nothing to do with one another.
gtfs: gtfs_rules csv
gtfs_rules: gtfs_table gtfs_days jiff csv
gtfs_days: gtfs_field jiff
gtfs_table: gtfs_field csv
example: gtfs_table csv
gtfs_field: jiff
"""
MIDDLE = ("gtfs_days", "gtfs_table")
# What each crate of the program stands on, also where its line does not name it.
BELOW = {
    "gtfs_field": (),
    "gtfs_days": ("gtfs_field",),
    "gtfs_table": ("gtfs_field",),
    "gtfs_rules": ("gtfs_field", *MIDDLE),
    "gtfs": ("gtfs_field", *MIDDLE, "gtfs_rules"),
}
WORDS = ["board", "a b", "", "*", "--from=@1", "line\nbreak", "-n"]
SAID = "[board][a b][][*][--from=@1][line\nbreak][-n]"

# What a clone gets of this repository.
COPIED = ("gtfs", "tools", "dist/install", "dist/tunables")


class Clone:
    """A repository of six crates, each of one file, under a path with spaces and an equals sign; all may read it."""

    def __init__(self, room):
        self.room = room
        self.root = os.path.join(room, "a = new clone")
        self.notes = os.path.join(room, "notes")
        self.program = self.path("crates", "gtfs", "out", "gtfs")
        self.ready = self.path("dist", "gtfs-x86_64-linux")
        for crate in (*BELOW, "example"):
            write(self.source_of(crate), f"// {crate}\n")
        write(self.path("crates.txt"), CRATES)
        for name in COPIED:
            copy(os.path.join(ROOT, name), self.path(name))
        self.launcher = self.path("gtfs")
        self.tools = os.path.join(room, "tools")
        self.put_tool("rt", RT)
        self.temporary = os.path.join(room, "temporary")
        os.mkdir(self.temporary)

    def path(self, *names):
        return os.path.join(self.root, *names)

    def source_of(self, crate):
        return self.path("crates", crate, "src", "lib.rt")

    def put_tool(self, name, text):
        """Puts a program on the path of the calls."""
        write(os.path.join(self.tools, name), text, mode=0o755)

    def make_ready(self, program=PROGRAM + "ready\n"):
        """A program in dist/ with its digests, made here and not by tools/dist."""
        write(self.ready, program, mode=0o755)
        write(self.path("dist", "digests"), "toolchain: stand-in 7\n" + self.digests())

    def digests(self):
        """What dist/digests has to say of this clone, but for its first line."""
        sources = sorted(f"crates/{crate}/src/lib.rt" for crate in BELOW)
        paths = ["crates.txt", *sources, "dist/gtfs-x86_64-linux", "dist/tunables"]
        lines = []
        for path in paths:
            with open(self.path(path), "rb") as file:
                lines.append(f"{hashlib.sha256(file.read()).hexdigest()}  {path}\n")
        return "".join(lines)

    def call(self, *words, **how):
        with self.start(*words, **how) as started:
            try:
                out, err = started.communicate(timeout=LIMIT)
            except subprocess.TimeoutExpired:
                os.killpg(started.pid, signal.SIGKILL)
                raise
        return subprocess.CompletedProcess(words, started.returncode, out, err)

    def build(self, *words, **how):
        return self.call(*words, command=self.path("tools", "build"), **how)

    def start(self, *words, command=None, has_rt=True, user=None, **settings):
        path = [self.tools] * has_rt + ["/usr/bin", "/bin"]
        env = {"PATH": ":".join(path), "RT_NOTES": self.notes, "RT_JOBS": "4", "TMPDIR": self.temporary, **settings}
        how = {"stdout": subprocess.PIPE, "stderr": subprocess.PIPE, "text": True}
        if user is not None:
            how.update(user=user, group=user, extra_groups=[])
        how.update(start_new_session=True, preexec_fn=take_signals)
        return subprocess.Popen([command or self.launcher, *words], cwd=self.room, env=env, **how)

    def calls(self):
        """What the stand-in for rt noted, line by line."""
        if not os.path.exists(self.notes):
            return []
        with open(self.notes, encoding="utf-8") as notes:
            return notes.read().splitlines()

    def want_builds(self, count):
        """Wants that rt was called for so many builds until now, each crate once and after those that it stands on."""
        calls = self.calls()
        steps = 2 * len(BELOW)
        want(len(calls) == steps * count, f"rt was called for {calls}")
        for start in range(0, len(calls), steps):
            build = calls[start : start + steps]
            places = {" ".join(call.split()[:2]): place for place, call in enumerate(build)}
            for crate, lower in BELOW.items():
                want(f"end {crate}" in places, f"{crate} was not proved: {build}")
                for other in lower:
                    want(places[f"end {other}"] < places[f"begin {crate}"], f"{crate} began before {other} ended: {build}")

    def words_of(self, crate):
        """The words of each call of rt in the crate's folder."""
        return [call.split(" ", 2)[2] for call in self.calls() if call.startswith(f"begin {crate} ")]

    def await_begun(self, crates):
        """Waits until rt works in each of these crates."""
        until = time.monotonic() + LIMIT
        while not all(os.path.exists(f"{self.notes}.{crate}") for crate in crates):
            want(time.monotonic() < until, f"of {crates} not all began")
            time.sleep(0.05)

    def forget_begun(self, crates):
        """Forgets that rt began to work in these crates."""
        for crate in crates:
            if os.path.exists(f"{self.notes}.{crate}"):
                os.remove(f"{self.notes}.{crate}")

    def want_ended(self):
        """Wants that no call of rt goes on, and that no copy is left."""
        for crate in BELOW:
            if os.path.exists(f"{self.notes}.{crate}"):
                with open(f"{self.notes}.{crate}", encoding="utf-8") as file:
                    process = int(file.read())
                # A signal takes a moment to arrive where the machine is busy; the stand-in would stay for ten minutes.
                until = time.monotonic() + LIMIT
                while is_running(process) and time.monotonic() < until:
                    time.sleep(0.05)
                want(not is_running(process), f"rt still runs for {crate}")
        want(os.listdir(self.temporary) == [], f"left behind: {os.listdir(self.temporary)}")


def write(path, text, mode=0o644):
    """Writes a file, and the folders that it needs."""
    os.makedirs(os.path.dirname(path), exist_ok=True)
    with open(path, "w", encoding="utf-8") as file:
        file.write(text)
    os.chmod(path, mode)


def copy(path, to):
    """Copies a file or a folder of files, which may be written then, also where this repository may only be read."""
    if os.path.isdir(path):
        shutil.copytree(path, to)
    else:
        os.makedirs(os.path.dirname(to), exist_ok=True)
        shutil.copy(path, to)
    for copied in [to, *(os.path.join(to, name) for name in (os.listdir(to) if os.path.isdir(to) else ()))]:
        os.chmod(copied, os.stat(copied).st_mode | 0o200)


def touch(path, seconds):
    """Sets the file's time so many seconds later."""
    moment = os.stat(path).st_mtime + seconds
    os.utime(path, (moment, moment))


def wait_a_moment():
    """Waits until the system's clock for files has gone on, which it does some hundred times a second."""
    time.sleep(0.05)


def take_signals():
    """Has no signal passed over that ends a call, as Ctrl-C is in a script's background, and the end of a terminal by nohup."""
    for number in (signal.SIGINT, signal.SIGTERM, signal.SIGHUP):
        signal.signal(number, signal.SIG_DFL)


def is_running(process):
    """Whether the process is there, and has not ended unread."""
    try:
        with open(f"/proc/{process}/stat", encoding="utf-8") as file:
            return file.read().rpartition(")")[2].split()[0] not in ("Z", "X")
    except FileNotFoundError:
        return False


def in_clone(test):
    """The test, handed a clone of its own."""

    def run():
        with tempfile.TemporaryDirectory() as room:
            os.chmod(room, 0o755)
            return test(Clone(os.path.realpath(room)))

    run.__name__ = test.__name__
    return run
