"""Hostile tries of ./gtfs, the launcher: little memory, tools that fail, odd environments, names and files. A program that was
not compared with the digests, or that differs from them, must not run.
"""
import ast
import os
import resource
import shutil
import signal
import subprocess
import sys
import time

from clones import WORDS, touch, wait_a_moment, write
from launching import DIFFERS, FIELD, counted, edit_field, ready, want_build, want_built, want_ready, want_run
from preload import make_shim
from program import LIMIT, want
from rooms import Skipped

POISON = "#!/bin/sh\necho poison\n"
BASH = "/bin/bash"
LIMITED = 'ulimit "$0" "$1" && shift && exec "$@"'

# What the launcher calls: programs, commands of bash, and functions of its own.
CALLED = """readlink uname find sort sha256sum rm mkdir cd exec exit source printf echo export mapfile set shopt trap local return
    command builtin test [ : answer below call cannot compare differ digests is_kept judge keep say state""".split()
TOOLS = ["readlink", "uname", "find", "sort", "sha256sum"]


def want_none(clone, *words, lines=1, **how):
    """Wants a call to run no program, and to say so in as many lines."""
    before = clone.calls()
    ran = clone.call(*words, **how)
    want((ran.stdout, ran.returncode) == ("", 125), f"{how}: status {ran.returncode}, output {ran.stdout}, err {ran.stderr}")
    want(ran.stderr.count("\n") == lines and ran.stderr.startswith("gtfs: "), f"{how}: err {ran.stderr}")
    want(clone.calls() == before, f"{how}: rt was called")
    return ran.stderr


def poison(clone):
    """Puts another program into dist/."""
    wait_a_moment()
    write(clone.ready, POISON, mode=0o755)


def least_memory():
    """The least address space, in KiB, in which bash runs at all."""
    least, most = 256, 1 << 20
    while most - least > 4:
        size = (least + most) // 8 * 4
        limits = (size << 10, size << 10)
        command = [BASH, "-p", "-c", ":"]
        how = {"stdout": subprocess.DEVNULL, "stderr": subprocess.DEVNULL, "timeout": LIMIT}
        ran = subprocess.run(command, preexec_fn=lambda: resource.setrlimit(resource.RLIMIT_AS, limits), **how)
        least, most = (least, size) if ran.returncode == 0 else (size, most)
    return most


@ready
def test_little_memory(clone):
    """Neither the program of dist/, which is another one, nor the one that was built, which is older than a source, may run."""
    want_ready(clone)
    edit_field(clone)
    want_build(clone, DIFFERS)
    wait_a_moment()
    write(clone.path(FIELD), "// gtfs_field, once more\n")
    poison(clone)
    least = least_memory()
    sizes = [*range(least - 40, least + 640, 4), *range(least + 640, least + 16_384, 512)]
    told = {"cannot be compared": 0, DIFFERS: 0}
    for option, size in (*(("-v", size) for size in sizes), *(("-n", size) for size in range(4, 20)), ("-f", 0)):
        ran = clone.call("-c", LIMITED, option, str(size), clone.launcher, *WORDS, command="/bin/sh", has_rt=False)
        want(ran.stdout == "" and ran.returncode not in (0, 7) and ran.stderr != "", f"with {option} {size}: {ran}")
        for words in told:
            told[words] += ran.returncode == 125 and words in ran.stderr
    want(min(told.values()) > 0, f"of {len(sizes)} sizes: {told}")
    # (nor has one of these calls kept that they are equal)
    want(DIFFERS in want_none(clone, *WORDS, lines=2, has_rt=False), "it says something else")
    return f"with {sizes[0]} to {sizes[-1]} KiB of memory, {len(sizes)} sizes, or with 4 to 19 open files, no program runs that differs"


@ready
def test_refused_forks(clone):
    if not shutil.which(os.environ.get("CC", "cc")):
        raise Skipped("there is no C compiler")
    forks = os.path.join(clone.room, "forks")
    preloaded = {"LD_PRELOAD": make_shim(clone.room, "refused-forks"), "FORKS": forks}
    count = 0
    for is_poisoned in (False, True):
        if is_poisoned:
            want_ready(clone)
            poison(clone)
        for behind in ({}, {"ALL": "1"}):
            number, is_reached = 1, True
            while is_reached:
                if not is_poisoned:
                    touch(clone.path(FIELD), 1)
                ran = clone.call(*WORDS, has_rt=False, REFUSED=str(number), **behind, **preloaded)
                is_reached = os.path.getsize(forks) >= number
                os.remove(forks)
                if is_poisoned or ran.returncode != 7:
                    want((ran.stdout, ran.returncode) == ("", 125) and ran.stderr != "", f"without fork {number}: {ran}")
                else:
                    want_run(clone, "ready", ran)
                number, count = number + 1, count + 1
    want(count > 30, f"{count} forks")
    return f"where a fork is refused, one after the other and with all behind it, {count} times, no program runs that differs"


@ready
def test_failing_tools(clone):
    for tool in TOOLS:
        for how in ("exit 1", "exit 127", "kill -KILL $$"):
            clone.put_tool(tool, f"#!/bin/sh\n{how}\n")
            want_none(clone, *WORDS)
            os.remove(os.path.join(clone.tools, tool))
    want_ready(clone)
    wait_a_moment()
    touch(clone.path(FIELD), 10)
    for tool in TOOLS:
        clone.put_tool(tool, "#!/bin/sh\nexit 127\n")
        want_none(clone, *WORDS)
        os.remove(os.path.join(clone.tools, tool))
    want_none(clone, *WORDS, PATH="")
    return "where a tool fails or is missing, no program runs and nothing is built: a line says so, in status 125"


@ready
def test_lost_folder(clone):
    for told in ("/", "/gtfs", "gtfs", "", clone.root, "/usr/bin/env"):
        clone.put_tool("readlink", f"#!/bin/sh\necho '{told}'\n")
        want_none(clone, *WORDS)
    os.remove(os.path.join(clone.tools, "readlink"))
    with open(clone.launcher, encoding="utf-8") as script:
        ran = subprocess.run([BASH, "-p"], stdin=script, cwd=clone.room, capture_output=True, text=True, timeout=LIMIT)
    want((ran.stdout, ran.returncode, ran.stderr) == ("", 125, "gtfs: its own folder cannot be found\n"), f"from an input: {ran}")
    return "where its own folder is not found no other is taken for it"


def settings_of(clone):
    """Variables that have an ordinary script in bash run something else."""
    code = os.path.join(clone.room, "code")
    write(code, "echo poison\nexit 0\n")
    yield {}
    for options in ("noexec", "errexit:nounset:xtrace:verbose", "noglob:noclobber:allexport:keyword", "posix:privileged"):
        yield {"SHELLOPTS": options}
    yield {"BASHOPTS": "failglob:dotglob:nocasematch:nocaseglob:nullglob:execfail:extglob"}
    for name in ("BASH_ENV", "ENV"):
        yield {name: code}
    for name, value in (("POSIXLY_CORRECT", "1"), ("GLOBIGNORE", "*"), ("IFS", "/gtfs-"), ("LC_ALL", "C.UTF-8"), ("LC_ALL", "POSIX"),
                        ("CDPATH", f"{clone.room}:/"), ("TMOUT", "1"), ("PS4", "$(echo poison >&2)"), ("root", "/"), ("PWD", "/")):
        yield {name: value}
    for name in CALLED:
        yield {f"BASH_FUNC_{name}%%": "() { echo equal; exit 0; }"}
    yield {"SHELLOPTS": "privileged", **{f"BASH_FUNC_{name}%%": "() { echo equal; exit 0; }" for name in CALLED}}


@ready
def test_environment(clone):
    count = 0
    for settings in settings_of(clone):
        for _ in range(2):
            want_ready(clone, **settings)
        want((counted(clone) > 0) == (count == 0), f"{settings}: digests were computed, or were not")
        if settings.get("SHELLOPTS") != "noexec":
            ran = clone.call(clone.launcher, *WORDS, command=BASH, **settings)
            if "BASH_ENV" not in settings:
                ran.stderr = ""
                want_run(clone, "ready", ran)
        count += 1
    poison(clone)
    for settings in settings_of(clone):
        want_none(clone, *WORDS, lines=2, has_rt=False, **settings)
        if not {"SHELLOPTS", "BASH_ENV"} & set(settings):
            want_none(clone, clone.launcher, *WORDS, command=BASH, lines=2, has_rt=False, **settings)
    return f"{count} environments change nothing, also where bash is called with the launcher"


@ready
def test_passed_on(clone):
    given = {"BASH_FUNC_find%%": "() { :; }", "BASH_ENV": "/none", "ENV": "/none", "CDPATH": "/", "GLOBIGNORE": "*", "OWN": "a\nb",
             "A-b": "c", "POSIXLY_CORRECT": "1", "LC_ALL": "C", "TMOUT": "9", "GLIBC_TUNABLES": "glibc.malloc.check=0"}
    # (bash has values of its own for these, and what it is told in SHELLOPTS is for itself)
    changed = {"BASHOPTS": "failglob", "IFS": "x"}
    clone.make_ready(f"#!{sys.executable}\nimport os\nprint(dict(os.environ))\n")
    for _ in range(2):
        ran = clone.call(**given, **changed, SHELLOPTS="xtrace")
        held = ast.literal_eval(ran.stdout)
        want({name: held.get(name) for name in given} == given, f"the program is told {held}")
        names = set(held) - {"PWD", "OLDPWD", "SHLVL", "_"}
        want(names == {*given, *changed, "PATH", "RT_NOTES", "RT_JOBS", "TMPDIR"}, f"the program is told {held}")
        want(ran.stderr == "", f"err {ran.stderr}")
    return "the program gets the variables of its caller as they are, but for those of bash, and no other"


@ready
def test_ways(clone):
    tools = "/usr/bin:/bin"
    decoy = os.path.join(clone.room, "decoy")
    os.makedirs(os.path.join(decoy, "gtfs"))
    for link, target in (("-odd", clone.root), ("-x", clone.launcher), ("second", "first"), ("first", clone.launcher)):
        os.symlink(target, os.path.join(clone.room, link))
    relative = os.path.relpath(clone.launcher, clone.room)
    for command, words, settings in (
        ("gtfs", [], {"PATH": f"{clone.root}:{tools}"}),
        ("gtfs", [], {"PATH": f"{decoy}:{clone.root}:{tools}"}),
        ("gtfs", [], {"PATH": f"{os.path.dirname(relative)}:{tools}"}),
        (relative, [], {"CDPATH": f"{decoy}:/"}),
        ("./second", [], {}),
        ("-odd/gtfs", [], {}),
        ("./-x", [], {}),
        ("-x", [], {"PATH": f":{tools}"}),
        ("bash", ["gtfs"], {"PATH": f"{decoy}:{clone.root}:{tools}"}),
        ("bash", [relative], {}),
        ("bash", ["--", "-odd/gtfs"], {"CDPATH": "/"}),
    ):
        want_run(clone, "ready", clone.call(*words, *WORDS, command=command, **settings))
    return "it finds its folder through PATH, links and names that begin with a hyphen"


def pipe_at(path):
    if os.path.lexists(path):
        os.remove(path)
    os.mkfifo(path)


def pipe_test(path, why=None):
    @ready
    def test(clone):
        want_ready(clone)
        wait_a_moment()
        pipe_at(clone.path(path))
        if why:
            want_build(clone, why)
            want_built(clone)
        elif path == "out/dist-state":
            counted(clone)
            for number in range(2):
                want_ready(clone)
                want((counted(clone) > 0) == (number == 0), f"digests were computed in call {number} or were not")
        else:
            told = want_none(clone, *WORDS, lines=2)
            want(told.count(f"{path} is no file that can be read") == 2, f"err {told}")
        return f"a named pipe at {path} is not read"

    test.__name__ = f"test of a pipe at {path}"
    return test


@ready
def test_killed(clone):
    for tool in ("rm", "mv"):
        touch(clone.path(FIELD), 1)
        clone.put_tool(tool, "#!/bin/sh\nkill -KILL $PPID\n")
        clone.call(*WORDS)
        want(set(os.listdir(clone.path("out"))) <= {"dist-state"}, f"out/ has {os.listdir(clone.path('out'))}")
        os.remove(os.path.join(clone.tools, tool))
    for number in range(16):
        touch(clone.path(FIELD), 1)
        with clone.start(*WORDS) as started:
            time.sleep(number / 200)
            os.killpg(started.pid, signal.SIGKILL)
            started.communicate(timeout=LIMIT)
        want(set(os.listdir(clone.path("out"))) <= {"dist-state"}, f"out/ has {os.listdir(clone.path('out'))}")
    for _ in range(2):
        counted(clone)
        want_ready(clone)
    want(counted(clone) == 0, "digests were computed once more")
    return "a call that is killed leaves no file behind, and no state that is wrong"


@ready
def test_settings(clone):
    path = clone.path("dist", "tunables")
    write(path, "glibc.malloc.check=3\n")
    want_build(clone, "dist/tunables is not as dist/digests says")
    for text, wanted in (
        ("glibc.malloc.check=3\n", "glibc.malloc.check=3"),
        ("glibc.malloc.check=3", "glibc.malloc.check=3"),
        *((text, "unset") for text in ("", "\n", "$(touch caught)\n", "a=1; touch caught\n", "`touch caught`", "a=1\nb=2\n", "a=1\n\n",
                                       "a=1 b=2\n", "a='1'\n", 'a="1"\n', "a=\\1\n", "a=*\n", "ä=1\n", "a=1\r\n")),
    ):
        write(path, text)
        # (once as another text than the digests name, and once as that one)
        ran = clone.call("--pages")
        want((ran.stdout, ran.stderr) == (f"{wanted}\n", ""), f"{text!r}: {ran}")
        clone.make_ready()
        ran = clone.call("--pages")
        want((ran.stdout, ran.stderr) == (f"{wanted}\n", ""), f"{text!r}: {ran}")
        write(clone.path("dist", "digests"), "toolchain: stand-in 7\n")
    for folder in (clone.room, clone.root, clone.path("dist")):
        want("caught" not in os.listdir(folder), "a command in dist/tunables was run")
    return "dist/tunables is taken where it is one line of letters, digits and .:=_-, and is never run"


@ready
def test_unfit_build(clone):
    edit_field(clone)
    want_build(clone, DIFFERS)
    write(clone.program, "#!/none\n", mode=0o755)
    ran = clone.call(*WORDS)
    want((ran.stdout, ran.returncode) == ("", 125) and ran.stderr != "", f"{ran}")
    return "where the program that was built cannot be begun, the status is 125"


MISSING = "dist/gtfs-x86_64-linux or dist/digests is missing or cannot be used"
TRIES = [
    test_little_memory,
    test_refused_forks,
    test_failing_tools,
    test_lost_folder,
    test_environment,
    test_passed_on,
    test_ways,
    pipe_test("dist/gtfs-x86_64-linux", MISSING),
    pipe_test("dist/digests", MISSING),
    pipe_test("dist/tunables", "dist/tunables is no file that can be read"),
    *(pipe_test(path) for path in ("crates.txt", FIELD, "crates/gtfs_field/src/more.rt", "out/dist-state")),
    test_killed,
    test_settings,
    test_unfit_build,
]
