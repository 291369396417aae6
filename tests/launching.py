"""What the tests of ./gtfs, the launcher, share: a stand-in repository with a program that is ready, and how a call has to end."""
import os

from clones import SAID, WORDS, in_clone, write
from program import want
from rooms import NOBODY, Skipped

# A program that notes that it was called.
NOTING = """#!/bin/sh
echo called >>"$RT_NOTES.sums"
exec /usr/bin/sha256sum "$@"
"""
FIELD = "crates/gtfs_field/src/lib.rt"
DIFFERS = f"{FIELD} differs from the sources of dist/gtfs-x86_64-linux"


def ready(test):
    """The test, handed a clone with a program that is ready, where computations of digests are counted."""

    @in_clone
    def run(clone):
        clone.make_ready()
        clone.put_tool("sha256sum", NOTING)
        os.makedirs(clone.path("out"))
        try:
            return test(clone)
        except Skipped as why:
            return f"SKIPPED: {test.__name__}: {why}"

    run.__name__ = test.__name__
    return run


def counted(clone):
    """How often digests were computed since the last time that this was asked."""
    path = clone.notes + ".sums"
    if not os.path.exists(path):
        return 0
    with open(path, encoding="utf-8") as file:
        count = len(file.readlines())
    os.remove(path)
    return count


def want_ready(clone, **how):
    """Wants a call to run the program of dist/, and to say nothing of its own."""
    want_run(clone, "ready", clone.call(*WORDS, **how))


def want_built(clone, **how):
    """Wants a call to run the program that was built, and to say nothing of its own."""
    want_run(clone, "built", clone.call(*WORDS, **how))


def want_run(clone, name, ran):
    wanted = (f"{SAID}{clone.room}\n{name}\n", "", 7)
    want((ran.stdout, ran.stderr, ran.returncode) == wanted, f"status {ran.returncode}, output {ran.stdout}, err {ran.stderr}")


def want_build(clone, why, **how):
    """Wants a call to say why it builds, to build, and to run the program that was built."""
    before = len(clone.words_of("gtfs"))
    ran = clone.call(*WORDS, **how)
    want(ran.stderr.startswith(f"gtfs: {why}, so the program is built from the sources\ngtfs: building"), f"err {ran.stderr}")
    want((ran.stdout, ran.returncode) == (f"{SAID}{clone.room}\nbuilt\n", 7), f"status {ran.returncode}, output {ran.stdout}")
    want(len(clone.words_of("gtfs")) == before + 1, f"rt was called for {clone.calls()}")


def as_another(clone):
    """How to call as a user who may write nothing here."""
    if os.geteuid() != 0:
        raise Skipped("only root can call as another user")
    how = {"user": NOBODY}
    try:
        clone.call("--pages", **how)
    except OSError as fault:
        raise Skipped(f"no program can be run as another user: {fault}") from None
    counted(clone)
    # (where digests are computed is noted by this user too)
    write(clone.notes + ".sums", "", mode=0o666)
    return how


def give_away(clone):
    """Gives all of the clone to another user."""
    for folder, _, names in os.walk(clone.root):
        for path in (folder, *(os.path.join(folder, name) for name in names)):
            os.chown(path, NOBODY, NOBODY)


def edit_field(clone):
    write(clone.path(FIELD), "// gtfs_FIELD\n")
