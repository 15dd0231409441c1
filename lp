#!/usr/bin/env python3
"""usage: ./lp emit [--comments] [--no-whitespace] [FILE]    writes the parser text of a grammar file
       ./lp run [--comments] [--no-whitespace] [FILE]     the same, and a block for the run of each token line
       ./lp make N                                        generates a grammar of N levels, emits it and runs it
       ./lp build [N]                                     proves and builds the program, N crates at a time

Where no FILE is named, the grammar file is standard input. Before the program is built, and after a source has
changed, the same sources run unproved.
"""

import fcntl
import os
import re
import shutil
import signal
import subprocess
import sys
import tempfile
import threading
import time

TOP = os.path.dirname(os.path.realpath(__file__))
MAIN = "lp_main"
FAILED = 70
# The file whose time says from when on the sources are that are proved.
PROVED = f"{TOP}/crates/{MAIN}/out/proved"


def say(text):
    print(f"lp: {text}", file=sys.stderr, flush=True)


def folder(name):
    return f"{TOP}/crates/{name}"


def program():
    return f"{folder(MAIN)}/out/{MAIN}"


def read_crates():
    """What each crate of crates.txt stands on, of these crates."""
    with open(f"{TOP}/crates.txt", encoding="utf-8") as it:
        pairs = [line.split("#")[0].split(":") for line in it if ":" in line.split("#")[0]]
    names = {name.strip() for name, _ in pairs}
    return {name.strip(): [it for it in rest.split() if it in names] for name, rest in pairs}


def below(name, crates):
    """All crates that this one stands on, itself among them, in the order of crates.txt."""
    found, left = set(), [name]
    while left:
        it = left.pop()
        if it not in found:
            found.add(it)
            left += crates[it]
    return [it for it in crates if it in found]


def last_change(name):
    """When a source of the crate changed last; a folder changes when a file comes or goes."""
    parts = [f"{folder(name)}/{part}" for part in ("src", "specs", "proofs")]
    walked = [(at, files) for part in parts for at, _, files in os.walk(part)]
    return max(os.stat(path).st_mtime for at, files in walked for path in [at, *(f"{at}/{it}" for it in files)])


def is_current(crates):
    """Whether the program is built, of the sources that stand here."""
    try:
        since = os.stat(PROVED).st_mtime
        changed = [os.stat(f"{TOP}/crates.txt").st_mtime, *map(last_change, below(MAIN, crates))]
        return os.access(program(), os.X_OK) and max(changed) <= since
    except OSError:
        return False


# Runs without proofs


def run_unproved(words):
    say("this run is not proved, and takes some minutes; `./lp build` proves the program and builds it")
    source = b"" if words[0] == "make" else sys.stdin.buffer.read()
    ran = subprocess.run(["rt", "try", "--", *words], cwd=folder(MAIN), input=source, capture_output=True)
    told = ran.stderr.decode(errors="replace").splitlines()
    if not told or not told[-1].startswith("run=ended "):
        reasons = [it.partition("no-answer: ")[2] for it in told if it.startswith("checked: no-answer: ")]
        if reasons:
            say(f"no answer: {reasons[0]}")
            say("an unproved run writes at most 1 MiB, in 60 seconds; the built program has no such limit")
        else:
            print("\n".join(told), file=sys.stderr)
            say("the sources are refused")
        return FAILED
    sys.stdout.buffer.write(ran.stdout)
    sys.stdout.buffer.flush()
    of_rt = ("checked: ", "interpreter: ", "run=", "rt: ")
    print("".join(f"{it}\n" for it in told if not it.startswith(of_rt)), end="", file=sys.stderr)
    return ran.returncode


# The build
#
# `rt ci` proves the crates below the program side by side, and keeps each as it ends. It does so in a copy that has these
# crates alone, without the wrong bodies that the gate of the whole repository tries too.


def lay_out(room, wanted):
    """Copies the crates, what each stands on, and what the proofs may reach."""
    for name in wanted:
        shutil.copytree(folder(name), f"{room}/crates/{name}", ignore=shutil.ignore_patterns("out", "must-fail"))
    with open(f"{TOP}/crates.txt", encoding="utf-8") as it:
        lines = [line for line in it if line.split(":")[0].strip() in wanted]
    with open(f"{room}/crates.txt", "w", encoding="utf-8") as it:
        it.writelines(lines)
    shutil.copy(f"{TOP}/HANDLES", room)
    # (it is the top of a repository)
    os.mkdir(f"{room}/.git")


def at_work(group):
    """The crates that commands of a process group are proving."""
    found = set()
    for pid in filter(str.isdigit, os.listdir("/proc")):
        try:
            if os.getpgid(int(pid)) == group:
                with open(f"/proc/{pid}/cmdline", encoding="utf-8", errors="replace") as it:
                    words = it.read().split("\0")
                found.update(words[at + 1] for at, word in enumerate(words) if word == "--crate-name")
        except OSError:
            # (it ended)
            pass
    return found


def watch(called, begun):
    """Notes when each crate's proof begins."""
    while called.poll() is None:
        for name in at_work(called.pid):
            begun.setdefault(name, time.monotonic())
        time.sleep(0.5)


def told(line, wanted, begun, done):
    """Prints a line for a crate that is done, or says which isn't proved."""
    found = re.fullmatch(r"rt: (\w+) (proved|is kept\b.*|NOT PROVED\b.*)", line.strip())
    if not found or found[1] not in wanted:
        return
    name, how = found[1], found[2]
    if how.startswith("NOT"):
        say(f"{name} is not proved: out/build.log says why")
        return
    done.add(name)
    minutes, seconds = divmod(round(time.monotonic() - begun.get(name, time.monotonic())), 60)
    took = f"{minutes}m{seconds:02}s" if how == "proved" else "kept"
    print(f"{len(done)} of {len(wanted)} {name} {took}", flush=True)


def prove(room, wanted, lanes):
    """Proves what is laid out, and tells each crate as it ends. Whether all are proved and the program is built."""
    how, begun, done = {**os.environ, **({"RT_JOBS": lanes} if lanes else {})}, {}, set()
    pipe = {"stdout": subprocess.PIPE, "stderr": subprocess.STDOUT, "stdin": subprocess.DEVNULL}
    with open(f"{TOP}/out/build.log", "w", encoding="utf-8") as log:
        called = subprocess.Popen(["rt", "ci"], cwd=room, env=how, start_new_session=True, text=True, **pipe)
        threading.Thread(target=watch, args=(called, begun), daemon=True).start()
        try:
            for line in called.stdout:
                log.write(line)
                told(line, wanted, begun, done)
        except KeyboardInterrupt:
            os.killpg(called.pid, signal.SIGTERM)
            called.wait()
            say("stopped; `./lp build` goes on from here")
            raise
    return called.wait() == 0


def build(lanes):
    """Proves and builds the program, so many crates at a time, or as many as memory holds."""
    os.makedirs(f"{TOP}/out", exist_ok=True)
    turn = os.open(f"{TOP}/out", os.O_RDONLY)
    try:
        fcntl.flock(turn, fcntl.LOCK_EX | fcntl.LOCK_NB)
    except OSError:
        say("another ./lp build is at work here")
        return FAILED
    crates = read_crates()
    if is_current(crates):
        say("it is built: ./lp is the proved program, until a source changes")
        return 0
    wanted, since = below(MAIN, crates), time.time()
    with tempfile.TemporaryDirectory(prefix="lp-build-") as room:
        lay_out(room, wanted)
        if not prove(room, wanted, lanes):
            say("not built: out/build.log says why; `./lp build` goes on with what is left")
            return FAILED
        os.makedirs(f"{folder(MAIN)}/out", exist_ok=True)
        shutil.copy(f"{room}/crates/{MAIN}/out/{MAIN}", program())
    open(PROVED, "w").close()
    os.utime(PROVED, (since, since))
    say("built: ./lp is the proved program, until a source changes")
    return 0


def take_file(words):
    """Has the last word, if it names a file, be standard input."""
    if words[0] != "make" and len(words) > 1 and not words[-1].startswith("-"):
        os.dup2(os.open(words.pop(), os.O_RDONLY), 0)


def main(words):
    signal.signal(signal.SIGTERM, signal.default_int_handler)
    is_build = words[:1] == ["build"] and (len(words) == 1 or len(words) == 2 and re.fullmatch("[1-9][0-9]?", words[1]))
    if not is_build:
        if words[:1] not in (["emit"], ["run"], ["make"]):
            print(__doc__, end="", file=sys.stderr)
            return 1
        try:
            take_file(words)
        except OSError as error:
            say(f"{error.filename}: {error.strerror}")
            return 1
        if is_current(read_crates()):
            os.execv(program(), [program(), *words])
    if not shutil.which("rt"):
        say("the command rt of the Rattle kit is not on the path")
        return FAILED
    return build("".join(words[1:])) if is_build else run_unproved(words)


if __name__ == "__main__":
    try:
        sys.exit(main(sys.argv[1:]))
    except KeyboardInterrupt:
        sys.exit(130)
