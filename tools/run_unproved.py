"""Runs the program unproved, with the words given.

`rt try` compiles the program with checks, and runs it in a folder that it removes. So it is run once on a script that
comes through a pipe: while the program waits for that, its executable is copied to crates/pt/out/unproved, where it is
kept. It runs from then on, until the sources of the program change. Where there is none, this says why and ends with 70.
"""
import fcntl
import os
import re
import shutil
import signal
import subprocess
import sys
import tempfile
import time

from prove import FAILED, OUT, PROGRAM, TOP, crates_of_program

FOLDER = f"{TOP}/{OUT}"
KEPT = f"{FOLDER}/unproved"
# The words that load it, one a line. It is written last, and its age is that of the sources.
WORDS = f"{FOLDER}/unproved.words"
LOG = f"{FOLDER}/unproved.log"
# How long `rt try` may take to compile and check the program, and how often it is asked for it, in seconds.
SECONDS, INTERVAL = 1200, 0.1
REASON = re.compile(r"^checked: (?:no-answer: )?(.*)", re.M)


def say(text):
    print(f"pt: {text}", file=sys.stderr)


def newest_source():
    """When a source of the program was changed last."""
    ages = [os.stat(f"{TOP}/crates.txt").st_mtime]
    for name in crates_of_program():
        for folder, _, files in os.walk(f"{TOP}/crates/{name}/src"):
            ages += [os.stat(folder).st_mtime, *(os.stat(f"{folder}/{it}").st_mtime for it in files)]
    return max(ages)


def loading():
    """The words that load the program that is kept, wherever this folder was when it was made."""
    with open(WORDS, encoding="utf-8") as file:
        return [*file.read().splitlines()[:-1], KEPT]


def is_kept():
    """Whether it is there, and younger than the sources and than the part of the kit that loads it."""
    try:
        return os.path.exists(KEPT) and os.stat(WORDS).st_mtime >= max(newest_source(), os.stat(loading()[0]).st_ctime)
    except (OSError, IndexError):
        return False


def words_of(number):
    """The words of a process."""
    try:
        with open(f"/proc/{number}/cmdline", "rb") as file:
            return [os.fsdecode(it) for it in file.read().split(b"\0")[:-1]]
    except OSError:
        return []


def loading_words(pipe):
    """The words that load the program that waits for its script, the last one its executable, if it waits already."""
    for number in filter(str.isdigit, os.listdir("/proc")):
        words = words_of(number)
        if words[-2:] == ["run", pipe] and len(words) > 2 and os.path.basename(words[-3]) == "program":
            return words[:-2]
    return None


def keep(words, start):
    """Keeps the executable, and how it is loaded, if it is still there."""
    try:
        shutil.copy2(words[-1], f"{KEPT}.new")
        os.chmod(f"{KEPT}.new", 0o755)
        with open(f"{WORDS}.new", "w", encoding="utf-8") as file:
            file.write("\n".join([*words[:-1], KEPT]) + "\n")
        os.utime(f"{WORDS}.new", (start, start))
        return True
    except OSError:
        return False


def feed(pipe):
    """Gives the program that waits an empty script."""
    os.close(os.open(pipe, os.O_WRONLY))


def make():
    """Whether the program was compiled and is kept."""
    os.makedirs(FOLDER, exist_ok=True)
    start = time.time()
    with tempfile.TemporaryDirectory(prefix="pt-unproved-") as folder, open(LOG, "w+", encoding="utf-8", errors="replace") as log:
        pipe = f"{folder}/script"
        os.mkfifo(pipe)
        command = ["rt", "try", "--seconds", str(SECONDS), "--", "run", pipe]
        how = {"stdin": subprocess.DEVNULL, "stdout": log, "stderr": log, "start_new_session": True}
        tool = subprocess.Popen(command, cwd=f"{TOP}/crates/{PROGRAM}", **how)
        for number in (signal.SIGINT, signal.SIGTERM, signal.SIGHUP):
            signal.signal(number, lambda number, _: tool.send_signal(number))
        found = None
        while not found and tool.poll() is None:
            time.sleep(INTERVAL)
            found = loading_words(pipe)
        is_there = found is not None and keep(found, start)
        if found and tool.poll() is None:
            feed(pipe)
        if tool.wait() == 0 and is_there:
            os.replace(f"{KEPT}.new", KEPT)
            os.replace(f"{WORDS}.new", WORDS)
            return True
        log.seek(0)
        reason = REASON.search(log.read())
        why = reason[1] if reason else "`rt try` didn't run the program"
        say(f"there is no unproved program: {why}; {OUT}/unproved.log has the whole of it. ./pt --prove builds the proved one")
        return False


def made_once():
    """Whether it is kept, made by this call or by one that it waited for."""
    os.makedirs(FOLDER, exist_ok=True)
    with open(f"{FOLDER}/unproved.lock", "w", encoding="utf-8") as lock:
        fcntl.flock(lock, fcntl.LOCK_EX)
        return is_kept() or make()


def main(words):
    if not is_kept():
        if sys.stderr.isatty():
            say("the unproved program is compiled, which takes some minutes, once for these sources")
        if not made_once():
            return FAILED
    program = loading()
    os.execv(program[0], [*program, *words])


if __name__ == "__main__":
    sys.exit(main(sys.argv[1:]))
