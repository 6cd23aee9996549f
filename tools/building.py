"""Proves and builds a program of this repository, with the crates below it, and says how far it is.

As a command it takes the name of the program's crate. Several crates are proved at a time, and each uses
more than one processor where its proof has several parts. What is proved is kept, also where the rest is
stopped or fails."""

import os
import re
import shutil
import signal
import subprocess
import sys
import tempfile
import time

import proof_seconds

HERE = os.path.dirname(os.path.dirname(os.path.abspath(__file__)))
PARTS = ["src", "specs", "proofs"]
SECONDS_BETWEEN_LINES = 20
SHOWN_LINES = 40
AT_ONCE = max(1, len(os.sched_getaffinity(0)) // 2)
# A proof that took less than this part of its seconds was kept from before, and tells nothing of how fast the others are.
KEPT_PART = 0.2


def folder_of(crate):
    return os.path.join(HERE, "crates", crate)


def program_of(crate):
    return os.path.join(folder_of(crate), "out", crate)


def stamp_of(crate):
    """The file that names the folders of the program's sources, and is as old as they were when it was built."""
    return os.path.join(folder_of(crate), "out", "sources")


# ---- crates


def crates():
    """The crates of the repository, each with those of them that it uses."""
    uses = {}
    with open(os.path.join(HERE, "crates.txt")) as lines:
        for line in lines:
            name, colon, used = line.partition("#")[0].partition(":")
            if colon:
                uses[name.split()[0]] = used.split()
    return {name: [other for other in used if other in uses] for name, used in uses.items()}


def crates_for(crate, uses):
    """The crate with all those below it, the lowest first."""
    order = []

    def visit(name):
        if name not in order:
            for other in uses[name]:
                visit(other)
            order.append(name)

    visit(crate)
    return order


# ---- whether there is something to do


def sources_of(order):
    parts = [os.path.join("crates", name, part) for name in order for part in PARTS]
    return [part for part in parts if os.path.isdir(os.path.join(HERE, part))]


def are_older(parts, moment):
    return not any(is_newer(os.path.join(HERE, part), moment) for part in ["crates.txt", *parts])


def is_built(crate):
    """Whether the program is there and no source is newer."""
    stamp = stamp_of(crate)
    if not os.path.exists(program_of(crate)) or not os.path.exists(stamp):
        return False
    with open(stamp) as lines:
        return are_older(lines.read().splitlines(), os.path.getmtime(stamp))


def is_left_by_the_gate(crate, order):
    """Whether the program is there without a stamp, as `rt ci` leaves it once it is proved, and no source is newer."""
    program = program_of(crate)
    if not os.path.exists(program) or os.path.exists(stamp_of(crate)):
        return False
    return are_older(sources_of(order), os.path.getmtime(program))


def is_newer(path, moment):
    """Whether a path, or something in it, is newer or is gone."""
    if not os.path.exists(path):
        return True
    paths = [path, *(os.path.join(folder, name) for folder, folders, names in os.walk(path) for name in folders + names)]
    return any(os.path.getmtime(each) > moment for each in paths)


# ---- proofs


def minutes(since):
    seconds = int(time.monotonic() - since)
    return f"{seconds // 60}:{seconds % 60:02}"


class Proof:
    """One crate as it is proved, in a process group of its own, with its log."""

    def __init__(self, crate, words):
        self.crate = crate
        self.began = time.monotonic()
        self.log = tempfile.TemporaryFile("w+", errors="replace")
        self.process = subprocess.Popen(
            words, cwd=folder_of(crate), stdin=subprocess.DEVNULL, stdout=self.log, stderr=subprocess.STDOUT, start_new_session=True
        )

    def text(self):
        self.log.seek(0)
        return self.log.read()

    def last_lines(self):
        """The end of the log, without what says that something is proved or loaded."""
        lines = [line for line in self.text().splitlines() if not re.search(r": proved$|^checked |^so far: |: modules loaded=", line)]
        return "\n".join(lines[-SHOWN_LINES:])

    def seconds(self):
        return time.monotonic() - self.began

    def progress(self):
        return f"{self.crate} (for {minutes(self.began)})"

    def stop(self):
        if self.process.poll() is None:
            os.killpg(self.process.pid, signal.SIGTERM)
            self.process.wait()


class Build:
    """The crates of a program, of which some are proved and some are at work."""

    def __init__(self, crate, say):
        self.crate, self.say = crate, say
        self.uses = crates()
        self.order = crates_for(crate, self.uses)
        self.seconds = proof_seconds.seconds_of(self.order)
        self.proved, self.running = [], []
        # How long the proofs took that were made, and how long they were to take.
        self.took, self.expected = 0.0, 0.0
        self.began = time.monotonic()

    def begin_more(self):
        """Begins each crate that stands on proved ones alone, as long as there are processors."""
        begun = self.proved + [proof.crate for proof in self.running]
        for crate in self.order:
            if len(self.running) >= AT_ONCE:
                return
            if crate not in begun and all(other in self.proved for other in self.uses[crate]):
                self.running.append(Proof(crate, ["rt", "check" if crate == self.crate else "lib"]))

    def end_some(self):
        """Takes the proofs that have ended off, and gives one that failed."""
        for proof in [each for each in self.running if each.process.poll() is not None]:
            self.running.remove(proof)
            if proof.process.returncode != 0:
                return proof
            self.proved.append(proof.crate)
            if proof.seconds() >= KEPT_PART * self.seconds[proof.crate]:
                self.took += proof.seconds()
                self.expected += self.seconds[proof.crate]
            self.say(f"{minutes(self.began)}  proved {proof.crate}, {len(self.proved)} of {len(self.order)} crates")
        return None

    def left(self):
        """About how long the rest takes, in words: by the seconds of each crate, at the pace of those that were proved so far."""
        pace = self.took / self.expected if self.expected else 1.0
        rest = {crate: self.seconds[crate] for crate in self.order if crate not in self.proved}
        for proof in self.running:
            rest[proof.crate] = max(0.0, rest[proof.crate] - proof.seconds() / pace)
        return proof_seconds.in_words(pace * proof_seconds.seconds_together(list(rest), self.uses, rest, AT_ONCE))

    def say_progress(self):
        now = ", ".join(proof.progress() for proof in self.running)
        self.say(f"{minutes(self.began)}  {len(self.proved)} of {len(self.order)} crates are proved, about {self.left()} are left; now {now}")

    def prove(self):
        """Proves all crates, or gives the proof that failed."""
        said = time.monotonic()
        while len(self.proved) < len(self.order):
            self.begin_more()
            time.sleep(0.2)
            failed = self.end_some()
            if failed is not None:
                return failed
            if time.monotonic() - said >= SECONDS_BETWEEN_LINES:
                self.say_progress()
                said = time.monotonic()
        return None

    def stop(self):
        for proof in self.running:
            proof.stop()


def link(crate):
    """Links the proved program, and says whether it is there. `rt run` also runs it, without words and input."""
    if os.path.exists(program_of(crate)):
        os.remove(program_of(crate))
    done = subprocess.run(["rt", "run"], cwd=folder_of(crate), stdin=subprocess.DEVNULL, capture_output=True, text=True, errors="replace")
    return os.path.exists(program_of(crate)), done.stdout + done.stderr


def write_stamp(crate, order, moment):
    with open(stamp_of(crate), "w") as stamp:
        stamp.writelines(part + "\n" for part in sources_of(order))
    os.utime(stamp_of(crate), (moment, moment))


def build(crate, say):
    """Builds the program, and says whether it is there."""
    if not shutil.which("rt"):
        say("building needs the Rattle toolchain's command rt on the PATH")
        return False
    moment = time.time()
    work = Build(crate, say)
    if is_left_by_the_gate(crate, work.order):
        write_stamp(crate, work.order, os.path.getmtime(program_of(crate)))
        return True
    say(f"proving and building {len(work.order)} crates, {AT_ONCE} at a time; from nothing that takes about {work.left()}")
    try:
        failed = work.prove()
    finally:
        work.stop()
    if failed is not None:
        say(f"the crate {failed.crate} is not proved; nothing was built. Its log ends so:")
        print(failed.last_lines(), file=sys.stderr)
        return False
    linked, text = link(crate)
    if not linked:
        say(f"the program was not linked:\n{text}")
        return False
    write_stamp(crate, work.order, moment)
    say(f"{minutes(work.began)}  built")
    return True


def main():
    crate = sys.argv[1]

    def say(text):
        print(f"{crate}: {text}", file=sys.stderr, flush=True)

    signal.signal(signal.SIGTERM, lambda *_: sys.exit(143))
    try:
        return 0 if build(crate, say) else 1
    except KeyboardInterrupt:
        say("stopped before it was built; what is proved so far is kept")
        return 130


if __name__ == "__main__":
    sys.exit(main())
