# The wrong answers of the must-fail edits, and rooms to try them in: what .ci/alone and .ci/refused have in common. It needs python3.
#
# A wrong answer is what stands under a heading `## NAME` of an edit file. In a file without headings each pair of `old:` and `new:`
# is one, and each of the file's places has to fail by just one of them. A place is a line `# refused at: PLACE`, and PLACE is
#     FILE NAME               the proof of NAME in FILE fails: a law, or an answer to a goal of a function
#     fn FUNCTION GOAL        the search finds no proof of GOAL, a goal of FUNCTION that no file answers
#     fn FUNCTION             the search finds no proof of some goal of FUNCTION
#
# Edits are made in copies of crates outside of the repository, with what was proved of them, so that a check proves only what an edit
# changes. A crate is first checked as it stands, and each edit over what that left.
import os
import queue
import re
import shutil
import subprocess
import tempfile
import threading

TOP = os.path.realpath(os.path.join(os.path.dirname(__file__), ".."))
PARTS = ("src", "specs", "proofs")
# checks at a time
MOST = max(1, min(3, len(os.sched_getaffinity(0)) - 1))


class BadEdit(Exception):
    pass


class Answer:
    """A wrong answer: the places that it names and its pairs (file, old, new); then what was found of it."""

    def __init__(self, name):
        self.name, self.places, self.pairs = name, [], []
        self.fails, self.waits, self.faults = [], [], []


def read(path):
    with open(path, encoding="utf-8", errors="surrogateescape") as file:
        return file.read()


def write(path, text):
    with open(path, "w", encoding="utf-8", errors="surrogateescape") as file:
        file.write(text)


def lines_of_crates():
    """The line of each crate in crates.txt, by its name."""
    lines = [line.partition("#")[0] for line in read(os.path.join(TOP, "crates.txt")).splitlines()]
    return {line.partition(":")[0].split()[0]: line for line in lines if ":" in line}


def libraries():
    """The crates that each crate uses, by its name, lowest crate first."""
    lines = lines_of_crates()
    found = {crate: [name for name in line.partition(":")[2].split() if name in lines] for crate, line in lines.items()}
    return dict(sorted(found.items(), key=lambda it: len(it[1])))


def edits_of(crate):
    """The names of a crate's edit files, without `.edit`."""
    folder = os.path.join(TOP, "crates", crate, "must-fail")
    return sorted(name[:-5] for name in os.listdir(folder) if name.endswith(".edit")) if os.path.isdir(folder) else []


def answers_of(crate, label):
    """The wrong answers of an edit file, and the places that stand under no heading."""
    edit = os.path.join(TOP, "crates", crate, "must-fail", label + ".edit")
    head = Answer("")
    answers, file, old = [head], "", ""
    for line in read(edit).splitlines():
        word, _, rest = line.partition(": ")
        if line.startswith("## "):
            answers.append(Answer(line[3:]))
        elif word == "# refused at":
            answers[-1].places.append(rest)
        elif word == "file":
            file = rest
        elif word == "old":
            old = rest
        elif line.startswith("new:"):
            answers[-1].pairs.append((file, old, line[4:].removeprefix(" ")))
    if len(answers) == 1:
        for pair in head.pairs:
            answers.append(Answer("%s: %s" % pair[:2]))
            answers[-1].pairs.append(pair)
    elif head.pairs or head.places:
        raise BadEdit("a pair or a place stands before the first heading")
    return answers[1:], head.places


def edited(folder, pairs):
    """The texts of the files that the pairs change, by file, as `rt must-fail` changes them."""
    texts = {}
    for file, old, new in pairs:
        if file not in texts:
            if not file.startswith(tuple(part + "/" for part in PARTS)) or not os.path.isfile(os.path.join(folder, file)):
                raise BadEdit("there is no file '%s'" % file)
            texts[file] = read(os.path.join(folder, file))
        times = texts[file].count(old) if old else 0
        if times != 1:
            raise BadEdit("its 'old:' text stands %d times in %s: %s" % (times, file, old))
        texts[file] = texts[file].replace(old, new)
    return texts


def places(log):
    """What .ci/places says of a log, by its first words."""
    with open(log) as said:
        found = subprocess.check_output([os.path.join(TOP, ".ci/places")], stdin=said).decode(errors="replace")
    lines = list(dict.fromkeys(found.splitlines()))
    return {word: [line[6:] for line in lines if line.startswith(word)] for word in ("fails", "waits", "unfit")}


def linked(folder, to):
    """Copies a folder of what was proved by links where these can be made: a check replaces such files, and changes none."""

    def copy(one, other):
        if one.endswith(".oantt") or "/out/rlib/" in one:
            try:
                return os.link(one, other)
            except OSError:
                pass
        return shutil.copy2(one, other)

    if os.path.isdir(folder):
        shutil.copytree(folder, to, copy_function=copy)


def copied(crate, to, *proved):
    """Copies a crate's text and the parts of its out/ that are named."""
    for part in PARTS:
        if os.path.isdir(os.path.join(crate, part)):
            shutil.copytree(os.path.join(crate, part), os.path.join(to, part))
    for part in proved:
        linked(os.path.join(crate, "out", part), os.path.join(to, "out", part))


class Unproved(Exception):
    pass


class Rooms:
    """Copies of crates in a temporary folder: `seed` keeps what a check of each crate as it stands leaves, and a room is one crate over
    its seed, and the libraries below it. That check is made in the repository, where it writes out/ alone."""

    def __init__(self, top, logs):
        self.top, self.logs, self.of = top, os.path.join(TOP, "target", logs), libraries()
        self.seeds, self.free, self.holds, self.seeding = {}, queue.SimpleQueue(), {}, threading.Lock()
        for room in range(MOST):
            self.free.put(os.path.join(top, str(room)))

    def path(self, room, crate):
        return os.path.join(room, "crates", crate)

    def write_crates(self, room, crates):
        lines = lines_of_crates()
        os.makedirs(os.path.join(room, "crates"), exist_ok=True)
        write(os.path.join(room, "crates.txt"), "".join(lines[name] + "\n" for name in crates))

    def check(self, room, crate, label, *flags):
        """Checks the crate in the room: the log, which is kept, and the exit status."""
        log = os.path.join(self.logs, crate, re.sub(r"[^A-Za-z0-9_.]+", "-", label) + ".log")
        os.makedirs(os.path.dirname(log), exist_ok=True)
        with open(log, "w") as out:
            how = {"cwd": self.path(room, crate), "stdin": subprocess.DEVNULL, "stdout": out, "stderr": out}
            return log, subprocess.run(["rt", "check", *flags], **how).returncode

    def seed(self, crate):
        """Checks the crate as it stands, once, and keeps what that left."""
        with self.seeding:
            if crate not in self.seeds:
                log, status = self.check(TOP, crate, "unedited")
                self.seeds[crate] = None if status == 0 else log
                if status == 0:
                    copied(self.path(TOP, crate), os.path.join(self.top, "seed", crate), "incremental")
        if self.seeds[crate]:
            raise Unproved("%s is not proved as it stands: see %s" % (crate, self.seeds[crate]))

    def enter(self, room, crate):
        """Makes the room one of the crate as it stands."""
        if self.holds.get(room) != crate:
            shutil.rmtree(room, ignore_errors=True)
            self.write_crates(room, [*self.of[crate], crate])
            for name in self.of[crate]:
                copied(self.path(TOP, name), self.path(room, name), "rlib")
            self.holds[room] = crate
        shutil.rmtree(self.path(room, crate), ignore_errors=True)
        copied(os.path.join(self.top, "seed", crate), self.path(room, crate), "incremental")

    def attempt(self, crate, label, pairs):
        """Checks the crate with these pairs: what .ci/places says of the log, and what is wrong with it as a refusal."""
        room = self.free.get()
        try:
            self.enter(room, crate)
            try:
                texts = edited(self.path(room, crate), pairs)
            except BadEdit as bad:
                return {"fails": [], "waits": [], "unfit": []}, [str(bad)]
            for file, text in texts.items():
                write(os.path.join(self.path(room, crate), file), text)
            log, status = self.check(room, crate, label, "--jobs", "1")
        finally:
            self.free.put(room)
        found = places(log)
        faults = ["the proof does not fit: " + line for line in found["unfit"]]
        if status == 0:
            faults.append("not refused: the crate is still proved")
        elif status != 1 or "\nlogic=not-proved" not in read(log):
            faults.append("it does not reach the prover (status %d): see %s" % (status, log))
        return found, faults


def rooms(logs):
    """A temporary folder, and the rooms in it."""
    folder = tempfile.TemporaryDirectory(prefix="rooms-")
    return folder, Rooms(os.path.realpath(folder.name), logs)
