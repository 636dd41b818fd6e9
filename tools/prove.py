#!/usr/bin/env python3
"""Proves the crates below a program and the program, and builds it: tools/build.sh calls this where it can be done.

    prove.py TOP CRATE NAME

The checks are those of `rt ci`, by its own functions: each crate from nothing, over the statements of those below it,
which takes about half the time that it takes over whole libraries. Their order is another. `rt ci` shares the
processors out to all that is ready, and gives a crate that is ready alone two of them; but whoever waits for a first
build waits for the longest way up to the program. So here a crate on it is begun as soon as it can be, with two jobs,
or four where nothing else is at work, and beside it stand three others with one each, those with the most above them
first. Of the two compilers that `rt ci`
holds against each other only LLVM makes the program.

What is proved is kept in crates/jm/out/kept, for the next start. What `rt ci` has kept on this machine is taken as
well; nothing is put there. NAME stands before each line of what is said. The log of each crate is
crates/jm/out/rooms/CRATE.log, and CRATE.proved stands beside it once it is proved; the names of those that failed stand
there in failed.

Ends with 0 where the program is built, with 4 where a crate failed, and otherwise, with a line that says why, where
this can't be done here: memory is little, say, or `rt` isn't as it was when this was written.
"""
import copy, importlib.machinery, importlib.util, os, shutil, signal, sys, tempfile, threading

# What part of the longest way up to the program a crate on it may lose at most; and the jobs of such a crate, where
# others are at work beside it, and where none is. (Each job reads what lies below.)
NEAR, JOBS, JOBS_ALONE = 0.05, 2, 4
# The most other crates at once; how much their processes give way; and the free memory in bytes that all want. (Where
# they give way more, they come too late: all of four processors are at work throughout.)
PLACES, BEHIND, MEMORY = 3, 2, 15 << 30


def loaded(file):
    """The command `rt` as a module."""
    loader = importlib.machinery.SourceFileLoader("rt", file)
    made = importlib.util.module_from_spec(importlib.util.spec_from_loader("rt", loader))
    loader.exec_module(made)
    return made


def size_of(folder):
    """About how long a crate takes, in lines: those of code in full, of definitions and proofs by half."""
    size = 200.0
    for part, share in (("src", 1.0), ("specs", 0.5), ("proofs", 0.5)):
        for at, _, names in os.walk(f"{folder}/{part}"):
            for name in names:
                with open(f"{at}/{name}", "rb") as file:
                    size += share * file.read().count(b"\n")
    return size


def ways_of(crates):
    """For each crate the size of the longest way from it up to the program, and what part of the longest of all ways it
    may lose before the program waits for it. The crates come lowest first, the program last."""
    size, below, above = {it: size_of(it.folder) for it in crates}, {}, {}
    for it in crates:
        below[it] = size[it] + max((below[dep] for dep in it.deps), default=0)
    for it in reversed(crates):
        above[it] = size[it] + max((above[other] for other in crates if it in other.deps), default=0)
    longest = below[crates[-1]]
    return above, {it: 1 - (below[it] + above[it] - size[it]) / longest for it in crates}


class Build:
    """The proofs of a program's crates, side by side."""

    def __init__(self, rt, every, crates, name, rooms):
        self.rt, self.every, self.crates, self.name, self.rooms = rt, every, crates, name, rooms
        self.above, self.slack = ways_of(crates)
        self.processors = rt.processors()
        self.begun, self.proved, self.failed, self.broken = [], [], [], None
        self.turn = threading.Condition()
        # what rt ci has kept is only read, and stays where it is damaged
        self.of_rt = rt.Kept(crates) if os.path.isdir(rt.STORE) else None
        if self.of_rt:
            self.of_rt.drop = lambda path: None
        # (all that stands below jm takes 2.8 GB)
        rt.STORE, rt.STORE_MOST = f"{os.path.dirname(rooms)}/kept", 4_000_000_000
        self.kept = rt.Kept(crates)

    def say(self, text):
        print(f"{self.name}: {text}", file=sys.stderr, flush=True)

    def take(self, crate, key):
        """Takes what an earlier proof of the same left, here or by rt ci."""
        return self.kept.give(crate, False, key) or (self.of_rt and self.of_rt.give(crate, False, key))

    def check(self, crate, jobs):
        """Proves a crate, from nothing but what was kept, and returns whether that went well."""
        rt, rtlib = self.rt, self.rt.rtlib
        rtlib.stop_on_links(crate.folder)
        rtlib.stop_on_unread(crate.folder, self.every)
        os.makedirs(f"{crate.folder}/out", exist_ok=True)
        key = self.kept.key(crate)
        if self.take(crate, key):
            self.kept.is_built(crate)
            return True
        rtlib.stop_on_text(crate, "verdict")
        rt.stop_on_words(crate)
        with self.turn:
            self.say(f"proving {crate.name}, crate {self.begun.index(crate.name) + 1} of {len(self.crates)}")
        status = crate.ci(["--jobs", str(jobs)], False)
        if status == -signal.SIGKILL:
            print("the check was killed, most likely for memory: once more, with one job", file=crate.out)
            status = crate.ci(["--jobs", "1"], False)
        if status == 0:
            self.kept.is_built(crate)
            self.kept.keep(crate, False, key)
        return status == 0

    def work(self, crate, jobs, behind):
        """Proves a crate and tells how it ended."""
        is_well, one = False, copy.copy(crate)
        try:
            os.setpriority(os.PRIO_PROCESS, threading.get_native_id(), behind)
            with open(f"{self.rooms}/{crate.name}.log", "w", errors="replace") as one.out:
                try:
                    is_well = self.check(one, jobs)
                except SystemExit as why:
                    print(why, file=one.out)
        except Exception as error:
            self.broken = error
        if is_well:
            open(f"{self.rooms}/{crate.name}.proved", "w").close()
        with self.turn:
            (self.proved if is_well else self.failed).append(crate.name)
            self.turn.notify()

    def is_near(self, crate):
        """Whether the crate is on the longest way up, or nearly."""
        return self.slack[crate] < NEAR

    def may_begin(self, crate):
        """Whether all below a crate is proved, and it has a place: on the longest way always, else near few others."""
        if crate.name in self.begun or any(it.name not in self.proved for it in crate.below()):
            return False
        at_work = [it for it in self.crates if it.name in self.begun and it.name not in self.proved]
        return self.is_near(crate) or sum(not self.is_near(it) for it in at_work) < PLACES

    def begin_ready(self):
        """Begins each crate that may be begun, those with the most above them first."""
        for crate in sorted(self.crates, key=lambda it: -self.above[it]):
            if self.may_begin(crate):
                self.begun.append(crate.name)
                most = JOBS if len(self.begun) - len(self.proved) > 1 else JOBS_ALONE
                given = (crate, min(most, self.processors), 0) if self.is_near(crate) else (crate, 1, BEHIND)
                threading.Thread(target=self.work, args=given, daemon=True).start()

    def run(self):
        """Proves all, and returns whether that went well."""
        with self.turn:
            while len(self.proved) < len(self.crates) and not self.failed:
                self.begin_ready()
                self.turn.wait()
            if self.failed and len(self.proved) + len(self.failed) < len(self.begun):
                self.say(f"{self.failed[0]} failed; waiting for what is under way")
            while len(self.proved) + len(self.failed) < len(self.begun):
                self.turn.wait()
        self.kept.shrink()
        return not self.failed


def stop(why):
    raise SystemExit(f"rt: {why}")


def by_llvm_alone(compile_by):
    """What compiles a program, but for the compiler that whoever waits for it doesn't need."""
    return lambda crate, backend, words, to: compile_by(crate, backend, words, to) if backend == "llvm" else 0


def built(top, program, name):
    """Proves and builds the program in a copy of the crates, and returns how this script ends."""
    rt = loaded(os.path.realpath(shutil.which("rt")))
    if rt.free() < MEMORY:
        raise MemoryError(f"less than {MEMORY >> 30} GB are free")
    rtlib, rooms = rt.rtlib, f"{top}/crates/jm/out/rooms"
    rtlib.stop, rt.Crate.cuts_libraries = stop, True
    rt.Crate.compile_by = by_llvm_alone(rt.Crate.compile_by)
    for it in (rtlib.ALLOW_C, rtlib.BACKEND, "RT_SECONDS"):
        os.environ.pop(it, None)
    # (its first call sets a signal's handler, which only the main thread may)
    rtlib.guarded()
    rt.sweep()
    with tempfile.TemporaryDirectory(prefix=f"rt-copy-{os.getpid()}-") as room:
        rt.copy_crates(top, f"{room}/repo")
        # (it is the top of a repository)
        os.mkdir(f"{room}/repo/.git")
        os.chdir(f"{room}/repo")
        rt.Crate.allowed = rt.handles_of(f"{room}/repo")
        every = rt.crates_of(f"{room}/repo")
        last = next(it for it in every if it.name == program)
        below = last.below()
        build = Build(rt, every, [it for it in every if it in below] + [last], name, rooms)
        is_well = build.run()
        os.chdir(top)
        if build.broken:
            raise build.broken
        for it in build.failed:
            with open(f"{rooms}/failed", "a") as file:
                print(it, file=file)
        if is_well:
            shutil.copy(f"{last.folder}/out/{program}", f"{top}/crates/{program}/out/{program}")
        return 0 if is_well else 4


if __name__ == "__main__":
    signal.signal(signal.SIGINT, signal.SIG_DFL)
    try:
        sys.exit(built(*sys.argv[1:]))
    except Exception as error:
        print(f"{sys.argv[3]}: crates are proved by rt lib, over whole libraries: {error!r}", file=sys.stderr)
        sys.exit(3)
