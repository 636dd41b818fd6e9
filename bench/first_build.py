#!/usr/bin/env python3
"""A first build from nothing: when the proof of each crate begins and ends, and the longest chain of crates.

    first_build.py [REV]

clones this repository at a commit, HEAD where none is named, into a folder of its own, and makes a first run of its
`./jm` there. A line for each crate says after how many seconds its proof began and ended, and how long it took; the last
lines have the wall time and the processor time of all, and the chain: of those crates that stand each on the one before,
the ones whose times are the most in sum. Commits from before the launcher are built by their own; nothing else should be
at work. What earlier checks on this machine kept, in rattle-kept beside the toolchain, would serve this one: move it
away first.
"""
import os, re, resource, shutil, subprocess, sys, tempfile, time

WORDS = ["--on", "r.key = s.key", "--make", "100"]


def crates_below(top, name):
    """The lines of crates.txt as a map, of the crates that `name` stands on and its own."""
    uses = {}
    with open(f"{top}/crates.txt") as file:
        for line in file:
            left, colon, right = line.partition("#")[0].partition(":")
            if colon:
                uses[left.split()[0]] = right.split()
    found = {}

    def reach(crate):
        if crate in uses and crate not in found:
            found[crate] = [it for it in uses[crate] if it in uses]
            for it in found[crate]:
                reach(it)

    reach(name)
    return found


def chain_of(uses, took, name):
    """The longest chain up to `name`: its time, and its crates."""
    found = {}

    def reach(crate):
        if crate not in found:
            before = max([reach(it) for it in uses[crate]], default=(0.0, []))
            found[crate] = (before[0] + took.get(crate, 0.0), before[1] + [crate])
        return found[crate]

    return reach(name)


def built(top):
    """Runs ./jm, and returns when each crate was begun and proved, in seconds from the start."""
    rooms, began, ended = f"{top}/crates/jm/out/rooms", {}, {}
    start = time.time()
    with open(f"{top}/said", "w") as said:
        child = subprocess.Popen([f"{top}/jm", *WORDS], cwd=top, stdout=said, stderr=said)
        while child.poll() is None:
            for name in os.listdir(rooms) if os.path.isdir(rooms) else []:
                of = re.fullmatch(r"(\w+)\.(log|proved)", name)
                if of:
                    (began if of[2] == "log" else ended).setdefault(of[1], time.time() - start)
            time.sleep(0.2)
    if child.returncode:
        sys.exit(f"{top}/jm failed:\n" + open(f"{top}/said").read()[-2000:])
    ended["jm"] = time.time() - start
    began.setdefault("jm", max(ended[it] for it in ended if it != "jm"))
    return began, ended


def main():
    here = os.path.dirname(os.path.dirname(os.path.abspath(__file__)))
    revision = sys.argv[1] if len(sys.argv) > 1 else "HEAD"
    room = tempfile.mkdtemp(prefix="first-build-")
    try:
        top = f"{room}/jm"
        subprocess.run(["git", "clone", "-q", here, top], check=True)
        subprocess.run(["git", "-C", top, "checkout", "-q", revision], check=True)
        began, ended = built(top)
        used = resource.getrusage(resource.RUSAGE_CHILDREN)
        took = {it: ended[it] - began[it] for it in ended}
        for crate in sorted(took, key=lambda it: began[it]):
            print(f"{crate:20} {began[crate]:6.0f} {ended[crate]:6.0f} {took[crate]:6.0f}")
        whole, chain = chain_of(crates_below(top, "jm"), took, "jm")
        print(f"{ended['jm']:.0f} s of wall time, {used.ru_utime + used.ru_stime:.0f} s of processor time")
        print(f"the longest chain, {whole:.0f} s: {', '.join(chain)}")
    finally:
        shutil.rmtree(room)


main()
