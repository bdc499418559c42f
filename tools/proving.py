"""Proves the program crate by crate, by `rattle build` over libraries that are kept: an interrupted proof continues
where it was, and after an edit only that crate and those above it are proved again. The command is tools/prove."""
import json
import os
import re
import shutil
import signal
import subprocess
import sys
import time

import building
import unproved
from building import PROGRAM, Stop, tell

# Estimates of a crate's proof, from its lines of code, in seconds and MB. The largest one seen took 3.3 GB.
SECONDS, SECONDS_A_LINE = 12, 0.19
LEAST_MB, MB_A_LINE, MOST_MB = 1000, 1, 3400
# What is left free beside the proofs.
SPARE_MB = 500
# How often the sources are read again, and how long a proof waits for memory when it is the only one, in seconds.
LOOK_AGAIN = 30
PATIENCE = 60
MOST_KILLS = 2
MORE = "`rt ci` checks more (empty contracts, wrong bodies, tests)"


def megabytes(crate):
    """The most memory that a crate's proof is likely to take."""
    if crate.name == PROGRAM:
        return MOST_MB
    return min(LEAST_MB + MB_A_LINE * crate.lines(), MOST_MB)


def critical_paths(order):
    """By name, the estimated seconds from the start of a crate's proof to the end of all that waits for it."""
    found = {}
    for crate in reversed(order):
        above = [found[it.name] for it in order if crate in it.direct]
        found[crate.name] = SECONDS + SECONDS_A_LINE * crate.lines() + max(above, default=0)
    return found


def build_command(crate, kit, places, keys, made):
    """The command by which rattle proves a crate and writes its library, or the object file of the program."""
    words = [kit.rattle, "build", "--crate-name", crate.name, crate.root()]
    for name in ("std", *crate.of_kit):
        words += ["--extern", f"{name}={kit.folder}/rlibs/{name}.rlib"]
    words += ["-L", f"dependency={kit.folder}/rlibs"]
    for low in crate.direct:
        words += ["--extern", f"{low.name}={places.library(low, keys)}/{low.name}.rlib"]
    for low in crate.below:
        words += ["-L", f"dependency={places.library(low, keys)}"]
    words += ["--antt-project", f"{kit.folder}/rattle/logic/antt-project.json"]
    words += ["--logic-built", f"{kit.folder}/logic_built", "--jobs", "1", "--links", f"{crate.name}="]
    if crate.name == PROGRAM:
        words += ["--toolchain", f"{kit.folder}/toolchain"]
        said = subprocess.run([kit.rattle, "build", "--help"], capture_output=True, text=True, errors="replace").stdout
        words += ["--backend", "llvm"] if "--backend" in said else []
    else:
        words += ["--statements"]
    return [*words, "-o", made]


class Job:
    """A proof of a crate that is running."""

    def __init__(self, crate, prover, lock):
        self.crate = crate
        self.lock = lock
        self.room = f"{prover.room}/{crate.name}-{time.monotonic_ns()}"
        self.log = f"{self.room}/log"
        self.made = f"{self.room}/made/{crate.name}.{'o' if crate.name == PROGRAM else 'rlib'}"
        self.since = time.monotonic()
        os.makedirs(f"{self.room}/made")
        words = build_command(crate, prover.kit, prover.places, prover.keys, self.made)
        how = {"stdin": subprocess.DEVNULL, "start_new_session": True, "preexec_fn": building.end_with_parent}
        with open(self.log, "wb") as to:
            folder = f"{prover.room}/crates/{crate.path}"
            self.process = subprocess.Popen(words, cwd=folder, stdout=to, stderr=to, **how)

    def held(self):
        """The memory in MB that it holds now."""
        return (building.number_in(f"/proc/{self.process.pid}/status", r"^VmRSS:\s+(\d+)") or 0) >> 10

    def close(self):
        """Ends it, with all that it started, and removes its files."""
        if self.process.poll() is None:
            os.killpg(self.process.pid, signal.SIGKILL)
        self.process.wait()
        shutil.rmtree(self.room, ignore_errors=True)
        os.remove(self.lock.name)
        self.lock.close()

    def verdict(self):
        """rattle's last line, if it says that the crate is proved, or None."""
        found = [it for it in building.text_of(self.log).splitlines() if it.startswith("logic=")]
        return found[-1] if found and found[-1].startswith("logic=proved ") and self.process.returncode == 0 else None


class Prover:
    """Proves the crates of the sources as they were read, as many at once as processors and memory allow."""

    def __init__(self, tree, kit, places, room, spare):
        self.tree, self.kit, self.places, self.room, self.spare = tree, kit, places, room, spare
        self.keys = tree.keys(kit)
        self.paths = critical_paths(tree.order)
        self.done, self.running, self.kills = set(), {}, {}
        self.failed = self.why = self.alone_since = None
        self.is_old = False
        self.looked = time.monotonic()
        for crate in tree.order[:-1]:
            if self.is_proved(crate):
                os.utime(places.library(crate, self.keys))
        building.write_text(f"{room}/wanted", "".join(f"{it.name}-{self.keys[it.name]}\n" for it in tree.order))
        tree.write(room)

    def is_proved(self, crate):
        """Whether a crate is proved."""
        if crate.name not in self.done:
            of_program = crate.name == PROGRAM and os.path.isfile(self.places.proved(self.tree))
            if of_program or os.path.isdir(self.places.library(crate, self.keys)):
                self.done.add(crate.name)
        return crate.name in self.done

    def count(self):
        """How many crates are proved."""
        return sum(map(self.is_proved, self.tree.order))

    def write_state(self):
        """Records the progress, for the launcher and for tools/prove --status."""
        state = {"hash": self.tree.hash, "kit": self.kit.hash, "pid": os.getpid(), "running": sorted(self.running)}
        state |= {"failed": self.failed, "why": self.why}
        building.write_text(f"{self.places.out}/proof/state", json.dumps(state))

    def fits(self, crate):
        """Whether the memory is likely to suffice for this proof beside those that are running."""
        free = building.memory("MemAvailable") - self.spare
        free -= sum(max(megabytes(it.crate) - it.held(), 0) for it in self.running.values())
        if self.running or free >= megabytes(crate):
            self.alone_since = None
            return free >= megabytes(crate)
        # (with no other proof left to wait for, it is tried with less in the end)
        if self.alone_since is None:
            self.alone_since = time.monotonic()
            tell(f"waiting for memory: {crate.name} may take {megabytes(crate)} MB")
        return time.monotonic() - self.alone_since > PATIENCE

    def start(self):
        """Starts as many proofs as may run now, the crates with the longest way to the end first."""
        ready = [it for it in self.tree.order if it.name not in self.running and not self.is_proved(it)]
        ready = [it for it in ready if all(map(self.is_proved, it.below))]
        for crate in sorted(ready, key=lambda it: -self.paths[it.name]):
            if len(self.running) >= max(building.lanes(), 1) or not self.fits(crate):
                return
            lock = building.take(f"{self.places.cache}/work/{crate.name}-{self.keys[crate.name]}.lock")
            if lock is None:
                # (another copy of the repository proves this very crate)
                continue
            if self.is_proved(crate):
                lock.close()
                continue
            self.running[crate.name] = Job(crate, self, lock)
            self.write_state()

    def finish(self, job):
        """Keeps the result of a proof that has ended, or records that it failed."""
        name, status = job.crate.name, job.process.returncode
        del self.running[name]
        verdict = job.verdict()
        if verdict and self.keep(job, verdict):
            seconds = round(time.monotonic() - job.since)
            tell(f"crate {self.count()} of {len(self.tree.order)}: {name} proved in {seconds} s")
        elif status < 0 and self.kills.get(name, 0) + 1 < MOST_KILLS:
            self.kills[name] = self.kills.get(name, 0) + 1
            tell(f"{name}: rattle was killed by signal {-status}, perhaps for lack of memory: once more")
        else:
            shutil.copyfile(job.log, f"{self.places.out}/proof/failed.log")
            killed = f"rattle was killed by signal {-status}, perhaps for lack of memory"
            ended = "it cannot be linked or run" if verdict else f"rattle ended with status {status}"
            self.failed, self.why = name, killed if status < 0 else ended
            tell(f"{name} is not proved ({self.why}); its messages are in {self.places.out}/proof/failed.log")
        job.close()
        self.write_state()

    def keep(self, job, verdict):
        """Puts a proved library, or the proved program, in its place at once. Returns whether the program can be run."""
        if job.crate.name == PROGRAM:
            program = f"{job.room}/program"
            if unproved.run(self.kit.link(job.made, program), job.log) or not unproved.is_program(program):
                return False
            said = f"proved by rattle of {self.kit.name}, {len(self.tree.order)} crates; {MORE}\n"
            building.write_text(f"{self.places.proved(self.tree)}.txt", said)
            building.publish(program, self.places.proved(self.tree))
            building.find_proved(self.places)
            return True
        building.write_text(f"{job.room}/made/verdict", f"{verdict}\n")
        building.flush(f"{job.room}/made")
        try:
            os.rename(f"{job.room}/made", self.places.library(job.crate, self.keys))
        except OSError:
            if not self.is_proved(job.crate):
                raise
        return True

    def look_again(self):
        """Checks whether the sources have changed. Then nothing more is started, and useless proofs are ended."""
        if self.is_old or time.monotonic() - self.looked < LOOK_AGAIN:
            return
        self.looked = time.monotonic()
        try:
            tree = building.Tree()
            keys = tree.keys(self.kit)
        except (Stop, OSError):
            # (in the middle of an edit)
            return
        self.is_old = tree.hash != self.tree.hash
        if self.is_old:
            tell("the sources have changed: continuing with the new ones")
            for name, job in list(self.running.items()):
                if keys.get(name) != self.keys[name]:
                    del self.running[name]
                    job.close()

    def run(self):
        """Proves what can be proved, and returns whether that is everything; None if the sources have changed."""
        self.write_state()
        try:
            while True:
                for job in [it for it in self.running.values() if it.process.poll() is not None]:
                    self.finish(job)
                self.look_again()
                if not (self.failed or self.is_old):
                    self.start()
                if not self.running and (self.failed or self.is_old or self.is_proved(self.tree.order[-1])):
                    return None if self.is_old else not self.failed
                time.sleep(0.25)
        finally:
            for name in list(self.running):
                self.running.pop(name).close()
            self.write_state()


def forget_old(places):
    """Removes libraries that no process uses which proves now, except the last one used of each crate."""
    wanted, others = set(), {}
    for it in os.scandir(f"{places.cache}/work"):
        # (this process is one of them; so is a killed one until its folder is swept away)
        wanted.update(building.text_of(f"{it.path}/wanted").split())
    for it in os.scandir(f"{places.cache}/libraries"):
        if it.name not in wanted:
            others.setdefault(re.sub(r"-\w+$", "", it.name), []).append(it)
    for found in others.values():
        for it in sorted(found, key=lambda one: -one.stat().st_mtime)[1:]:
            shutil.rmtree(it.path, ignore_errors=True)


def prove(kit, places, spare=SPARE_MB, beside=lambda: None):
    """Proves the program, leaving so many MB free, and returns whether it is proved. `beside` is called first, and
    again whenever the sources have changed. The caller holds the lock of the proof."""
    while True:
        tree, program = building.find_proved(places)
        if program:
            return True
        beside()
        with building.work_folder(places, "proof") as room:
            prover = Prover(tree, kit, places, room, spare)
            forget_old(places)
            tell(f"{prover.count()} of {len(tree.order)} crates are proved; {building.lanes()} at once, by {kit.name}")
            done = prover.run()
        if done is not None:
            return done


def has_failed(tree, kit, places):
    """Whether the last proof of just these sources, by this kit, failed."""
    state = places.state()
    return bool(state.get("failed")) and (state.get("hash"), state.get("kit")) == (tree.hash, kit.hash)


def reason_not_to(kit):
    """Why no proof is begun in the background, or None."""
    if kit is None:
        return "there is no kit of Rattle here (no rt on the path)"
    if building.lanes() == 0:
        return "FP2_LANES is 0"
    if building.memory("MemTotal") < MOST_MB:
        return f"a crate may take {MOST_MB} MB of memory, and this machine has {building.memory('MemTotal')}"
    return None


def begin(places):
    """Starts the proof as a background process of low priority, where none is running."""
    if building.is_held(places.lock_of_proof()):
        return
    words = ["nice", "-n", "19", sys.executable, f"{building.TOP}/tools/prove", "--background"]
    with open(f"{places.out}/proof/log", "ab") as to:
        how = {"stdin": subprocess.DEVNULL, "stdout": to, "stderr": to, "cwd": "/", "start_new_session": True}
        subprocess.Popen(words, **how)


def progress(tree, kit, places, is_running):
    """The state of the proof, in words for a line on standard error."""
    if kit is None:
        return f"proof not begun because {reason_not_to(kit)}"
    keys = tree.keys(kit)
    count = sum(os.path.isdir(places.library(it, keys)) for it in tree.order[:-1])
    done = f"crate {count} of {len(tree.order)} proved"
    if has_failed(tree, kit, places) and not is_running:
        state = places.state()
        return f"proof failed at {state['failed']}, {done}: {state['why']} (tools/prove tries it again)"
    if is_running:
        return f"proof in progress, {done} (tools/prove waits for it)"
    why = reason_not_to(kit)
    if why:
        return f"proof not begun because {why}, {done}"
    return f"proof interrupted, {done} (tools/prove, or the next run of ./fp2, continues it)"
