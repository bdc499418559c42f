"""Shared by ./fp2, tools/prove and tools/install: the program's crates and their hashes, the kit, and the folders used.

    out/proved/HASH     the proved program of the sources with that hash; HASH.txt says what proved it
    out/proved/now      the hash that the sources had when last read, and the list of their folders
    out/unproved/HASH   the program compiled from the same sources without a proof
    out/proof/          the state of the proof, its log, and the lock of the one process that proves
    CACHE/libraries/    the proved libraries, by the hash of a crate's files and of those below it
    CACHE/work/         temporary folders, each with a lock that its process holds

CACHE is fp2 in the user's cache folder, or fp2-UID in the folder of temporary files where the former is not writable.
Where the repository is not writable, CACHE/tops/NAME takes the place of out/. Everything is made elsewhere and renamed
when it is complete. (rt refuses links and sources outside of crates, so out/ has neither.)
"""
import contextlib
import ctypes
import fcntl
import hashlib
import json
import os
import re
import shutil
import signal
import stat
import sys
import tempfile
import time

TOP = os.path.dirname(os.path.dirname(os.path.realpath(__file__)))
PROGRAM = "fip_cli"
# Where rt builds the program, once it has proved it.
MADE_BY_RT = f"{TOP}/crates/{PROGRAM}/out/{PROGRAM}"
PARTS = ("src", "specs", "proofs")
# How many programs of other sources are kept.
KEPT_PROGRAMS = 3


class Stop(Exception):
    """Why a command cannot do its work, in words for its caller."""


def tell(text):
    """Prints a line on standard error."""
    print(f"fp2: {text}", file=sys.stderr, flush=True)


def stop_on_signals():
    """Makes a signal that ends this process first remove what is half made."""

    def leave(number, _):
        raise SystemExit(128 + number)

    for number in (signal.SIGTERM, signal.SIGHUP, signal.SIGINT):
        signal.signal(number, leave)


def end_with_parent():
    """Has a command that this process starts be killed when this process ends, however it ends."""
    ctypes.CDLL(None).prctl(1, signal.SIGKILL)


def end_with_shell():
    """Has this process end, and remove what is half made, when the shell that waits for it ends."""
    ctypes.CDLL(None).prctl(1, signal.SIGTERM)


def text_of(path):
    """The text of a file, empty where there is none."""
    try:
        with open(path, encoding="utf-8", errors="replace") as it:
            return it.read()
    except OSError:
        return ""


# The crates.


class Crate:
    """A crate that the program depends on, or the program itself, as its files were read."""

    def __init__(self, path, kind, uses):
        self.path = path
        self.name = os.path.basename(path).replace("-", "_")
        self.kind = kind
        self.uses = uses
        self.direct = []
        self.below = []
        self.of_kit = []
        self.files = {}
        self.newest = 0

    def read(self, top):
        """Reads the crate's files, and notes when one of them, or a folder of them, last changed."""
        base = f"{top}/crates/{self.path}"
        for part in PARTS:
            for at, folders, names in os.walk(f"{base}/{part}"):
                folders.sort()
                self.note(os.stat(at))
                for name in names:
                    with open(f"{at}/{name}", "rb") as it:
                        self.note(os.fstat(it.fileno()))
                        self.files[f"{at}/{name}"[len(base) + 1 :]] = it.read()
        if not any(name.startswith("src/") for name in self.files):
            raise Stop(f"crates.txt names {self.path}, but crates/{self.path}/src has no file")

    def note(self, found):
        """Notes the times of a file."""
        self.newest = max(self.newest, found.st_mtime_ns, found.st_ctime_ns)

    def root(self):
        """The file that a compiler begins with."""
        return "src/main.rt" if "src/main.rt" in self.files else "src/lib.rt"

    def lines(self):
        """The lines of the crate's code, from which the time and memory of its proof are estimated."""
        return sum(text.count(b"\n") for name, text in self.files.items() if name.startswith("src/"))

    def hash(self):
        """The hash of the crate's files and of its line of crates.txt."""
        found = hashlib.sha256(repr((self.name, self.kind, sorted(self.uses))).encode())
        for name in sorted(self.files):
            text = self.files[name]
            found.update(f"{name}\0{len(text)}\0".encode())
            found.update(text)
        return found.hexdigest()


def listed(text):
    """The crates that a text such as crates.txt names: by path, the other words of the line, and the crates it uses."""
    found = {}
    for line in text.splitlines():
        head, _, uses = line.partition("#")[0].partition(":")
        words = head.split()
        if words:
            if words[0] in found:
                raise Stop(f"crates.txt: {words[0]} is on two lines")
            found[words[0]] = (words[1:], [it for it in re.split(r"[\s,]+", uses) if it])
    return found


class Tree:
    """The crates that the program depends on, each after those that it depends on itself, and the program last."""

    def __init__(self, top=TOP):
        with open(f"{top}/crates.txt", encoding="utf-8") as it:
            found = os.fstat(it.fileno())
            said = listed(it.read())
        self.order = []
        self.by_path = {}
        self.visit(PROGRAM, said, ())
        for crate in self.order:
            crate.read(top)
        self.newest = max(found.st_mtime_ns, found.st_ctime_ns, *(it.newest for it in self.order))
        self.hashes = {it.name: it.hash() for it in self.order}
        self.hash = hashlib.sha256(repr(sorted(self.hashes.items())).encode()).hexdigest()[:24]

    def visit(self, path, said, above):
        """Adds a crate, after those below it."""
        if path in above:
            raise Stop(f"crates.txt: {path} depends on itself")
        if path not in said:
            raise Stop(f"crates.txt names no crate {path}")
        if path in self.by_path:
            return
        crate = Crate(path, *said[path])
        for it in dict.fromkeys(crate.uses):
            if it not in said:
                crate.of_kit.append(it)
                continue
            self.visit(it, said, (*above, path))
            low = self.by_path[it]
            crate.direct.append(low)
            crate.below += [one for one in (*low.below, low) if one not in crate.below]
        self.by_path[path] = crate
        self.order.append(crate)

    def keys(self, kit):
        """By name, the hash of a crate's files, of those of all crates below it, and of the kit that proves it."""
        found = {}
        for crate in self.order:
            parts = (kit.hash, [kit.hash_of(it) for it in sorted(crate.of_kit)], self.hashes[crate.name])
            below = sorted((it.name, found[it.name]) for it in crate.direct)
            found[crate.name] = hashlib.sha256(repr((parts, below)).encode()).hexdigest()[:24]
        return found

    def write(self, room):
        """Writes the crates, as they were read, to the folder room."""
        for crate in self.order:
            for name, text in crate.files.items():
                path = f"{room}/crates/{crate.path}/{name}"
                os.makedirs(os.path.dirname(path), exist_ok=True)
                with open(path, "wb") as it:
                    it.write(text)


# The kit.


class Kit:
    """The kit of Rattle."""

    def __init__(self, folder):
        self.folder = folder
        self.rattle = f"{folder}/bin/rattle"
        self.name = text_of(f"{folder}/KIT-ID").partition(" ")[0].strip() or "a kit without a name"
        said = (text_of(f"{folder}/KIT-ID"), self.hash_of("std"), os.path.getsize(self.rattle))
        self.hash = hashlib.sha256(repr(said).encode()).hexdigest()

    def hash_of(self, library):
        """The hash of what the kit says of one of its built libraries."""
        if not os.path.isdir(f"{self.folder}/rlibs/{library}.rlib"):
            raise Stop(f"crates.txt: {library} is no crate that it lists, and no library of {self.folder}")
        return hashlib.sha256(text_of(f"{self.folder}/rlibs/{library}.rlib/format").encode()).hexdigest()

    def sources(self, names):
        """The arguments that pass these libraries of the kit, and those that they use, as source."""
        words, names = [], list(dict.fromkeys(names))
        for name in names:
            uses = re.findall(r"^dep (\w+)$", text_of(f"{self.folder}/rlibs/{name}.rlib/format"), re.M)
            names += [it for it in uses if it not in names]
            folder = "examples/check" if name == "check" else name
            words += ["--lib", f"{name}:{','.join(uses)}={self.folder}/rattle/{folder}/src/lib.rt"]
        return words

    def link(self, made, program):
        """The command that links an object file into a program."""
        words = [f"{self.folder}/bin/rattle-link", "--target", "x86_64-unknown-linux-gnu"]
        words += ["--toolchain", f"{self.folder}/toolchain", "-o", program, made]
        return [*words, f"{self.folder}/c/libos_c.a", f"{self.folder}/c/liblibc_c.a"]


def find_kit():
    """The kit whose rt is on the path, else the one in /opt/rattle, or None."""
    rt = shutil.which("rt")
    for folder in (rt and os.path.dirname(os.path.dirname(os.path.realpath(rt))), "/opt/rattle"):
        if folder and os.access(f"{folder}/bin/rattle", os.X_OK):
            return Kit(folder)
    return None


# The machine.


def number_in(path, pattern):
    """The number that a pattern finds in a file, or None."""
    found = re.search(pattern, text_of(path), re.M)
    return int(found[1]) if found else None


def processors():
    """How many processors this process may use."""
    found = len(os.sched_getaffinity(0))
    v1 = "/sys/fs/cgroup/cpu"
    for quota, period in (
        (number_in("/sys/fs/cgroup/cpu.max", r"^(\d+) "), number_in("/sys/fs/cgroup/cpu.max", r" (\d+)$")),
        (number_in(f"{v1}/cpu.cfs_quota_us", r"^(\d+)"), number_in(f"{v1}/cpu.cfs_period_us", r"^(\d+)")),
    ):
        if quota and period:
            found = min(found, max(quota // period, 1))
    return found


def memory(which):
    """MemTotal or MemAvailable in MB, or less where a control group allows less."""
    found = (number_in("/proc/meminfo", rf"^{which}: +(\d+) kB") or 0) >> 10
    v2, v1 = "/sys/fs/cgroup", "/sys/fs/cgroup/memory"
    for limit, held, pattern in (
        (f"{v2}/memory.max", f"{v2}/memory.stat", r"^anon (\d+)"),
        (f"{v1}/memory.limit_in_bytes", f"{v1}/memory.stat", r"^total_rss (\d+)"),
    ):
        most = number_in(limit, r"^(\d+)")
        if most is not None:
            taken = (number_in(held, pattern) or 0) if which == "MemAvailable" else 0
            found = min(found, (most - taken) >> 20)
    return found


def lanes():
    """How many crates may be proved at once: FP2_LANES if it is set, at most the number of processors."""
    said = os.environ.get("FP2_LANES") or str(processors())
    if not said.isdigit():
        raise Stop(f"FP2_LANES must be a number, and is {said}")
    return min(int(said), processors())


# The folders.


def is_private(folder, may_be_link):
    """Whether the folder exists, or can be made, and only this user can write to it."""
    try:
        os.makedirs(folder, 0o700, exist_ok=True)
        found = os.stat(folder) if may_be_link else os.lstat(folder)
        if not stat.S_ISDIR(found.st_mode) or found.st_uid != os.geteuid() or found.st_mode & 0o022:
            return False
        with tempfile.TemporaryFile(dir=folder):
            return True
    except OSError:
        return False


class Places:
    """The folders in which everything is kept."""

    def __init__(self, top=TOP):
        # (an empty variable counts as unset, as in the launcher)
        home = os.environ.get("XDG_CACHE_HOME") or f"{os.environ.get('HOME', '')}/.cache"
        of_user, temporary = f"{home}/fp2", f"{os.environ.get('TMPDIR') or '/tmp'}/fp2-{os.geteuid()}"
        if is_private(of_user, True):
            self.cache = of_user
        elif is_private(temporary, False):
            self.cache = temporary
        else:
            raise Stop(f"nothing can be kept: neither {of_user} nor {temporary} is a folder that only you can write to")
        self.out = f"{top}/out"
        self.note = "" if self.cache == of_user else f"{of_user} is not writable, so {self.cache} is used"
        try:
            os.makedirs(f"{self.out}/proof", exist_ok=True)
            with tempfile.TemporaryFile(dir=f"{self.out}/proof"):
                pass
        except OSError:
            self.out = f"{self.cache}/tops/{top.replace('/', '%')}"
            self.note = f"{top} is not writable, so {self.cache} is used"
        for folder in (f"{self.out}/proved", f"{self.out}/unproved", f"{self.out}/proof"):
            os.makedirs(folder, exist_ok=True)
        for folder in (f"{self.cache}/libraries", f"{self.cache}/work"):
            os.makedirs(folder, exist_ok=True)

    def proved(self, tree):
        """The path of the proved program of these sources."""
        return f"{self.out}/proved/{tree.hash}"

    def unproved(self, tree):
        """The path of the program of these sources that is compiled without a proof."""
        return f"{self.out}/unproved/{tree.hash}"

    def library(self, crate, keys):
        """The folder of a crate's proved library, which exists exactly where the crate is proved."""
        return f"{self.cache}/libraries/{crate.name}-{keys[crate.name]}"

    def lock_of_proof(self):
        """The lock that the process holds that proves."""
        return f"{self.out}/proof/lock"

    def state(self):
        """What the process that proves, or proved last, wrote about its progress."""
        try:
            return json.loads(text_of(f"{self.out}/proof/state"))
        except ValueError:
            return {}


def take(path, wait=False):
    """The lock of that name, held until it is closed or this process ends; None where another holds it."""
    lock = open(path, "a", encoding="utf-8")
    try:
        fcntl.flock(lock, fcntl.LOCK_EX | (0 if wait else fcntl.LOCK_NB))
    except BlockingIOError:
        lock.close()
        return None
    return lock


def is_held(path):
    """Whether a process holds the lock of that name."""
    lock = take(path)
    if lock:
        lock.close()
    return lock is None


def sweep(folder):
    """Removes the temporary folders of killed processes."""
    for name in os.listdir(folder):
        room = f"{folder}/{name}"
        with contextlib.suppress(OSError):
            # (a new one gets its lock within a moment)
            if time.time() - os.stat(room).st_mtime > 60 and not is_held(f"{room}/lock"):
                shutil.rmtree(room, ignore_errors=True)


@contextlib.contextmanager
def work_folder(places, kind):
    """A temporary folder, which is removed at the end, or by another process if this one is killed."""
    folder = f"{places.cache}/work"
    sweep(folder)
    room = tempfile.mkdtemp(prefix=f"{kind}-", dir=folder)
    lock = take(f"{room}/lock")
    try:
        yield room
    finally:
        shutil.rmtree(room, ignore_errors=True)
        lock.close()


def flush(folder):
    """The sources, and their proved program or None. If there is one, the launcher finds it itself the next time."""
    for at, _, names in os.walk(folder):
        for name in names:
            with open(f"{at}/{name}", "rb") as it:
                os.fsync(it.fileno())


def write_text(path, text):
    """Writes a file at once: others see the previous one or this one."""
    with tempfile.NamedTemporaryFile("w", dir=os.path.dirname(path), prefix=".new-", delete=False) as it:
        it.write(text)
    os.chmod(it.name, 0o644)
    os.replace(it.name, path)


def publish(made, program):
    """Puts a finished program in its place at once, and removes the oldest ones beside it."""
    folder = os.path.dirname(program)
    with tempfile.NamedTemporaryFile(dir=folder, prefix=".new-", delete=False) as it:
        with open(made, "rb") as source:
            shutil.copyfileobj(source, it)
        it.flush()
        os.fsync(it.fileno())
    os.chmod(it.name, 0o755)
    os.replace(it.name, program)
    others = [it for it in os.scandir(folder) if re.fullmatch(r"[0-9a-f]{24}", it.name) and it.path != program]
    for other in sorted(others, key=lambda it: it.stat().st_mtime)[:-KEPT_PROGRAMS]:
        for ending in ("", ".txt", ".bc", ".words"):
            with contextlib.suppress(OSError):
                os.remove(other.path + ending)
    for left in os.scandir(folder):
        with contextlib.suppress(OSError):
            if left.name.startswith(".new-") and time.time() - left.stat().st_mtime > 3600:
                os.remove(left.path)


# The proved program.


def source_folders(top=TOP):
    """The folders of the sources, in the order in which the launcher lists them."""
    found = (f"crates/{it.name}/{part}" for it in os.scandir(f"{top}/crates") for part in PARTS)
    found = sorted(it for it in found if os.path.isdir(f"{top}/{it}"))
    return " ".join(["crates.txt", *(it for part in PARTS for it in found if it.endswith(f"/{part}"))])


def read_and_mark(places):
    """The sources, and a file to become out/proved/now where their program is proved: it is older than the reading."""
    with tempfile.NamedTemporaryFile("w", dir=f"{places.out}/proved", prefix=".new-", delete=False) as it:
        mark = it.name
    try:
        # (by the clock of that disk; two seconds, since some disks count time in such steps)
        before = os.stat(mark).st_mtime - 2
        folders, tree = source_folders(), Tree()
        with open(mark, "w", encoding="utf-8") as it:
            it.write(f"{tree.hash}\n{folders}\n")
        os.chmod(mark, 0o644)
        os.utime(mark, (before, before))
    except BaseException:
        os.remove(mark)
        raise
    return tree, mark


def find_proved(places):
    """The sources, and their proved program or None. If there is one, the launcher finds it by itself the next time."""
    tree, mark = read_and_mark(places)
    program = places.proved(tree)
    if not os.access(program, os.X_OK):
        take_from_rt(places, tree)
    if os.access(program, os.X_OK):
        os.replace(mark, f"{places.out}/proved/now")
        return tree, program
    os.remove(mark)
    return tree, None


def is_of_rt(tree):
    """Whether rt proved and built the program, and no source has changed since."""
    return os.path.isfile(MADE_BY_RT) and os.stat(MADE_BY_RT).st_mtime_ns > tree.newest


def take_from_rt(places, tree):
    """Takes over the program that rt proved and built, where no source has changed since."""
    with contextlib.suppress(OSError):
        if is_of_rt(tree):
            write_text(f"{places.proved(tree)}.txt", "proved by rt, and no source is newer than the program\n")
            publish(MADE_BY_RT, places.proved(tree))


def program_to_test():
    """The program for tools that compare its output: FP2 if it is set, else a proved one; None where there is none."""
    if os.environ.get("FP2"):
        return os.environ["FP2"]
    found = None if is_of_rt(Tree()) else find_proved(Places())[1]
    if found is None and os.path.isfile(MADE_BY_RT):
        with contextlib.suppress(OSError):
            os.chmod(MADE_BY_RT, 0o755)
        if not is_of_rt(Tree()):
            print(f"note: a source is newer than {MADE_BY_RT}, which rt proved and built", file=sys.stderr)
        found = MADE_BY_RT
    return found
