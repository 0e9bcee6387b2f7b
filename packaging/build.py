#!/usr/bin/env python3
"""Proves and builds the programs of packaging/programs.txt by several runs of rt side by side.

    packaging/build.py TREE FOLDER LEVEL...      FOLDER/PROGRAM-LEVEL is made of each for each level, as x86-64-v3

A run of rt holds the folders of its crate and of all crates below, so each crate is built in a small tree of its own,
over what was built of the others. What is proved of a library goes to its out/ in TREE, so a build that was broken off
goes on there. The crate with the longest chain of others behind it comes first, and the others yield processors to it.

At x86-64-v3 one word of the sources is another: AES goes by planes of 32 bytes (crates/aes_planes/src/width.rt). So
the crates on aes_planes are proved for that level by themselves, and their libraries are kept in out/wide/ of TREE.

Standard error says how far it is, at least once a minute, and about how long the rest takes: packaging/costs.txt has
what each crate took on another machine, and what was built so far says how much slower or quicker this one is. Standard
output has what rt says. GELI_JOBS is how many jobs are there at a time; without it, as many crates as there are
processors, if there are 4 GB of free memory for each, and some of them have more than one job. The status is 0 if all
was built.
"""
import concurrent.futures
import contextlib
import fcntl
import hashlib
import os
import re
import shutil
import signal
import subprocess
import sys
import tempfile
import time

PARTS = ("src", "specs", "proofs")
BYTES_OF_JOB = 4_000_000_000
MOST_JOBS_OF_CRATE = 4
# How much lower the priority of a crate is on which less depends than on another that is being proved (nice(1)).
YIELDS = 10
SECONDS_OF_SILENCE = 60
WIDE_LEVELS = ("x86-64-v3",)
WIDTH_CRATE, WIDTH_FILE = "aes_planes", "src/width.rt"
NARROW, WIDE = "WIDE: bool = false", "WIDE: bool = true"


def say(text):
    print(f"geli: {text}", file=sys.stderr, flush=True)


def libraries_of(file):
    """Returns the crates that crates.txt lists, each with those of them that it uses."""
    with open(file, encoding="utf-8") as lines:
        rows = [line.partition("#")[0].partition(":") for line in lines]
    uses = {name.strip(): words.split() for name, _, words in rows if name.strip()}
    return {name: [it for it in words if it in uses] for name, words in uses.items()}


def programs_of(file):
    """Returns the programs that programs.txt lists: by the crate of each its name, and the words that rt runs it with."""
    found = {}
    with open(file, encoding="utf-8") as lines:
        for line in lines:
            name, _, words = line.partition("#")[0].partition(":")
            if words.split():
                crate, *given = words.split()
                found[crate] = name.strip(), given
    return found


def below(uses, name):
    """Returns the crates below this one, each behind those that it uses."""
    found = []
    for dep in uses[name]:
        found += [it for it in [*below(uses, dep), dep] if it not in found]
    return found


class Costs:
    """What each crate took on the machine of costs.txt, in seconds: of a processor with one job, how many of these no
    other job can share, and what each of several jobs costs at its start. If a crate isn't listed they are guessed by
    the lines of its code."""

    def __init__(self, tree):
        self.tree, self.listed = tree, {}
        for line in text_of(f"{tree}/packaging/costs.txt").splitlines():
            name, _, words = line.partition("#")[0].partition(":")
            if words.split():
                self.listed[name.strip()] = tuple(float(it) for it in words.split())

    def of(self, name):
        if name in self.listed:
            return self.listed[name]
        lines = 0
        for at, _, files in os.walk(f"{self.tree}/crates/{name}/src"):
            for file in files:
                with open(f"{at}/{file}", "rb") as it:
                    lines += it.read().count(b"\n")
        return 20 + lines / 10, 20, 20

    def work(self, name, jobs):
        """Returns the seconds of processors that the crate takes with so many jobs."""
        one, _, start = self.of(name)
        return one + (start * jobs if jobs > 1 else 0)

    def seconds(self, name, jobs):
        """Returns how long the crate takes with so many jobs, if each has a processor."""
        alone = self.of(name)[1]
        return alone + (self.work(name, jobs) - alone) / jobs

    def jobs(self, name):
        """Returns with how many jobs the crate takes least."""
        return min(range(1, MOST_JOBS_OF_CRATE + 1), key=lambda jobs: self.seconds(name, jobs))


def text_of(file):
    """Returns what stands in a file, or nothing where there is none."""
    with contextlib.suppress(OSError), open(file, encoding="utf-8") as it:
        return it.read()
    return ""


def processors():
    """Returns how many processors are used, and whether more jobs than that may be there at a time."""
    given = os.environ.get("GELI_JOBS", "")
    if given.isdigit() and int(given):
        return int(given), False
    there = len(os.sched_getaffinity(0))
    found = [there]
    found += [1024 * int(it) // BYTES_OF_JOB for it in re.findall(r"MemAvailable:\s+(\d+)", text_of("/proc/meminfo"))]
    # What a container may use can be less than the machine has.
    group = ("cpu.max", "memory.max", "memory.current")
    quota, most, taken = (text_of(f"/sys/fs/cgroup/{it}").split() for it in group)
    if quota and quota[0].isdigit():
        found.append(int(quota[0]) // int(quota[1]))
    if most and taken and most[0].isdigit():
        found.append((int(most[0]) - int(taken[0])) // BYTES_OF_JOB)
    return max(1, min(found)), min(found) == there


def link_or_copy(source, to):
    """Gives a file that nobody writes into a second name."""
    try:
        os.link(source, to)
    except OSError:
        shutil.copyfile(source, to)


@contextlib.contextmanager
def held(folder):
    """Gives whether this process holds the crate's folder, so that no rt works in it."""
    handle = os.open(folder, os.O_RDONLY)
    try:
        fcntl.flock(handle, fcntl.LOCK_EX | fcntl.LOCK_NB)
        yield True
    except BlockingIOError:
        yield False
    finally:
        os.close(handle)


def widen(file):
    """Has a copy of the sources take sixteen blocks at a time."""
    text = text_of(file)
    if text.count(NARROW) != 1:
        raise SystemExit(f"{file} doesn't say once: {NARROW}")
    with open(file, "w", encoding="utf-8") as it:
        it.write(text.replace(NARROW, WIDE))


class Build:
    def __init__(self, tree, made, level, room):
        self.tree, self.made, self.level, self.room = tree, made, level, room
        self.uses = libraries_of(f"{tree}/crates.txt")
        self.programs = programs_of(f"{tree}/packaging/programs.txt")
        self.crates = []
        for top in self.programs:
            self.crates += [it for it in [*below(self.uses, top), top] if it not in self.crates]
        self.costs = Costs(tree)
        # How long the longest chain takes that begins with the crate.
        least = {it: self.costs.seconds(it, self.costs.jobs(it)) for it in self.crates}
        self.chain = dict(least)
        for name in reversed(self.crates):
            for dep in self.uses[name]:
                self.chain[dep] = max(self.chain[dep], least[dep] + self.chain[name])
        self.lanes, self.may_exceed = processors()
        # The processor seconds of each crate that is built, its jobs, and whether others yield to it.
        self.began, self.took, self.jobs, self.heads = time.monotonic(), {}, {}, set()
        self.is_ending, self.started = False, set()

    def home(self, name):
        """Returns the folder in whose out/ a library is kept."""
        is_wide = self.level in WIDE_LEVELS and WIDTH_CRATE in [*below(self.uses, name), name]
        return f"{self.tree}/out/wide/{name}" if is_wide else f"{self.tree}/crates/{name}"

    def take(self, name):
        """Copies a crate's files into the room, with the library that an earlier build left."""
        source, to, home = f"{self.tree}/crates/{name}", f"{self.room}/built/{name}", self.home(name)
        for part in PARTS:
            if os.path.isdir(f"{source}/{part}"):
                shutil.copytree(f"{source}/{part}", f"{to}/{part}", symlinks=True)
        if name == WIDTH_CRATE and self.level in WIDE_LEVELS:
            widen(f"{to}/{WIDTH_FILE}")
        os.makedirs(home, exist_ok=True)
        if os.path.isfile(f"{home}/out/rlib/stamp"):
            with held(home) as is_held:
                if is_held:
                    shutil.copytree(f"{home}/out/rlib", f"{to}/out/rlib", copy_function=link_or_copy)

    def give(self, name):
        """Puts a library that was built into the tree, for the next build."""
        source, to = f"{self.room}/built/{name}/out/rlib", self.home(name)
        with contextlib.suppress(OSError), held(to) as is_held:
            if is_held and text_of(f"{to}/out/rlib/stamp") != text_of(f"{source}/stamp"):
                for old in (f"{to}/out/rlib.new", f"{to}/out/rlib"):
                    shutil.rmtree(old, ignore_errors=True)
                shutil.copytree(source, f"{to}/out/rlib.new", copy_function=link_or_copy)
                os.rename(f"{to}/out/rlib.new", f"{to}/out/rlib")

    def tree_of(self, name):
        """Makes a tree of this crate and those below it, and returns the crate's folder in it."""
        tree, names = f"{self.room}/{name}", [*below(self.uses, name), name]
        for it in names:
            shutil.copytree(f"{self.room}/built/{it}", f"{tree}/crates/{it}", True, copy_function=link_or_copy)
        with open(f"{self.tree}/crates.txt", encoding="utf-8") as lines:
            kept = [line for line in lines if line.partition(":")[0].strip() in names]
        with open(f"{tree}/crates.txt", "w", encoding="utf-8") as it:
            it.writelines(kept)
        shutil.copyfile(f"{self.tree}/HANDLES", f"{tree}/HANDLES")
        return f"{tree}/crates/{name}"

    def rt(self, folder, log, *words):
        """Runs rt for the crate of this folder, and returns whether it ended well."""
        if self.is_ending:
            return False
        with subprocess.Popen(["rt", *words], cwd=folder, stdin=subprocess.DEVNULL, stdout=log, stderr=log) as ran:
            self.started.add(ran)
            if os.path.basename(folder) not in self.heads:
                with contextlib.suppress(OSError):
                    os.setpriority(os.PRIO_PROCESS, ran.pid, os.getpriority(os.PRIO_PROCESS, 0) + YIELDS)
            _, status, used = os.wait4(ran.pid, 0)
            ran.returncode = os.waitstatus_to_exitcode(status)
            self.started.discard(ran)
        self.took[os.path.basename(folder)] = used.ru_utime + used.ru_stime
        return ran.returncode == 0

    def prove(self, name, jobs):
        """Builds a library or a program, and returns whether it could."""
        is_built, words = False, ["--jobs", str(jobs)]
        with open(f"{self.room}/{name}.log", "w", encoding="utf-8") as log:
            try:
                folder = self.tree_of(name)
                build = self.link if name in self.programs else self.library
                is_built = build(name, folder, log, words)
            except OSError as error:
                print(error, file=log)
        shutil.rmtree(f"{self.room}/{name}", ignore_errors=True)
        return is_built

    def library(self, name, folder, log, words):
        if not self.rt(folder, log, "lib", *words):
            return False
        shutil.rmtree(f"{folder}/out/incremental", ignore_errors=True)
        shutil.rmtree(f"{self.room}/built/{name}")
        os.rename(folder, f"{self.room}/built/{name}")
        self.give(name)
        return True

    def link(self, name, folder, log, words):
        program, given = self.programs[name]
        if os.path.isdir(f"{self.tree}/crates/{name}/data"):
            shutil.copytree(f"{self.tree}/crates/{name}/data", f"{folder}/data")
        if not self.rt(folder, log, "run", *words, f"--cpu={self.level}", "--", *given):
            return False
        shutil.copy(f"{folder}/out/{name}", f"{self.made}/{program}-{self.level}")
        return True

    def left(self, waiting, running):
        """Returns about how many seconds the rest takes, by going through it as `all` does. `running` has, for each
        crate that is being built, its jobs and for how long it has been."""
        work = {it: self.costs.work(it, self.jobs.get(it, 1)) for it in self.crates}
        done = {*self.crates} - {*waiting} - {*running}
        # (a library that an earlier build left takes no time, and until a twentieth is proved, this machine counts as
        # quick as that of costs.txt)
        proved = [it for it in done if 10 * self.took[it] > work[it]]
        expected = sum(work[it] for it in proved)
        rate = sum(self.took[it] for it in proved) / expected if 20 * expected > sum(work.values()) else 1
        waiting, step, seconds, rest, since, heads = set(waiting), 5, 0, {}, {}, set(self.heads)

        def begin(name, jobs, gone):
            alone, shared = self.costs.of(name)[1], self.costs.work(name, jobs) - self.costs.of(name)[1]
            rest[name] = [jobs, rate * alone - gone, max(rate * shared - jobs * max(gone - rate * alone, 0), step)]
            since[name] = seconds - gone

        for name, (jobs, gone) in running.items():
            begin(name, jobs, gone)
        while waiting or rest:
            while found := self.next_of(waiting, done, {it: (rest[it][0], seconds - since[it]) for it in rest}):
                name, jobs, is_head = found
                waiting.discard(name)
                heads |= {name} if is_head else set()
                begin(name, jobs, 0)
            idle = self.lanes
            for group in (rest.keys() & heads, rest.keys() - heads):
                wanted = sum(1 if rest[it][1] > 0 else rest[it][0] for it in group)
                share = min(1, idle / wanted) if wanted else 0
                idle -= share * wanted
                for it in group:
                    if rest[it][1] > 0:
                        rest[it][1] -= step * share
                    else:
                        rest[it][2] -= step * share * rest[it][0]
            for name in [name for name, it in rest.items() if it[1] <= 0 and it[2] <= 0]:
                done.add(name)
                del rest[name]
            seconds += step
        return seconds

    def tell(self, waiting, running):
        """Says what is being proved, how far that is, and about how long the rest takes."""
        now, count = time.monotonic(), len(self.crates) - len(waiting) - len(running)
        left = self.left(waiting, running)
        names = " ".join(sorted(running, key=self.chain.get, reverse=True))
        say(
            f"{count} of {len(self.crates)} crates are proved, {(now - self.began) / 60:.0f} minutes gone, "
            f"about {left / 60:.0f} to go; being proved: {names}"
        )

    def next_of(self, waiting, done, running):
        """Returns the crate that is to begin, how many jobs it gets, and whether others yield to it; or None. `running`
        has the jobs of the rest, and for how long each has been built."""
        ready, idle = [it for it in waiting if all(dep in done for dep in self.uses[it])], self.lanes - len(running)
        if not self.may_exceed:
            idle = self.lanes - sum(jobs for jobs, _ in running.values())
        if not ready or idle < 1:
            return None
        name = max(ready, key=self.chain.get)
        is_head = all(self.chain[name] >= self.chain[it] - gone for it, (_, gone) in running.items())
        if not self.may_exceed:
            return name, max(1, min(MOST_JOBS_OF_CRATE, idle - len(ready) + 1)), is_head
        # The crate that the rest waits for longest gets several if that is quicker, and the others fill what it leaves
        # idle: a crate keeps the jobs that it began with.
        return name, min(self.lanes, self.costs.jobs(name)) if is_head else 1, is_head

    def all(self):
        """Builds all, and returns the name of the crate that failed, or None."""
        waiting, done, running, parent, told, ended = set(self.crates), set(), {}, os.getppid(), 0, None

        def ages():
            return {name: (self.jobs[name], time.monotonic() - since) for name, since in running.values()}

        for name in self.crates:
            self.take(name)
        with concurrent.futures.ThreadPoolExecutor(self.lanes) as pool:
            while waiting or running:
                while found := self.next_of(waiting, done, ages()):
                    name, self.jobs[found[0]], is_head = found
                    waiting.discard(name)
                    self.heads |= {name} if is_head else set()
                    running[pool.submit(self.prove, name, self.jobs[name])] = name, time.monotonic()
                if ended or time.monotonic() - told > SECONDS_OF_SILENCE:
                    told = time.monotonic()
                    self.tell(waiting, ages())
                ended = concurrent.futures.wait(running, 1, concurrent.futures.FIRST_COMPLETED).done
                for it in ended:
                    name, _ = running.pop(it)
                    if not it.result():
                        self.end()
                        return name
                    done.add(name)
                if os.getppid() != parent:
                    self.end()
                    return next(iter(waiting), self.crates[-1])
        return None

    def end(self):
        self.is_ending = True
        for it in [*self.started]:
            # (`terminate` would take the status that `rt` waits for)
            with contextlib.suppress(ProcessLookupError):
                os.kill(it.pid, signal.SIGTERM)


@contextlib.contextmanager
def room_of(tree):
    """Makes the folder that a build works in, and removes it again. It has one name for each tree, so what a build that
    was killed left goes away with the next, and rt has no more folders to remember than before."""
    # (some gigabytes, which /tmp may hold in memory, and a program that is run there)
    places = [it for it in ("/var/tmp", "/tmp") if os.path.isdir(it) and not os.statvfs(it).f_flag & os.ST_NOEXEC]
    place = os.environ.get("TMPDIR") or [*places, f"{tree}/out"][0]
    room = f"{place}/geli-build-{hashlib.sha256(os.path.realpath(tree).encode()).hexdigest()[:16]}"
    with contextlib.suppress(OSError):
        if os.lstat(room).st_uid == os.geteuid():
            shutil.rmtree(room)
    try:
        os.mkdir(room, 0o700)
    except OSError:
        room = tempfile.mkdtemp(prefix="geli-build-", dir=place)
    try:
        yield room
    finally:
        shutil.rmtree(room, ignore_errors=True)


def build_for(tree, made, level):
    """Builds the programs for a level, and returns whether it could."""
    with room_of(tree) as room:
        build, signals = Build(tree, made, level, room), (signal.SIGINT, signal.SIGTERM, signal.SIGHUP)

        def stop(number, _):
            for it in signals:
                signal.signal(it, signal.SIG_IGN)
            build.end()
            raise SystemExit(128 + number)

        for it in signals:
            signal.signal(it, stop)
        say(f"{level}: proving {len(build.crates)} crates, up to {build.lanes} at a time")
        failed = build.all()
        for name in [failed] if failed else build.crates:
            with contextlib.suppress(OSError), open(f"{room}/{name}.log", encoding="utf-8", errors="replace") as log:
                print(f"== {name}: {build.took.get(name, 0):.0f} seconds of processors", log.read(), sep="\n", end="")
        if failed:
            say(f"the crate {failed} was not proved")
    return not failed


def main(tree, made, *levels):
    return 0 if all(build_for(tree, made, level) for level in levels) else 1


if __name__ == "__main__":
    sys.exit(main(*sys.argv[1:]))
