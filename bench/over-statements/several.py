"""Proves the crates of a clone from nothing, each in one of several copies of it, side by side."""
import os, subprocess, threading, time
import libraries

RUN = os.path.join(os.path.dirname(os.path.realpath(__file__)), "run")
STEPS = {"proof": ["prove"], "tests": ["prove", "--tests"], "edits": ["edits"]}


def has_tests(crate):
    return not subprocess.run(["grep", "-rqs", "cfg(test)", f"{crate.folder}/src"]).returncode


def has_edits(crate):
    folder = f"{crate.folder}/must-fail"
    return os.path.isdir(folder) and any(it.endswith(".edit") for it in os.listdir(folder))


def steps_of(crate):
    """What is to be tried of a crate: one of tests has nothing but its tests."""
    tested = has_tests(crate)
    if not tested or os.path.exists(f"{crate.folder}/src/main.rt"):
        yield "proof"
    if tested:
        yield "tests"
    if has_edits(crate):
        yield "edits"


def size(crate):
    return sum(os.path.getsize(it) for part in ("src", "proofs") for it in libraries.stubs.files_below(f"{crate.folder}/{part}"))


class Several:
    """What is left to try, the largest first, and what failed. What passed is kept by its content, and is not tried again."""

    def __init__(self, crates, steps):
        self.kept = f"{libraries.KEPT}/proved"
        os.makedirs(self.kept, exist_ok=True)
        self.lock, self.failed = threading.Lock(), []
        self.left = [(it, step) for it in sorted(crates, key=size, reverse=True) for step in steps_of(it)
                     if step in steps and not os.path.exists(self.mark(it, step))]

    def mark(self, crate, step):
        return f"{self.kept}/{crate.name}-{libraries.real_key(crate)}.{step}"

    def next(self):
        """The first whose libraries are all there, if there is one."""
        with self.lock:
            for at, (crate, _) in enumerate(self.left):
                if all(libraries.is_there(low) for low in crate.below()):
                    return self.left.pop(at)
        return None

    def work(self, copy):
        while self.left:
            if not (found := self.next()):
                time.sleep(5)
                continue
            crate, step = found
            said = f"{self.kept}/{crate.name}.{step}.said"
            with open(said, "w") as out:
                ran = subprocess.Popen([RUN, *STEPS[step]], cwd=f"{copy}/crates/{crate.name}", stdout=out, stderr=subprocess.STDOUT)
                _, status, used = os.wait4(ran.pid, 0)
            if status:
                self.failed.append(f"{crate.name} ({step}, {said})")
            else:
                os.rename(said, self.mark(crate, step))
            told = "FAILED" if status else "passed"
            print(f"{crate.name} {step} {told}, {used.ru_utime + used.ru_stime:.0f} processor seconds, {len(self.left)} left", flush=True)


def prove_all(clone, copies, only, skip, steps):
    """Returns what failed. The copies have the clone's files, and the libraries of all crates are there or come."""
    crates = [it for it in libraries.crates_of(clone) if (not only or it.name in only) and it.name not in skip]
    tried = Several(crates, steps)
    threads = [threading.Thread(target=tried.work, args=(it,)) for it in copies]
    for it in threads:
        it.start()
    for it in threads:
        it.join()
    return tried.failed
