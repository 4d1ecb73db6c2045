"""Libraries without bodies, kept by what they are made of, and checks over them."""
import fcntl, functools, hashlib, importlib.machinery, importlib.util, os, re, shutil, subprocess, sys, time
import proved, stubs

KEPT = os.environ.get("OVER_STATEMENTS", os.path.expanduser("~/.cache/over-statements"))
HDR = f"{KEPT}/libraries"
loader = importlib.machinery.SourceFileLoader("rt", f"{stubs.KIT}/bin/rt")
rt = importlib.util.module_from_spec(importlib.util.spec_from_loader("rt", loader))
sys.modules["rt"] = rt
loader.exec_module(rt)
rtlib = rt.rtlib
PROVED = proved.Proved(rt)
rt.Crate.beyond = lambda self, line, of_tests: None
rt.Crate.cuts_libraries = True
rtlib.Crate = rt.Crate
Below = rt.Crate.below
_below = {}


def below(self):
    key = self.folder
    if key not in _below:
        found = {}
        for dep in self.deps:
            for it in dep.below():
                found[it.folder] = it
            found[dep.folder] = dep
        _below[key] = list(found.values())
    return _below[key]


rt.Crate.below = below
rt.Crate.is_built = lambda self: True
rtlib.Crate.is_built = rt.Crate.is_built


@functools.lru_cache(maxsize=None)
def stub(folder):
    return stubs.stub_of(folder)


_keys, _proved = {}, set()


def key(crate):
    """The sum of a library and of those below it: a stub, or what rt ci proved, where no stub came first."""
    if crate.folder not in _keys:
        sum = hashlib.sha256(repr((crate.name, crate.said)).encode())
        for path, text in sorted(stub(crate.folder).items()):
            sum.update(path.encode() + b"\0" + text + b"\0")
        sum.update(repr([key(it) for it in crate.deps]).encode())
        found = sum.hexdigest()[:24]
        stub_first = os.path.isdir(f"{HDR}/{crate.name}-{found}/{crate.name}.rlib")
        if not stub_first and all(it.folder in _proved for it in crate.below()) and PROVED.entry(crate):
            found = PROVED.entry(crate)[0][:24]
            _proved.add(crate.folder)
        _keys[crate.folder] = found
    return _keys[crate.folder]


def real_key(crate):
    """The sum of what a proof of the crate rests on: its own files, and the stubs below."""
    sum = hashlib.sha256(repr((crate.name, crate.said)).encode())
    for part in ("src", "specs", "proofs"):
        for file in stubs.files_below(f"{crate.folder}/{part}"):
            sum.update(file[len(crate.folder):].encode() + b"\0" + open(file, "rb").read() + b"\0")
    sum.update(repr([key(it) for it in crate.deps]).encode())
    return sum.hexdigest()[:24]


rt.Crate.stamp = real_key
rtlib.Crate.stamp = real_key


def place(crate):
    return f"{HDR}/{crate.name}-{key(crate)}"


def is_there(crate):
    return os.path.isdir(f"{place(crate)}/{crate.name}.rlib")


class Slot:
    """One of a number of places to work at."""

    def __init__(self, names):
        self.names = names

    def __enter__(self):
        os.makedirs(f"{KEPT}/slots", exist_ok=True)
        while True:
            for name in self.names:
                it = open(f"{KEPT}/slots/{name}", "w")
                try:
                    fcntl.flock(it, fcntl.LOCK_EX | fcntl.LOCK_NB)
                    self.held = it
                    return self
                except OSError:
                    it.close()
            time.sleep(0.5)

    def __exit__(self, *_):
        self.held.close()


def words_over(crate, rlib_of):
    words = []
    for name in crate.of_kit:
        words += ["--extern", f"{name}={rt.KIT}/rlibs/{name}.rlib"]
    words += ["-L", f"dependency={rt.KIT}/rlibs"]
    for dep in crate.deps:
        words += ["--extern", f"{dep.name}={rlib_of(dep)}"]
    for dep in crate.below():
        words += ["-L", f"dependency={os.path.dirname(rlib_of(dep))}"]
    return words + ["--antt-project", f"{rt.KIT}/rattle/logic/antt-project.json", "--logic-built", f"{rt.KIT}/logic_built"]


def make_stub(crate, jobs=1, slots=None):
    """Builds one stub over those below, which are there. Returns None, or what was said against it."""
    os.makedirs(HDR, exist_ok=True)
    with open(f"{HDR}/{crate.name}-{key(crate)}.lock", "w") as lock:
        fcntl.flock(lock, fcntl.LOCK_EX)
        if is_there(crate):
            return None
        if crate.folder in _proved:
            os.makedirs(place(crate) + ".part", exist_ok=True)
            PROVED.link(crate, place(crate) + ".part")
            os.rename(place(crate) + ".part", place(crate))
            return None
        room = f"{HDR}/{crate.name}-{key(crate)}.src"
        shutil.rmtree(room, ignore_errors=True)
        for path, text in stub(crate.folder).items():
            os.makedirs(os.path.dirname(f"{room}/{path}"), exist_ok=True)
            with open(f"{room}/{path}", "wb") as it:
                it.write(text)
        os.makedirs(place(crate) + ".part", exist_ok=True)
        to = f"{place(crate)}.part/{crate.name}.rlib"
        words = [stubs.RATTLE, "build", "--crate-name", crate.name, "src/lib.rt", *words_over(crate, lambda it: f"{place(it)}/{it.name}.rlib")]
        words += ["--jobs", str(jobs), "--links", f"{crate.name}={'' if crate.name in stubs.WHOLE else 'c'}", "--statements", "-o", to]
        ran = subprocess.run(words, cwd=room, stdout=subprocess.PIPE, stderr=subprocess.STDOUT, errors="replace")
        if ran.returncode:
            with open(f"{place(crate)}.said", "w") as it:
                it.write(ran.stdout)
            errors = [row for row in ran.stdout.split("\n") if not re.match(r"fn \S+: proved|statements |logic ", row)]
            return "\n".join(errors)[-6000:]
        os.rename(f"{place(crate)}.part", place(crate))
        return None


def crates_of(clone):
    """Every crate of a clone, lowest first."""
    here = os.getcwd()
    os.chdir(clone)
    try:
        found = rtlib.crates_below(clone)
    finally:
        os.chdir(here)
    return sorted(found, key=lambda it: len(it.below()))


def link(crate):
    """Puts the stubs below a crate where rt looks for them."""
    for it in crate.below():
        to, mark = os.path.dirname(it.rlib), f"{it.folder}/out/hdr"
        if stubs.read(mark) == key(it) and os.path.isdir(it.rlib):
            continue
        os.makedirs(os.path.dirname(to), exist_ok=True)
        part = f"{to}.{os.getpid()}"
        shutil.rmtree(part, ignore_errors=True)
        os.makedirs(part)
        subprocess.run(["cp", "-al", f"{place(it)}/{it.name}.rlib", f"{part}/"], check=True)
        shutil.rmtree(to, ignore_errors=True)
        os.rename(part, to)
        with open(mark, "w") as out:
            out.write(key(it))


def build_below(crates, workers=4, jobs=1, quiet=False, slots=None):
    """Builds the stubs of these crates and of all below that lack them, side by side. Returns those that failed."""
    from concurrent.futures import ThreadPoolExecutor, FIRST_COMPLETED, wait
    wanted = {}
    for it in crates:
        for low in [*it.below(), *([it] if it.makes_rlib() else [])]:
            wanted[low.folder] = low
    left = [it for it in wanted.values() if not is_there(it)]
    names = {it.folder for it in left}
    behind = {}
    for it in reversed(sorted(left, key=lambda it: len(it.below()))):
        behind[it.folder] = behind.get(it.folder, 0) + 1
        for low in it.deps:
            behind[low.folder] = max(behind.get(low.folder, 0), behind[it.folder])
    left.sort(key=lambda it: -behind[it.folder])
    done, failed, running = set(), {}, {}
    with ThreadPoolExecutor(workers) as pool:
        while left or running:
            for it in list(left):
                if len(running) >= workers:
                    break
                low = [d.folder for d in it.below() if d.folder in names]
                if any(d in failed for d in low):
                    left.remove(it)
                    failed[it.folder] = "its library failed"
                elif all(d in done for d in low):
                    left.remove(it)
                    number = jobs if len(running) < 2 else 1
                    running[pool.submit(make_stub, it, number)] = it
            if not running:
                continue
            for ran in wait(running, return_when=FIRST_COMPLETED).done:
                it = running.pop(ran)
                why = ran.result()
                if why:
                    failed[it.folder] = why
                    print(f"== stub of {it.name} FAILED\n{why}", flush=True)
                else:
                    done.add(it.folder)
                    if not quiet:
                        print(f"stub of {it.name} ({len(done)} of {len(names)})", flush=True)
    return failed
