"""Makes of a library one whose functions have no bodies, and whose lemma files are those that other crates
cite. It serves looks at what stands above, and proves nothing of the library."""
import functools, os, re, shutil, subprocess

KIT = os.path.dirname(subprocess.run(["rt", "doc"], capture_output=True, text=True, check=True).stdout.strip())
RATTLE = f"{KIT}/bin/rattle"
# Libraries that are taken whole: they owe laws that a stub cannot prove.
WHOLE = {"lq_nodes"}


def tokens(files):
    ran = subprocess.run([RATTLE, "fmt", "--tokens", *files], capture_output=True)
    if ran.returncode:
        raise SystemExit(ran.stderr.decode()[-2000:])
    rows = re.split(rb"(?m)^file \d+\n", ran.stdout)[1:]
    found = {}
    for file, part in zip(files, rows):
        found[file] = [(int(m[1]), int(m[2]), m[3].decode()) for m in re.finditer(rb"(?m)^\d+ (\d+) (\d+) (\w+)", part)]
    return found


def without_bodies(text, toks, body):
    code = [(a, b, text[a:b]) for a, b, k in toks if k == "Code"]
    cuts, i = [], 0
    while i < len(code):
        word = code[i][2]
        if word == b"macro_rules":  # a macro's own text stays
            depth, j = 0, i
            while code[j][2] != b"{":
                j += 1
            while True:
                depth += (code[j][2] == b"{") - (code[j][2] == b"}")
                if not depth:
                    break
                j += 1
            i = j
        elif word == b"#" and code[i + 1][2] == b"[" and code[i + 2][2] in (b"tactic", b"cycle"):
            depth, j = 0, i + 1
            while True:
                depth += (code[j][2] == b"[") - (code[j][2] == b"]")
                if not depth:
                    break
                j += 1
            cuts.append((code[i][0], code[j][1], b""))
            i = j
        elif word == b"fn" and i + 1 < len(code) and re.fullmatch(rb"\w+", code[i + 1][2]) and code[i - 1][2] != b"const":
            j, depth = i + 2, 0
            while code[j][2] not in (b"{", b";") or depth:
                depth += (code[j][2] in (b"(", b"[")) - (code[j][2] in (b")", b"]"))
                j += 1
            if code[j][2] == b"{":
                k, depth = j, 0
                while True:
                    depth += (code[k][2] == b"{") - (code[k][2] == b"}")
                    if not depth:
                        break
                    k += 1
                cuts.append((code[j][0], code[k][1], body))
                i = k
            else:
                i = j
        i += 1
    for a, b, new in reversed(cuts):
        text = text[:a] + new + text[b:]
    return text


def read(file):
    try:
        with open(file, encoding="utf-8") as it:
            return it.read()
    except OSError:
        return ""


def files_below(folder):
    for at, folders, names in sorted(os.walk(folder)):
        folders.sort()
        for name in sorted(names):
            yield f"{at}/{name}"


@functools.lru_cache(maxsize=None)
def cited(crates):
    """What the crates of a clone cite of each other's proofs: NAME -> the set of modules."""
    found = {}
    for top in sorted(os.listdir(crates)):
        for part in ("src", "proofs", "specs"):
            for file in files_below(f"{crates}/{top}/{part}"):
                text = read(file)
                # (code names a lemma file by a path)
                for name, module in [*re.findall(r"Rattle\.(\w+)\.proofs\.([\w-]+)", text), *re.findall(r"\b(\w+)::proofs::(\w+)", text)]:
                    if name not in (top, "crate"):
                        found.setdefault(name, set()).add(module)
    return found


def stub_of(folder):
    """Returns {path: bytes} of the stub."""
    name, crates = os.path.basename(folder), os.path.dirname(folder)
    if name in WHOLE:
        return {it[len(folder) + 1:]: open(it, "rb").read() for part in ("src", "specs", "proofs") for it in files_below(f"{folder}/{part}")}
    wanted = set(cited(crates).get(name, ()))
    files, made = [], {}
    for file in files_below(f"{folder}/src"):
        if file.endswith(".rt"):
            files.append(file)
            wanted |= set(re.findall(rf"Rattle\.{name}\.proofs\.([\w-]+)", read(file)))
    for file, toks in tokens(files).items():
        with open(file, "rb") as it:
            text = without_bodies(it.read(), toks, b"{ crate::absurd(); unreachable!() }")
        if file == f"{folder}/src/lib.rt":
            text += b'\nunsafe extern "C" {\n    safe fn absurd() -> bool\n        ensures { stub-true \xe2\x89\xa1 stub-false };\n}\n'
            head = b"ghost use Rattle.std.specs.Prelude.{true as stub-true, false as stub-false, \xe2\x97\x8c\xe2\x89\xa1\xe2\x97\x8c};\n"
            if re.search(rb"(?m)^ghost use Rattle.std.specs.Prelude.\{[^;]*\xe2\x97\x8c\xe2\x89\xa1\xe2\x97\x8c", text):
                head = b"ghost use Rattle.std.specs.Prelude.{true as stub-true, false as stub-false};\n"
            text = text.replace(b"#![tactic(auto)]\n", b"#![tactic(auto)]\n" + head, 1)
        made[file[len(folder) + 1:]] = text
    for file in files_below(f"{folder}/specs"):
        made[file[len(folder) + 1:]] = open(file, "rb").read()
    lib = read(f"{folder}/proofs/Lib.antt")
    listed = re.findall(r"(?m)^(?:pub )?mod ([\w-]+)", lib)
    todo, kept = sorted(wanted & set(listed)), set()
    while todo:
        it = todo.pop()
        if it in kept:
            continue
        kept.add(it)
        own = [f"{folder}/proofs/{it}.antt", *files_below(f"{folder}/proofs/{it}")]
        for file in own:
            if os.path.isfile(file):
                text = read(file)
                made[file[len(folder) + 1:]] = text.encode()
                todo += [m for m in re.findall(rf"Rattle\.{name}\.proofs\.([\w-]+)", text) if m in listed]
    if kept:
        rows = [row for row in lib.split("\n") if not (m := re.match(r"(?:pub )?mod ([\w-]+)", row)) or m[1] in kept]
        made["proofs/Lib.antt"] = "\n".join(rows).encode()
    return made
