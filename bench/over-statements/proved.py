"""Libraries that `rt ci` proved on this machine of the same texts. They serve as those without bodies do, and cost nothing."""
import functools, hashlib, json, os


def sum_of(value):
    return hashlib.sha256(repr(value).encode()).hexdigest()


class Proved:
    """What rt keeps beside the kit: an entry's name is the sum of all that its proof read."""

    def __init__(self, rt):
        # (as rt has them, before they are replaced here)
        self.rt, self.below = rt, rt.Crate.below

    @functools.cached_property
    def store(self):
        return self.rt.STORE

    @functools.lru_cache(maxsize=None)
    def entry(self, crate):
        """The sum of what was proved, where it stands and its files, or None; it stands on what was proved alone."""
        low = [(it.name, self.entry(it)) for it in self.below(crate)]
        if not all(entry for _, entry in low):
            return None
        root = os.path.dirname(os.path.dirname(crate.folder))
        self.rt.Crate.allowed = self.rt.handles_of(root)
        key = sum_of((self.rt.own_sum(crate), [(name, entry[0]) for name, entry in low]))
        at = f"{self.store}/proof-{crate.name}-{key}"
        try:
            with open(f"{at}/made.json", encoding="utf-8") as it:
                files = [tuple(row) for row in json.load(it)["files"]]
        except (OSError, ValueError, KeyError):
            return None
        return sum_of(files), at, files

    def link(self, crate, to):
        """Puts the library into that folder."""
        _, at, files = self.entry(crate)
        for number, (path, _) in enumerate(files):
            name = f"{to}/{os.path.relpath(path, 'rlib')}"
            os.makedirs(os.path.dirname(name), exist_ok=True)
            os.link(f"{at}/{number}", name)
