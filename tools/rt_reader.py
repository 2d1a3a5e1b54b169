"""Reads entries and files of RT-11 images, faulty or not, by docs/FORMATS.md, without a look at the program's code or definitions."""
from collections import namedtuple

from images import BLOCK
from reader import text, word

Entry = namedtuple("Entry", "segment number kind name first length protected")
KINDS = {0o400: "tentative", 0o1000: "empty", 0o2000: "file"}


def name_of(words):
    """The text of a name, None for what is none."""
    name, kind = text(words[:2]), text(words[2:])
    return None if name in (None, "") or kind is None else f"{name}.{kind}"


class RtVolume:
    """An image as an RT-11 volume."""

    def __init__(self, image):
        self.image, self.blocks = image, len(image) // BLOCK

    def block(self, lbn):
        return self.image[BLOCK * lbn:BLOCK * (lbn + 1)] if lbn < self.blocks else bytes(BLOCK)

    def segment(self, k):
        b = self.block(4 + 2 * k) + self.block(5 + 2 * k)
        return [word(b, 2 * i) for i in range(512)]

    def is_sized(self):
        count = self.segment(1)[0] if self.blocks >= 8 else 0
        return 1 <= count <= 31 and 6 + 2 * count <= self.blocks

    def segments(self):
        """The segments that links lead to, as far as their extra bytes are right."""
        first, k, seen = self.segment(1), 1, set()
        while k and k <= first[0] and k not in seen:
            s = self.segment(k)
            if s[3] % 2 or s[3] > 128 or s[3] != first[3]:
                return
            yield k, s
            seen.add(k)
            k = s[1]

    def entries(self):
        for k, s in self.segments():
            size, at = 7 + s[3] // 2, s[4]
            for i in range(507 // size):
                e = s[5 + size * i:][:size]
                if e[0] & 0o4000:
                    break
                yield Entry(k, i + 1, KINDS.get(e[0] & 0o3400), name_of(e[1:4]), at, e[4], bool(e[0] & 0o100000))
                at += e[4]

    def bad(self):
        """The bad blocks of the table in block 1."""
        for at in range(0, 128, 4):
            if not word(self.block(1), at):
                return
            yield word(self.block(1), at)

    def marks(self, e):
        """What is told of an entry's blocks: that some lie past the image's end, and that some are bad."""
        past = max(self.blocks - e.first, 0) + 1
        broken = f" broke off at block {past}" if past <= e.length else ""
        return broken, "".join(f" block {n} replaced" for n in self.bad() if e.first <= n < e.first + e.length)

    def wanted(self):
        """Where the last area ends that a directory may give away."""
        return max((e.first + e.length for e in self.entries() if e.first + e.length <= 65535), default=0)

    def names(self):
        """The names of entries."""
        return [e.name for e in self.entries() if e.name]

    def taken(self, name):
        """The line of `rt-get`, and the file's bytes; None for them where there is none of that name."""
        for e in self.entries():
            if e.kind == "file" and e.name == name and e.first + e.length <= 65535:
                broken, replaced = self.marks(e)
                return f"copied {e.length}{broken}{replaced}", b"".join(map(self.block, range(e.first, e.first + e.length)))
        return "no NoSuchFile", None

    def listing(self):
        """The lines of `rt-ls`."""
        for e in self.entries():
            if e.kind == "empty":
                continue
            kind = {"file": "", "tentative": " tentative", None: " status wrong"}[e.kind]
            broken, replaced = self.marks(e)
            area = broken if e.first + e.length <= 65535 else " past block 65534"
            yield f"{e.name or '?'} first {e.first} blocks {e.length}{kind}{' protected' * e.protected}{area}{replaced}"

    def everything(self):
        """The lines of `rt-get --all`, the files that it makes, each by its path, and whether all were made, and whole."""
        lines, made, cut, left = [], {}, 0, 0
        for e in self.entries():
            lost = f"lost/{e.segment},{e.number}" + (f" {e.name}" if e.name else "")
            if e.kind == "file" and e.first + e.length <= 65535:
                path = lost if e.name is None or e.name in made else e.name
                broken, replaced = self.marks(e)
                made[path] = b"".join(map(self.block, range(e.first, e.first + e.length)))
                lines.append(f"{path} copied {e.length}{broken}{replaced}")
                cut += broken != ""
            elif e.kind in (None, "file"):
                lines.append(f"{lost} not copied {'past block 65534' if e.kind else 'status wrong'}")
                left += 1
        found = sum(path.startswith("lost/") for path in made)
        lines.append(f"all {len(made)} copied, {cut} cut, {left} not copied, {found} in lost")
        return lines, made, not cut and not left
