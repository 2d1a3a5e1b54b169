"""Reads files and directories of Files-11 images, by docs/FORMATS.md, without a look at the program's code or definitions."""
import datetime
import re

from images import BLOCK, CHARACTERS

DIR = 6778


def word(b, at):
    return b[at] | b[at + 1] << 8


def long(b, at):
    return word(b, at) << 16 | word(b, at + 2)


def word_sum(b, words):
    return sum(word(b, 2 * i) for i in range(words)) % 65536


def text(words):
    """The characters of a part of a name without the spaces at its end; None for what is no part."""
    if any(w > 63999 or 29 in (w // 1600, w // 40 % 40, w % 40) for w in words):
        return None
    found = "".join(CHARACTERS[k] for w in words for k in (w // 1600, w // 40 % 40, w % 40)).rstrip(" ")
    return None if " " in found or "." in found else found


def is_name(words):
    name, kind = text(words[:3]), text(words[3:4])
    return None not in (name, kind) and name + kind != "" and 1 <= words[4] <= 32767


def shown(words):
    """The text of a name, ? for what is none."""
    return f"{text(words[:3])}.{text(words[3:4])};{words[4]:o}" if is_name(words) else "?"


def identified(number, sequence, volume):
    return f"{number},{sequence}" + (f",{volume}" if volume else "")


MONTHS = ("JAN", "FEB", "MAR", "APR", "MAY", "JUN", "JUL", "AUG", "SEP", "OCT", "NOV", "DEC")
RECORDS = {1: "fixed", 2: "variable", 3: "sequenced"}


def dated(b):
    """The date in seven bytes, as it is shown; nothing where none is kept, and None where they are no date."""
    if b in (bytes(7), b" " * 7):
        return ""
    found = re.fullmatch(rb"([ 0-9][0-9])([A-Z]{3})([0-C])([0-9])", b)
    if not found or found[2].decode() not in MONTHS:
        return None
    year = 1900 + 10 * (found[3][0] - 48) + int(found[4])
    try:
        return datetime.date(year, 1 + MONTHS.index(found[2].decode()), int(found[1])).isoformat()
    except ValueError:
        return None


def timed(b):
    """Likewise the time in six bytes."""
    if b in (bytes(6), b" " * 6):
        return ""
    if not re.fullmatch(rb"(?:[01][0-9]|2[0-3])(?:[0-5][0-9]){2}", b):
        return None
    return ":".join(b[i : i + 2].decode() for i in (0, 2, 4))


def moment(b):
    """Likewise a date and the time behind it."""
    date, time = dated(b[:7]), timed(b[7:])
    if date is None or time is None or not date and time:
        return None
    return f"{date} {time}".strip()


def behind(what, date):
    """A date behind what it is of, in a long line."""
    return "" if date == "" else f" {what} {'?' if date is None else date}"


class Header:
    """A block as a file header."""

    def __init__(self, b):
        self.b, self.number, self.sequence = b, word(b, 2), word(b, 4)
        self.map = b[2 * b[1]:] if b[1] <= 250 else bytes(12)
        self.segment, self.volume, self.link, self.link_sequence = self.map[0], self.map[1], word(self.map, 2), word(self.map, 4)

    def is_valid(self, n):
        b, m = self.b, self.map
        ident = 0 if self.segment else 23
        return (self.number == n != 0 and self.sequence != 0 and word(b, 6) == 0o401 and word(b, 510) == word_sum(b, 255) and b[0] >= 23
                and b[0] + ident <= b[1] <= 250 and m[6:8] == b"\1\3" and m[8] % 2 == 0 and m[8] // 2 <= min(m[9], 250 - b[1]) // 2)

    def pointers(self):
        return [(self.map[i] << 16 | word(self.map, i + 2), self.map[i + 1] + 1) for i in range(10, 10 + 2 * self.map[8], 4)]

    def blocks(self):
        return [lbn + k for lbn, count in self.pointers() for k in range(count)]

    def links_to(self, other):
        return (self.link, self.link_sequence, self.segment + 1) == (other.number, other.sequence, other.segment)

    def end(self):
        block = long(self.b, 22)
        return (block - 1) * BLOCK + word(self.b, 26) if block else 0

    def uic(self):
        return f"[{self.b[9]:o},{self.b[8]:o}]"

    def marks(self):
        return " contiguous" * (self.b[12] >> 7 & 1) + " marked" * (self.b[13] >> 7 & 1) + " open" * (self.b[12] >> 6 & 1)

    def rights(self):
        """What each class is granted."""
        denied = word(self.b, 10)
        return f"[{','.join(''.join(letter for k, letter in enumerate('RWED') if not denied >> 4 * c + k & 1) for c in range(4))}]"

    def dates(self):
        b = self.b[2 * self.b[0]:][:46]
        times = f" times {word(b, 10)}" if word(b, 10) else ""
        return behind("created", moment(b[25:38])) + behind("revised", moment(b[12:25])) + times + behind("expires", dated(b[38:45]))

    def record_form(self):
        """How its records are kept."""
        if not self.b[14]:
            return ""
        marks = (name for k, name in enumerate((" fortran", " carriage", " print", " unspanned")) if self.b[15] >> k & 1)
        return f" {RECORDS.get(self.b[14], 'records')} {word(self.b, 16)}{''.join(marks)}"

    def is_directory(self):
        return word(self.b, 2 * self.b[0] + 6) == DIR and self.b[14] == 1 and word(self.b, 16) == 16


def called(name):
    """What the directory with a name is called, and the folder that its files are taken to."""
    user = re.fullmatch(r"([0-3][0-7]{2})([0-3][0-7]{2})\.DIR;1", name)
    if user:
        return f"[{int(user[1], 8):o},{int(user[2], 8):o}]", f"[{user[1]},{user[2]}]"
    text = f"[{name.removesuffix('.DIR;1')}]"
    return text, text


def word_name(header):
    """The name that a header's ident area has, if it is one."""
    words = [word(header.b, 2 * header.b[0] + 2 * k) for k in range(5)]
    return shown(words) if is_name(words) else None


class Wrong(Exception):
    """A fault of the frame."""


class Refused(Exception):
    """Why a directory isn't listed."""


class Files:
    """The files of an image whose home block and index file can be read."""

    def __init__(self, image):
        self.image, self.blocks = image, len(image) // BLOCK
        self.read_home()
        self.read_index()

    def block(self, lbn):
        return self.image[BLOCK * lbn:BLOCK * lbn + BLOCK] if lbn < self.blocks else bytes(BLOCK)

    def read_home(self):
        self.candidates = [lbn for lbn in (1, *range(256, self.blocks, 256)) if lbn < self.blocks]
        for lbn in self.candidates:
            b = self.block(lbn)
            self.home, self.bitmap_size, self.bitmap_lbn = lbn, word(b, 0), long(b, 2)
            if (1 <= self.bitmap_size <= 16 and 0 < self.bitmap_lbn <= self.blocks - self.bitmap_size - 16 and word(b, 8) == 1
                    and word(b, 12) in (0o401, 0o402) and word(b, 58) == word_sum(b, 29) and b[496:508] == b"DECFILE11A  "
                    and word(b, 510) == word_sum(b, 255)):
                return
        raise Wrong("F1 no home block")

    def bit(self, n):
        return self.block(self.bitmap_lbn + (n - 1) // 4096)[(n - 1) % 4096 // 8] >> (n - 1) % 8 & 1

    def read_index(self):
        misplaced = Wrong("F2 index file misplaced")
        before = 2 + self.bitmap_size
        header = Header(self.block(self.bitmap_lbn + self.bitmap_size))
        if not (self.bit(1) and header.is_valid(1) and header.segment == 0 and header.sequence == 1):
            raise misplaced
        index = header.blocks()
        while header.link:
            place = before + header.link - 1
            if place >= len(index) or header.link > 4096 * self.bitmap_size or not self.bit(header.link):
                raise misplaced
            following = Header(self.block(index[place]))
            if not (following.is_valid(header.link) and header.links_to(following)):
                raise misplaced
            header = following
            index += header.blocks()
        fixed = [0, self.home, *range(self.bitmap_lbn, self.bitmap_lbn + self.bitmap_size + 16)]
        if any(lbn >= self.blocks for lbn in index) or index[:len(fixed)] != fixed:
            raise misplaced
        self.slots = min(len(index) - before, 4096 * self.bitmap_size, 65535)
        self.every = {n: Header(self.block(index[before + n - 1])) for n in range(1, self.slots + 1)}
        self.valid = {n: h for n, h in self.every.items() if h.is_valid(n)}
        self.used = {n: h for n, h in self.every.items() if self.bit(n)}
        self.live = {n: h for n, h in self.used.items() if h.is_valid(n)}
        self.files = {n: h for n, h in self.live.items() if h.segment == 0}

    def next(self, header, of=None):
        found = (self.live if of is None else of).get(header.link)
        return found if found and header.links_to(found) else None

    def chain(self, n, of=None):
        """The headers of a file, by those of slots in use, or by these."""
        headers, header = [], (self.live if of is None else of)[n]
        while header:
            headers.append(header)
            header = self.next(header, of)
        return headers

    def places(self, n, of=None):
        return [lbn for h in self.chain(n, of) for lbn in h.blocks()]

    def records(self, n, of=None):
        """The records of a directory, by the headers of slots in use, or by these, each its eight words."""
        places = self.places(n, of)
        for i in range(min((self.live if of is None else of)[n].end(), BLOCK * len(places)) // 16):
            r = self.block(places[i // 32])[16 * (i % 32):][:16]
            yield i, *(word(r, 2 * k) for k in range(3)), [word(r, 6 + 2 * k) for k in range(5)]

    def has(self, number, sequence, volume):
        return number in self.files and self.files[number].sequence == sequence and volume == 0

    def is_there(self, number, sequence, volume):
        """A header whose slot may be out of use is a file's first, and has this identification."""
        header = self.valid.get(number)
        return header is not None and header.segment == 0 and header.sequence == sequence and volume == 0

    def by(self, *found):
        """The headers by which the file with an identification is read: those of slots in use where it is one of these, else all valid ones;
        None where there is no such file."""
        return self.live if self.has(*found) else self.valid if self.is_there(*found) else None

    def stated(self):
        """How many blocks the volume has, by its control block; None where that doesn't say so."""
        of = self.by(2, 2, 0)
        places = self.places(2, of) if of else []
        control = self.block(places[0]) if places else bytes(BLOCK)
        size = long(control, 4 + 4 * control[3]) if 1 <= control[3] <= 126 else 0
        return size if 0 < size <= 4096 * control[3] else None

    def wanted(self):
        """How many blocks the volume should have where the image has fewer; or None."""
        size = self.stated()
        return size if size is not None and size > self.blocks else None

    def volume_end(self):
        """Where the volume ends: not before its image, and where its size isn't stated behind the most blocks that it may have."""
        size = self.stated()
        return max(126 * 4096 if size is None else size, self.blocks)

    def directory(self, *found):
        """The headers by which a directory is read."""
        of = self.by(*found)
        if of is None:
            raise Refused("NoSuchFile")
        if not of[found[0]].is_directory():
            raise Refused("NotDirectory")
        return of

    def listed(self, *directory, is_long=False):
        """The lines of a directory, short or long."""
        for _, *found, name in self.records(directory[0], self.directory(*directory)):
            what = f"{shown(name)} {identified(*found)}"
            if found[0] and self.is_there(*found):
                of = self.by(*found)
                h, blocks = of[found[0]], len(self.places(found[0], of))
                more = f"{h.rights()}{h.dates()}{h.record_form()}" if is_long else f"{word(h.b, 10):o}"
                facts = f"blocks {blocks} bytes {min(h.end(), BLOCK * blocks)} owner {h.uic()} prot {more}"
                yield f"file {what} {facts}{h.marks()}" + ("" if self.has(*found) else " out of use")
            elif found[0]:
                yield f"entry {what} no file"

    def directories(self):
        """What each directory is called that the master file directory names, the folder that its files are taken to, and its identification."""
        for _, *found, name in self.records(4, self.directory(4, 4, 0)):
            if found[0] and is_name(name) and self.is_there(*found) and self.by(*found)[found[0]].is_directory():
                yield *called(shown(name)), found

    def all_directories(self, led):
        """The same of all directories that `get --all` goes over: behind those the others that have a name, by their numbers, and then those
        out of use to which others lead."""
        try:
            named = [*self.directories()]
        except Refused:
            named = []
        yield from named
        known = {found[0] for _, _, found in named}
        for of, numbers in (self.files, self.files.keys() - known), (self.valid, led & self.valid.keys() - known):
            for n in sorted(numbers):
                name, found = word_name(of[n]), (n, of[n].sequence, 0)
                if of[n].segment == 0 and of[n].is_directory() and name and (of is self.files or not self.has(*found)):
                    yield *called(name), found

    def led(self):
        """The numbers of the directories out of use to which others lead, and that of the master file directory."""
        led = {4}
        while True:
            named = [found for _, _, directory in self.all_directories(led) for _, *found, _ in self.records(directory[0], self.by(*directory))]
            more = {n for n, *rest in named if self.is_there(n, *rest) and not self.has(n, *rest) and self.valid[n].is_directory()} - led
            if not more:
                return led
            led |= more

    def all_listed(self, is_long=False):
        """The lines of all directories."""
        for text, _, found in self.directories():
            yield text
            yield from self.listed(*found, is_long=is_long)

    def found(self, directory, name):
        """What the first record of a directory with a name has: number, sequence number and volume."""
        for _, *found, words in self.records(directory[0], self.directory(*directory)):
            if found[0] and shown(words) == name:
                return found
        raise Refused("NoSuchEntry")

    def user(self, name, is_long=False):
        """The lines of the user's directory with a name."""
        return self.listed(*self.found((4, 4, 0), name), is_long=is_long)

    def sought(self, directory, name):
        """The number of the file that a directory has under a name, and the headers by which it is read."""
        found = self.found(self.found((4, 4, 0), directory), name)
        if not self.is_there(*found):
            raise Refused("NoSuchFile")
        return found[0], self.by(*found)

    def up_to(self, end, places):
        """The bytes of blocks up to an end, or before the first block that lies past the volume's end, or that isn't named; whether a block
        isn't there; and what is said of it: the first for which zeros came, and the first that didn't."""
        wanted = range((end + BLOCK - 1) // BLOCK)
        broke = next((i for i in wanted if i == len(places) or places[i] >= self.volume_end()), None)
        given = places[:len(wanted) if broke is None else broke]
        zeros = next((i for i, lbn in enumerate(given) if lbn >= self.blocks), None)
        said = "".join(f" {what} VBN {i + 1}" for what, i in (("zeros from", zeros), ("broke off at", broke)) if i is not None)
        return b"".join(map(self.block, given))[:end], said != "", said

    def last_end(self, n, of):
        """The end in bytes behind the last block of a file, or past it where its headers break off there."""
        return BLOCK * len(self.places(n, of)) + (self.chain(n, of)[-1].link != 0)

    def taken(self, n, of, all_blocks=False):
        """A file's bytes up to its end, or all, by these headers, and what the line says that tells of them."""
        content, _, said = self.up_to(max(self.last_end(n, of) * all_blocks, of[n].end()), self.places(n, of))
        return content, f"copied {len(content)} bytes{said}"

    def is_left_open(self, n, of):
        """A file by these headers wasn't closed, and states the end 0."""
        return of[n].end() == 0 and of[n].b[12] >> 6 & 1 == 1

    def whole(self, n, of):
        """As taken, of a file by these headers: all its blocks where it wasn't closed and states the end 0."""
        header, places = of[n], self.places(n, of)
        all_blocks = self.is_left_open(n, of)
        content, missing, said = self.up_to(self.last_end(n, of) if all_blocks else header.end(), places)
        open_text = " open, all blocks" * bool(all_blocks and places)
        return content, f"copied {len(content)} bytes{open_text}{' out of use' * (of is self.valid)}{said}", missing

    def everything(self):
        """What `get --all` goes over: where each stands, as its line says, the folder and the name of the host, and its identification."""
        known = set()
        for text, folder, directory in self.all_directories(self.led()):
            for _, *found, words in self.records(directory[0], self.by(*directory)):
                if found[0]:
                    if self.has(*found):
                        known.add(found[0])
                    yield f"{text} {shown(words)}", folder if is_name(words) else None, shown(words), found
        for n in sorted(self.files.keys() - known):
            name = word_name(self.files[n])
            yield f"lost {n},{self.files[n].sequence}" + f" {name}" * bool(name), None, name, (n, self.files[n].sequence, 0)

    def why_missing(self, number, sequence, volume):
        header = self.every.get(number)
        if volume == 0 and header and header.number and not header.is_valid(number):
            return f"header {number} bad"
        return f"no file {identified(number, sequence, volume)}"

    def names(self, directory=None):
        """Names of the records of a directory, or of all."""
        directories = [d for d, h in self.files.items() if h.is_directory() and directory in (None, d)]
        return [shown(words) for d in directories for _, *found, words in self.records(d) if found[0] and is_name(words)]


def listing(image, user=None, is_long=False):
    """The lines of `ls`, and of `ls -l`."""
    try:
        files = Files(image)
        return [*(files.all_listed(is_long) if user is None else files.user(user, is_long))]
    except Wrong as wrong:
        return [f"fault {wrong}"]
    except Refused as refused:
        return [f"no {refused}"]


def everything(image):
    """The lines of `get --all`, and the files that it makes, each by its path."""
    try:
        files = Files(image)
    except Wrong as wrong:
        return [f"fault {wrong}"], None
    lines, made, copied, cut, left_out, lost = [], {}, 0, 0, 0, 0
    for what, folder, name, found in files.everything():
        if not files.is_there(*found):
            lines.append(f"{what} not copied {files.why_missing(*found)}")
            left_out += 1
            continue
        id = identified(*found)
        # a file that no directory names, or whose name is none
        path = f"{folder}/{name}" if folder else f"lost/{id}" + (f" {name}" if name and what.startswith("lost ") else "")
        beside = ""
        if path in made and folder:
            path, beside = f"{path} ({id})", f" ({id})"
        if path in made:
            lines.append(f"{what} not copied again")
            continue
        content, said, missing = files.whole(found[0], files.by(*found))
        lines.append(f"{what}{beside} {said}")
        made[path] = content
        copied += 1
        cut += missing
        lost += what.startswith("lost ")
    lines.append(f"all {copied} copied, {cut} cut, {left_out} not copied, {lost} in lost")
    return lines, made
