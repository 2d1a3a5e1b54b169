"""Blocks of Files-11 images, by docs/FORMATS.md, for cases and measurements."""

BLOCK = 512
CHARACTERS = " ABCDEFGHIJKLMNOPQRSTUVWXYZ$.?0123456789"


def put(b, at, *words):
    for i, value in enumerate(words):
        b[at + 2 * i : at + 2 * i + 2] = (value & 65535).to_bytes(2, "little")


def checked(b, at, count):
    """Puts the sum of the first words, so many."""
    put(b, at, sum(b[i] + 256 * b[i + 1] for i in range(0, 2 * count, 2)))


def sealed(b):
    """Puts the sum of a header's or a home block's first 255 words behind them."""
    checked(b, 510, 255)
    return b


def words_of(text):
    """The five words of a name, as A.TXT;1."""
    name, kind, version = *text.split(";")[0].split("."), int(text.split(";")[1], 8)
    codes = [CHARACTERS.index(c) for c in name.ljust(9) + kind.ljust(3)]
    return *(1600 * codes[i] + 40 * codes[i + 1] + codes[i + 2] for i in range(0, 12, 3)), version


def record(number, sequence, words, volume=0):
    """A record of a directory."""
    return b"".join(w.to_bytes(2, "little") for w in (number, sequence, volume, *words))


def header(number, sequence, pointers=(), *, owner=(1, 1), protection=0, directory=None, name=(0,) * 5, segment=0, volume=0, link=(0, 0), places=204):
    """A file header with pointers (LBN, count); `directory` are the bytes of a directory's records, whose blocks are those of the pointers."""
    b = bytearray(BLOCK)
    put(b, 0, 23 + 256 * 46, number, sequence, 0o401, owner[1] + 256 * owner[0], protection)
    if directory is not None:
        put(b, 14, 1, 16, 0, sum(count for _, count in pointers), 0, directory // BLOCK + 1, directory % BLOCK)
    put(b, 46, *name)
    put(b, 92, segment + 256 * volume, *link, 1 + 3 * 256, 2 * len(pointers) + 256 * places)
    for i, (lbn, count) in enumerate(pointers):
        put(b, 102 + 4 * i, (lbn >> 16) + 256 * (count - 1), lbn)
    return sealed(b)
