"""The two formats of the log's file, written from docs/PROTOCOL.md alone: the bytes of a log, and what a file opens to.

    groups = read(content)       lists of lines, or (place, reason) if a start has to refuse the file
    content = write(groups)      a log of format 2, as the server writes it
    content = write_first(lines) a log of format 1

A line is bytes without an end of line. It needs no program and nothing beside Python.
"""

FIRST, SECOND = b"DJQLOG1\n", b"DJQLOG2\n"
SEED, FACTOR, MODULUS = 1442695040888963407, 6364136223846793005, 1 << 64
LENGTH_FACTOR = 257
HEAD = 1 + 8 + 8  # bytes of a record of format 2 before its body: gate, length, digest


def digest_after(digest, body):
    """The digest carried on over a body, by words of eight bytes, the last one filled with zeros."""
    for at in range(0, len(body), 8):
        word = int.from_bytes(body[at:at + 8].ljust(8, b"\0"), "big")
        digest = (digest * FACTOR + word) % MODULUS
        digest = (digest << 32 | digest >> 32) % MODULUS
    return digest


def entry(line):
    return len(line).to_bytes(2, "big") + line


def body_of(lines):
    return b"".join(map(entry, lines))


def write(groups, gate=255):
    """A log of these groups that is closed whole, its gates open by this value."""
    content, digest = SECOND, SEED
    for lines in groups:
        body = body_of(lines)
        digest = digest_after(digest, body)
        content += bytes([gate]) + (len(body) * LENGTH_FACTOR).to_bytes(8, "big") + digest.to_bytes(8, "big") + body
    return content + b"\0"


def write_first(lines):
    return FIRST + b"".join(b"\x01" + entry(line) for line in lines) + b"\0"


def gates(groups):
    """The places of the gates of a log of format 2: one for each group, and that of the closed one."""
    places = [len(SECOND)]
    for lines in groups:
        places.append(places[-1] + HEAD + len(body_of(lines)))
    return places


def gates_first(lines):
    """The same of a log of format 1."""
    places = [len(FIRST)]
    for line in lines:
        places.append(places[-1] + 3 + len(line))
    return places


def is_unbegun(content):
    """No log was begun in such a file, so a start makes one there."""
    return len(content) <= 8 and (FIRST.startswith(content) or SECOND.startswith(content))


def read(content):
    """The groups of a log of either format, or the place and the reason for which it is refused. In format 1 each line is a
    group. A file in which none was begun has none."""
    if is_unbegun(content):
        return []
    header, rest = content[:8], content[8:]
    if rest and header == SECOND:
        return read_second(content)
    if rest and header == FIRST:
        return read_first(content)
    return 0, "header"


def read_second(content):
    groups, at, digest = [], len(SECOND), SEED
    while content[at:at + 1] != b"\0":
        head = content[at:at + HEAD]
        if len(head) < HEAD:
            return at, "cut"
        size, odd = divmod(int.from_bytes(head[1:9], "big"), LENGTH_FACTOR)
        if odd or not size:
            return at, "length"
        body = content[at + HEAD:at + HEAD + size]
        if len(body) < size:
            return at, "cut"
        lines = lines_of(body)
        if lines is None:
            return at, "lines"
        digest = digest_after(digest, body)
        if digest != int.from_bytes(head[9:], "big"):
            return at, "digest"
        groups.append(lines)
        at += HEAD + size
    return groups


def lines_of(body):
    """The lines that a body has, or None if it is no entries."""
    lines, at = [], 0
    while at < len(body):
        size = int.from_bytes(body[at:at + 2], "big")
        if at + 2 + size > len(body) or not size:
            return None
        lines.append(body[at + 2:at + 2 + size])
        at += 2 + size
    return lines


def read_first(content):
    groups, at = [], len(FIRST)
    while content[at:at + 1] == b"\x01":
        size = int.from_bytes(content[at + 1:at + 3], "big")
        line = content[at + 3:at + 3 + size]
        if not 1 <= size <= 4096 or len(line) < size:
            return at, "line"
        groups.append([line])
        at += 3 + size
    return groups if content[at:at + 1] else (at, "cut")


def flips(content, at):
    """The file with one bit of a byte changed, for each of its bits."""
    for bit in range(8):
        yield content[:at] + bytes([content[at] ^ 1 << bit]) + content[at + 1:]
