#!/usr/bin/env python3
"""An independent model of the cache: prints what each line of a script has to be answered.

    scripts/model.py [--stage plain|syncs|openings] replay < SCRIPT

It was written from the cache's specification and from worked answers, never from the program, so that two readings can
be compared: scripts/fuzz does that. The stages are

    plain       no line syncs, and no sync is due
    syncs       a flush syncs where a sync is due, and the line `sync`
    openings    the lines `open` and `reopen` too

Devices are in memory, whatever their name; one whose name is a path has no switch. What comes near 2^62 is left out, and
so are want of memory, faults of standard input and output, and all words but `replay`. The mark of a clean copy is read; no
line writes one.
"""
import hashlib
import re
import struct
import sys
from collections import namedtuple

BLOCK = 512
HEAD = 128  # bytes of a document before its payload
NUMBERS = 1 << 62  # serials, puts and places stay below

Geometry = namedtuple("Geometry", "segments buckets content agg reach fragment generation alternates")
Alternate = namedtuple("Alternate", "put pin length request response rows")


class Stop(Exception):
    """The run ends here, with a status and a last line."""

    def __init__(self, status, text):
        super().__init__(text)
        self.status, self.text = status, text


class BadLine(Exception):
    def __init__(self, column, kind):
        super().__init__(kind)
        self.column, self.kind = column, kind


class DeviceFault(Exception):
    """A call that the device refused, with its count of refused calls."""

    def __init__(self, count):
        super().__init__(count)
        self.count = count


class Refused(Exception):
    """What stands behind the word `refused`."""


class Harmed(Exception):
    """A piece whose bytes are not its own, with the cause."""


def sha(data):
    return hashlib.sha256(data).digest()


def blocks_of(length):
    """How many blocks a document of so many payload bytes takes."""
    return -(-(HEAD + length) // BLOCK)


# ---- The grammar

FIELD_NAME = re.compile(rb"[A-Za-z0-9!#$%&'*+.^_`|~-]{1,256}")
VALUE = re.compile(rb"[\t\x20-\x7e\x80-\xff]*")
NUMBER = re.compile(rb"0|[1-9][0-9]*")
REPEATED = re.compile(rb"([1-9][0-9]*)\*([0-9A-Fa-f]{2})")

LINES = {
    b"put": ["object", "body", "fields"],
    b"get": ["object", "requests"],
    b"open-write": ["actor", "object", "u64", "fields"],
    b"data": ["actor", "body"],
    b"close": ["actor"],
    b"abort": ["actor"],
    b"open-read": ["actor", "object", "requests"],
    b"next": ["actor"],
    b"done": ["actor"],
    b"remove": ["object"],
    b"flush": [],
    b"now": ["u64"],
    b"fail": ["positive"],
    b"stop-after": ["u64"],
    b"flip": ["u64", "byte"],
    b"cut": ["choice"],
    b"format": [],
}
LATER = {
    "plain": {},
    "syncs": {b"sync": []},
    "openings": {b"sync": [], b"open": ["name"], b"reopen": []},
}
LIMITS = {"u32": 1 << 32, "u64": 1 << 64, "positive": 1 << 64, "byte": 512}


def read_number(word, kind):
    if not NUMBER.fullmatch(word) or int(word) >= LIMITS[kind] or (kind == "positive" and word == b"0"):
        raise ValueError("number")
    return int(word)


def read_object(word):
    """The key that an object's word names."""
    if re.fullmatch(rb"key:[0-9a-f]{32}", word):
        return bytes.fromhex(word[4:].decode())
    if len(word) > 4096:
        raise ValueError("word")
    return sha(word)[:16]


def read_body(word):
    if word == b"-":
        return b""
    repeated = REPEATED.fullmatch(word)
    if repeated and int(repeated[1]) <= 67108864:
        return bytes.fromhex(repeated[2].decode()) * int(repeated[1])
    if re.fullmatch(rb"([0-9A-Fa-f]{2})+", word):
        return bytes.fromhex(word.decode())
    raise ValueError("body")


def read_field(word, sides):
    """The side of a field, its name in lower case and its value."""
    name, colon, value = word[1:].partition(b":")
    if word[:1] not in sides or not colon or not FIELD_NAME.fullmatch(name):
        raise ValueError("field")
    if re.search(rb"%(?![0-9A-Fa-f]{2})", value):
        raise ValueError("field")
    value = re.sub(rb"%(..)", lambda two: bytes.fromhex(two[1].decode()), value)
    if not VALUE.fullmatch(value) or len(value) > 8192:
        raise ValueError("field")
    return word[:1], (name.lower(), value)


def read_word(word, kind):
    if kind in LIMITS:
        return read_number(word, kind)
    if kind == "object":
        return read_object(word)
    if kind == "body":
        return read_body(word)
    forms = {"actor": rb"[A-Za-z0-9-]{1,32}", "choice": rb"lost|kept|torn|junk", "name": rb".+"}
    if not re.fullmatch(forms[kind], word):
        raise ValueError("word")
    return word


def kinds_of(words, stage):
    """What stands behind the first word: the kinds of the words that have to be there, and those of more."""
    verb = words[0]
    if verb == b"format" and words[2:3] == [b"default"]:
        return ["name", "name", "u64"], ["u32"]
    if verb == b"format":
        return ["name", "u32", "u32", "u64", "u32", "u64", "u32", "u64"], ["u32"]
    kinds = LINES.get(verb, LATER[stage].get(verb))
    if kinds is None:
        raise ValueError("verb")
    if kinds and kinds[-1] in ("fields", "requests"):
        return kinds[:-1], kinds[-1]
    return kinds, []


def read_more(word, index, more, fields):
    """Reads a word behind those that have to be there: a field, or a number of a format."""
    if more in ("fields", "requests"):
        side, field = read_field(word, (b">",) if more == "requests" else (b">", b"<"))
        if len(fields[side]) == 128:
            raise ValueError("field")
        fields[side].append(field)
        return None
    if index >= len(more):
        raise ValueError("count")
    return read_word(word, more[index])


def read_line(line, stage):
    """The verb of a line, its values, and its request and response fields."""
    words, column = line.split(b" "), 1
    kinds, more, values, fields = [], [], [], {b">": [], b"<": []}
    for index, word in enumerate(words):
        try:
            if not re.fullmatch(rb"[\x21-\x7e]+", word):
                raise ValueError("word")
            if index == 0:
                kinds, more = kinds_of(words, stage)
            elif index <= len(kinds):
                values.append(read_word(word, kinds[index - 1]))
            else:
                value = read_more(word, index - 1 - len(kinds), more, fields)
                values += [] if value is None else [value]
        except ValueError as kind:
            raise BadLine(column, str(kind)) from None
        column += len(word) + 1
    if len(words) <= len(kinds):
        raise BadLine(len(line) + 1, "count")
    sorts = [sorted(fields[side], key=lambda field: field[0]) for side in (b">", b"<")]
    return words[0], values, sorts[0], sorts[1]


# ---- Geometry and places


def geometry_of(values):
    """The geometry of a format's numbers, or the number of the first that is refused."""
    if values[0] == b"default":
        values = [4, 8192, 2097152, 8192, 65536, 1048576] + values[1:]
    numbers = values if len(values) == 8 else values + [5]
    g = Geometry(*numbers)
    refused = [
        not 1 <= g.segments <= 4096,
        not 1 <= g.buckets <= 16383,
        not 8 <= g.agg <= 8192 or g.agg % 2 == 1,
        g.content < 4 * g.agg or g.content >= 1 << 40,
        g.reach < g.agg or g.reach >= 1 << 40,
        g.fragment == 0 or blocks_of(g.fragment) > g.agg // 2,
        not 1 <= g.alternates <= 16,
    ]
    if True in refused:
        raise Refused(f"geometry {refused.index(True) + 1}")
    return g


def lap_end(g, place):
    return g.content * (place // g.content + 1)


def reach_of(g, cursor):
    return min(cursor + g.reach, lap_end(g, cursor))


def directory_blocks(g):
    return -(-g.segments * (4 + 40 * g.buckets) // BLOCK)


def content_block(g, place):
    return 7 + 2 * directory_blocks(g) + place % g.content


def home_of(g, key):
    """The segment, the bucket and the tag of a key."""
    words = struct.unpack("<4I", key)
    return words[0] % g.segments, words[1] % g.buckets, words[2] % 4096


# ---- Alternates


def vary_names(response):
    lines = [value for name, value in response if name == b"vary"]
    elements = [element.strip(b" \t").lower() for line in lines for element in line.split(b",")]
    return [element for element in elements if element]


def value_of(request, name):
    lines = [value.strip(b" \t") for other, value in request if other == name]
    return b", ".join(lines) if lines else None


def matches(request, stored, response):
    """Whether a request may be given what was stored for another one (RFC 9111, section 4.1)."""
    return all(
        name != b"*" and FIELD_NAME.fullmatch(name) and value_of(request, name) == value_of(stored, name)
        for name in vary_names(response)
    )


def spelled_fields(fields):
    lines = [struct.pack("<HI", len(name), len(value)) + name + value for name, value in fields]
    return struct.pack("<H", len(fields)) + b"".join(lines)


def spelled_vector(alternates):
    data = struct.pack("<I", len(alternates))
    for it in alternates:
        data += struct.pack("<QQQ", it.put, it.pin, it.length) + spelled_fields(it.request) + spelled_fields(it.response)
        data += struct.pack("<I", len(it.rows)) + b"".join(struct.pack("<I", length) + digest for length, digest in it.rows)
    return data


def merged(g, alternates, new):
    """The list with a new alternate: less those that its request matches, and not too long."""
    kept = [it for it in alternates if not matches(new.request, it.request, it.response)] + [new]
    kept = kept[-g.alternates :]
    while blocks_of(len(spelled_vector(kept))) > g.agg // 2:
        kept = kept[1:]
    return kept


# ---- The device


class Device:
    """A device in memory, with the switch that lets calls fail and cuts the power."""

    def __init__(self, name, blocks):
        self.has_switch = name.startswith(b"mem:")
        self.blocks = blocks
        self.seen, self.synced, self.pending = {}, {}, []
        self.fails, self.stop, self.count = [], None, 0

    def call(self):
        """One read, write or sync: it fails where the switch says so."""
        self.fails = [left - 1 for left in self.fails]
        failed = 0 in self.fails or self.stop == 0
        self.fails = [left for left in self.fails if left]
        if self.stop:
            self.stop -= 1
        if failed:
            self.count += 1
            raise DeviceFault(self.count)

    def block(self, number):
        return self.seen.get(number, bytes(BLOCK))

    def read(self, block, blocks):
        self.call()
        return b"".join(self.block(block + i) for i in range(blocks))

    def write(self, block, data):
        self.call()
        parts = [data[at : at + BLOCK] for at in range(0, len(data), BLOCK)]
        self.seen.update((block + i, part) for i, part in enumerate(parts))
        self.pending.append((block, parts))

    def sync(self):
        self.call()
        self.synced, self.pending = dict(self.seen), []

    def flip(self, block, byte):
        """Turns a bit of what is seen, and of whatever a cut may leave."""
        self.seen[block] = turned(self.block(block), byte)
        self.pending.append((block, byte))

    def cut(self, choice):
        self.seen = self.synced
        for block, change in self.pending:
            if isinstance(change, int):
                self.seen[block] = turned(self.block(block), change)
            elif choice != b"lost":
                junk = bytes([0xA5]) * BLOCK
                kept = {b"kept": len(change), b"torn": 1, b"junk": 0}[choice]
                parts = change[:kept] + [junk] * (len(change) - kept)
                self.seen.update((block + i, part) for i, part in enumerate(parts))
        self.synced, self.pending, self.stop = dict(self.seen), [], None

    def stop_after(self, calls):
        self.stop = calls if self.stop is None else min(self.stop, calls)


def turned(data, byte):
    return data[:byte] + bytes([data[byte] ^ 1]) + data[byte + 1 :]


# ---- Pieces and documents


class Piece:
    """A fragment (index from 1) or a vector (index 0) of a put, where it stands and what became of it."""

    def __init__(self, first, put, index, pin, start):
        self.first, self.put, self.index, self.pin, self.start = first, put, index, pin, start
        self.place = self.blocks = self.digest = self.length = self.payload = None
        self.alternates = None  # of a vector
        self.fate = None  # the cause, where it was displaced or damaged; "gone" where it was replaced or removed

    def key(self):
        """The key under which the directory has it."""
        if self.index == 0:
            return self.first
        return sha(self.first + struct.pack("<QI", self.put, self.index))[:16]


def head_of(piece, place, generation, length, digest):
    """The header of a document, of 128 bytes."""
    head = b"TSCDOCM1" + struct.pack("<II", 1, length) + piece.first
    head += struct.pack("<QII", piece.put, piece.index, blocks_of(length))
    head += struct.pack("<QQQQ", place, generation, piece.pin, piece.start) + digest
    return head + sha(head)[:16]


def padded(data):
    return data + bytes(-len(data) % BLOCK)


def document_digest(data):
    """The digest of a document as its own length says, or of all bytes where these are fewer."""
    return sha(data[: HEAD + struct.unpack_from("<I", data, 12)[0]])


# ---- The directory


class Segment:
    """Four slots a bucket: a root for each bucket, and the others for whichever bucket needs one."""

    def __init__(self, buckets):
        self.buckets = buckets
        self.chains = {}  # bucket -> its [slot, piece] along the chain
        self.free = [slot for slot in reversed(range(4 * buckets)) if slot % 4]  # its head stands last

    def live(self):
        return sum(len(chain) for chain in self.chains.values())

    def is_full(self, bucket):
        return bool(self.chains.get(bucket)) and not self.free

    def insert(self, bucket, piece):
        chain = self.chains.setdefault(bucket, [])
        if chain:
            chain.insert(1, [self.free.pop(), piece])
        else:
            chain.append([4 * bucket, piece])

    def delete(self, bucket, at):
        """Takes out what stands there in the chain. Where a root goes, the next one takes its slot."""
        chain = self.chains[bucket]
        if at == 0 and len(chain) > 1:
            chain[0][1] = chain[1][1]
            at = 1
        slot = chain.pop(at)[0]
        if slot % 4:
            self.free.append(slot)

    def remove(self, bucket, piece):
        for at, (_, other) in enumerate(self.chains.get(bucket, [])):
            if other is piece:
                self.delete(bucket, at)
                return

    def clean(self, keeps):
        """Takes out all that does not keep, bucket by bucket, along each chain."""
        for bucket in sorted(self.chains):
            at = 0
            while at < len(self.chains[bucket]):
                if keeps(self.chains[bucket][at][1]):
                    at += 1
                else:
                    self.delete(bucket, at)

    def purge(self):
        """Takes out the first, the eleventh and so on of the entries outside the roots, in the order of their slots."""
        used = sorted((slot, bucket) for bucket, chain in self.chains.items() for slot, _ in chain if slot % 4)
        out = []
        for slot, bucket in used[::10]:
            at = [other for other, _ in self.chains[bucket]].index(slot)
            out.append(self.chains[bucket][at][1])
            self.delete(bucket, at)
        return out


class Directory:
    def __init__(self, g):
        self.g = g
        self.segments = {}

    def segment(self, number):
        if number not in self.segments:
            self.segments[number] = Segment(self.g.buckets)
        return self.segments[number]

    def insert(self, piece):
        """Enters a piece. What had to go for it is displaced."""
        number, bucket, _ = home_of(self.g, piece.key())
        segment = self.segment(number)
        if segment.is_full(bucket):
            live = segment.live()
            for other in segment.purge():
                other.fate = f"displaced {number} {live}"
        segment.insert(bucket, piece)

    def remove(self, piece):
        number, bucket, _ = home_of(self.g, piece.key())
        self.segment(number).remove(bucket, piece)

    def pass_below(self, floor):
        for number in sorted(self.segments):
            self.segments[number].clean(lambda piece: piece.place >= floor)

    def pieces(self):
        for segment in self.segments.values():
            for chain in segment.chains.values():
                for _, piece in chain:
                    yield piece


# ---- The stripe


class Writer:
    def __init__(self, put, key, request, response, pin):
        self.put, self.key, self.request, self.response, self.pin = put, key, request, response, pin
        self.gathered, self.rows = b"", []
        self.state, self.is_sealed = "open", False

    def length(self):
        return sum(length for length, _ in self.rows)


class Reader:
    """A reader of a put: of what its alternate lists, or of what its writer cuts."""

    def __init__(self, put, key, rows, writer):
        self.put, self.key, self.rows, self.writer = put, key, rows, writer
        self.next = 1


class Stripe:
    def __init__(self, device, g, syncs):
        self.device, self.g, self.syncs = device, g, syncs
        self.directory = Directory(g)
        self.cursor, self.least = g.content, 0
        self.buffer = b""
        self.pieces, self.unsaved = {}, set()
        self.vectors, self.aborted = {}, {}  # by key: the last one, or "removed"; the last put given up
        self.writers, self.readers = {}, []
        self.next_put = 1
        self.opened = None  # the serial, of a session that began by an opening
        self.copies = Copies(g)

    # -- places and pieces

    def floor(self):
        return self.floor_at(self.cursor)

    def floor_at(self, cursor):
        return max(cursor + self.g.agg - self.g.content, self.least)

    def filled(self):
        return len(self.buffer) // BLOCK

    def is_live(self, piece):
        return piece is not None and piece.fate is None and piece.place >= self.floor()

    def cause_of(self, piece):
        """Why a piece that was there is not live."""
        if piece.fate not in (None, "gone"):
            return piece.fate
        unsaved = " unsaved" if piece.place in self.unsaved else ""
        return f"passed {piece.place} {self.floor()}{unsaved}"

    def beginning(self):
        """Why there is nothing of which this session knows nothing."""
        return "never-put" if self.opened is None else f"before-opening {self.opened}"

    def mark_damaged(self, piece, kept, found):
        piece.fate = f"damaged {piece.place} {kept.hex()} {found.hex()}"
        self.directory.remove(piece)

    def read_document(self, piece):
        """The blocks of a live piece, and None where they have another digest."""
        if piece.place >= self.cursor:
            at = (piece.place - self.cursor) * BLOCK
            return self.buffer[at : at + piece.blocks * BLOCK]
        return self.device.read(content_block(self.g, piece.place), piece.blocks)

    def read_piece(self, piece):
        """The payload of a live piece."""
        data = self.read_document(piece)
        found = document_digest(data)
        if found != piece.digest:
            self.mark_damaged(piece, piece.digest, found)
            raise Harmed(piece.fate)
        return data[HEAD : HEAD + struct.unpack_from("<I", data, 12)[0]]

    def place(self, piece, payload):
        """Puts a piece into the buffer, where it has room, and enters it."""
        piece.place, piece.blocks = self.cursor + self.filled(), blocks_of(len(payload))
        data = head_of(piece, piece.place, self.g.generation, len(payload), sha(payload)) + payload
        piece.digest = sha(data)
        self.directory.insert(piece)
        self.buffer += padded(data)
        self.pieces[piece.first, piece.put, piece.index] = piece

    def has_room(self, length):
        return self.filled() + blocks_of(length) <= self.g.agg

    # -- flushes

    def planned(self):
        end, after = lap_end(self.g, self.cursor), self.cursor + self.filled()
        return end if after + self.g.agg > end else after

    def due_index(self, piece):
        """Whether a reader is still to be given a fragment."""
        return any(
            reader.put == piece.put and reader.key == piece.first and reader.next <= piece.index <= 4096
            for reader in self.readers
        )

    def candidates(self, floor, now):
        live = [piece for piece in self.directory.pieces() if self.floor() <= piece.place < floor]
        due = [piece for piece in live if piece.pin > now or (piece.index > 0 and self.due_index(piece))]
        return sorted(due, key=lambda piece: piece.place)

    def gather(self, candidates):
        """Reads what is to be copied. Gives the copies, and what is not to be copied."""
        copies, unsaved, budget = [], [], self.g.agg // 2
        for piece in candidates:
            if piece.blocks > budget:
                unsaved.append(piece)
                continue
            budget -= piece.blocks
            try:
                data = self.read_document(piece)
            except DeviceFault:
                unsaved.append(piece)
                continue
            copies.append((piece, data))
        for piece, data in copies:
            if document_digest(data) != piece.digest:
                self.mark_damaged(piece, piece.digest, document_digest(data))
        return [(piece, data) for piece, data in copies if piece.fate is None], unsaved

    def begin(self, cursor, copies):
        """Begins the next buffer, with the copies in front."""
        self.cursor, self.buffer = cursor, b""
        self.directory.pass_below(self.floor())
        for piece, data in copies:
            self.directory.remove(piece)
            piece.place = cursor + self.filled()
            length = struct.unpack_from("<I", data, 12)[0]
            head = data[:48] + struct.pack("<Q", piece.place) + data[56:112]
            data = head + sha(head)[:16] + data[HEAD:]
            piece.digest = sha(data[: HEAD + length])
            self.directory.insert(piece)
            self.buffer += data

    def write_buffer(self):
        """Writes what of the buffer no sync has made durable yet."""
        copies = self.copies
        if copies.durable < self.filled():
            block = content_block(self.g, self.cursor) + copies.durable
            self.device.write(block, self.buffer[copies.durable * BLOCK :])
        copies.written = self.filled()

    def is_due(self, cursor):
        wrapped = cursor == lap_end(self.g, self.cursor)
        return self.syncs and (wrapped or cursor + self.g.agg > self.copies.cursor + self.g.reach)

    def flush(self, now, always=False):
        """Gives the blocks that were written, and whether a sync was done."""
        blocks, cursor = self.filled(), self.planned()
        if blocks == 0 and not always:
            return 0, False
        if blocks == 0:
            self.copies.sync(self, self.cursor)
            return 0, True
        copies, unsaved = self.gather(self.candidates(self.floor_at(cursor), now))
        self.write_buffer()
        due = always or self.is_due(cursor)
        if due:
            self.copies.sync(self, cursor)
        self.unsaved.update(piece.place for piece in unsaved)
        self.begin(cursor, copies)
        self.copies.durable = self.copies.written = 0
        return blocks, due

    # -- writers

    def open_write(self, key, request, response, pin):
        if sum(writer.state == "open" for writer in self.writers.values()) == 64:
            raise Refused("too-many-writers")
        put, self.next_put = self.next_put, self.next_put + 1
        self.writers[put] = Writer(put, key, request, response, pin)
        return put

    def give_up(self, writer):
        writer.state = "aborted"
        self.aborted[writer.key] = writer.put

    def cut(self, writer, payload, now):
        if not self.has_room(len(payload)):
            self.flush(now)
        piece = Piece(writer.key, writer.put, len(writer.rows) + 1, writer.pin, writer.length())
        writer.rows.append((len(payload), sha(payload)))
        writer.gathered = b""
        self.place(piece, payload)

    def write(self, writer, data, now):
        """Takes bytes up to the next cut, and gives how many."""
        if writer.is_sealed:
            raise Refused("sealed")
        if data and not writer.gathered and len(writer.rows) == 4096:
            self.give_up(writer)
            raise Refused("too-many-fragments")
        taken = data[: self.g.fragment - len(writer.gathered)]
        if len(writer.gathered) + len(taken) == self.g.fragment:
            self.cut(writer, writer.gathered + taken, now)
        else:
            writer.gathered += taken
        return len(taken)

    def alternate(self, writer, rest=b""):
        rows = writer.rows + ([(len(rest), sha(rest))] if rest else [])
        length = sum(length for length, _ in rows)
        return Alternate(writer.put, writer.pin, length, writer.request, writer.response, rows)

    def live_vector(self, key):
        vector = self.vectors.get(key)
        return vector if isinstance(vector, Piece) and self.is_live(vector) else None

    def list_of(self, writer):
        old = self.live_vector(writer.key)
        return merged(self.g, old.alternates if old else [], self.alternate(writer))

    def close_write(self, writer, now):
        try:
            self.close_unsealed(writer, now)
        except DeviceFault:
            writer.is_sealed = True
            raise

    def close_unsealed(self, writer, now):
        old = self.live_vector(writer.key)
        try:
            if old:
                self.read_piece(old)
        except Harmed:
            pass
        size = len(spelled_vector([self.alternate(writer, writer.gathered)]))
        if blocks_of(size) > self.g.agg // 2:
            self.give_up(writer)
            raise Refused(f"vector-too-large {size}")
        if writer.gathered:
            self.cut(writer, writer.gathered, now)
        if not self.has_room(len(spelled_vector(self.list_of(writer)))):
            self.flush(now)
        self.look_for_lost(writer)
        self.commit(writer)

    def look_for_lost(self, writer):
        for index in range(1, len(writer.rows) + 1):
            piece = self.pieces[writer.key, writer.put, index]
            if not self.is_live(piece):
                self.give_up(writer)
                raise Refused(f"lost {index} {self.cause_of(piece)}")

    def commit(self, writer):
        alternates = self.list_of(writer)
        piece = Piece(writer.key, writer.put, 0, max(it.pin for it in alternates), 0)
        piece.alternates = alternates
        self.place(piece, spelled_vector(alternates))
        self.retire(writer.key)
        self.vectors[writer.key] = piece
        writer.state = "committed"

    def retire(self, key):
        """Takes the key's vector out, where it is still there."""
        old = self.live_vector(key)
        if old:
            old.fate = "gone"
            self.directory.remove(old)

    def remove(self, key):
        """The put of the vector that was removed, or None."""
        old = self.live_vector(key)
        if old is None:
            return None
        self.retire(key)
        self.vectors[key] = "removed"
        return old.put

    # -- lookups and readers

    def look_up(self, key, request):
        """A reader and whether it hit, or None and the cause."""
        vector = self.live_vector(key)
        if vector:
            try:
                self.read_piece(vector)
            except Harmed as harm:
                return None, str(harm)
            for it in reversed(vector.alternates):
                if matches(request, it.request, it.response):
                    return Reader(it.put, key, it.rows, self.writers.get(it.put)), True
        for put in sorted(self.writers, reverse=True):
            writer = self.writers[put]
            if writer.state == "open" and writer.key == key and matches(request, writer.request, writer.response):
                return Reader(put, key, writer.rows, writer), False
        return None, self.miss(key)

    def miss(self, key):
        vector = self.vectors.get(key)
        if vector == "removed":
            return "removed"
        if vector:
            return f"no-match {len(vector.alternates)}" if self.is_live(vector) else self.cause_of(vector)
        if key in self.aborted:
            return f"aborted {self.aborted[key]}"
        return self.beginning()

    def is_committed(self, reader):
        return reader.writer is None or reader.writer.state == "committed"

    def read_next(self, reader):
        """The text of a reader's next answer, and the bytes where it was given some."""
        index = reader.next
        if index > len(reader.rows):
            if self.is_committed(reader):
                return f"end {sum(length for length, _ in reader.rows)}", None
            if reader.writer.state == "open":
                return f"notyet {len(reader.rows)}", None
            return f"broken aborted {reader.put}", None
        piece = self.pieces.get((reader.key, reader.put, index))
        if piece is None:
            return f"broken {self.beginning()}", None
        if not self.is_live(piece):
            return f"broken {self.cause_of(piece)}", None
        try:
            payload = self.read_piece(piece)
            self.compare_payload(piece, reader.rows[index - 1][1], sha(payload))
        except Harmed as harm:
            return f"broken {harm}", None
        reader.next += 1
        return f"piece {index} {len(payload)} {shown(payload)}", payload

    def compare_payload(self, piece, kept, found):
        if kept != found:
            self.mark_damaged(piece, kept, found)
            raise Harmed(piece.fate)


def shown(data):
    """Bytes as an answer shows them."""
    if not data:
        return "-"
    return data.hex() if len(data) <= 64 else f"sha256 {sha(data).hex()}"


# ---- Copies of the directory, and syncs


def size_class(blocks):
    """The code of the least approximate size that suffices."""
    for big in range(4):
        size = -(-blocks * BLOCK // (1 << (9 + 3 * big)))
        if size <= 64:
            return big, size - 1
    return None


def spelled_entry(g, piece, after):
    offset, (big, size) = piece.place % g.content + 1, size_class(piece.blocks)
    tag = home_of(g, piece.key())[2]
    word = offset % (1 << 24) | big << 24 | size << 26 | tag << 32
    word |= (piece.place // g.content % 2) << 44 | (piece.index == 0) << 45 | (piece.pin != 0) << 46
    return (word | after << 48 | (offset >> 24) << 64).to_bytes(10, "little")


def spelled_segment(g, segment, bound):
    """A segment's bytes, without what stands below the bound."""
    copy = Segment(segment.buckets)
    copy.chains = {bucket: [list(entry) for entry in chain] for bucket, chain in segment.chains.items()}
    copy.free = list(segment.free)
    copy.clean(lambda piece: piece.place >= bound)
    slots = {}
    for chain in copy.chains.values():
        for (slot, piece), after in zip(chain, [slot for slot, _ in chain[1:]] + [0]):
            slots[slot] = spelled_entry(g, piece, after)
    free = copy.free[::-1]
    for slot, after in zip(free, free[1:] + [0]):
        slots[slot] = struct.pack("<8s", b"")[:6] + struct.pack("<HH", after, 0)
    empty = bytes(10)
    data = struct.pack("<HH", free[0] if free else 0, len(free))
    return data + b"".join(slots.get(slot, empty) for slot in range(4 * g.buckets))


def spelled_geometry(g, alternates):
    return struct.pack("<IIIIIQQQ", g.segments, g.buckets, g.agg, g.fragment, alternates, g.content, g.reach, g.generation)


def spelled_span(g):
    head = b"TSCSPAN1" + struct.pack("<I", 2) + spelled_geometry(g, g.alternates)
    head += struct.pack("<QQ", 1, 2 * directory_blocks(g) + g.content + 6)
    return padded(head + sha(head))


def spelled_copy(stripe, serial, cursor):
    """The body of a copy: header, directory and footer."""
    g, directory = stripe.g, stripe.directory
    numbers = struct.pack("<QQQ", serial, cursor, stripe.next_put)
    head = padded(b"TSCHEAD1" + struct.pack("<I", 2) + spelled_geometry(g, 0) + numbers)
    bound = cursor - g.content
    parts = [spelled_segment(g, directory.segment(number), bound) for number in range(g.segments)]
    body = head + padded(b"".join(parts))
    return body + padded(b"TSCFOOT1" + struct.pack("<Q", serial) + sha(body))


class Copies:
    """Which copy holds the last finished sync, and how much of the buffer a sync has made durable."""

    def __init__(self, g):
        self.serial, self.next_serial, self.cursor = 1, 2, g.content
        self.newest, self.shut = 0, {1}
        self.durable = self.written = 0

    def open_at(self, side, serial, cursor, shut):
        self.newest, self.shut = side, shut - {side}
        self.serial, self.next_serial, self.cursor = serial, serial + 1, cursor

    def sync_device(self, device):
        device.sync()
        self.durable = self.written

    def sync(self, stripe, cursor):
        """A whole sync, into the copy that does not hold the last one."""
        device, side = stripe.device, 1 - self.newest
        serial, self.next_serial = self.next_serial, self.next_serial + 1
        body = spelled_copy(stripe, serial, cursor)
        if side not in self.shut:
            device.write(1 + side, bytes(BLOCK))
        self.sync_device(device)
        self.shut.add(side)
        device.write(first_of_copy(stripe.g, side), body)
        self.sync_device(device)
        self.shut.remove(side)
        device.write(1 + side, b"\1" + bytes(BLOCK - 1))
        self.sync_device(device)
        self.serial, self.cursor, self.newest = serial, cursor, side


def first_of_copy(g, side):
    return 3 + side * (2 + directory_blocks(g))


def lay_out(stripe):
    """What a format writes: both gates are shut, then span and first copy, then its gate is opened."""
    device, g = stripe.device, stripe.g
    device.write(1, bytes(2 * BLOCK))
    device.sync()
    device.write(0, spelled_span(g))
    device.write(first_of_copy(g, 0), spelled_copy(stripe, 1, g.content))
    device.sync()
    device.write(1, b"\1" + bytes(BLOCK - 1))
    device.sync()


# ---- Openings


class NoStripe(Exception):
    """What a device holds opens to no stripe."""


def needs(holds):
    if not holds:
        raise NoStripe


def read_span(data, blocks):
    """The geometry of a span, on a device of so many blocks."""
    version, *numbers = struct.unpack_from("<6I", data, 8)
    segments, buckets, agg, fragment, alternates = numbers
    content, reach, generation, first, length = struct.unpack_from("<5Q", data, 32)
    needs(data[:8] == b"TSCSPAN1" and version in (1, 2) and data[72:104] == sha(data[:72]))
    needs(version == 2 or alternates == 0)
    most = alternates if version == 2 else 5
    try:
        g = geometry_of([segments, buckets, content, agg, reach, fragment, generation, most])
    except Refused:
        raise NoStripe from None
    needs(not any(data[104:]) and first == 1 and length == 2 * directory_blocks(g) + content + 6 and blocks > length)
    return g


def read_copy(g, body):
    """Serial, cursor, next put and floor of a copy (no floor where it is not clean), or None where it is refused."""
    head, foot = body[:BLOCK], body[-BLOCK:]
    version, serial, cursor, put, clean, floor = *struct.unpack_from("<I", head, 8), *struct.unpack_from("<5Q", head, 56)
    if head[:8] != b"TSCHEAD1" or foot[:8] != b"TSCFOOT1" or version not in (1, 2):
        return None
    if foot[8:16] != head[56:64] or foot[16:48] != sha(body[:-BLOCK]) or any(foot[48:]):
        return None
    if head[12:56] != spelled_geometry(g, 0) or any(head[96 if version == 2 else 80 :]):
        return None
    if not g.content <= cursor < NUMBERS or cursor % g.content + g.agg > g.content:
        return None
    if not 0 < serial < NUMBERS or not 0 < put < NUMBERS or clean > 1:
        return None
    least, most = cursor + g.agg - g.content, reach_of(g, cursor) - g.content
    if (clean and not least <= floor <= most) or (not clean and floor):
        return None
    return serial, cursor, put, floor if clean else None


def read_links(g, data):
    """The chains of a segment's bytes, as slots, and its free slots."""
    words = [int.from_bytes(data[4 + 10 * i : 14 + 10 * i], "little") for i in range(4 * g.buckets)]
    offsets = [word % (1 << 24) | (word >> 64) << 24 for word in words]
    seen = set()

    def walk(slot, is_free, by_link):
        slots = []
        while slot or not by_link:
            needs(slot < len(words) and not (by_link and slot % 4 == 0) and (offsets[slot] == 0) == is_free and slot not in seen)
            seen.add(slot)
            slots.append(slot)
            slot, by_link = words[slot] >> 48 & 0xFFFF, True
        return slots

    chains = {}
    for root in range(0, len(words), 4):
        if offsets[root] == 0 and words[root] >> 48 & 0xFFFF == 0:
            seen.add(root)
        else:
            chains[root // 4] = walk(root, False, False)
    first, count = struct.unpack_from("<HH", data)
    free = walk(first, True, True)
    needs(count == len(free) and len(seen) == len(words))
    return chains, free, words, offsets


def place_of(g, cursor, word, offset):
    """The place for which an entry stands, or None."""
    lap = cursor // g.content
    if offset > g.content:
        return None
    if word >> 44 & 1 == lap % 2:
        place = lap * g.content + offset - 1
        return place if place < cursor else None
    return (lap - 1) * g.content + offset - 1


def read_doc(g, data, place):
    """The piece of a document and its payload, or None where it is refused."""
    if data[:8] != b"TSCDOCM1" or data[8:12] != b"\1\0\0\0":
        return None
    length, first, put, index, blocks = struct.unpack_from("<I16sQII", data, 12)
    if blocks != blocks_of(length) or len(data) < blocks * BLOCK or data[112:HEAD] != sha(data[:112])[:16]:
        return None
    stated, generation, pin, start = struct.unpack_from("<4Q", data, 48)
    payload = data[HEAD : HEAD + length]
    if generation != g.generation or stated != place or data[80:112] != sha(payload):
        return None
    piece = Piece(first, put, index, pin, start)
    piece.place, piece.blocks, piece.digest, piece.length = place, blocks, sha(data[: HEAD + length]), length
    piece.payload = payload
    return piece


class Bytes:
    """Bytes that are read from the front."""

    def __init__(self, data):
        self.data, self.at = data, 0

    def take(self, count):
        needs(self.at + count <= len(self.data))
        self.at += count
        return self.data[self.at - count : self.at]

    def number(self, width):
        return int.from_bytes(self.take(width), "little")

    def fields(self):
        fields, count = [], self.number(2)
        needs(count <= 128)
        for _ in range(count):
            name, value = self.number(2), self.number(4)
            name, value = self.take(name), self.take(value)
            needs(FIELD_NAME.fullmatch(name) and name == name.lower() and (not fields or fields[-1][0] <= name))
            needs(VALUE.fullmatch(value) and len(value) <= 8192)
            fields.append((name, value))
        return fields

    def alternate(self):
        put, pin, length = (self.number(8) for _ in range(3))
        request, response = self.fields(), self.fields()
        count = self.number(4)
        needs(count <= 4096)
        rows = [(self.number(4), self.take(32)) for _ in range(count)]
        needs(all(row[0] for row in rows) and sum(row[0] for row in rows) == length)
        return Alternate(put, pin, length, request, response, rows)


def read_vector(data):
    """The alternates that bytes spell, or None."""
    try:
        source = Bytes(data)
        count = source.number(4)
        needs(1 <= count <= 16)
        alternates = [source.alternate() for _ in range(count)]
        needs(source.at == len(data))
        return alternates
    except NoStripe:
        return None


def stands_alone(g, piece, home, cursor, put):
    """Whether a document passes the tests that look at no other one."""
    end = piece.place + piece.blocks
    if piece.blocks > g.agg // 2 or end > lap_end(g, piece.place):
        return False
    if piece.place // g.content == cursor // g.content and end > cursor:
        return False
    if home_of(g, piece.key()) != home or (piece.index <= 4096 and not 0 < piece.put < put):
        return False
    if piece.index == 0:
        piece.alternates = read_vector(piece.payload)
        return piece.alternates is not None and all(0 < it.put < put for it in piece.alternates)
    return True


def kept_of(pieces):
    """Those of documents that no later one replaces, and whose fragments have the lengths that they list."""
    last = {}
    for piece in sorted(pieces, key=lambda piece: piece.place):
        last[piece.first, None if piece.index == 0 else piece.put, piece.index] = piece
    fragments = {(piece.first, piece.put, piece.index): piece for piece in last.values() if piece.index}

    def fits(piece):
        listed = [(it.put, i, row[0]) for it in piece.alternates or [] for i, row in enumerate(it.rows, 1)]
        found = [(fragments.get((piece.first, put, i)), length) for put, i, length in listed]
        return all(fragment is None or fragment.length == length for fragment, length in found)

    return {id(piece) for piece in last.values() if fits(piece)}


def read_segment(stripe, data, number, bounds, reads):
    """A segment as an image has it, with what passes alone. Gives how many entries stand at or above the floor."""
    g, (cursor, floor, put) = stripe.g, bounds
    chains, free, words, offsets = read_links(g, data)
    segment, count = stripe.directory.segment(number), 0
    segment.free = free[::-1]
    for bucket, slots in chains.items():
        segment.chains[bucket] = chain = []
        for slot in slots:
            place, piece = place_of(g, cursor, words[slot], offsets[slot]), None
            if place is not None and place >= floor:
                count += 1
                piece = reads(place)
                home = number, bucket, words[slot] >> 32 & 0xFFF
                piece = piece if piece and stands_alone(g, piece, home, cursor, put) else None
            chain.append([slot, piece])
    return count


def newest_copy(device, g):
    """The side, body and state of the newest copy, and which gates are shut."""
    gates, copies, shut = device.read(1, 2), [], set()
    for side in (0, 1):
        if gates[side * BLOCK] != 1:
            shut.add(side)
            continue
        body = device.read(first_of_copy(g, side), directory_blocks(g) + 2)
        state = read_copy(g, body)
        copies += [(state, -side, body)] if state else []
    needs(copies)
    state, side, body = max(copies, key=lambda copy: (copy[0][0], copy[1]))
    return -side, body, state, shut


def open_stripe(device):
    """The stripe that a device opens to, how many pieces were found, and how many entries were not kept."""
    needs(device.blocks)
    g = read_span(device.read(0, 1), device.blocks)
    side, body, (serial, cursor, put, clean), shut = newest_copy(device, g)
    stripe = Stripe(device, g, True)
    stripe.cursor, stripe.next_put, stripe.opened = cursor, put, serial
    stripe.least = reach_of(g, cursor) - g.content if clean is None else clean
    stripe.copies.open_at(side, serial, cursor, shut)

    def reads(place):
        if place < g.content:
            return None
        return read_doc(g, device.read(content_block(g, place), lap_end(g, place) - place), place)

    size, count = 4 + 40 * g.buckets, 0
    for number in range(g.segments):
        data = body[BLOCK + number * size :][:size]
        count += read_segment(stripe, data, number, (cursor, stripe.least, put), reads)
    kept = kept_of([piece for piece in stripe.directory.pieces() if piece])
    for segment in stripe.directory.segments.values():
        segment.clean(lambda piece: id(piece) in kept)
    for piece in stripe.directory.pieces():
        stripe.pieces[piece.first, piece.put, piece.index] = piece
        if piece.index == 0:
            stripe.vectors[piece.first] = piece
    return stripe, len(kept), count - len(kept), clean is not None


# ---- Runs


class Run:
    def __init__(self, stage):
        self.stage, self.now = stage, 0
        self.device = self.stripe = None
        self.actors = {}

    def answer(self, line, number):
        """The answer of a line, or None where it has none."""
        if not line or line.startswith(b"#"):
            return None
        try:
            verb, values, request, response = read_line(line, self.stage)
        except BadLine as bad:
            raise Stop(3, f"error bad-script line {number} column {bad.column} {bad.kind}") from None
        has_what_it_needs = self.stripe or verb in (b"format", b"open", b"now")
        if not has_what_it_needs and not (self.device and verb in (b"reopen", b"fail", b"stop-after", b"cut")):
            raise Stop(8, f"error no-cache line {number}")
        step = getattr(self, "do_" + verb.decode().replace("-", "_"))
        fields = {"fields": [request, response], "requests": [request]}.get((LINES.get(verb) or [""])[-1], [])
        try:
            return step(*values, *fields) if verb != b"format" else self.do_format(values)
        except DeviceFault as fault:
            return f"device-fault {fault.count}"
        except Refused as refused:
            return f"refused {refused}"
        except NoStripe:
            raise Stop(8, f"error no-cache line {number}") from None

    # -- devices

    def attach(self, name, blocks):
        if not name.startswith(b"mem:") and b":" in name.split(b"/")[0]:
            raise Stop(6, "error bay-fault")
        self.stripe, self.actors = None, {}
        self.device = Device(name, blocks)

    def do_format(self, values):
        g = geometry_of(values[1:])
        self.attach(values[0], 7 + 2 * directory_blocks(g) + g.content)
        stripe = Stripe(self.device, g, self.stage != "plain")
        if self.stage != "plain":
            lay_out(stripe)
        self.stripe = stripe
        return f"formatted serial 1 cursor {g.content} floor {stripe.floor()}"

    def do_open(self, name):
        self.attach(name, 64)
        return self.do_reopen()

    def do_reopen(self):
        self.stripe, self.actors = None, {}
        self.stripe, found, _, is_clean = open_stripe(self.device)
        copies, mark = self.stripe.copies, " clean" if is_clean else ""
        floor = self.stripe.floor()
        return f"opened serial {copies.serial} cursor {copies.cursor} floor {floor} found {found}{mark}"

    def switch(self):
        if not self.device.has_switch:
            raise Refused("no-switch")
        return self.device

    def do_fail(self, nth):
        self.switch().fails.append(nth)
        return "armed"

    def do_stop_after(self, calls):
        self.switch().stop_after(calls)
        return "armed"

    def do_flip(self, place, byte):
        self.switch().flip(content_block(self.stripe.g, place), byte)
        return "flipped"

    def do_cut(self, choice):
        self.switch().cut(choice)
        self.stripe, self.actors = None, {}
        return "cut"

    # -- whole objects

    def do_now(self, moment):
        self.now = moment
        return f"now {moment}"

    def do_put(self, key, body, request, response):
        stripe = self.stripe
        writer = stripe.writers[stripe.open_write(key, request, response, 0)]
        try:
            taken = 0
            while taken < len(body):
                taken += stripe.write(writer, body[taken:], self.now)
            return self.closed(writer)
        except (DeviceFault, Refused):
            if writer.state == "open":
                stripe.give_up(writer)
            raise

    def closed(self, writer):
        self.stripe.close_write(writer, self.now)
        return f"put {writer.put} length {writer.length()} fragments {len(writer.rows)}"

    def do_get(self, key, request):
        reader, found = self.stripe.look_up(key, request)
        if reader is None:
            return f"miss {found}"
        if not found:
            return f"follow {reader.put}"
        body = b""
        while True:
            text, payload = self.stripe.read_next(reader)
            if payload is None:
                break
            body += payload
        return f"got {reader.put} length {len(body)} {shown(body)}" if text.startswith("end") else text

    def do_remove(self, key):
        put = self.stripe.remove(key)
        return f"absent {self.stripe.miss(key)}" if put is None else f"removed {put}"

    def do_flush(self):
        stripe = self.stripe
        blocks, synced = stripe.flush(self.now)
        text = f"flushed {blocks} cursor {stripe.cursor} floor {stripe.floor()}"
        return f"{text} synced {stripe.copies.serial}" if synced else text

    def do_sync(self):
        self.stripe.flush(self.now, always=True)
        return f"synced {self.stripe.copies.serial} cursor {self.stripe.copies.cursor}"

    # -- actors

    def writer_of(self, actor):
        writer = self.actors.get(actor)
        if not isinstance(writer, Writer):
            raise Refused("idle")
        return writer

    def reader_of(self, actor):
        reader = self.actors.get(actor)
        if not isinstance(reader, Reader):
            raise Refused("idle")
        return reader

    def be_free(self, actor):
        if actor in self.actors:
            raise Refused("busy")

    def leave(self, actor, writer):
        """An actor keeps its writer while the put is open."""
        if writer.state != "open":
            del self.actors[actor]

    def do_open_write(self, actor, key, pin, request, response):
        self.be_free(actor)
        put = self.stripe.open_write(key, request, response, pin)
        self.actors[actor] = self.stripe.writers[put]
        return f"writer {put}"

    def do_data(self, actor, body):
        writer, taken = self.writer_of(actor), 0
        try:
            while True:
                taken += self.stripe.write(writer, body[taken:], self.now)
                if taken == len(body):
                    return f"took {taken}"
        except DeviceFault as fault:
            return f"device-fault {fault.count} took {taken}"
        except Refused as refused:
            self.leave(actor, writer)
            return f"refused {refused} took {taken}"

    def do_close(self, actor):
        writer = self.writer_of(actor)
        try:
            return self.closed(writer)
        finally:
            self.leave(actor, writer)

    def do_abort(self, actor):
        writer = self.writer_of(actor)
        self.stripe.give_up(writer)
        self.leave(actor, writer)
        return f"aborted {writer.put}"

    def do_open_read(self, actor, key, request):
        self.be_free(actor)
        reader, found = self.stripe.look_up(key, request)
        if reader is None:
            return f"miss {found}"
        self.actors[actor] = reader
        self.stripe.readers.append(reader)
        length = sum(length for length, _ in reader.rows)
        return f"hit {reader.put} length {length}" if found else f"follow {reader.put}"

    def do_next(self, actor):
        return self.stripe.read_next(self.reader_of(actor))[0]

    def do_done(self, actor):
        self.stripe.readers.remove(self.reader_of(actor))
        del self.actors[actor]
        return "done"


def answers(script, stage):
    """The lines that a script is answered by, and the status."""
    run, lines = Run(stage), script.split(b"\n")
    if lines[-1] == b"":
        lines.pop()
    said = []
    try:
        for number, line in enumerate(lines, 1):
            if number > 16777216:
                raise Stop(10, "error too-many-lines")
            if len(line) > 1048576:
                raise Stop(7, f"error line-too-long line {number}")
            answer = run.answer(line, number)
            said += [] if answer is None else [answer]
    except Stop as stop:
        return said + [stop.text], stop.status
    return said, 0


def main(words):
    stage = "plain"
    if words[:1] == ["--stage"] and len(words) > 1 and words[1] in LATER:
        stage, words = words[1], words[2:]
    if words != ["replay"]:
        said, status = ["error usage"], 2
    else:
        said, status = answers(sys.stdin.buffer.read(), stage)
    sys.stdout.write("".join(f"{line}\n" for line in said))
    return status


if __name__ == "__main__":
    sys.exit(main(sys.argv[1:]))
