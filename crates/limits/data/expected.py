"""Makes the file `stdout` of this crate: python3 expected.py > ../stdout

A model of the store, written from the rules in docs/BENCH.md on Python's bytes and integers, and the program's lists of
calls. It shares no code with the crate.
"""
from itertools import groupby

MOST = 2**64 - 1
FILL = 0xAA
LETTERS = b"0123456789ABCDEFGHIJKLMNOPQRSTUVWXYZabcdefghijklmnopqrstuvwxyz-_"

NO_HANDLE, TOO_LONG, READ_OVERFLOW, SHORT_AREA, NO_SPACE, TABLE_FULL = 1, 2, 3, 5, 6, 7
BAD_PARTITION, PARTITION_MISSING, BLOB_MISSING, INSUFFICIENT_LENGTH = 10, 11, 12, 14


class Fault(Exception):
    pass


def refuse(test, number):
    if test:
        raise Fault(number)


class File:
    def __init__(self, partition, name, generation, header):
        self.partition, self.name, self.generation = partition, name, generation
        self.d = len(header)
        self.durable = bytearray(header)


class Handle:
    def __init__(self, number, file):
        self.number, self.generation, self.d = number, file.generation, file.d
        self.live = bytearray(file.durable)


def zero_fill(row, n):
    row.extend(bytes(max(0, n - len(row))))


def put(row, place, x):
    zero_fill(row, place + len(x))
    row[place:place + len(x)] = x


def set_length(row, n):
    del row[n:]
    zero_fill(row, n)


class Store:
    def __init__(self):
        self.reset()

    def reset(self):
        self.partitions, self.files, self.handles = [], [], []
        self.generations = self.issued = 0

    def restart(self):
        self.handles = []

    def held(self, number):
        for handle in self.handles:
            if handle.number == number:
                return handle
        raise Fault(NO_HANDLE)

    def file_at(self, partition, name):
        for file in self.files:
            if (file.partition, file.name) == (partition, name):
                return file
        return None

    def file_of(self, generation):
        for file in self.files:
            if file.generation == generation:
                return file
        return None

    def standing_partition(self, partition):
        refuse(not partition or any(b not in LETTERS for b in partition), BAD_PARTITION)
        refuse(partition not in self.partitions, PARTITION_MISSING)

    def standing_file(self, partition, name):
        self.standing_partition(partition)
        file = self.file_at(partition, name)
        refuse(file is None, BLOB_MISSING)
        return file

    def open(self, partition, name, header):
        refuse(len(partition) > 16 or len(name) > 16 or len(header) > 64, TOO_LONG)
        file = self.file_at(partition, name)
        refuse(len(self.handles) == 8 or self.issued == 1_000_000, TABLE_FULL)
        refuse(partition not in self.partitions and len(self.partitions) == 4, TABLE_FULL)
        refuse(file is None and len(self.files) == 8, TABLE_FULL)
        refuse(not partition or any(b not in LETTERS for b in partition), BAD_PARTITION)
        if partition not in self.partitions:
            self.partitions.append(partition)
        if file is None:
            file = File(partition, name, self.generations, header)
            self.files.append(file)
            self.generations += 1
        self.handles.append(Handle(self.issued, file))
        self.issued += 1
        return self.issued - 1, len(file.durable) - file.d

    def read(self, number, offset, area):
        handle = self.held(number)
        end = handle.d + offset + len(area)
        refuse(end > MOST, READ_OVERFLOW)
        refuse(end > len(handle.live), INSUFFICIENT_LENGTH)
        area[:] = handle.live[handle.d + offset:end]

    def write(self, number, offset, x, sync):
        handle = self.held(number)
        refuse(len(x) > 256, TOO_LONG)
        refuse(handle.d + offset + len(x) > 1016, NO_SPACE)
        put(handle.live, handle.d + offset, x)
        if sync:
            file = self.file_of(handle.generation)
            refuse(file is None, BLOB_MISSING)
            put(file.durable, file.d + offset, x)

    def resize(self, number, length):
        handle = self.held(number)
        refuse(handle.d + length > 1016, NO_SPACE)
        set_length(handle.live, handle.d + length)

    def sync(self, number):
        handle = self.held(number)
        file = self.file_of(handle.generation)
        refuse(file is None, BLOB_MISSING)
        file.durable = bytearray(handle.live)

    def close(self, number):
        self.handles.remove(self.held(number))

    def remove(self, partition, name):
        refuse(len(partition) > 16 or len(name) > 16, TOO_LONG)
        self.files.remove(self.standing_file(partition, name))

    def remove_partition(self, partition):
        refuse(len(partition) > 16, TOO_LONG)
        self.standing_partition(partition)
        self.partitions.remove(partition)
        self.files = [file for file in self.files if file.partition != partition]

    def scan(self, partition, area):
        refuse(len(partition) > 16, TOO_LONG)
        refuse(len(area) < 136, SHORT_AREA)
        self.standing_partition(partition)
        names = sorted(file.name for file in self.files if file.partition == partition)
        listed = b"".join(bytes([len(name)]) + name for name in names)
        area[:len(listed)] = listed
        return len(listed)

    def look(self, partition, name, area):
        refuse(len(partition) > 16 or len(name) > 16, TOO_LONG)
        refuse(len(area) < 1016, SHORT_AREA)
        durable = self.standing_file(partition, name).durable
        area[:len(durable)] = durable
        return len(durable)

    def crash_write(self, generation, offset, x, chosen):
        file = self.file_of(generation)
        if file is not None and file.d + offset + len(x) <= 1016:
            for i, (byte, flag) in enumerate(zip(x, chosen)):
                if flag:
                    put(file.durable, file.d + offset + i, bytes([byte]))

    def crash_resize(self, generation, length):
        file = self.file_of(generation)
        if file is not None and file.d + length <= 1016:
            set_length(file.durable, file.d + length)


def shown(row):
    text = ""
    for byte, same in groupby(row):
        count = len(list(same))
        text += f"({byte:02x}*{count})" if count > 4 else f"{byte:02x}" * count
    return text or "-"


def told(call):
    try:
        return None, call()
    except Fault as fault:
        return f"no {fault.args[0]} 3", None


def line(store, kind, *given):
    if kind in ("reset", "restart"):
        getattr(store, kind)()
        return kind
    if kind == "open":
        no, answer = told(lambda: store.open(*given))
        partition, name, header = map(shown, given)
        return f"open {partition} {name} header {header}: " + (no or "ok, handle %d, size %d" % answer)
    if kind == "read":
        number, offset, length = given
        area = bytearray([FILL] * length)
        no, _ = told(lambda: store.read(number, offset, area))
        kept = area.count(FILL) if no else 0
        return f"read {number} at {offset} of {length}: {no or 'ok'}, area {shown(area)}, kept {kept}"
    if kind in ("plain", "SYNC"):
        number, offset, x = given
        no, _ = told(lambda: store.write(number, offset, x, kind == "SYNC"))
        return f"{kind} write {number} at {offset} of {shown(x)}: {no or 'ok'}"
    if kind == "resize":
        no, _ = told(lambda: store.resize(*given))
        return "resize %d to %d: " % given + (no or "ok")
    if kind in ("sync", "close"):
        no, _ = told(lambda: getattr(store, kind)(*given))
        return f"{kind} {given[0]}: {no or 'ok'}"
    if kind in ("remove", "remove_partition"):
        no, _ = told(lambda: getattr(store, kind)(*given))
        return f"{kind.replace('_', ' ')} {' '.join(map(shown, given))}: {no or 'ok'}"
    if kind in ("scan", "look"):
        *names, length = given
        area = bytearray([FILL] * length)
        no, count = told(lambda: getattr(store, kind)(*names, area))
        start = f"{kind} {' '.join(map(shown, names))} of {length}: "
        if no:
            return start + f"{no}, kept {area.count(FILL)}"
        return start + f"ok {count}, {shown(area[:count])}, kept {area[count:].count(FILL)}"
    if kind == "crash_write":
        generation, offset, x, flags = given
        store.crash_write(generation, offset, x, [flag == "1" for flag in flags])
        return f"crash write {generation} at {offset} of {shown(x)} chosen {flags or '-'}"
    if kind == "crash_resize":
        store.crash_resize(*given)
        return "crash resize %d to %d" % given
    raise ValueError(kind)


P16 = b"partition-16_ABz"
P17 = b"partition-16_ABz0"
N16 = b"\x00\xff name of 16 by"
N17 = b"\x00\xff name of 17 byt"
H64 = bytes([0x48] * 64)
H65 = bytes([0x48] * 65)
W256 = bytes([0x77] * 256)
W257 = bytes([0x77] * 257)

NAMES = [
    ("reset",),
    ("open", P16, b"a", b""),
    ("open", P17, b"a", b""),
    ("open", b"", b"a", b""),
    ("open", b"a b", b"a", b""),
    ("open", b"a/b", b"a", b""),
    ("open", b"a\x80", b"a", b""),
    ("open", b":", b"a", b""),
    ("open", b"@", b"a", b""),
    ("open", b"[", b"a", b""),
    ("open", b"`", b"a", b""),
    ("open", b"{", b"a", b""),
    ("open", b"", N17, b""),
    ("open", b"", b"a", H65),
    ("open", b"-09AZ_az", b"", b""),
    ("open", b"-09AZ_az", N16, H64),
    ("open", b"-09AZ_az", N17, b""),
    ("open", b"-09AZ_az", b"h", H65),
    ("open", b"-09AZ_az", N16, H65),
    ("open", b"-09AZ_az", N16, b"HD"),
    ("look", b"-09AZ_az", N16, 1016),
    ("scan", b"-09AZ_az", 136),
    ("scan", b"-09az_az", 136),
    ("scan", P16, 136),
    ("scan", P17, 135),
    ("scan", b"", 135),
    ("scan", b"", 136),
    ("scan", b"a b", 136),
    ("look", P16, b"a", 1016),
    ("remove", P16, b"a"),
    ("remove_partition", P16),
    ("remove", b"-09AZ_az", N16),
    ("scan", b"-09AZ_az", 136),
]

ORDER = [
    ("reset",),
    ("open", b"p", b"b", b""),
    ("open", b"p", b"ab", b""),
    ("open", b"p", b"\xff", b""),
    ("open", b"p", b"a", b""),
    ("open", b"p", b"a\xff", b""),
    ("open", b"p", b"", b""),
    ("open", b"p", b"a\x00", b""),
    ("open", b"p", b"\x00", b""),
    ("scan", b"p", 135),
    ("scan", b"p", 136),
    ("scan", b"p", 200),
    ("remove", b"p", b"a"),
    ("scan", b"p", 136),
    ("reset",),
    ("open", b"p", b"8888888888888888", b""),
    ("open", b"p", b"7777777777777777", b""),
    ("open", b"p", b"6666666666666666", b""),
    ("open", b"p", b"5555555555555555", b""),
    ("open", b"p", b"4444444444444444", b""),
    ("open", b"p", b"3333333333333333", b""),
    ("open", b"p", b"2222222222222222", b""),
    ("open", b"p", b"1111111111111111", b""),
    ("scan", b"p", 135),
    ("scan", b"p", 136),
    ("scan", b"p", 200),
    ("reset",),
    ("open", b"p", b"a", b""),
    ("remove", b"p", b"a"),
    ("scan", b"p", 136),
    ("remove_partition", b"p"),
    ("scan", b"p", 136),
]

HANDLES = [
    ("reset",),
    ("open", b"p", b"a", b"HD"),
    ("open", b"p", b"a", b"HD"),
    ("open", b"p", b"a", b"HD"),
    ("open", b"p", b"a", b"HD"),
    ("open", b"p", b"a", b"HD"),
    ("open", b"p", b"a", b"HD"),
    ("open", b"p", b"a", b"HD"),
    ("open", b"p", b"a", b"HD"),
    ("open", b"p", b"a", b"HD"),
    ("open", b"p", b"a", H65),
    ("open", b"", b"a", b"HD"),
    ("open", b"q", b"a", b"HD"),
    ("close", 3),
    ("close", 3),
    ("open", b"", b"a", b"HD"),
    ("open", b"p", b"a", b"HD"),
    ("open", b"p", b"a", b"HD"),
    ("read", 3, 0, 0),
    ("read", 8, 0, 0),
    ("close", 8),
    ("close", 0),
    ("open", b"p", b"a", b"HD"),
    ("close", MOST),
]

PARTITIONS = [
    ("reset",),
    ("open", b"a", b"x", b""),
    ("open", b"b", b"x", b""),
    ("open", b"c", b"x", b""),
    ("open", b"", b"x", b""),
    ("open", b"c d", b"x", b""),
    ("open", b"d", b"x", b""),
    ("open", b"e", b"x", b""),
    ("open", b"", b"x", b""),
    ("open", b"c d", b"x", b""),
    ("open", P17, b"x", b""),
    ("open", b"d", b"y", b""),
    ("remove", b"a", b"x"),
    ("open", b"e", b"x", b""),
    ("remove_partition", b"a"),
    ("open", b"e", b"x", b""),
    ("scan", b"a", 136),
    ("scan", b"d", 136),
    ("scan", b"e", 136),
]

FILES = [
    ("reset",),
    ("open", b"a", b"1", b""),
    ("open", b"a", b"2", b""),
    ("open", b"a", b"3", b""),
    ("open", b"a", b"4", b""),
    ("open", b"b", b"1", b""),
    ("open", b"b", b"2", b""),
    ("open", b"b", b"3", b""),
    ("open", b"b", b"4", b""),
    ("restart",),
    ("open", b"a", b"5", b""),
    ("open", b"c", b"1", b""),
    ("scan", b"c", 136),
    ("open", b"", b"1", b""),
    ("open", b"a", b"4", b""),
    ("remove", b"b", b"2"),
    ("open", b"a", b"5", b""),
    ("open", b"a", b"6", b""),
    ("remove_partition", b"b"),
    ("open", b"c", b"1", b""),
    ("scan", b"a", 136),
    ("scan", b"c", 136),
]

WRITES = [
    ("reset",),
    ("open", b"p", b"a", b"HD"),
    ("plain", 0, 1014, b"X"),
    ("plain", 0, 1013, b"X"),
    ("read", 0, 0, 1014),
    ("look", b"p", b"a", 1016),
    ("open", b"p", b"b", b"HD"),
    ("plain", 1, 1015, b""),
    ("plain", 1, 1014, b""),
    ("read", 1, 0, 1014),
    ("open", b"p", b"c", b"HD"),
    ("plain", 2, 0, W256),
    ("plain", 2, 758, W256),
    ("plain", 2, 759, W256),
    ("plain", 2, 0, W257),
    ("plain", 2, 5000, W257),
    ("SYNC", 2, MOST, W257),
    ("plain", 2, MOST, b"X"),
    ("plain", 2, MOST, b""),
    ("plain", 2, MOST - 1, b""),
    ("SYNC", 2, MOST - 2, b"XYZ"),
    ("plain", 9, MOST, W257),
    ("SYNC", MOST, MOST, W257),
    ("read", 2, 0, 1014),
    ("open", b"p", b"d", b""),
    ("SYNC", 3, 1016, b"X"),
    ("SYNC", 3, 1015, b"X"),
    ("look", b"p", b"d", 1016),
    ("open", b"p", b"e", H64),
    ("SYNC", 4, 952, b"X"),
    ("SYNC", 4, 951, b"X"),
    ("look", b"p", b"e", 1100),
]

PENDING = [
    ("reset",),
    ("open", b"p", b"a", b"HD"),
    ("plain", 0, 0, b"ABC"),
    ("plain", 0, 6, b"X"),
    ("read", 0, 0, 7),
    ("plain", 0, 1, b"yz"),
    ("plain", 0, 2, b""),
    ("read", 0, 0, 7),
    ("look", b"p", b"a", 1016),
    ("SYNC", 0, 4, b"S"),
    ("read", 0, 0, 7),
    ("look", b"p", b"a", 1016),
    ("SYNC", 0, 1, b"T"),
    ("look", b"p", b"a", 1016),
    ("SYNC", 0, 9, b""),
    ("read", 0, 0, 9),
    ("look", b"p", b"a", 1016),
    ("SYNC", 0, 1014, b"U"),
    ("look", b"p", b"a", 1016),
    ("open", b"p", b"a", b""),
    ("read", 1, 0, 9),
]

READS = [
    ("reset",),
    ("open", b"p", b"a", b"HD"),
    ("plain", 0, 0, b"ABC"),
    ("read", 0, 0, 3),
    ("read", 0, 1, 2),
    ("read", 0, 2, 2),
    ("read", 0, 0, 4),
    ("read", 0, 3, 0),
    ("read", 0, 4, 0),
    ("read", 0, MOST, 1),
    ("read", 0, MOST, 0),
    ("read", 0, MOST - 1, 0),
    ("read", 0, MOST - 2, 0),
    ("read", 0, MOST - 2, 1),
    ("read", 0, MOST - 3, 1),
    ("read", 9, MOST, 5),
    ("read", MOST, 0, 0),
    ("resize", 0, 1014),
    ("read", 0, 0, 1014),
    ("read", 0, 0, 1015),
    ("read", 0, 0, 1100),
    ("open", b"p", b"b", b""),
    ("read", 1, 0, 0),
    ("read", 1, 1, 0),
    ("read", 1, MOST, 0),
    ("read", 1, MOST, 1),
]

RESIZES = [
    ("reset",),
    ("open", b"p", b"a", b"HD"),
    ("SYNC", 0, 0, b"ABC"),
    ("resize", 0, 0),
    ("read", 0, 0, 0),
    ("read", 0, 0, 1),
    ("look", b"p", b"a", 1016),
    ("resize", 0, 4),
    ("read", 0, 0, 4),
    ("sync", 0),
    ("look", b"p", b"a", 1016),
    ("resize", 0, 1015),
    ("resize", 0, MOST),
    ("resize", 0, MOST - 1),
    ("resize", 9, MOST),
    ("sync", 9),
    ("resize", 0, 1014),
    ("read", 0, 0, 1014),
    ("sync", 0),
    ("look", b"p", b"a", 1016),
    ("open", b"p", b"a", b""),
    ("resize", 1, 1),
    ("plain", 1, 0, b"Z"),
    ("read", 1, 0, 1),
    ("read", 0, 0, 1),
    ("sync", 1),
    ("look", b"p", b"a", 1016),
    ("read", 0, 1013, 1),
    ("SYNC", 0, 2, b"Y"),
    ("look", b"p", b"a", 1016),
    ("read", 1, 0, 2),
    ("sync", 0),
    ("look", b"p", b"a", 1016),
    ("sync", 1),
    ("look", b"p", b"a", 1016),
    ("open", b"p", b"h", H64),
    ("resize", 2, 952),
    ("resize", 2, 953),
    ("read", 2, 952, 0),
]

REMOVED = [
    ("reset",),
    ("open", b"p", b"a", b"HD"),
    ("SYNC", 0, 0, b"ABC"),
    ("remove", b"p", b"a"),
    ("read", 0, 0, 3),
    ("SYNC", 0, 1, b"Z"),
    ("read", 0, 0, 3),
    ("SYNC", 0, 5, b""),
    ("read", 0, 0, 5),
    ("sync", 0),
    ("SYNC", 0, 1014, b"Z"),
    ("SYNC", 0, 0, W257),
    ("plain", 0, 0, b"Y"),
    ("resize", 0, 2),
    ("read", 0, 0, 2),
    ("open", b"p", b"a", b"NEW"),
    ("look", b"p", b"a", 1016),
    ("SYNC", 0, 0, b"X"),
    ("sync", 0),
    ("look", b"p", b"a", 1016),
    ("read", 0, 0, 2),
    ("SYNC", 1, 0, b"n"),
    ("look", b"p", b"a", 1016),
    ("remove_partition", b"p"),
    ("SYNC", 1, 1, b"m"),
    ("read", 1, 0, 2),
    ("sync", 1),
    ("close", 0),
    ("sync", 0),
    ("close", 1),
]

LOOKS = [
    ("reset",),
    ("open", b"p", b"a", b"HD"),
    ("remove", P17, b"a"),
    ("remove", b"", N17),
    ("remove", b"", b"a"),
    ("remove", b"a b", b"a"),
    ("remove", b"q", b"a"),
    ("remove", b"p", b"b"),
    ("look", P17, b"a", 1015),
    ("look", b"p", N17, 1015),
    ("look", b"", b"a", 1015),
    ("look", b"p", b"a", 1015),
    ("look", b"p", b"a", 0),
    ("look", b"", b"a", 1016),
    ("look", b"q", b"a", 1016),
    ("look", b"p", b"b", 1016),
    ("look", b"p", b"a", 1016),
    ("look", b"p", b"a", 1100),
    ("open", b"q", b"a", b"Q"),
    ("open", b"q", b"b", b"R"),
    ("remove", b"p", b"a"),
    ("remove", b"p", b"a"),
    ("look", b"p", b"a", 1016),
    ("look", b"q", b"a", 1016),
    ("remove_partition", P17),
    ("remove_partition", b""),
    ("remove_partition", b"a b"),
    ("remove_partition", b"Q"),
    ("open", b"r", b"a", b"S"),
    ("remove_partition", b"q"),
    ("remove_partition", b"q"),
    ("look", b"q", b"a", 1016),
    ("remove", b"q", b"b"),
    ("look", b"r", b"a", 1016),
    ("open", b"q", b"b", b"T"),
    ("scan", b"q", 136),
    ("remove_partition", b"p"),
]

CRASH_WRITES = [
    ("reset",),
    ("open", b"p", b"a", b"HD"),
    ("crash_write", 0, 0, b"ABC", "000"),
    ("look", b"p", b"a", 1016),
    ("crash_write", 0, 0, b"ABC", "010"),
    ("look", b"p", b"a", 1016),
    ("crash_write", 0, 0, b"XYZ", "101"),
    ("look", b"p", b"a", 1016),
    ("crash_write", 0, 6, b"QRS", "010"),
    ("look", b"p", b"a", 1016),
    ("crash_write", 0, 0, b"abc", "1"),
    ("look", b"p", b"a", 1016),
    ("crash_write", 0, 1, b"d", "0111"),
    ("crash_write", 0, 100, b"", "1"),
    ("crash_write", 0, 100, b"efg", ""),
    ("crash_write", 1, 0, b"efg", "111"),
    ("crash_write", MOST, 0, b"efg", "111"),
    ("crash_write", 0, 1012, b"efg", "100"),
    ("crash_write", 0, MOST, b"e", "1"),
    ("crash_write", 0, MOST - 2, b"efg", "111"),
    ("look", b"p", b"a", 1016),
    ("crash_write", 0, 3, W257, "101"),
    ("look", b"p", b"a", 1016),
    ("crash_write", 0, 1011, b"efg", "100"),
    ("look", b"p", b"a", 1016),
    ("crash_write", 0, 1011, b"hij", "011"),
    ("look", b"p", b"a", 1016),
    ("read", 0, 0, 1),
    ("remove", b"p", b"a"),
    ("open", b"p", b"a", b"N"),
    ("crash_write", 0, 0, b"k", "1"),
    ("look", b"p", b"a", 1016),
    ("crash_write", 1, 0, b"k", "1"),
    ("look", b"p", b"a", 1016),
]

CRASH_RESIZES = [
    ("reset",),
    ("open", b"p", b"a", b"HD"),
    ("SYNC", 0, 0, b"ABC"),
    ("crash_resize", 0, 2),
    ("look", b"p", b"a", 1016),
    ("crash_resize", 0, 0),
    ("look", b"p", b"a", 1016),
    ("crash_resize", 0, 4),
    ("look", b"p", b"a", 1016),
    ("crash_resize", 0, 1015),
    ("crash_resize", 0, MOST),
    ("crash_resize", 0, MOST - 1),
    ("crash_resize", 1, 0),
    ("look", b"p", b"a", 1016),
    ("crash_resize", 0, 1014),
    ("look", b"p", b"a", 1016),
    ("open", b"p", b"a", b""),
    ("read", 0, 0, 3),
    ("sync", 0),
    ("look", b"p", b"a", 1016),
    ("remove", b"p", b"a"),
    ("open", b"p", b"a", b"N"),
    ("crash_resize", 0, 3),
    ("look", b"p", b"a", 1016),
]

RESTARTS = [
    ("reset",),
    ("open", b"p", b"a", b"HD"),
    ("SYNC", 0, 0, b"A"),
    ("plain", 0, 1, b"B"),
    ("open", b"p", b"b", b""),
    ("restart",),
    ("read", 0, 0, 0),
    ("plain", 0, 0, b"C"),
    ("resize", 0, 0),
    ("sync", 1),
    ("close", 1),
    ("scan", b"p", 136),
    ("look", b"p", b"a", 1016),
    ("open", b"p", b"a", b""),
    ("open", b"p", b"c", b""),
    ("read", 2, 0, 1),
    ("crash_write", 2, 0, b"D", "1"),
    ("look", b"p", b"c", 1016),
    ("open", b"p", b"d", b""),
    ("crash_write", 3, 0, b"G", "1"),
    ("look", b"p", b"d", 1016),
    ("restart",),
    ("restart",),
    ("open", b"p", b"c", b""),
    ("reset",),
    ("read", 5, 0, 0),
    ("scan", b"p", 136),
    ("look", b"p", b"a", 1016),
    ("crash_write", 0, 0, b"E", "1"),
    ("open", b"p", b"c", b"new"),
    ("crash_write", 0, 0, b"F", "1"),
    ("look", b"p", b"c", 1016),
    ("scan", b"p", 136),
]

LISTS = [
    ("names and headers: 16, 16 and 64 bytes", NAMES),
    ("scans: names in order, areas from 136 bytes on", ORDER),
    ("eight handles", HANDLES),
    ("four partitions", PARTITIONS),
    ("eight files", FILES),
    ("writes: 256 bytes, up to place 1,016", WRITES),
    ("plain bytes pend, SYNC bytes are stored", PENDING),
    ("reads up to the end", READS),
    ("resizes, syncs and two handles of a file", RESIZES),
    ("a handle of a removed file", REMOVED),
    ("removals and looks", LOOKS),
    ("crash writes", CRASH_WRITES),
    ("crash resizes", CRASH_RESIZES),
    ("restarts and resets", RESTARTS),
]

store = Store()
for title, calls in LISTS:
    print(title)
    for call in calls:
        print(line(store, *call))
