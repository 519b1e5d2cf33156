#!/usr/bin/env python3
"""Releases that grow, and what a check of them costs:  bench/shapes.py PROGRAM [SHAPE N..]

Writes the class files of each shape in each size, checks them with the program, and prints a line with the last line of
the report, the processor time of the user and of the system, and the peak memory; then how time grows from one size to
the next, as an exponent. Without a shape, those that stand in SIZES. Of a shape that names long texts, it says too how many
times the time is that of the same with texts of 20 bytes.
"""
import math
import os
import resource
import struct
import sys
import tempfile

PUBLIC, PROTECTED, STATIC, SUPER, INTERFACE, ABSTRACT = 1, 4, 8, 32, 512, 1024
OBJECT = "java/lang/Object"
INIT = (PUBLIC, "<init>", "()V")


def class_file(name, above=OBJECT, interfaces=(), fields=(), methods=(INIT,), flags=PUBLIC | SUPER, permitted=()):
    """The bytes of a class file of major version 61 (JVMS 4). Members are flags, name, descriptor and, where there is one, signature."""
    entries, numbers = [], {}

    def entry(key, data):
        if key not in numbers:
            entries.append(data)
            numbers[key] = len(entries)
        return numbers[key]

    def utf8(text):
        return entry(text, struct.pack(">BH", 1, len(text)) + text.encode())

    def class_entry(text):
        return entry(("class", text), struct.pack(">BH", 7, utf8(text)))

    def counted(parts):
        return struct.pack(">H", len(parts)) + b"".join(parts)

    def member(flags, name, descriptor, *signature):
        attributes = [struct.pack(">HIH", utf8("Signature"), 2, utf8(text)) for text in signature]
        return struct.pack(">HHH", flags, utf8(name), utf8(descriptor)) + counted(attributes)

    body = struct.pack(">HHH", flags, class_entry(name), class_entry(above) if above else 0)
    body += counted([struct.pack(">H", class_entry(i)) for i in interfaces])
    for members in fields, methods:
        body += counted([member(*parts) for parts in members])
    names = counted([struct.pack(">H", class_entry(p)) for p in permitted])
    body += counted([struct.pack(">HI", utf8("PermittedSubclasses"), len(names)) + names] if permitted else [])
    return struct.pack(">IHHH", 0xCAFEBABE, 0, 61, len(entries) + 1) + b"".join(entries) + body


# Each shape gives the sides (O, N or both), the name and the class file of each class, for a size.

def hidden_pairs(n):
    """n hidden classes that each lose a hidden superclass, exposed by a class with 2n public methods"""
    members = [INIT]
    for i in range(n):
        members += [(PUBLIC | STATIC, f"s{i}", f"()Lp/S{i:05};"), (PUBLIC | STATIC, f"b{i}", f"(Lp/B{i:05};)V")]
        yield "ON", f"p/B{i:05}", class_file(f"p/B{i:05}", flags=SUPER)
        yield "O", f"p/S{i:05}", class_file(f"p/S{i:05}", f"p/B{i:05}", flags=SUPER)
        yield "N", f"p/S{i:05}", class_file(f"p/S{i:05}", flags=SUPER)
    yield "ON", "p/A", class_file("p/A", methods=members)


def hidden_members(n):
    """a hidden class that loses a hidden superclass, exposed by n protected methods each"""
    members = [INIT]
    for i in range(n):
        members += [(PROTECTED | STATIC, f"s{i:05}", "()Lp/S;"), (PROTECTED | STATIC, f"b{i:05}", "(Lp/B;)V")]
    yield "ON", "p/B", class_file("p/B", flags=SUPER)
    yield "O", "p/S", class_file("p/S", "p/B", flags=SUPER)
    yield "N", "p/S", class_file("p/S", flags=SUPER)
    yield "ON", "p/A", class_file("p/A", methods=members)


def hidden_seats(n):
    """the same, exposed by one protected method each, of which n subclasses have the one, and the last in order has both"""
    yield "ON", "p/B", class_file("p/B", flags=SUPER)
    yield "O", "p/S", class_file("p/S", "p/B", flags=SUPER)
    yield "N", "p/S", class_file("p/S", flags=SUPER)
    yield "ON", "p/A", class_file("p/A", methods=[INIT, (PROTECTED | STATIC, "s", "()Lp/S;")])
    yield "ON", "p/Z", class_file("p/Z", "p/A", methods=[INIT, (PROTECTED | STATIC, "b", "(Lp/B;)V")])
    for i in range(n):
        yield "ON", f"p/C{i:05}", class_file(f"p/C{i:05}", "p/A")


def hidden_pairs_and_seats(n):
    """n hidden classes that each lose a hidden superclass, exposed by protected methods, and n subclasses of the class that has these"""
    members = [INIT]
    for i in range(n):
        members += [(PROTECTED | STATIC, f"s{i}", f"()Lp/S{i:05};"), (PROTECTED | STATIC, f"b{i}", f"(Lp/B{i:05};)V")]
        yield "ON", f"p/B{i:05}", class_file(f"p/B{i:05}", flags=SUPER)
        yield "O", f"p/S{i:05}", class_file(f"p/S{i:05}", f"p/B{i:05}", flags=SUPER)
        yield "N", f"p/S{i:05}", class_file(f"p/S{i:05}", flags=SUPER)
        yield "ON", f"p/C{i:05}", class_file(f"p/C{i:05}", "p/Z")
    yield "ON", "p/Z", class_file("p/Z", methods=members)


def fat_interfaces(n, size=65535):
    """a class that names one interface of 65,535 bytes n times"""
    yield "ON", "p/A", class_file("p/A", interfaces=["a" * size] * n)


def fat_permits(n, size=65535):
    """an interface that permits one name of 65,535 bytes n times"""
    yield "ON", "p/I", class_file("p/I", methods=(), flags=PUBLIC | INTERFACE | ABSTRACT, permitted=["a" * size] * n)


def fat_fields(n, size=65535):
    """a class with n fields that share one descriptor of 65,535 bytes"""
    text = "L" + "a" * (size - 2) + ";"
    yield "ON", "p/A", class_file("p/A", fields=[(PUBLIC, f"f{i:05}", text) for i in range(n)])


def fat_methods(n, size=65535):
    """a class with n methods that share one descriptor of 65,535 bytes, of up to 200 parameters"""
    some = "Laaaa;" * min(200, (size - 6) // 6)
    text = "(" + some + "L" + "b" * (size - 5 - len(some)) + ";)V"
    yield "ON", "p/A", class_file("p/A", methods=[INIT] + [(PUBLIC, f"m{i:05}", text) for i in range(n)])


def fat_turns(n, size=65535):
    """a class that names two interfaces of 65,535 bytes in turn, n times, with n fields that have two such descriptors in turn"""
    names = ["a" * (size - 1) + last for last in "bc"]
    texts = [f"L{name[2:]};" for name in names]
    fields = [(PUBLIC, f"f{i:05}", texts[i % 2]) for i in range(n)]
    yield "ON", "p/A", class_file("p/A", interfaces=[names[i % 2] for i in range(n)], fields=fields)


def signed_methods(n):
    """a class with n methods, each of which has another generic signature now; with --signatures"""
    for side, text in ("O", "a"), ("N", "b"):
        methods = [(PUBLIC, f"m{i:05}", "(Ljava/util/List;)V", f"(Ljava/util/List<L{text}{i:05};>;)V") for i in range(n)]
        yield side, "p/A", class_file("p/A", methods=[INIT] + methods)


def wide_base(n):
    """an interface with n methods that names n interfaces with one each; it and they have one more now; with --warn"""
    face = PUBLIC | INTERFACE | ABSTRACT
    above = [f"p/I{i:05}" for i in range(n)]
    for side, more in ("O", []), ("N", [(PUBLIC | ABSTRACT, "new", "()V")]):
        for i, name in enumerate(above):
            yield side, name, class_file(name, methods=[(PUBLIC | ABSTRACT, f"m{i:05}", "()V")] + more, flags=face)
        keys = [(PUBLIC | ABSTRACT, f"k{i:05}", "()V") for i in range(n)]
        yield side, "p/B", class_file("p/B", interfaces=above, methods=keys + more, flags=face)


def dropped_interfaces(n):
    """n classes, each with an interface of its own, of which each second one is left; with --dropped"""
    face = PUBLIC | INTERFACE | ABSTRACT
    for i in range(n):
        yield "ON", f"p/I{i:05}", class_file(f"p/I{i:05}", methods=(), flags=face)
        yield "O", f"p/A{i:05}", class_file(f"p/A{i:05}", interfaces=[f"p/I{i:05}"])
        yield "N", f"p/A{i:05}", class_file(f"p/A{i:05}", interfaces=[f"p/I{i:05}"] if i % 2 else [])


def dropped_of_many(n):
    """n classes that each name the same 2n interfaces, of which each leaves each second one; with --dropped"""
    face = PUBLIC | INTERFACE | ABSTRACT
    above = [f"p/I{i:05}" for i in range(2 * n)]
    for name in above:
        yield "ON", name, class_file(name, methods=(), flags=face)
    for i in range(n):
        yield "O", f"p/A{i:05}", class_file(f"p/A{i:05}", interfaces=above)
        yield "N", f"p/A{i:05}", class_file(f"p/A{i:05}", interfaces=above[i % 2::2])


def dropped_chain(n):
    """n classes that each name the same 2n interfaces, a chain that comes apart, and one of their own, and leave all but the last; with --dropped"""
    face = PUBLIC | INTERFACE | ABSTRACT
    chain = [f"p/I{i:05}" for i in range(2 * n)]
    for i, name in enumerate(chain):
        yield "O", name, class_file(name, interfaces=chain[max(i - 1, 0):i], methods=(), flags=face)
        yield "N", name, class_file(name, methods=(), flags=face)
    for i in range(n):
        yield "ON", f"p/J{i:05}", class_file(f"p/J{i:05}", methods=(), flags=face)
        yield "O", f"p/A{i:05}", class_file(f"p/A{i:05}", interfaces=chain + [f"p/J{i:05}"])
        yield "N", f"p/A{i:05}", class_file(f"p/A{i:05}", interfaces=chain[-1:])


SIZES = [(hidden_pairs, (1000, 2000, 4000)), (hidden_members, (1000, 4000, 16000)), (hidden_seats, (1000, 4000, 16000)),
         (hidden_pairs_and_seats, (250, 500, 1000)), (fat_interfaces, (16000, 65535)), (fat_permits, (16000, 65535)),
         (fat_fields, (15000, 60000)), (fat_methods, (15000, 60000)), (fat_turns, (15000, 60000)),
         (signed_methods, (7500, 15000, 30000)), (wide_base, (500, 1000, 2000)), (dropped_interfaces, (2000, 4000, 8000)), (dropped_of_many, (100, 200, 400)), (dropped_chain, (100, 200, 400))]
SHAPES = {shape.__name__: shape for shape, _ in SIZES}
# those that name long texts
FAT = (fat_interfaces, fat_permits, fat_fields, fat_methods, fat_turns)
# what a check of the shape is asked for besides
ASKED = {signed_methods: ["--signatures"], wide_base: ["--warn"], dropped_interfaces: ["--dropped"], dropped_of_many: ["--dropped"], dropped_chain: ["--dropped"]}


def written(shape, sizes, folder):
    """Writes the platform and the releases; gives the words that name them."""
    files = [("P", OBJECT, class_file(OBJECT, None))] + list(shape(*sizes))
    words = []
    for side, option in ("P", "--platform"), ("O", "--old"), ("N", "--new"):
        words += [option, os.path.join(folder, side)]
        for sides, name, data in files:
            if side in sides:
                path = os.path.join(folder, side, name + ".class")
                os.makedirs(os.path.dirname(path), exist_ok=True)
                with open(path, "wb") as file:
                    file.write(data)
    return words


def checked(program, words, folder):
    """Runs a check; gives the last line of what it says, its seconds of processor time and its peak in megabytes."""
    out = os.path.join(folder, "report")
    to = os.open(out, os.O_CREAT | os.O_WRONLY)
    child = os.posix_spawn(program, [program, "check", *words], os.environ,
                           file_actions=[(os.POSIX_SPAWN_DUP2, to, 1), (os.POSIX_SPAWN_DUP2, to, 2)])
    os.close(to)
    _, _, used = os.wait4(child, 0)
    with open(out, "rb") as file:
        lines = file.read().decode().splitlines() or ["nothing"]
    return lines[-1], used.ru_utime + used.ru_stime, used.ru_maxrss / 1024


def measured(program, shape, *sizes):
    """The same of a shape of these sizes."""
    with tempfile.TemporaryDirectory() as folder:
        return checked(program, written(shape, sizes, folder) + ASKED.get(shape, []), folder)


def main(words):
    if not words or words[1:] and words[1] not in SHAPES:
        sys.exit("usage: bench/shapes.py PROGRAM [SHAPE N..]\n" + "\n".join(f"  {name}: {shape.__doc__}" for name, shape in SHAPES.items()))
    program = os.path.abspath(words[0])
    # a program that takes more memory than this is told that there is none
    resource.setrlimit(resource.RLIMIT_AS, (6 << 30, 6 << 30))
    for shape, sizes in [(SHAPES[words[1]], [int(word) for word in words[2:]])] if words[1:] else SIZES:
        before = None
        for size in sizes:
            line, seconds, peak = measured(program, shape, size)
            grown = f", exponent {math.log(seconds / before[1]) / math.log(size / before[0]):.2f}" if before else ""
            short = f", {seconds / max(measured(program, shape, size, 20)[1], 0.001):.1f} times a short text" if shape in FAT else ""
            print(f"{shape.__name__} {size}: {line}: {seconds:.2f} s, {peak:.0f} MB{grown}{short}", flush=True)
            before = size, max(seconds, 0.001)


if __name__ == "__main__":
    main(sys.argv[1:])
