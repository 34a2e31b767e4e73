"""The grammar of docs/LANGUAGE.md and the first rules of its check, written a second time, for the tools that judge a built program.

It is a reader's version: a table of the words, and no thought of speed. `first_fault` gives the answer to a text of either version,
`flattened` the declarations that are left when each instance of a module is replaced by the module's body, or the first rule on modules
that is broken, and `ports` and `fault_of_names_and_ports` what the check says of names and ports."""
import re

FUNCTION = {**dict.fromkeys("num show neg abs nonneg len first second swap twin size sum".split(), ""),
            **dict.fromkeys("add mul div rem div_into".split(), "K"), "field": "N64", "prefix": "WORD", "suffix": "WORD"}
PREDICATE = {**dict.fromkeys("even odd blank numeric".split(), ""), **dict.fromkeys("lt le gt ge eq multiple".split(), "K"),
             **dict.fromkeys("has starts is".split(), "WORD"), "field_is": "N64 WORD"}
WORDS = {"F": FUNCTION, "P": PREDICATE, "X": dict.fromkeys("words flat twice".split(), ""),
         "O": dict.fromkeys("sum sum_nonneg count collect".split(), ""), "R": dict.fromkeys("sum max min".split(), ""),
         "BASE": dict.fromkeys("num text".split(), ""), "MADE": {"num": "K", "text": "WORD"},
         "ORDER": dict.fromkeys("shutdown abort".split(), ""), "JOIN": dict.fromkeys("merge concat".split(), ""),
         "POLICY": dict.fromkeys("backpressure drop_head drop_tail drop_buffer drop_new fail".split(), "")}
SOURCE = {"lines": "FILE", "range": "K K", "empty": "BASE", "failed": "BASE"}
SINK = {"lines": "FILE", "head": "FILE", "last": "FILE", "ignore": ""}
STEP = {"map": "F", "filter": "P", "filter_not": "P", "take_while": "P", "drop_while": "P", "take": "N64", "drop": "N64", "limit": "N64",
        "grouped": "N32", "map_concat": "X", "fold": "O", "scan": "O", "reduce": "R"}
STAGE = {**STEP, "buffer": "N32 POLICY", "recover": "MADE", "valve": "NAME", "trip": "NAME ORDER N32", "plug": "NAME", "custom": "NAME",
         "group_by": "N32 F each NAME merge", "split_when": "P each NAME JOIN", "split_after": "P each NAME JOIN", "merge": "N32",
         "concat": "N32", "interleave": "N32 N32", "merge_sorted": "", "zip": "", "broadcast": "N32", "balance": "N32",
         "partition": "N32 F", "unzip": ""}
CUSTOMS = {"alternate": (1, 2), "rude": (1, 1)}
HUBS = {"merge_hub": "N32 N32", "broadcast_hub": "N32 N32"}
SUBSTREAMS = {"group_by", "split_when", "split_after"}
FIXED = {"each", "merge", "->", "="}
NO_DECIDER = {"take", "drop", "limit", "grouped"}
BAD_VERSION, BAD_LINE, BAD_NAME, BAD_NUMBER, TOO_LONG, TOO_MANY = range(1, 7)
MOST = {"switch": 64, "chain": 256, "node": 1024, "wire": 2048, "module": 64, "use": 256}
MOST_PORTS = 64
INSIDE, OUTSIDE = ("module", "switch", "chain", "default"), ("end", "in", "out")


class BadLine(Exception):
    """The words of a line are no declaration."""


def places(pattern, words):
    """Takes the words of a pattern off the front of a list; returns the places of names, files and numbers, each with its word."""
    found = []
    for place in pattern.split():
        if not words:
            raise BadLine
        word = words.pop(0)
        if place in WORDS:
            if word not in WORDS[place]:
                raise BadLine
            found += places(WORDS[place][word], words)
        elif place in FIXED:
            if word != place:
                raise BadLine
        elif place == "PORT":
            name, point, port = word.partition(".")
            if not point:
                raise BadLine
            found += [("NAME", name), ("N32", port)]
        elif place == "PLACE":
            name, point, port = word.partition(".")
            if not point:
                raise BadLine
            found += [("NAME", name), ("NAME" if re.match(r"[A-Za-z]", port) else "N32", port)]
        else:
            found.append((place, word))
    return found


def kind(table, words):
    """Takes a kind with its decider off the front of a list, and returns its places."""
    name = words.pop(0) if words else ""
    if name not in table:
        raise BadLine
    found = places(table[name], words)
    if table is not SOURCE and table is not SINK and words[:1] == ["decider"] and name in STEP and name not in NO_DECIDER:
        if words[1:2] and words[1] in ("stop", "resume", "restart"):
            del words[:2]
        else:
            raise BadLine
    return found


def attributes(words):
    """Takes what a module or a use sets off the front of a list, and returns its places."""
    found = []
    if words[:1] == ["async"]:
        del words[0]
        found = places("N32", words)
    if words[:1] == ["decider"]:
        if words[1:2] and words[1] in ("stop", "resume", "restart"):
            del words[:2]
        else:
            raise BadLine
    return found


def module_line(first, words):
    """Returns the places of a declaration that only version 2 has."""
    if first == "default":
        if not words:
            raise BadLine
        return attributes(words)
    if first == "module":
        return places("NAME", words) + attributes(words)
    if first == "use":
        return places("NAME NAME", words) + attributes(words)
    if first in ("in", "out"):
        return places("NAME = PLACE", words)
    if first == "end":
        return []
    raise BadLine


def declaration(words, version=1):
    """Returns the places of a declaration's words, and how many steps its chain has."""
    words = list(words)
    first = words.pop(0)
    steps = 0
    if first == "switch":
        found = places("NAME", words)
    elif first == "chain":
        found = places("NAME", words) + kind(STEP, words)
        steps = 1
        while words[:1] == ["|"]:
            del words[0]
            found += kind(STEP, words)
            steps += 1
    elif first in ("source", "stage", "sink"):
        found = places("NAME", words) + kind({"source": SOURCE, "stage": STAGE if version == 1 else {**STAGE, **HUBS}, "sink": SINK}[first], words)
    elif first == "wire":
        found = places("PORT -> PORT" if version == 1 else "PLACE -> PLACE", words)
        if words[:1] == ["async"]:
            del words[0]
            if words and not (version == 2 and words[0] == "keep"):
                found += places("N32", words)
            if version == 2 and words[:1] == ["keep"]:
                del words[0]
    elif version == 2:
        found = module_line(first, words)
    else:
        raise BadLine
    if words:
        raise BadLine
    return found, steps


def is_good(place, word):
    """Whether a word may stand at a place."""
    if place == "NAME":
        return re.fullmatch(r"[a-z][a-z0-9_]{0,31}", word) is not None
    if place == "FILE":
        return re.fullmatch(r"[A-Za-z0-9][A-Za-z0-9._-]{0,63}", word) is not None
    if place == "K":
        return re.fullmatch(r"-?[0-9]{1,20}", word) is not None and -(2**63) <= int(word) < 2**63
    if place in ("N32", "N64"):
        return re.fullmatch(r"[0-9]{1,20}", word) is not None and int(word) < 2 ** int(place[1:])
    return True


def is_misplaced(first, counts):
    """Whether a line of version 2 may not stand in the module that is open, or outside of one."""
    if counts.get("open") is not None:
        return first in INSIDE
    return first in OUTSIDE or (first == "default" and counts.get("default", 0) > 0)


def line_fault(words, counts, version=1):
    """Returns the fault of a declaration, or None; counts what it declares."""
    try:
        if version == 2 and is_misplaced(words[0], counts):
            raise BadLine
        found, steps = declaration(words, version)
    except BadLine:
        return BAD_LINE
    for place, word in found:
        if not is_good(place, word):
            return BAD_NAME if place in ("NAME", "FILE") else BAD_NUMBER
    what = "node" if words[0] in ("source", "stage", "sink") else words[0]
    counts[what] = counts.get(what, 0) + 1
    if what in ("module", "end"):
        counts["open"] = 0 if what == "module" else None
    if what in ("in", "out"):
        counts["open"] += 1
        return TOO_MANY if counts["open"] > MOST_PORTS else None
    return TOO_MANY if counts[what] > MOST.get(what, counts[what]) or steps > 32 else None


def first_fault(text):
    """Returns the line and the kind of the first fault of a text, or the declarations of a text that has none, as lists of words."""
    if len(text) > 1048576:
        return (0, TOO_LONG), []
    lines = text.split(b"\n")
    version, counts, declared = 0, {}, []
    for number, line in enumerate(lines[:-1] if lines[-1] == b"" else lines, 1):
        if len(line) > 1024:
            return (number, TOO_LONG), []
        words = re.findall(rb"[!-~]+", line)
        if not words or line.lstrip(b" ").startswith(b"#"):
            continue
        is_plain = all(0x20 <= byte <= 0x7E for byte in line)
        if not version:
            if not is_plain or words not in ([b"streams", b"1"], [b"streams", b"2"]):
                return (number, BAD_VERSION), []
            version = int(words[1])
            continue
        words = [word.decode("latin-1") for word in words]
        fault = line_fault(words, counts, version) if is_plain else BAD_LINE
        if fault:
            return (number, fault), []
        declared.append(words)
    if not version:
        return (0, BAD_VERSION), []
    return ((0, BAD_LINE), []) if counts.get("open") is not None else (None, declared)


class Module:
    """A module: its name, its ports by direction and name in order, and the lines of its body."""

    def __init__(self, name):
        self.name, self.ports, self.body = name, [], []

    def place(self, direction, name):
        """The place that its port of that direction and name stands for, or None."""
        return next((place for way, port, place in self.ports if (way, port) == (direction, name)), None)


def parted(declared):
    """Returns the switches and chains of declarations, their modules, and their own body."""
    top, modules, own, inside = [], [], [], None
    for words in declared:
        if words[0] == "module":
            inside = Module(words[1])
            modules.append(inside)
        elif words[0] == "end":
            inside = None
        elif words[0] in ("in", "out"):
            inside.ports.append((words[0], words[1], words[3]))
        elif words[0] in ("switch", "chain"):
            top.append(words)
        elif words[0] != "default":
            (inside.body if inside else own).append(words)
    return top, modules, own


def ends_of(words):
    """The ends of a wire with their directions: what a wire leaves is an output, and what it enters an input."""
    return [(words[1], "out"), (words[3], "in")]


def as_written(port):
    """A port as a fault names it: a number without leading zeros."""
    return str(int(port)) if port.isdigit() else port


def named_in(body):
    """The nodes and instances of a body, each name with its first line."""
    found = {}
    for words in body:
        if words[0] != "wire":
            found.setdefault(words[1], words)
    return found


def fault_of_place(place, way, names, before):
    """Returns the words of the fault of a place of a body, or None; `before` has the modules that the body may use, the latest last."""
    name, _, port = place.partition(".")
    words = names.get(name)
    if words is None:
        return None
    is_name = not port.isdigit()
    if words[0] != "use":
        return f"13 {name} {port}" if is_name else None
    of = next((it for it in reversed(before) if it.name == words[2]), None)
    is_there = is_name and of is not None and of.place(way, port) is not None
    return None if is_there else f"13 {name} {as_written(port)}"


def bodies_of(modules, own):
    """The bodies of a text, the own first: each with its module, the modules that it may use, and its lines."""
    return [(None, modules, own)] + [(it, modules[:i], it.body) for i, it in enumerate(modules)]


def fault_of_modules(modules, own):
    """Returns the report's words for the first rule on the names of modules, bodies and ports that is broken, or None."""
    bodies = bodies_of(modules, own)
    for it, before, body in bodies:
        if it is not None and it.name in [other.name for other in before]:
            return f"1 {it.name}"
        seen = set()
        for words in body:
            if words[0] != "wire":
                if words[1] in seen:
                    return f"1 {words[1]}"
                seen.add(words[1])
    for _, before, body in bodies:
        for words in body:
            if words[0] == "use" and words[2] not in [other.name for other in before]:
                return f"12 {words[2]}"
    for it, _, body in bodies:
        names = named_in(body)
        places_ = [place for _, _, place in it.ports] if it else []
        for place in places_ + [end for words in body if words[0] == "wire" for end, _ in ends_of(words)]:
            if place.partition(".")[0] not in names:
                return f"2 {place.partition('.')[0]}"
    for it, before, body in bodies:
        names = named_in(body)
        for i, (way, port, place) in enumerate(it.ports if it else []):
            if (way, port) in [other[:2] for other in it.ports[:i]]:
                return f"13 {it.name} {port}"
            fault = fault_of_place(place, way, names, before)
            if fault:
                return fault
        for words in body:
            for place, way in ends_of(words) if words[0] == "wire" else []:
                fault = fault_of_place(place, way, names, before)
                if fault:
                    return fault
    return None


def followed(place, way, body, before):
    """The node and the number that a place of a body stands for, beneath that body."""
    name, _, port = place.partition(".")
    words = named_in(body)[name]
    if words[0] != "use":
        return f"{name}.{as_written(port)}"
    i = max(i for i, it in enumerate(before) if it.name == words[2])
    return f"{name}." + followed(before[i].place(way, port), way, before[i].body, before[:i])


def sizes_of(modules):
    """How many nodes and wires each module comes to."""
    sizes = []
    for it in modules:
        nodes = wires = 0
        for words in it.body:
            if words[0] == "use":
                i = max(i for i, other in enumerate(modules[: len(sizes)]) if other.name == words[2])
                nodes, wires = nodes + sizes[i][0], wires + sizes[i][1]
            elif words[0] == "wire":
                wires += 1
            else:
                nodes += 1
        sizes.append((nodes, wires))
    return sizes


def flat_body(prefix, body, before, sizes):
    """The nodes and wires of a body, each instance replaced in its place."""
    for words in body:
        if words[0] == "use":
            i = max(i for i, it in enumerate(before) if it.name == words[2])
            if sizes[i] != (0, 0):
                yield from flat_body(f"{prefix}{words[1]}.", before[i].body, before[:i], sizes)
        elif words[0] == "wire":
            ends = [prefix + followed(place, way, body, before) for place, way in ends_of(words)]
            yield ["wire", ends[0], "->", ends[1]] + words[4:]
        else:
            yield [words[0], prefix + words[1]] + words[2:]


def flattened(declared):
    """Returns the report's words for the first rule on modules that is broken, or None and the declarations that are left."""
    top, modules, own = parted(declared)
    fault = fault_of_modules(modules, own)
    if fault:
        return fault, []
    sizes = sizes_of(modules + [type("Own", (), {"name": "", "body": own})()])
    if sizes[-1][0] > 1024 or sizes[-1][1] > 2048:
        return "14", []
    return None, top + list(flat_body("", own, modules, sizes))


def ports(words):
    """Returns how many inputs and outputs the node of these words has, or None of a custom stage that is not handed in."""
    if words[0] != "stage":
        return (0, 1) if words[0] == "source" else (1, 0)
    name = words[2]
    if name == "custom":
        return CUSTOMS.get(words[3])
    if name in HUBS:
        return (int(words[4]), 1) if name == "merge_hub" else (1, int(words[4]))
    inputs = int(words[3]) if name in ("merge", "concat", "interleave") else 2 if name in ("merge_sorted", "zip") else 1
    outputs = int(words[3]) if name in ("broadcast", "balance", "partition") else 2 if name == "unzip" else 1
    return inputs, outputs


def fault_of_names_and_ports(declared):
    """Returns the report's words for the first broken rule of names and ports, as `5 src output 0`, or None."""
    nodes = {words[1]: words for words in declared if words[0] in ("source", "stage", "sink")}
    wires = [words for words in declared if words[0] == "wire"]
    for words in nodes.values():
        named = ["switch", words[3]] if words[2] in ("valve", "trip") else None
        if words[2] in SUBSTREAMS:
            named = ["chain", words[len(words) - 2]]
        if named and named not in [it[:2] for it in declared]:
            return f"2 {named[1]}"
    ends = [tuple(end.rsplit(".", 1)) for words in wires for end in (words[1], words[3])]
    for name, _ in ends:
        if name not in nodes:
            return f"2 {name}"
    used = set()
    for i, words in enumerate(wires):
        (start, output), (end, input_) = ends[2 * i], ends[2 * i + 1]
        gives, takes = ports(nodes[start]), ports(nodes[end])
        if gives and int(output) >= gives[1] or takes and int(input_) >= takes[0]:
            return f"3 wire {i}"
    for i, words in enumerate(wires):
        (start, output), (end, input_) = ends[2 * i], ends[2 * i + 1]
        for port in (start, int(output), True), (end, int(input_), False):
            if port in used:
                return f"4 wire {i}"
            used.add(port)
    for name, words in nodes.items():
        inputs, outputs = ports(words) or (0, 0)
        for is_output, count in (False, inputs), (True, outputs):
            for port in range(count):
                if (name, port, is_output) not in used:
                    return f"5 {name} {'output' if is_output else 'input'} {port}"
    return None
