"""The functions that the sources give a hint on inlining, by the names that the module of a program has for them."""
import re

HINT = re.compile(r"#\[(inline\(always\)|inline\(never\)|cold|inline)\]")
FUNCTION = re.compile(r'(?:pub(?:\([a-z ]+\))? )?(?:const )?(?:unsafe )?(?:extern "C" )?fn (\w+)')
# The attributes of LLVM for the hints of a function. A plain `inline` gives none.
ATTRIBUTES = {("inline(always)",): "alwaysinline", ("inline(never)",): "noinline", ("cold",): "cold", ("cold", "inline(never)"): "cold noinline"}


def outside_brackets(text):
    """A text without what stands in angle brackets."""
    kept, depth = "", 0
    for at, it in enumerate(text):
        if it == "<":
            depth += 1
        elif it == ">" and text[at - 1] != "-":
            depth -= 1
        elif not depth:
            kept += it
    return kept


def last_word(path):
    """The last name of a path, without a reference before it."""
    return path.strip().lstrip("&").replace("mut ", "").split("::")[-1].strip()


def block_name(lines, at):
    """The name that the functions of the `impl` or `trait` at this line stand under in the module: that of the type, with that of a trait behind it."""
    text = lines[at]
    while "{" not in text and at + 1 < len(lines):
        at += 1
        text += " " + lines[at].strip()
    trait = re.match(r"(?:pub )?(?:unsafe )?trait (\w+)", text)
    if trait:
        return trait[1]
    text = outside_brackets(re.sub(r"^(unsafe )?impl", "", text.partition("{")[0]))
    text = re.split(r"\bwhere\b", text)[0].strip()
    of_trait, behind, of_type = text.partition(" for ")
    return last_word(of_type) + last_word(of_trait) if behind else last_word(text)


def hinted(lines):
    """Of each function with hints its block, if it has one, its name and its hints."""
    block, hints = None, set()
    for at, line in enumerate(lines):
        text, at_edge = line.strip(), line[:1] not in (" ", "\t")
        if at_edge and re.match(r"(?:pub )?(?:unsafe )?(?:impl|trait)\b", text):
            block = block_name(lines, at)
        elif at_edge and text.startswith("}"):
            block = None
        hint, function = HINT.match(text), FUNCTION.match(text)
        if hint:
            hints.add(hint[1])
        elif function and hints:
            yield None if at_edge else block, function[1], hints
        if not hint and text and not text.startswith(("#", "//")):
            hints = set()


def attributes_of(folders):
    """The attributes of each function with hints, by its whole name and, of a method, also by its crate, type and name."""
    found = {}
    for crate, folder in folders.items():
        for file in sorted(folder.rglob("*.rt")):
            parts = [crate, *file.relative_to(folder).with_suffix("").parts]
            module = parts[:-1] if parts[-1] in ("lib", "main", "mod") else parts
            for block, function, hints in hinted(file.read_text(encoding="utf-8").splitlines()):
                attributes = ATTRIBUTES.get(tuple(sorted(hints)))
                if attributes:
                    found["::".join([*module, *[block] * bool(block), function])] = attributes
                if attributes and block and block[:1].isupper():
                    found[crate, block, function] = attributes
    return found
