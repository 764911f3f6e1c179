"""What a file of a crate stands on of what the crates below state, item by item.

`edits` holds a wrong edit to a sum of these texts: it is tried again where a definition, a contract
or a type changed that its file reaches, and not where anything else of a crate below did. An item
is a definition of `specs/`; the head of a function with its clauses; an enum, a constant, a trait;
the public fields of a struct, since definitions alone see the others; what an impl says of its type
to the prover, but for its invariant. An item reaches what its words name, by the imports of its
file or in that file; the file of an edit also reaches what its bodies name. Methods and items of a
crate are found by their names alone, so rather too much is reached than too little."""
import collections
import re

import statements

Item = collections.namedtuple("Item", "crate name text words imports file")
KEYWORDS = {"abbrev", "pub", "unfoldable", "opaque", "record", "data"}
TYPES = {"struct", "enum", "union", "trait", "const", "static", "type"}


# Imports: by each name of a file the crate and the name that it stands for


def of_definitions(words):
    """What one import of definitions brings: those of a folder `declared` are items of code."""
    path, _, names = " ".join(words).partition("{")
    head, _, alias = path.strip(" .").partition(" as ")
    parts = head.replace(" ", "").split(".")
    if parts[0] != "Rattle" or len(parts) < 4 or parts[2] != "specs":
        return {}
    typed = next((it for it in parts[3:] if it[:1].isupper()), None) if parts[3] == "declared" else None
    if not names:
        return {alias or parts[-1]: (parts[1], typed or parts[-1])}
    each = [it.strip(" ,").split(" as ") for it in re.split(r" , ?", names.rpartition("}")[0])]
    return {it[-1].strip(): (parts[1], typed or it[0].strip()) for it in each if it[0]}


def of_code(words, crate):
    """What one import of Rust brings."""
    owner = crate if words[0] in ("crate", "super", "self") else words[0]
    found, text = {}, " ".join(words)
    for name, alias in re.findall(r"(\w+)(?: as (\w+))?", text):
        found[alias or name] = (owner, name)
    return found


# Items of a file


def items_of_definitions(crate, path, text):
    """The definitions of a file of `specs/`: each begins with a keyword at the left, or two further
    in within a module, whose parameters are of each."""
    bare = re.sub(r"(?m)^\s*--(?=\s|$).*$", "", text)
    imports, module, parts = {}, [], []
    for line in re.split(r"\n(?=\S|  \S)", "\n" + bare):
        words = statements.tokens(line, statements.OF_DEFINITIONS)
        inside = line.startswith("  ")
        if not words:
            continue
        if not inside and "use" in words[:2]:
            imports.update(of_definitions(words[words.index("use") + 1 :]))
            continue
        if not inside:
            module = words if words[0] == "module" else []
        if words[0] in KEYWORDS and (module or not inside):
            name = next(word for word in words if word not in KEYWORDS)
            parts.append((name, module + words))
        elif parts and words[0] != "module":
            parts[-1][1].extend(words)
    return [Item(crate, name, statements.joined(words), frozenset(words), imports, path) for name, words in parts]


def public_fields(words):
    """A struct without its private fields."""
    opens = next((at for at, word in enumerate(words) if word in "{("), None)
    if opens is None:
        return words
    fields, depth, kept = [[]], 0, words[: opens + 1]
    for word in words[opens + 1 : -1]:
        depth += (word in "([{<") - (word in ")]}>")
        if word == "," and not depth:
            fields.append([])
        else:
            fields[-1].append(word)
    return kept + [word for it in fields if "pub" in it and it[it.index("pub") + 1 :][:1] != ["("] for word in it]


def item_end(words, at):
    """The place behind an item: its `;`, or the brace that closes it."""
    while at < len(words) and words[at] != ";":
        if words[at] == "{":
            return statements.behind(words, at)
        at = statements.behind(words, at) if words[at] in ("(", "[") else at + 1
    return at + 1


def clauses_end(words, at):
    """The place behind the `;` that ends a function's head."""
    while words[at] != ";":
        at = statements.behind(words, at) if words[at] in statements.PAIRS else at + 1
    return at + 1


def of_impl(head, body):
    """The items of an impl: its type, with what it says to the prover, and each of its functions."""
    flat, depth = [], 0
    for word in head[: head.index("where")] if "where" in head else head:
        depth += (word == "<") - (word == ">")
        if not depth and re.match(r"\w", word):
            flat.append(word)
    said, parts, at = [], [], 0
    while at < len(body):
        if body[at] == "fn":
            end = clauses_end(body, at)
            parts.append((body[at + 1], head + body[at:end]))
            at = end
        elif body[at] == "ghost":
            end = item_end(body, at)
            said += [] if body[at + 1] == "invariant" else body[at:end]
            at = end
        else:
            at += 1
    return [(flat[-1], head + said)] * bool(said) + parts


def tokens_of_code(text):
    return statements.tokens(text, statements.OF_CODE)


def imports_of_code(crate, text):
    """All that the imports of a file of `src/` bring, those of bodies too."""
    words, imports = tokens_of_code(text), {}
    for at, word in enumerate(words):
        if word == "use":
            named = words[at + 1 : words.index(";", at)]
            imports.update(of_definitions(named) if words[at - 1] == "ghost" else of_code(named, crate))
    return imports


def items_of_code(crate, path, text):
    """The items of a file of `src/`, without bodies."""
    stated, _ = statements.taken_apart(tokens_of_code(text))
    imports, parts, at = imports_of_code(crate, text), [], 0
    while at < len(stated):
        end = at + 1
        if stated[at] == "fn":
            end = clauses_end(stated, at)
            parts.append((stated[at + 1], stated[at:end]))
        elif stated[at] == "impl":
            opens = stated.index("{", at)
            end = statements.behind(stated, opens)
            parts += of_impl(stated[at:opens], stated[opens + 1 : end - 1])
        elif stated[at] in TYPES:
            end = item_end(stated, at)
            kept = public_fields(stated[at:end]) if stated[at] == "struct" else stated[at:end]
            parts.append((stated[at + 1], kept))
        at = end
    return [Item(crate, name, statements.joined(words), frozenset(words), imports, path) for name, words in parts]


class House:
    """The items of the crates of a checkout, and what each file reaches."""

    def __init__(self, top, crates):
        self.found, self.here, self.whole = collections.defaultdict(list), collections.defaultdict(list), {}
        for crate in crates:
            folder = f"{top}/crates/{crate}"
            for path, text in statements.files(folder, "specs").items():
                if path != "specs/Lib.antt":
                    self.take(items_of_definitions(crate, path, text))
            for path, text in statements.files(folder, "src").items():
                self.take(items_of_code(crate, path, text))
                self.whole[crate, path] = tokens_of_code(text), imports_of_code(crate, text)

    def take(self, items):
        for it in items:
            self.found[it.crate, it.name].append(it)
            self.here[it.crate, it.file].append(it)

    def named(self, it):
        """The items that an item names."""
        for name, target in it.imports.items():
            if name in it.words or "◌" in name:
                yield from self.found[target]
        for other in self.here[it.crate, it.file]:
            if other.name in it.words:
                yield other

    def begins(self, crate, file, allowed):
        """The items that a file of a crate has, and those that its bodies name."""
        yield from self.here[crate, file]
        words, imports = self.whole.get((crate, file), ([], {}))
        for name in imports.keys() & set(words):
            yield from self.found[imports[name]]
        for dot, name, opens in zip(words, words[1:], words[2:]):
            if dot in (".", ":") and opens in ("(", ":"):
                for owner in allowed:
                    yield from self.found[owner, name]

    def reached(self, crate, files, allowed):
        """What files of a crate reach of the other crates, where methods are those of the crate and
        of those that are allowed: the texts of all items."""
        ways = [it for file in files for it in self.begins(crate, file, (crate, *allowed))]
        seen = {}
        while ways:
            it = ways.pop()
            key = it.crate, it.file, it.name, it.text
            if key not in seen:
                seen[key] = it
                ways.extend(self.named(it))
        return sorted((it.crate, it.name, it.text) for it in seen.values() if it.crate != crate)
