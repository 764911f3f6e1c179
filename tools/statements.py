"""What a crate states, apart from how its bodies do it and its proofs show it.

`edits` holds a wrong edit to sums of these texts: an edit is tried again where a statement changed
that it guards, and not where a body, a comment, the layout or an import of a body did. The text of
a file is its tokens, one space between each two, without comments. Of a file of `src/` the
statements are all items but the bodies of functions: signatures with their clauses, types,
constants, statics, impls, and those imports of definitions that a clause names. What is said to the
prover alone (`#[tactic(..)]`) and modules' names are no statements. Of a file of `specs/` all is
one."""
import hashlib
import os
import re

STRING = r'b?r(?P<marks>#*)"[\s\S]*?"(?P=marks)|b?"(?:\\[\s\S]|[^"\\])*"'
CHARACTER = r"b?'(?:\\(?:x..|u\{[^}]*\}|.)|[^\\'\n])'"
COMMENT = r"--(?=\s|$)[^\n]*|\{-[\s\S]*?-\}"
# A prime stands within a definition's name (`x'`) or begins a loan's (`'a`).
REST = r"'?\w[\w']*|\S"
OF_CODE = re.compile(rf"(?P<comment>//[^\n]*|/\*[\s\S]*?\*/|{COMMENT})|{STRING}|{CHARACTER}|{REST}")
OF_DEFINITIONS = re.compile(rf'(?P<comment>{COMMENT})|"[^"\n]*"|{REST}')
PAIRS = {"{": "}", "(": ")", "[": "]"}


def tokens(text, kind):
    """The tokens of a text, without its comments."""
    return [found[0] for found in kind.finditer(text) if not found["comment"]]


def joined(words):
    """The text of some tokens: a comma before what closes is one of layout."""
    return re.sub(r" ,(?= [)\]}>])", "", " ".join(words))


def behind(words, at):
    """The place behind what opens at a place."""
    opens, depth = words[at], 0
    while at < len(words):
        depth += (words[at] == opens) - (words[at] == PAIRS[opens])
        at += 1
        if not depth:
            break
    return at


def opens_clause(words, at):
    """Whether the brace at a place opens a clause: `ensures {`, `ensures * {`, `ensures name {`."""
    return any(word in ("requires", "ensures") for word in words[max(at - 3, 0) : at])


def head_end(words, at):
    """The place of the `{` of a function's body, or of the `;` where it has none."""
    while words[at] != ";":
        if words[at] in ("(", "["):
            at = behind(words, at)
        elif words[at] != "{":
            at += 1
        elif opens_clause(words, at):
            at = behind(words, at)
        else:
            break
    return at


def without_mut(head):
    """The head of a function, where that a parameter may change in its body is left out."""
    return [word for at, word in enumerate(head) if word != "mut" or head[at - 1] not in ("(", ",")]


def is_attribute_for_the_prover(words, at):
    return words[at] == "#" and "tactic" in words[at + 1 : at + 4]


def taken_apart(words):
    """The statements among the tokens of code, and the imports of definitions."""
    stated, imports, at = [], [], 0
    while at < len(words):
        word, then = words[at], words[at + 1 : at + 2]
        if is_attribute_for_the_prover(words, at):
            at = behind(words, words.index("[", at))
        elif word == "fn" and then and re.match(r"\w", then[0]):
            end = head_end(words, at)
            stated += without_mut(words[at:end]) + [";"]
            at = behind(words, end) if words[end] == "{" else end + 1
        elif word in ("use", "mod") and words[at - 1 : at] != ["pub"] or word == "mod":
            end = words.index(";", at)
            if word == "use" and stated[-1:] == ["ghost"]:
                stated.pop()
                imports.append(words[at + 1 : end])
            at = end + 1
        else:
            stated.append(word)
            at += 1
    return stated, imports


def imported(words):
    """The definitions that an import names, by the whole path of each, with its name here."""
    path, braces, names = " ".join(words).partition("{")
    if not braces:
        return {path: re.split(r" as | \. ", path)[-1]}
    each = [name.strip(" ,") for name in re.split(r" , ?", names.rpartition("}")[0])]
    return {path + name: name.split(" as ")[-1] for name in each if name}


def is_named(name, words, text):
    """Whether a clause names an imported definition, or may do so by its sign (`◌+◌`)."""
    pieces = [piece.strip() for piece in name.split("◌") if piece.strip()]
    return all(piece in words or not re.match(r"\w", piece) and piece in text for piece in pieces)


def stated_code(text):
    """The statements of a file of `src/`."""
    stated, imports = taken_apart(tokens(text, OF_CODE))
    whole, words = joined(stated), set(stated)
    named = {path for it in imports for path, name in imported(it).items() if is_named(name, words, whole)}
    return "\n".join([whole, *sorted(named)])


def files(folder, part):
    """The texts of the files of a part of a crate, by their paths in it."""
    found = {}
    for at, _, names in os.walk(f"{folder}/{part}"):
        for name in names:
            path = f"{at}/{name}"
            with open(path, encoding="utf-8") as file:
                found[os.path.relpath(path, folder)] = file.read()
    return dict(sorted(found.items()))


def plain(path, text):
    return joined(tokens(text, OF_CODE if path.endswith(".rt") else OF_DEFINITIONS))


def statements(folder):
    """The statements of the crate in a folder, by their files."""
    code = {path: stated_code(text) for path, text in files(folder, "src").items()}
    return {**code, **{path: plain(path, text) for path, text in files(folder, "specs").items()}}


def rest(folder):
    """All that is code or a proof in the crate, by its files."""
    return {path: plain(path, text) for part in ("src", "proofs") for path, text in files(folder, part).items()}


def checksum(value):
    """A short sum of a text, or of a value by what Python prints of it."""
    return hashlib.sha256((value if isinstance(value, str) else repr(value)).encode()).hexdigest()[:12]
