"""Takes out of a Rattle source what is for the prover alone, so that Rust is left. It reads tokens and never types; a
form that no rule knows stays as it is, and rustc refuses it. docs/RUST_CRATE.md states the rules."""
import re

TOKEN = re.compile(r"""
    (?P<space>\s+)
  | (?P<doc>//[/!][^\n]*) | (?P<comment>//[^\n]*|/\*.*?\*/)
  | (?P<string>b?r(?P<hash>\#*)".*?"(?P=hash)|[bc]?"(?:\\.|[^"\\])*")
  | (?P<char>b?'(?:\\(?:u\{[^}]*\}|x..|.)|[^'\\])')
  | (?P<lifetime>'[A-Za-z_]\w*)
  | (?P<word>[A-Za-z_]\w*|\d[\w]*)
  | (?P<mark>::|->|=>|.)
""", re.X | re.S)
OPEN, CLOSE = {"{", "(", "["}, {"}", ")", "]"}
QUIET = ("space", "comment", "doc")
BEFORE_FN = {"pub", "const", "final", "unsafe"}
PROVERS = {"tactic", "cycle"}            # attributes that the prover alone reads
WITHOUT_TRAIT = {"Drop", "Model"}        # derives and bounds for which Rust has no trait of that meaning


class Refused(Exception):
    """A form that the rules don't know, with its file and line."""


def lex(text):
    """The tokens of a text, as pairs of kind and text."""
    tokens, at = [], 0
    while at < len(text):
        found = TOKEN.match(text, at)
        tokens.append(("string" if found.lastgroup == "hash" else found.lastgroup, found.group()))
        at = found.end()
    return tokens


class Source:
    """The tokens of one file, and how often each rule took something out."""

    def __init__(self, text, path):
        self.path, self.tokens, self.counts = path, lex(text), {}
        self.added = {}                  # lines of documentation, by the token that they stand before

    def count(self, rule):
        self.counts[rule] = self.counts.get(rule, 0) + 1

    def kind(self, at):
        return self.tokens[at][0] if 0 <= at < len(self.tokens) else ""

    def text(self, at):
        return self.tokens[at][1] if 0 <= at < len(self.tokens) else ""

    def is_word(self, at, *words):
        return self.kind(at) == "word" and self.text(at) in words

    def refused(self, at, what):
        line = 1 + sum(text.count("\n") for _, text in self.tokens[:at])
        return Refused(f"{self.path}:{line}: {what}")

    def after(self, at):
        """The next token that is neither space nor comment, from `at` on."""
        while self.kind(at) in QUIET:
            at += 1
        return at

    def before(self, at):
        """The last such token before `at`."""
        at -= 1
        while self.kind(at) in QUIET:
            at -= 1
        return at

    def last(self, at, *words):
        """The last of these words before `at`."""
        while at >= 0 and not self.is_word(at, *words):
            at -= 1
        return at

    def past(self, at):
        """Past the group that opens at `at`."""
        start, depth = at, 0
        while at < len(self.tokens):
            mark = self.text(at) if self.kind(at) == "mark" else ""
            depth += (mark in OPEN) - (mark in CLOSE)
            at += 1
            if depth == 0 and mark:
                return at
        raise self.refused(start, "a bracket is not closed")

    def past_item(self, at, ends):
        """Past the first of `ends` outside brackets; before a bracket that closes."""
        while at < len(self.tokens):
            mark = self.text(at) if self.kind(at) == "mark" else ""
            if mark in OPEN:
                at = self.past(at)
                continue
            if mark in CLOSE:
                return at
            at += 1
            if mark in ends:
                return at
        return at

    def written(self, start, end):
        """The source from one token to another."""
        return "".join(text for _, text in self.tokens[start:end])

    def drop(self, start, end):
        for at in range(start, end):
            self.tokens[at] = ("space", "")

    def docs_above(self, at):
        """The documentation right above a token, which is taken out."""
        lines = []
        at -= 1
        while self.kind(at) in ("space", "doc"):
            if self.kind(at) == "doc":
                lines.insert(0, self.text(at))
                self.tokens[at] = ("space", "")
            at -= 1
        return lines

    def note(self, at, title, lines):
        """Adds lines to the documentation of the item that begins at `at`, under a title, as text."""
        while self.text(self.before(at)) == "]":
            opens = self.before(at)
            while self.text(opens) != "[":
                opens -= 1
            if self.text(opens - 1) != "#":
                break
            at = opens - 1
        self.added.setdefault(at, {}).setdefault(title, []).extend(lines)

    # --- the rules

    def ghosts(self):
        """`ghost use ..;`, `ghost m = {..};`, `ghost m: {..};` of a trait, `pub ghost m: {..},` of a struct."""
        for at in range(len(self.tokens)):
            if not self.is_word(at, "ghost"):
                continue
            start, named = at, self.after(at + 1)
            before = self.before(at)
            if self.text(before) == ")" and self.text(self.before(before)) in ("crate", "super"):
                before = self.before(self.before(self.before(before)))
            if self.is_word(before, "pub"):
                start = before
            end = self.past_item(at, {";"} if self.text(named) == "use" else {";", ","})
            if self.text(self.after(named + 1)) == ":":
                docs = self.docs_above(start)
                item = self.start_of_item(self.last(start, "trait", "struct"))
                title = "Ghost members" if self.is_word(self.last(start, "trait", "struct"), "trait") else "Invariant"
                self.note(item, title, [*docs, *clause_lines(self.written(named, end).rstrip(";,"))])
            else:
                self.docs_above(start)
            self.drop(start, end)
            self.count("ghost")

    def start_of_item(self, at):
        """Where the item of a keyword begins, behind its documentation and attributes."""
        start = at
        while True:
            before = self.before(start)
            if self.text(before) == ")" and self.text(self.before(before)) in ("crate", "super"):
                before = self.before(self.before(self.before(before)))
            elif self.kind(before) == "string" and self.is_word(self.before(before), "extern"):
                before = self.before(before)
            elif not self.is_word(before, *BEFORE_FN):
                return start
            start = before

    def clauses(self):
        """`requires name {..}` and `ensures name {..}` go into the function's documentation."""
        for at in range(len(self.tokens)):
            if not self.is_word(at, "requires", "ensures"):
                continue
            end = at + 1
            while self.text(end) != "{":
                if self.text(end) in OPEN | CLOSE | {";"} or end >= len(self.tokens):
                    raise self.refused(at, "a clause that no rule reads")
                end += 1
            item = self.start_of_item(self.last(at, "fn"))
            self.note(item, "Contract", clause_lines(self.written(at, self.past(end))))
            self.drop(at, self.past(end))
            self.count("clause")

    def words(self):
        """`final`, `prove!`, the prover's attributes, derives and bounds that Rust lacks, and traits without a size."""
        for at in range(len(self.tokens)):
            following = self.after(at + 1)
            if self.is_word(at, "final") and self.is_word(following, "fn", "const", "unsafe"):
                self.drop(at, following)
                self.count("final")
            elif self.is_word(at, "prove", "prove_eq", "prove_ne") and self.text(at + 1) == "!":
                self.tokens[at] = ("word", self.text(at).replace("prove", "debug_assert"))
                self.count("prove!")
            elif self.text(at) == "#" and self.kind(at) == "mark":
                self.attribute(at)
            elif self.is_word(at, *WITHOUT_TRAIT):
                self.bound(at)
            elif self.is_word(at, "trait"):
                self.sized(at)

    def attribute(self, at):
        opens = self.after(at + (2 if self.text(at + 1) == "!" else 1))
        if self.text(opens) != "[":
            return
        name, end = self.text(self.after(opens + 1)), self.past(opens)
        if name in PROVERS:
            self.drop(at, end)
            self.count("tactic")
        elif name == "derive":
            listed = self.written(opens, end)
            names = [it.strip() for it in listed[listed.index("(") + 1:listed.rindex(")")].split(",")]
            kept = [it for it in names if it and it not in WITHOUT_TRAIT]
            if len(kept) < len([it for it in names if it]):
                self.drop(at, end)
                if kept:
                    self.tokens[at] = ("mark", f"#[derive({', '.join(kept)})]")
                self.count("derive(Drop)")
        elif name == "derive_where":
            self.derive_where(at, opens)

    def sized(self, at):
        """Every value of a type that implements a trait has a size, unless the trait is used as `dyn`."""
        end = self.after(at + 1) + 1
        name = self.text(end - 1)
        if self.text(self.after(end)) == "<":
            while self.text(end) != ">":
                end += 1
            end += 1
        if self.text(self.after(end)) in ("{", "where") and f"dyn {name}" not in self.written(0, len(self.tokens)):
            self.tokens[end - 1] = (self.kind(end - 1), self.text(end - 1) + ": Sized")
            self.count("trait: Sized")

    def bound(self, at):
        """`T: Drop + X`, `X + Drop`, `Model` in a list of imports, and implementations of it."""
        before, after = self.before(at), self.after(at + 1)
        if self.text(before) == "+":
            self.drop(before, at + 1)
        elif self.text(after) == "+" and self.text(before) == ":":
            self.drop(at, after + 1)
        elif self.text(before) == ":" and self.text(at) == "Drop":
            self.tokens[at] = ("word", "Sized")
        elif self.text(before) == "::" and self.text(after) == ";":
            self.drop(self.last(at, "use"), after + 1)
        elif self.text(after) == "," and self.text(before) in ("{", ","):
            self.drop(at, after + 1)
        elif self.text(before) == "," and self.text(after) == "}":
            self.drop(before, at + 1)
        elif self.is_word(after, "for"):
            opens = after
            while self.text(opens) != "{":
                opens += 1
            self.drop(self.last(at, "impl"), self.past(opens))
        else:
            return
        self.count("bound Drop, Model")

    def derive_where(self, at, opens):
        """`#[derive_where(A, B; P)]`: derives whose bounds are on P alone, written out at the end of the file."""
        end = self.past(opens)
        listed = self.written(opens, end)
        names, parameters = listed[listed.index("(") + 1:listed.rindex(")")].split(";")
        struct = end
        while not self.is_word(struct, "struct"):
            struct += 1
        opened = struct
        while self.text(opened) != "{":
            opened += 1
        named = self.after(struct + 1)
        fields = [self.text(self.before(k)) for k in range(opened, self.past(opened)) if self.text(k) == ":"]
        self.drop(at, end)
        self.tokens.append(("mark", derived(
            self.text(named), self.written(self.after(named + 1), opened).strip(),
            [it.strip() for it in names.split(",")], [it.strip() for it in parameters.split(",")], fields)))
        self.count("derive_where")

    def result(self):
        """The text, with the documentation that was added."""
        parts = []
        for at, (_, text) in enumerate(self.tokens):
            for title, lines in self.added.get(at, {}).items():
                line = "".join(parts).rsplit("\n", 1)[-1]
                indent = line if not line.strip() else ""
                for doc in documented(title, lines):
                    parts.append(f"{doc}\n{indent}")
            parts.append(text)
        return "".join(parts)


def clause_lines(text):
    """A clause's lines, without the indentation that they have in common."""
    first, *rest = text.rstrip().split("\n")
    widths = [len(line) - len(line.lstrip()) for line in rest if line.strip()]
    cut = min(widths, default=0)
    return [first.strip(), *("    " + line[cut:].rstrip() for line in rest)]


def documented(title, lines):
    """Clauses as a section of documentation; sentences stay outside the block of text."""
    docs, inside = ["///", f"/// # {title}"], None
    for line in lines:
        is_code = not line.startswith("///")
        if is_code != inside:
            docs += ["/// ```"] if inside else []
            docs += ["///", "/// ```text"] if is_code else ["///"]
            inside = is_code
        docs.append(f"/// {line}" if is_code else line)
    return docs + (["/// ```"] if inside else [])


def derived(name, generics, traits, parameters, fields):
    """Implementations of comparison, hash and text by the fields, bounded on the parameters alone."""
    inner = generics[1:-1] if generics.startswith("<") else ""
    used = ", ".join(re.sub(r"^const ", "", it.strip()).split(":")[0].strip() for it in inner.split(",") if it.strip())
    own = "(" + "".join(f"&self.{f}, " for f in fields) + ")"
    other = "(" + "".join(f"&other.{f}, " for f in fields) + ")"
    shown = "".join(f'.field("{f}", &self.{f})' for f in fields)
    bodies = {
        "PartialEq": ("PartialEq", f"fn eq(&self, other: &Self) -> bool {{ {own} == {other} }}"),
        "Eq": ("Eq", ""),
        "PartialOrd": ("PartialOrd", "fn partial_cmp(&self, other: &Self) -> Option<core::cmp::Ordering> "
                       f"{{ {own}.partial_cmp(&{other}) }}"),
        "Ord": ("Ord", f"fn cmp(&self, other: &Self) -> core::cmp::Ordering {{ {own}.cmp(&{other}) }}"),
        "Hash": ("core::hash::Hash", "fn hash<Into: core::hash::Hasher>(&self, state: &mut Into) "
                 f"{{ core::hash::Hash::hash(&{own}, state); }}"),
        "Debug": ("core::fmt::Debug", "fn fmt(&self, f: &mut core::fmt::Formatter<'_>) -> core::fmt::Result "
                  f'{{ f.debug_struct("{name}"){shown}.finish() }}'),
    }
    text = ""
    for trait in traits:
        path, body = bodies[trait]
        where = ", ".join(f"{p}: {path}" for p in parameters)
        text += f"\nimpl<{inner}> {path} for {name}<{used}> where {where} {{ {body} }}\n"
    return text
