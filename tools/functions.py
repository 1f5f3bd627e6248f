"""Which function stands at a place of a Rattle file, for tools/edits. Nothing here is meant to be
called alone."""

import os
import re

# What may stand before the word that says what an item is.
BEFORE = r"(?:pub(?:\([a-z]+\))? )?(?:const |unsafe |extern \"C\" )*"
ITEM = re.compile(
    rf"^{BEFORE}(?P<kind>fn|impl|trait|struct|enum|const|static|type|use|mod)\b(?P<rest>.*)$",
    re.M,
)
METHOD = re.compile(rf"^    {BEFORE}fn (?P<name>\w+)", re.M)
HEAD = re.compile(rf"^(?P<indent> *){BEFORE}fn \w", re.M)
WHERE = re.compile(
    r"^(?:(?P<trait>[\w:]+)(?:<.*>)? for )?&?(?:'\w+ )?(?:mut )?(?P<type>[\w:]+)"
)


def parts_of_head(rest):
    """What stands behind `impl`: the type parameters, and the rest up to `where` and `{`."""
    rest, depth = re.split(r" where | \{", rest)[0], 0
    if not rest.startswith("<"):
        return "", rest.strip()
    for at, letter in enumerate(rest):
        depth += {"<": 1, ">": -1}.get(letter, 0) if rest[at - 1 : at + 1] != "->" else 0
        if depth == 0:
            return rest[: at + 1], rest[at + 1 :].strip()
    return "", rest


def function_at(file, text, at):
    """The end of the name of the function at a place of a file, as a check prints it."""
    module = os.path.splitext(os.path.basename(file))[0]
    end = text.find("\n", at)
    before = text[: end if end >= 0 else len(text)]
    items = list(ITEM.finditer(before))
    if not items:
        return None
    item = items[-1]
    if item["kind"] == "fn":
        name = re.match(r" (\w+)", item["rest"])[1]
        return name if module in ("lib", "main") else f"{module}::{name}"
    methods = list(METHOD.finditer(before, item.end()))
    if item["kind"] not in ("impl", "trait") or not methods:
        return None
    name = methods[-1]["name"]
    if item["kind"] == "trait":
        return re.match(r" (\w+)", item["rest"])[1] + "::" + name
    bounds, rest = parts_of_head(item["rest"])
    head = WHERE.match(rest)
    owner = head["type"].split("::")[-1] if head else ""
    given = {*re.findall(r"[A-Z]\w*", rest[head.end("type") :] if head else "")}
    own = re.fullmatch(r"(\w+)<(\w+)>", rest)
    if own and not bounds:
        return f"{own[1]}+{own[2]}::{name}"
    if not head or re.search(r"<.* for ", rest) or given - {*re.findall(r"[A-Z]\w*", bounds)}:
        # How a check spells the arguments of a type or a trait is left open: the method's name is
        # enough.
        return name
    return owner + (head["trait"] or "").split("::")[-1] + "::" + name


def is_in_body(text, at):
    """Whether a place of a file stands in a function's body, behind the line that opens it."""
    line = text.rfind("\n", 0, at) + 1
    heads = list(HEAD.finditer(text, 0, line))
    if not heads:
        return False
    indent = heads[-1]["indent"]
    before = text[heads[-1].start() : line].split("\n")
    opened = [it.endswith("{") for it in before if re.match(rf"{indent}\S", it)]
    return any(opened) and f"{indent}}}" not in before
