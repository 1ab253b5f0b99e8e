"""Writes the declarations of the package for JavaScript as pages for Sphinx, which has a domain for JavaScript, for
tools/reference. `pages()` returns a page for each module that web/package.json exports, by its name. Each name that the
package exports is on one of them."""
import json
import re
import typing

from items import text_of
from made import Refused

# The modules that make up what the package exports by its own name; those of the other names are one each.
CLASSES = ("handles", "nodes", "simulated", "executor", "commanding", "values", "meanings")
STATEMENT = re.compile(r"(?:export |declare )*(?P<kind>class|interface|type|function|const) (?P<name>\w+)")
MEMBER = re.compile(r"(?:static |readonly |get |set )*(?P<name>[\w$]+|\[[^]]*\])\??(?P<call>(?:<[^>]*>)?\()?")
HIDDEN = re.compile(r"#|protected |set |(?:import|export) ")


class Declared(typing.NamedTuple):
    """A declaration: its comment, its text up to a body, and the body, empty where there is none."""

    comment: str
    text: str
    body: str


def declared(text):
    """The declarations of a text, each with the comment before it."""
    comment, at = "", 0
    while True:
        space = re.compile(r"(?:\s|//.*)*").match(text, at).end()
        if space == len(text):
            return
        if text.startswith("/**", space):
            at = text.index("*/", space) + 2
            comment = text[space:at]
            continue
        at = end_of(text, space)
        whole = text[space:at].strip().removesuffix(";")
        has_body = whole.endswith("}") and re.match(r"(?!.*\()[^;]*?\{", whole)
        head, _, body = whole.partition("{") if has_body else (whole, "", "")
        yield Declared(comment, " ".join(head.split()), body.removesuffix("}"))
        comment = ""


def end_of(text, at):
    """Where the statement that begins here ends: after `;`, or after the body of a class or an interface."""
    depth, has_body = 0, re.compile(r"(?:export |declare )*(?:class|interface|global)\b").match(text, at)
    while at < len(text):
        depth += (text[at] in "{([") - (text[at] in "})]")
        at += 1
        if depth == 0 and (text[at - 1] == ";" or (has_body and text[at - 1] == "}")):
            return at
    return at


# ---- Comments. ----


def escaped(text):
    """A text of a comment, with what is between marks of code as such."""
    parts = text.split("`")
    parts[::2] = [re.sub(r"[\\*|_]", r"\\\g<0>", it) for it in parts[::2]]
    return "``".join(parts)


def said(comment):
    """The lines of a comment: its text, then fields for the parameters, the result and the errors that have a text."""
    text = re.sub(r"^ *\* ?", "", comment.removeprefix("/**").removesuffix("*/"), flags=re.M).strip()
    before, *tags = re.split(r"^@", text, flags=re.M)
    yield from escaped(before).strip().splitlines()
    yield ""
    for it in tags:
        tag, _, rest = " ".join(it.split()).partition(" ")
        kind, rest = braced(rest)
        name, _, what = rest.partition(" ")
        if tag == "param" and what:
            yield f":param {name.strip('[]')}: {escaped(what)}"
        elif tag == "returns" and rest:
            yield f":returns: {escaped(rest)}"
        elif tag == "throws":
            yield f":throws {kind}: {escaped(rest)}"
    yield ""


def braced(text):
    """What braces at the beginning of a text have in them, and the rest."""
    if not text.startswith("{"):
        return "", text
    depth = 0
    for at, it in enumerate(text):
        depth += (it == "{") - (it == "}")
        if depth == 0:
            return text[1:at], text[at + 1 :].strip()
    return text, ""


# ---- Pages. ----


def indented(lines, by="   "):
    return [f"{by}{it}" if it else "" for it in lines]


def plain(text):
    """A declaration as it is shown: types of other modules by their names alone."""
    text = re.sub(r"""import\(["'][^"']*["']\)\.""", "", text)
    return re.sub(r"\b(?:export|declare) ", "", text).replace(" | undefined", "")


def names_of(parameters):
    """The parameters of a call by their names; those that may be left out in brackets."""
    depth, names, at = 0, [], 0
    for k, it in enumerate(f"{parameters},"):
        depth += (it in "{([<") - (it in "})]" or (it == ">" and parameters[k - 1] != "="))
        if it == "," and depth == 0:
            names.append(re.match(r"(?:\.\.\.)?\w*\??", parameters[at:k].strip())[0])
            at = k + 1
    first = next((k for k, it in enumerate(names) if it.endswith("?")), len(names))
    shown = ", ".join(names[:first])
    for it in names[first:]:
        shown += f"[, {it[:-1]}]" if shown else f"[{it[:-1]}]"
    return shown


def parameters_of(text):
    """What is between the first parenthesis and the one that ends it."""
    begin, depth = text.index("("), 0
    for at in range(begin, len(text)):
        depth += (text[at] in "{([") - (text[at] in "})]")
        if depth == 0:
            return text[begin + 1 : at]
    return ""


def item(directive, name, it):
    """A directive with the whole declaration, and what its comment says."""
    return [f".. js:{directive}:: {name}", "", *indented([f"``{plain(it.text)}``", "", *said(it.comment)])]


def member(it):
    """The lines of a member of a class or of a struct; none of one that is hidden."""
    found = MEMBER.match(it.text)
    if HIDDEN.match(it.text) or not found or found["name"].startswith("[") or found["name"] == "constructor":
        return []
    name, is_call = found["name"], found["call"] and not it.text.startswith(("get ", "readonly "))
    shown = f"{name}({names_of(parameters_of(it.text))})" if is_call else name
    return item("method" if is_call else "attribute", shown, it)


def entry(it, exported):
    """The lines of a declaration of a module; none of one that the package does not export."""
    found = STATEMENT.match(it.text)
    if not found or (found["kind"] in ("function", "const") and exported is not None and found["name"] not in exported):
        return []
    name, kind = found["name"], found["kind"]
    if kind == "function":
        return item("function", f"{name}({names_of(parameters_of(it.text))})", it)
    if kind == "const" or (kind == "type" and not it.body):
        is_alias = re.search(r"= (?:Partial<)?import\(", it.text)
        return [] if is_alias else item("data", name, it)
    members = list(declared(it.body))
    made = next((one for one in members if one.text.startswith("constructor(")), None)
    shown = f"({names_of(parameters_of(made.text))})" if made else ""
    lines = item("class", f"{name}{shown}", it._replace(text=it.text.removesuffix(" =").strip()))
    if made:
        lines += indented([f"``new {name}{plain(made.text.removeprefix('constructor'))}``", "", *said(made.comment)])
    return lines + indented([line for one in members for line in member(one)])


def page(title, modules, exported):
    lines = [title, "=" * len(title), "", f".. js:module:: {title}", ""]
    for module in modules:
        for it in declared(text_of(f"web/{module}")):
            lines += entry(it, exported)
    return "\n".join(lines) + "\n"


def pages():
    """Of each module that the package exports the name of its page, and the page."""
    exports, found, exported = json.loads(text_of("web/package.json"))["exports"], {}, set()
    for name, about in exports.items():
        if "types" not in about:
            continue
        title, module = name.replace(".", "sedgechisel", 1), about["types"].removeprefix("./")
        names = set(re.findall(r"\w+", " ".join(re.findall(r"^export \{(.*?)\}", text_of(f"web/{module}"), re.M))))
        modules = [f"{it}.d.mts" for it in CLASSES] if names else [module]
        found[title.replace("/", "_")] = page(title, modules, names or None)
        exported |= names
    lost = exported - set(re.findall(r"^\.\. js:\w+:: (\w+)", "\n".join(found.values()), re.M))
    if lost:
        raise Refused(f"no page has {', '.join(sorted(lost))}")
    return found
