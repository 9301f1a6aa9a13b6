"""Finds the functions of a source file: where each body lies, and how a check names them."""
import re
from dataclasses import dataclass


@dataclass(frozen=True)
class Function:
    """A function's body, from its opening brace to behind its closing one, the end of the name that a check prints for it, and what it
    is proved with: the cycle of functions that it is in, or itself."""

    path: str
    group: str
    start: int
    end: int


def blanked(text):
    """The text with comments, strings and characters blanked, at their length."""
    pattern = r'//[^\n]*|/\*.*?\*/|b?"(?:\\.|[^"\\])*"|b?\'(?:\\.[^\']*|[^\'\\])\''
    return re.sub(pattern, lambda found: re.sub(r"[^\n]", " ", found[0]), text, flags=re.S)


def without_parameters(text):
    """The text without what stands in angle brackets."""
    text, last = text.replace("->", ""), None
    while text != last:
        text, last = re.sub(r"<[^<>]*>", " ", text), text
    return text


def name_of(text):
    """The name of a type or a trait, as a check prints it: of a tuple how many types it has, and their names."""
    names = re.findall(r"\w+", text)
    if text.strip().startswith("("):
        return "".join([f"Tuple{len(names)}", *names])
    return names[-1] if names else ""


def owner_of(head):
    """Of the head of an impl block its type, followed by its trait, as a check prints them."""
    head = re.split(r"\bwhere\b", without_parameters(head[re.search(r"\bimpl\b", head).end() :]))[0]
    return "".join(name_of(it) for it in reversed(re.split(r"\bfor\b", head)))


def module_of(path):
    """The path below the crate of what stands free in a file, up to its name."""
    module = re.sub(r"^src/|\.rt$", "", path).replace("/", "::")
    return "" if module in ("lib", "main") else f"{module}::"


def functions_of(path, text):
    """The functions of a source file that have a body, without those inside others."""
    code, found, opened, pending, boundary = blanked(text), [], [], None, 0
    for brace in re.finditer(r"[{};]", code):
        at, head = brace.start(), code[boundary : brace.start()]
        boundary = at + 1
        is_inside = any(kind in ("body", "clause") for kind, _ in opened)
        if brace[0] == "}" and opened:
            kind, of = opened.pop()
            if kind == "body":
                found.append(Function(*of, at + 1))
        elif brace[0] == ";" and not is_inside:
            pending = None
        elif brace[0] == "{":
            named = re.search(r"\bfn\s+(\w+)", head)
            if named and not is_inside:
                owner = next((of for kind, of in reversed(opened) if kind == "owner"), None)
                name = f"{owner}::{named[1]}" if owner else f"{module_of(path)}{named[1]}"
                cycle = re.search(r"#\[cycle\((\w+)\)\]", head)
                pending = (name, f"cycle {cycle[1]}" if cycle else name)
            if pending and re.search(r"\b(requires|ensures|ghost)\b[\s*\w:]*$", head):
                opened.append(("clause", None))
            elif pending and not is_inside:
                opened.append(("body", (*pending, at)))
                pending = None
            elif re.search(r"\bimpl\b", head) and not is_inside:
                opened.append(("owner", owner_of(head)))
            else:
                opened.append(("other", None))
    return found
