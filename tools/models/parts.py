"""Finds the parts of a configuration's tree, as far as they are of the form that docs/VIEWS.md says: what each is, its holder, and where it
is held there. What is of another form is passed over.
"""
from causes import is_nested, is_pair


def copy(tree):
    """A copy of which no two parts are one."""
    if isinstance(tree, dict):
        return {name: copy(it) for name, it in tree.items()}
    return [*map(copy, tree)] if isinstance(tree, list) else tree


def places(holder, at):
    """Each value in a tree: its holder, and where it is held there."""
    yield holder, at
    held = holder[at]
    for it in [*held] if isinstance(held, dict) else range(len(held)) if isinstance(held, list) else ():
        yield from places(held, it)


def type_places(holder, at):
    yield "type", holder, at
    if is_nested(holder[at] or None):
        for it in range(1, len(holder[at])):
            child = holder[at][it]
            yield from type_places(holder[at], it) if holder[at][0] == "list" else type_places(child, 1) if is_pair(child) else ()


def filter_places(holder, at, role="filter", reference="reference"):
    """A filter and the filters in it, by their role, and what they name, by its role."""
    yield role, holder, at
    held = holder[at]
    if isinstance(held, list) and held:
        if held[0] in ("and", "or", "not"):
            for it in range(1, len(held)):
                yield from filter_places(held, it, role, reference)
        elif len(held) > 1:
            yield reference, held, 1
            if len(held) == 3:
                yield reference if isinstance(held[2], list) else "constant", held, 2


def list_places(holder, at, role):
    """A list and its items, where it is one."""
    if isinstance(holder.get(at), list):
        yield f"{role}s", holder, at
        for it in range(len(holder[at])):
            yield role, holder[at], it


def view_places(views, at):
    yield "view", views, at
    view = views[at]
    if isinstance(view.get("lookup"), dict):
        yield "lookup", view, "lookup"
    if "filter" in view:
        yield from filter_places(view, "filter")
    yield from list_places(view, "group", "reference")
    if "having" in view:
        yield from filter_places(view, "having", "having", "shown")
    yield from list_places(view, "order", "ordered")
    yield from list_places(view, "dict", "coded")
    for role, holder, it in list_places(view, "columns", "output"):
        if role == "outputs" or (isinstance(holder[it], list) and len(holder[it]) > 1):
            yield role, holder, it
            if role == "output":
                yield "grouped" if "group" in view else "plain", holder, it
                yield from [("reference", holder[it], 2)] if len(holder[it]) == 3 else ()


def table_places(tables, at):
    yield "table", tables, at
    for role, holder, it in list_places(tables[at], "columns", "column"):
        if role == "columns" or is_pair(holder[it]):
            yield role, holder, it
            yield from type_places(holder[it], 1) if role == "column" else ()


def parts(root):
    """The parts of a configuration, as far as they are still of their form: what each is, its holder, and where it is held there."""
    tree = root["tree"]
    yield "tree", root, "tree"
    walks = {"side": table_places, "feed": lambda feeds, at: [("feed", feeds, at)], "view": view_places}
    for kind, walk in {"main": table_places, **walks}.items():
        held = tree if kind == "main" else tree.get(kind)
        for name in ["main"] if kind == "main" else [*held] if isinstance(held, dict) else ():
            if isinstance(held.get(name), dict):
                yield from walk(held, name)
    for holder, at in (it for name in [*tree] for it in places(tree, name)):
        yield "value", holder, at
        if isinstance(holder, dict):
            yield "entry", holder, at
        if isinstance(holder[at], dict) or (isinstance(holder[at], list) and holder[at]):
            yield "held", holder, at
