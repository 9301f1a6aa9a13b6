"""Writes configurations, and other trees, as TOML."""
import json
import re


def key(name):
    return name if re.fullmatch("[A-Za-z0-9_-]+", name) else value(name)


def value(it):
    """A TOML value of lists, dictionaries, texts, truth values, numbers and dates."""
    if isinstance(it, list):
        return f"[{', '.join(map(value, it))}]"
    if isinstance(it, dict):
        return f"{{ {', '.join(f'{key(name)} = {value(held)}' for name, held in it.items())} }}"
    if isinstance(it, bool):
        return "true" if it else "false"
    return json.dumps(it, ensure_ascii=False) if isinstance(it, str) else str(it)


def lines(members):
    return "".join(f"{key(name)} = {value(it)}\n" for name, it in members.items())


def entry(name, /, **members):
    return f"[{name}]\n{lines(members)}"


def text_of(config):
    """The text of a configuration: its main table, and its side tables, feeds and views by their names."""
    text = lines({name: it for name, it in config.items() if not isinstance(it, dict)})
    for kind, held in config.items():
        if isinstance(held, dict):
            named = {name: it for name, it in held.items() if isinstance(it, dict) and kind != "main"}
            others = {name: it for name, it in held.items() if name not in named}
            text += entry(kind, **others) if others or not named else ""
            text += "".join(entry(f"{kind}.{key(name)}", **it) for name, it in named.items())
    return text
