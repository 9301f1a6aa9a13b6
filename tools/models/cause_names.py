"""The names of the causes by their numbers, as docs/FORMAT.md has those of streams, and docs/VIEWS.md those of edits and configurations."""
import os
import re

DOCS = os.path.abspath(f"{__file__}/../../../docs")


def named(page, form):
    with open(f"{DOCS}/{page}", encoding="utf-8") as file:
        return {int(number): name for number, name in re.findall(form, file.read(), re.M)}


STREAM_CAUSES = named("FORMAT.md", r"^\| (\d+) \| ([A-Z]\w+) \|")
OTHER_CAUSES = named("VIEWS.md", r"^- \*\*(\d+) (\w+)\*\*")
