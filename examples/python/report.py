"""The report of examples/report in Python: pushes the streams of its feeds, undoes the correction, and writes the views to
the folder that is named. Run it at the top of the repository, where `make lib` made the library:

    LV_LIBRARY=out/lib/liblv.so PYTHONPATH=python python3 examples/python/report.py out
"""
import sys
from pathlib import Path

import lv

REPORT = Path("examples/report")
FOLDER = Path(sys.argv[1] if len(sys.argv) > 1 else ".")


def push(session: lv.Session, feed: str) -> None:
    with open(REPORT / f"{feed}.arrows", "rb") as stream:
        session.push(feed, stream)


def write_views(session: lv.Session, number: int) -> None:
    for view in ("report", "countries", "heaviest"):
        stream = session.view(view)
        (FOLDER / f"{view}-{number}.arrows").write_bytes(stream)
        print(f"{view}-{number}: wrote {len(stream)}")


with lv.Session((REPORT / "report.toml").read_text()) as session:
    push(session, "ports")
    push(session, "calls")
    write_views(session, 1)
    push(session, "withdrawn")
    push(session, "corrected")
    write_views(session, 2)
    session.undo()
    session.undo()
    write_views(session, 3)
    print(f"live rows {session.live_rows}, stale {session.stale}")
(FOLDER / "orders.canon").write_bytes(lv.recast(Path("examples/orders.arrows").read_bytes()))
