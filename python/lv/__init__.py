"""Live views over Apache Arrow streams, through the shared library liblv.

    import lv

    with lv.Session(open("report.toml").read()) as session:
        session.push("calls", open("calls.arrows", "rb"))
        stream = session.view("countries")     # the bytes of an Arrow IPC stream
        table = session.table("countries")     # a pyarrow.Table, where pyarrow is installed

`recast` gives the canonical stream of a whole stream. The library is the file that the environment variable LV_LIBRARY
names, or else the liblv that the system finds.
"""
from lv.calls import Refused
from lv.causes import CAUSES
from lv.session import Event, Session, place_of_fault, recast

__all__ = ["CAUSES", "Event", "Refused", "Session", "place_of_fault", "recast"]
__version__ = "1.0.7"
