#!/usr/bin/env python3
"""Tries the must-fail edits, crates/NAME/must-fail/*.edit, over what `rt all check` kept of the proved tree (must_fail.py).

  tools/gate/edits.py [CRATE..]         tries the edits of these crates, or of all
  tools/gate/edits.py --due [CRATE..]   of crates that are as they were when all of theirs were refused, a fifth, another at each commit
  tools/gate/edits.py --rest [CRATE..]  of such crates none
  tools/gate/edits.py --record ..       notes in tools/gate/edits-tried.txt the crates of which all that were due were refused
"""
import argparse
import os
import sys
import tempfile
from concurrent.futures import ThreadPoolExecutor

sys.dont_write_bytecode = True
from lanes import Lanes, crates_of, most_lanes
from must_fail import Trial
from records import RECORD, all_of, none_of, part_of, plan, turn_of

ROOT = os.path.abspath(f"{__file__}/../../..")


def try_all(planned, jobs, is_recorded):
    """Tries what is planned in so many lanes, and notes what comes of a crate as soon as all of its edits were tried."""
    with tempfile.TemporaryDirectory(prefix="lv-edits-") as room:
        trial = Trial(ROOT, Lanes(ROOT, room, jobs))
        with ThreadPoolExecutor(jobs) as pool:
            started = [(crate, pool.submit(trial.run, crate, batch)) for crate, batch in planned.batches]
            for crate in planned.due:
                for it in (it for name, it in started if name == crate):
                    it.result()
                if is_recorded:
                    planned.record(ROOT, trial, [crate])
    return trial


def main():
    parser = argparse.ArgumentParser(description="Tries the must-fail edits over what rt all check kept of the proved tree.")
    parts = parser.add_mutually_exclusive_group()
    parts.add_argument("--due", action="store_true", help="of crates as they were recorded, a fifth alone")
    parts.add_argument("--rest", action="store_true", help="of crates as they were recorded, none")
    parser.add_argument("--record", action="store_true", help=f"note the crates of which all were refused in {RECORD}")
    parser.add_argument("--jobs", type=int, default=most_lanes(), help="how many checks run side by side")
    parser.add_argument("crates", nargs="*")
    words = parser.parse_args()
    of_known = part_of(ROOT) if words.due else none_of if words.rest else all_of
    planned = plan(ROOT, words.crates or [*crates_of(ROOT)], of_known, turn_of(ROOT))
    trial = try_all(planned, words.jobs, words.record)
    failed = trial.failed + [it.split(":")[0] for it in planned.bad]
    print(*planned.bad, planned.said(trial), sep="\n")
    print(f"{trial.seconds / 60:.1f} minutes of processor time" + f"; FAILED: {' '.join(failed)}" * bool(failed))
    print(f"{trial.passed} passed, {len(failed)} failed")
    return 1 if failed else 0


if __name__ == "__main__":
    sys.exit(main())
