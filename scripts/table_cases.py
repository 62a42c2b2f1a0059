#!/usr/bin/env python3
"""Writes the case files that plain models answer: pseudo-random calls of what stations remember.

usage: scripts/table_cases.py [FOLDER]          crates/table_cases/data, if none is given

The models follow docs/BEHAVIOUR.md and docs/FORMATS.md, and none of the code. Each run
makes the same calls.
"""
import pathlib
import sys

import modelled_addresses
import modelled_learning
import modelled_names
import modelled_routes
import modelled_transactions
import modelled_zones

FILES = {
    "model-routes.case": lambda: modelled_routes.routes(1),
    "model-zones.case": lambda: modelled_zones.zones(2),
    "model-learning.case": lambda: modelled_learning.learning(3),
    "model-names.case": lambda: modelled_names.names(4),
    "model-choosers.case": lambda: modelled_addresses.choosers(5),
    "model-mappers.case": lambda: modelled_addresses.mappers(6),
    "model-transactions.case": lambda: modelled_transactions.transactions(7),
}


def main() -> None:
    here = pathlib.Path(__file__).resolve().parent.parent
    folder = pathlib.Path(sys.argv[1]) if len(sys.argv) > 1 else here / "crates/table_cases/data"
    for name, text in FILES.items():
        (folder / name).write_text(text())


if __name__ == "__main__":
    main()
