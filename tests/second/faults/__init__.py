"""The faults, one file for each subject of document 01, gathered in one catalogue."""

from faults import (  # noqa: F401  (each enters its faults as it is read)
    coverage,
    fields,
    grammar,
    hashes,
    index,
    lines,
    lists,
    methods,
    orders,
    sealed,
    sessions,
    signature,
    sizes,
    tables,
    times,
    trials,
    window,
)
from faults.catalogue import CATALOGUE

__all__ = ["CATALOGUE"]
