"""Makes cases from tables, and says which cases may not run at the same time as others."""
import pytest


def each(names, table):
    """Makes a case from each row of a table, under the row's name. A row has a value for each of
    these names. If the table is a list of texts, each text is its own name."""
    rows = table.values() if isinstance(table, dict) else table
    return pytest.mark.parametrize(names, list(rows), ids=[str(name) for name in table])


# Marks cases that use signals, locks, clocks or mounts. One process runs all of them.
alone = pytest.mark.xdist_group("alone")
# Marks cases that measure processor time or take much memory. They run one after another, once all other cases have ended.
by_itself = pytest.mark.by_itself
