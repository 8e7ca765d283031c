"""What the checks of reports say of one docket."""
import pathlib
import random
import tempfile
from collections import Counter

import calendar_check
import ics_check
import json_check
import sql_check


def fault_of(given, seeds):
    """What a format says of the docket otherwise than the references, or none: of each seed with other words."""
    for seed in seeds:
        fault = fault_with(random.Random("one input {}".format(seed)), given)
        if fault:
            return fault
    return None


def fault_with(chance, given):
    fault = calendar_check.differs(chance, given)[0] or ics_check.differs(Counter(), chance, given) \
        or json_check.differs(chance, given, lambda whole: True)
    if fault:
        return fault
    with tempfile.TemporaryDirectory() as folder:
        return sql_check.differs(chance, given, [sql_check.Sqlite(pathlib.Path(folder))])
