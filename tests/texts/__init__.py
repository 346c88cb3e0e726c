"""Looks at the repository's texts. Each module's `looks` yields pairs: what is looked at, and what is wrong with it or
None.

`.ci/NAME` runs the module of that name as a command, which prints a line for each fault, and then 'N passed, M failed'.
"""


def report(name, looks):
    """Prints what is wrong, and answers whether anything is, or nothing was looked at."""
    found = list(looks)
    faults = [(what, fault) for what, fault in found if fault]
    for what, fault in faults:
        print(f"{name}: {what} {fault}", flush=True)
    print(f"{len(found) - len(faults)} passed, {len(faults)} failed")
    return bool(faults) or not found
