# Counted checks, which the tests in Python share.

passed = failed = 0

# So much is shown of each thing that a failed check names.
MOST_SHOWN = 600


def hold(name, right, *shown):
    """Counts a check; where it fails, its name and what is shown with it are printed."""
    global passed, failed
    if right:
        passed += 1
        return
    failed += 1
    print(f"FAILED: {name}")
    for text in shown:
        print(f"  {str(text)[:MOST_SHOWN]}")


def equal(name, found, due):
    hold(name, found == due, f"found {found!r}", f"due   {due!r}")


def finish(name):
    """The last line, and the status of the test."""
    print(f"{name}: {passed} checks passed, {failed} failed")
    return 0 if failed == 0 else 1
