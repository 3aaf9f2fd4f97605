"""How a test counts its checks: each that fails is named, and the last line is 'N passed, M failed', which tests/all reads."""

passed = failed = 0


def count(good, bad):
    """Counts checks that passed, and checks that failed."""
    global passed, failed
    passed, failed = passed + good, failed + bad


def check(holds, what):
    """Counts a check, and names it where it fails."""
    count(bool(holds), not holds)
    if not holds:
        print(f"FAILED  {what}", flush=True)


def named(holds, what):
    """Counts a check, and names it either way."""
    count(bool(holds), not holds)
    print(f"{'ok     ' if holds else 'FAILED '} {what}", flush=True)


def row(name, problems, more=""):
    """Counts a check that holds where there are no problems, and names it with those, or with what else is to be said of it."""
    named(not problems, f"{name}: {'; '.join(problems)[:2000]}" if problems else f"{name}{more}")


def ended():
    """Writes the last line, and returns the status of the test."""
    print(f"{passed} passed, {failed} failed", flush=True)
    return int(failed > 0)
