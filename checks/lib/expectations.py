"""What a check expects, and what came otherwise, which is printed at once and counted."""

wrong = []


def expect(what, came, wanted):
    """Notes where what came isn't what was wanted. It tells whether it is."""
    if came != wanted:
        wrong.append(what)
        print(f"WRONG: {what}: {came!r} in place of {wanted!r}")
    return came == wanted


def find(what, holds):
    """Notes what doesn't hold."""
    if not holds:
        wrong.append(what)
        print("WRONG:", what)


def status_of(line):
    """Prints the check's line, and how much came otherwise. Returns the exit status."""
    print(f"{line}, {len(wrong)} wrong")
    return 1 if wrong else 0
