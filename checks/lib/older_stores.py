"""The store of version 1 that checks/examples/older-stores.txt has as SQL, its text `version-1`."""

from crates import DATA
from example_play import fill, texts_of

EXAMPLES = DATA / "older-stores.txt"
NAME = "version-1"
VERSION = 1


def statements():
    """The statements of the text."""
    text = texts_of(EXAMPLES, texts_of(DATA / "texts.txt"))[NAME]
    return [f"{it};" for it in fill({}, text).split(";") if it]
