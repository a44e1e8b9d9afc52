#!/usr/bin/env python3
"""Plays files of examples against the second server of the profile (checks/lib/model.py).

    checks/examples.py checks/examples/texts.txt checks/examples/deposits.txt

docs/EXAMPLES.md says how a file is written. Examples whose lines need the server of this repository itself (a reader or
a writer that fails, a statement of SQL) are left out and counted. Where files fail or stop, an example is played as if
none did. With `--lengths` in front, a
`Content-Length: ?` that has to come back is taken as the length of what stands behind it, and told.
"""

import sys
sys.path.insert(0, f"{sys.path[0]}/lib")

from example_play import LeftOut, Wrong, is_of_a_host, play_example, read_file, texts_above


def play_file(words, path, lengths):
    """Returns how many examples came out right, were left out, and were wrong."""
    front, examples = read_file(path)
    if is_of_a_host(path):
        print(f"{path}: 0 examples, {len(examples)} left out, 0 wrong")
        return 0, len(examples), 0
    words.update(texts_above(words, front, lengths))
    right, left_out, failed = 0, 0, 0
    for it in examples:
        try:
            play_example(words, it.lines, lengths)
            right += 1
        except LeftOut:
            left_out += 1
        except Wrong as wrong:
            failed += 1
            print(f"{path}:{it.number}: \"{it.title}\": {wrong}")
    print(f"{path}: {right} examples, {left_out} left out, {failed} wrong")
    return right, left_out, failed


def main(arguments):
    lengths = arguments[:1] == ["--lengths"]
    words, counts = {}, [0, 0, 0]
    for path in arguments[lengths:]:
        counts = [count + more for count, more in zip(counts, play_file(words, path, lengths))]
    print("the second server: {} examples, {} left out, {} wrong".format(*counts))
    return 1 if counts[2] else 0


if __name__ == "__main__":
    sys.exit(main(sys.argv[1:]))
