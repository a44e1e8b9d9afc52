#!/usr/bin/env python3
"""Draws a made-up day of a log by checks/report, and looks for what it has to show.

    checks/reports.py
"""

import sys
sys.path.insert(0, f"{sys.path[0]}/lib")

import json
import re
import subprocess
import tempfile
import xml.etree.ElementTree as tree

from crates import ROOT
from expectations import expect, status_of

DAY = 1_700_006_400
STATUSES = (201, 200, 204, 412, 404, 503)


def made_up_log():
    """A day with 10 requests an hour from 08:00 to 17:59, and one of the day before."""
    yield {"event": "started", "moment": DAY, "version": "x"}
    yield line_at(DAY - 1, 200)
    for hour in range(8, 18):
        for number in range(10):
            yield line_at(DAY + 3600 * hour + 60 * number, STATUSES[number % len(STATUSES)], 1000 * (number + 1))
    yield {"event": "closed", "moment": DAY + 40_000, "connection": 7, "peer": "::1", "reason": "idle"}
    yield {"event": "refused", "moment": DAY + 40_001, "peer": "::1", "reason": "address_limit"}


def line_at(moment, status, microseconds=500):
    return {"event": "exchange", "moment": moment, "connection": 1, "peer": "127.0.0.1", "method": "GET", "path": "/<x>",
            "status": status, "refusal": "ETagNotMatched" if status == 412 else None, "bytes_in": 1000, "bytes_out": 500,
            "microseconds": microseconds}


def drawn(log, *words):
    ran = subprocess.run([ROOT / "checks/report", "-", *words], input=log, capture_output=True, text=True, check=False)
    return ran.returncode, ran.stdout, ran.stderr


def main():
    log = "".join(json.dumps(it) + "\n" for it in made_up_log()) + "a plain line\n"
    status, text, said = drawn(log)
    expect("its end", (status, said), (0, ""))
    expect("the day", "<h1>Deposits on 2023-11-15 (UTC)</h1><p>100 requests.</p><p>1 lines are no events" in text, True)
    pictures = [tree.fromstring(it) for it in re.findall(r"(?s)<svg.*?</svg>", text)]
    expect("the pictures", len(pictures), 3)
    titles = [it.text for it in pictures[0].iter("title")]
    expect("the bars of a status", [it for it in titles if it.startswith("08:00")],
           ["08:00, 2xx: 6 ", "08:00, 4xx: 3 ", "08:00, 5xx: 1 "])
    expect("the bars of the times", [it.text for it in pictures[1].iter("title")][:2],
           ["08:00, half of them within: 6000 µs", "08:00, 99 of 100 within: 10000 µs"])
    expect("the bars of the bytes", [it.text for it in pictures[2].iter("title")][:2],
           ["08:00, received: 10000 B", "08:00, sent: 5000 B"])
    for row in ("ETagNotMatched</td><td>20", "closed: idle</td><td>1", "refused: address_limit</td><td>1", "503</td><td>10"):
        expect(f"whether it has {row}", row in text, True)
    expect("the day before", "<p>1 requests.</p>" in drawn(log, "--day", "2023-11-14")[1], True)
    expect("a day without", drawn(log, "--day", "2023-11-16")[0], 1)
    with tempfile.NamedTemporaryFile("r", encoding="utf-8") as file:
        drawn(log, "--html", file.name)
        expect("whether the file has the page", file.read() == text, True)
    return status_of("report: a day of 100 requests")


if __name__ == "__main__":
    sys.exit(main())
