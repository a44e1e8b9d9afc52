"""The table of a conformance suite as one HTML page."""

import html
import time
from itertools import groupby

STYLE = """body { font: 16px/1.5 sans-serif; max-width: 60em; margin: 2em auto; padding: 0 1em; color: #222 }
table { border-collapse: collapse } th, td { padding: .2em .8em; border-bottom: 1px solid #ccc; text-align: right }
th:first-child, td:first-child { text-align: left } tr.failed td { background: #fdd } tr:last-child td { font-weight: bold }
pre { background: #f4f4f4; padding: .5em; overflow-x: auto }"""


def row(cells, tag="td"):
    return "".join(f"<{tag}>{html.escape(str(it))}</{tag}>" for it in cells)


def failure(outcome):
    place = html.escape(f"{outcome.file}, line {outcome.line}: {outcome.title}")
    return f"<h3>{place}</h3>\n<pre>{html.escape(outcome.said)}</pre>"


def skipped_list(outcomes):
    """The examples that were skipped, by what they need."""
    skipped = sorted((it for it in outcomes if it.word == "skipped"), key=lambda it: (it.said, it.file, it.line))
    for need, those in groupby(skipped, key=lambda it: it.said):
        items = [f"<li>{html.escape(f'{it.file}: {it.title}')}</li>" for it in those]
        yield f"<details><summary>{len(items)} that need {html.escape(need)}</summary><ul>{''.join(items)}</ul></details>"


def page(url, moment, outcomes, table):
    """The page: the table by chapter, each failure with its first difference, and what was skipped."""
    day = time.strftime("%Y-%m-%d %H:%M:%S UTC", time.gmtime(moment))
    rows = [f"<tr{' class=failed' if it[2] else ''}>{row(it)}</tr>" for it in table]
    failures = [failure(it) for it in outcomes if it.word == "failed"] or ["<p>None.</p>"]
    return "\n".join([
        f"<!doctype html>\n<html lang=en><meta charset=utf-8><title>Conformance of {html.escape(url)}</title>",
        f"<style>{STYLE}</style>", f"<h1>Conformance of {html.escape(url)}</h1>",
        f"<p>The examples of the profile, by chapter, played on {day}.</p>",
        f"<table><tr>{row(('chapter', 'passed', 'failed', 'skipped'), 'th')}</tr>", *rows, "</table>",
        "<h2>Failed</h2>", *failures, "<h2>Skipped</h2>", *skipped_list(outcomes), "</html>\n"])
