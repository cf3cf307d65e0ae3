#!/usr/bin/env python3
"""Draws what `nsq steps --trace` prints, from standard input, as one HTML page on standard output.

With the word `--svg` it writes the picture alone. Where the input has no trace it says so and ends with status 1.
"""

import sys

from drawing import heading, svg
from trace import TraceError, read_trace

PAGE = """<!doctype html>
<html lang="en">
<head>
<meta charset="utf-8">
<meta name="viewport" content="width=device-width, initial-scale=1">
<title>nsq: %(heading)s</title>
<style>
body { margin: 0; padding: 32px; background: #ece8df; display: flex; justify-content: center; }
main { max-width: 100%%; }
svg { max-width: 100%%; height: auto; display: block; box-shadow: 0 2px 14px rgba(40, 30, 10, 0.12); border-radius: 12px; }
p { font: 13px/1.5 'Inter', 'Helvetica Neue', 'DejaVu Sans', Arial, sans-serif; color: #66717f; max-width: 60em; }
</style>
</head>
<body>
<main>
%(svg)s
<p>Each lane is a partition, and each card a request that it served, in the order of its history. A card stands to the
right of all that came before it in its partition and in its session; a thread joins the requests of one session. Cards of
one column may have been served in any order.</p>
</main>
</body>
</html>
"""


def main(words):
    if words not in ([], ["--svg"]):
        print("picture: the only word is --svg", file=sys.stderr)
        return 2
    try:
        trace = read_trace(sys.stdin.read())
    except TraceError as error:
        print(f"picture: {error}", file=sys.stderr)
        return 1
    drawn = svg(trace)
    sys.stdout.write(drawn if words else PAGE % {"heading": heading(trace), "svg": drawn})
    return 0


if __name__ == "__main__":
    sys.exit(main(sys.argv[1:]))
