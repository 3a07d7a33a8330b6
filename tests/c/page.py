#!/usr/bin/env python3
"""Writes a C program of the blocks of docs/C.md, in their order, so that it compiles where they do. What they take from their reader's
program is given here."""
import os
import re
import sys

TOP = os.path.join(os.path.dirname(os.path.abspath(__file__)), "..", "..")

HEAD = """\
#define _POSIX_C_SOURCE 199309L
#include "timeforms.h"

#include <stdio.h>
#include <stdlib.h>
#include <string.h>
#include <time.h>

"""

GIVEN = """\
    const char *word = "Fancy", *text = "1h 20m", *lines = "PgIso Postgres P1Y2M\\n", *data = "36h5m";
    const char *plan = "2026-03-30T06:00:00+02:00\\t8h\\n2026-03-30T13:30:00+02:00\\t8h 30m\\n";
    size_t text_len = strlen(text), lines_len = strlen(lines), data_len = strlen(data), plan_len = strlen(plan), count = 2, done = 0;
    char room[1024];
    const uint32_t offsets[] = {0, 3, 5};
    uint32_t out_offsets[3];
    int32_t codes[2], months[2], days[2];
    int64_t microseconds[2];
    timeforms_interval column[2] = {{1, 0, 0}, {0, 0, 1}};
    struct timespec took = {1, 500000000};
    uint64_t ticks = 116444736000000000u;
"""


def main():
    with open(os.path.join(TOP, "docs", "C.md"), encoding="utf-8") as page:
        blocks = re.findall(r"^```c\n(.*?)^```", page.read(), re.M | re.S)
    function = re.compile(r"^static .*?^\}\n", re.M | re.S)
    outside = "".join(part for block in blocks for part in function.findall(block))
    inside = "".join(function.sub("", block) for block in blocks)
    sys.stdout.write(f"{HEAD}{outside}\nint main(void) {{\n{GIVEN}{inside}    return 0;\n}}\n")


if __name__ == "__main__":
    main()
