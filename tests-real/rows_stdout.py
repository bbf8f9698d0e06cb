#!/usr/bin/env python3
"""What reader_rows has to print, from its files of rows alone: a line a group, with the number of its rows.

python3 tests-real/rows_stdout.py > crates/reader_rows/stdout
"""
import pathlib

crate = pathlib.Path(__file__).parent.parent / "crates/reader_rows"
for path in (crate / "args").read_text().split():
    group, rows = None, 0
    for line in (crate / "data" / path).read_bytes().split(b"\n") + [b"end"]:
        text = line.lstrip(b" ")
        if not text or text.startswith(b"#"):
            continue
        if not line.startswith(b"  "):
            if group:
                print(f"ok {group} ({rows} rows)")
            group = line[5:].decode() if line.startswith(b"rows ") else None
            rows = 0
        elif not line.startswith(b"    "):
            rows += 1
