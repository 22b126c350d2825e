#!/usr/bin/env python3
"""The tables that a command prints stand in a document, row by row: tables.py DOCUMENT PRINTED

A table that is printed must stand in the document once, under its heading and with its rows in the same order. A table of the
document whose first column has the same name, and that is not printed, must say in its heading that it was tried by hand.
"""
import sys

BY_HAND = "tried by hand"


def tables(text):
    """The tables of some text: each the list of its lines, the heading first."""
    found, rows = [], []
    for line in [*text.splitlines(), ""]:
        if line.startswith("|"):
            rows.append(line.strip())
        elif rows:
            found.append(rows)
            rows = []
    return found


def differences(name, document, printed):
    """What is wrong with the document's table under the heading of a printed one."""
    same = [table for table in document if table[0] == printed[0]]
    if len(same) != 1:
        yield f"{name} has {len(same)} tables under '{printed[0]}', and one is printed"
        return
    for row in printed[2:]:
        if row not in same[0]:
            yield f"{name} does not have this row, which is printed:\n  {row}"
    for row in same[0][2:]:
        if row not in printed:
            yield f"{name} has this row, which is not printed:\n  {row}"
    if same[0] != printed:
        yield f"{name}: what stands under '{printed[0]}' is not what is printed, row by row"


def first_column(table):
    return table[0].split("|")[1].strip()


def unmarked(name, document, printed):
    """Tables of the document that look like printed ones, are not printed, and do not say so."""
    headings = {table[0] for table in printed}
    for table in document:
        alike = any(first_column(table).startswith(first_column(other)) for other in printed)
        if alike and table[0] not in headings and BY_HAND not in table[0]:
            yield f"{name}: the table under '{table[0]}' is neither printed nor marked as {BY_HAND}"


def main():
    name, said = sys.argv[1:]
    with open(name, encoding="utf-8") as document, open(said, encoding="utf-8") as file:
        written, printed = tables(document.read()), tables(file.read())
    if not printed:
        sys.exit(f"{said}: no table is printed")
    wrong = [problem for table in printed for problem in differences(name, written, table)] + list(unmarked(name, written, printed))
    if wrong:
        sys.exit("\n".join(wrong))
    rows = sum(len(table) - 2 for table in printed)
    print(f"{name}: {rows} rows of its tables are those that were just printed")


if __name__ == "__main__":
    main()
