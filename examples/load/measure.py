"""Prints the results of a Locust run: measure.py NAME STATS USERS [BEFORE] AFTER

BEFORE and AFTER are the key files before and after the run. At least USERS of the users in BEFORE must have signed in;
without BEFORE, AFTER must have at least USERS users.
Exit status: 1 if a ceremony failed, or 4 if no ceremony failed, but the run was too short for USERS users, as on a busy
machine.
"""

import csv
import sqlite3
import sys


def read_keys(path):
    """Returns the keys in a file by user name."""
    try:
        return dict(sqlite3.connect(path).execute("select name, text from keys"))
    except sqlite3.OperationalError:  # no user has registered
        return {}


def count_changed_keys(before, after):
    """Returns the number of users whose key has changed, which each sign-in does."""
    first, second = read_keys(before), read_keys(after)
    return sum(second[name] != text for name, text in first.items())


def main():
    name, path, users, *files = sys.argv[1:]
    with open(path, encoding="utf-8", newline="") as file:
        rows = {(row["Type"], row["Name"]): row for row in csv.DictReader(file)}
    failed = 0
    for kind in (("CEREMONY", "register"), ("CEREMONY", "sign in"), ("KEY", "create"), ("KEY", "get")):
        row = rows.get(kind)
        if row is None:
            continue
        failed += int(row["Failure Count"])
        print(
            f"{name}: {kind[0]} {kind[1]}: {row['Request Count']}, {row['Failure Count']} failed, "
            f"median {float(row['Median Response Time']):.0f} ms, average {float(row['Average Response Time']):.2f} ms"
        )
    ceremonies = sum(int(row["Request Count"]) for (kind, _), row in rows.items() if kind == "CEREMONY")
    print(f"{name}: {ceremonies} ceremonies, {failed} failed")
    count = count_changed_keys(*files) if len(files) > 1 else len(read_keys(*files))
    print(f"{name}: {count} users " + ("of the earlier run signed in" if len(files) > 1 else "registered"))
    sys.exit(1 if failed else 4 if count < int(users) or not ceremonies else 0)


if __name__ == "__main__":
    main()
