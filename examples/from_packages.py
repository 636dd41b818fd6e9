#!/usr/bin/env python3
"""Makes the tables of this folder from three of Debian's packages, unpacked into the folder that is given:

    apt-get download iso-codes unicode-data distro-info-data
    for package in *.deb; do dpkg -x "$package" unpacked; done
    examples/from_packages.py unpacked
"""
import csv
import datetime
import json
import pathlib
import sys

share = pathlib.Path(sys.argv[1], "usr/share")
here = pathlib.Path(__file__).parent


def write(name, header, rows):
    with open(here / name, "w", newline="", encoding="utf-8") as file:
        writer = csv.writer(file, lineterminator="\n")
        writer.writerow(header)
        writer.writerows(rows)


def iso(part):
    return json.loads((share / f"iso-codes/json/iso_{part}.json").read_text(encoding="utf-8"))[part]


def semicolons(name):
    for line in (share / "unicode" / name).read_text(encoding="utf-8").splitlines():
        if line and line[0] != "#":
            yield [cell.strip() for cell in line.split(";")]


def days(date):
    """The days from 1970-01-01 on; an empty cell where there is no date yet."""
    return (datetime.date.fromisoformat(date) - datetime.date(1970, 1, 1)).days if date else ""


def releases(name):
    with open(share / "distro-info" / name, newline="", encoding="utf-8") as file:
        for row in csv.DictReader(file):
            if row["version"]:
                release, end = row["release"] or "", row["eol"] or ""
                yield row["version"], row["codename"], release, end, days(release), days(end)


write("countries.csv", ["code", "name"], sorted((c["alpha_2"], c["name"]) for c in iso("3166-1")))
write(
    "states.csv",
    ["code", "country", "name"],
    sorted((s["code"], s["code"][:2], s["name"]) for s in iso("3166-2") if s["type"] == "State"),
)
blocks = [(*(int(end, 16) for end in ends.split("..")), name) for ends, name in semicolons("Blocks.txt")]
write("blocks.csv", ["first", "last", "name"], blocks)
signs = [(int(cells[0], 16), cells[1]) for cells in semicolons("UnicodeData.txt") if cells[2] == "Sc"]
write("currency_signs.csv", ["code", "name"], signs)
for name in "debian", "ubuntu":
    write(f"{name}.csv", ["version", "name", "release", "end", "release_day", "end_day"], releases(f"{name}.csv"))
