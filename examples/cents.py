"""Makes CSV of a spreadsheet's export: commas instead of semicolons, and a column's amounts as whole cents."""
import csv
import sys
from decimal import Decimal


def cents(amount):
    if not amount:
        return "\\N"
    exact = 100 * Decimal(amount.replace(".", "").replace(",", "."))
    if exact != int(exact):
        raise ValueError(f"part of a cent: {amount}")
    return int(exact)


sys.stdout.reconfigure(encoding="utf-8", newline="\n")
with open(sys.argv[1], encoding="utf-8-sig", newline="") as export:
    records = csv.reader(export, delimiter=";")
    output = csv.writer(sys.stdout, lineterminator="\n")
    header = next(records)
    place = header.index(sys.argv[2])
    output.writerow(header)
    for record in records:
        record[place] = cents(record[place])
        output.writerow(record)
