"""Prints a record of a CSV file, counted from 1 after the header, as refusals count: record.py FILE NUMBER"""
import csv
import itertools
import sys

with open(sys.argv[1], encoding="utf-8-sig", errors="replace", newline="") as file:
    records = filter(None, csv.reader(file))
    print(*itertools.islice(records, int(sys.argv[2]), int(sys.argv[2]) + 1))
