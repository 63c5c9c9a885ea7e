"""Replaces each empty field of a CSV text by null, from standard input to standard output."""
import csv
import sys

sys.stdin.reconfigure(encoding="utf-8-sig", newline="")
sys.stdout.reconfigure(encoding="utf-8", newline="\n")
output = csv.writer(sys.stdout, lineterminator="\n")
for record in csv.reader(sys.stdin):
    output.writerow(field or "\\N" for field in record)
