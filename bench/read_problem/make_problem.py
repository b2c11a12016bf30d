#!/usr/bin/env python3
"""Writes a problem with so many literals in `:init`: make_problem.py LITERALS > FILE."""
import sys


def main():
    literals = int(sys.argv[1])
    out = sys.stdout
    out.write("(define (problem haul) (:domain transport)\n(:objects")
    for number in range(1000):
        out.write(f" location-{number}")
    out.write(" - location)\n(:htn :subtasks (and))\n(:init\n")
    for number in range(literals):
        out.write(f"  (road-between location-{number % 1000} location-{number // 1000 % 1000} paved)\n")
    out.write("))\n")


main()
