#!/usr/bin/env python3
"""Writes a text that looks like a long domain: make_text.py MIB > FILE."""
import sys

ACTION = """  (:action move-%(n)d ; from one place to another, by a road
    :parameters (?v - vehicle ?from - location ?to - location)
    :precondition (and (at-%(n)d ?v ?from) (road ?from ?to)
      (not (closed-%(m)d ?from ?to)))
    :effect (and (not (at-%(n)d ?v ?from)) (at-%(n)d ?v ?to)))

  (:method m-deliver-%(n)d
    :parameters (?p - package ?from ?to - location ?v - vehicle)
    :task (Deliver-%(n)d ?p ?to)
    :precondition (and (package-at ?p ?from) (forall (?x - obstacle) (not (blocks ?x ?to))))
    :ordered-subtasks (and
      (get-to ?v ?from)
      (load ?v ?from ?p)
      (get-to ?v ?to)
      (unload ?v ?to ?p)))

"""


def main():
    size = int(float(sys.argv[1]) * 1024 * 1024)
    out = sys.stdout
    head = "(define (domain transport)\n  (:requirements :typing :hierarchy)\n"
    out.write(head)
    written = len(head)
    number = 0
    while True:
        part = ACTION % {"n": number, "m": number % 97}
        if written + len(part) + 2 > size:
            break
        out.write(part)
        written += len(part)
        number += 1
    out.write(")\n")


main()
