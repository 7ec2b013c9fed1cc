#!/usr/bin/env python3
"""Prints where each section lies along the line: a line `SECTION FROM TO` in km from the first portal of the scene.

usage: km.py SCENE

Sections are walked from that portal on, over the ways that their kinds have. Tracks side by side get the same kilometres
where they are equally long; of several ways to a joint the first one found tells.
"""

import collections
import sys
import tomllib

WAYS = {
    "plain": [(0, 1)],
    "points": [(0, 1), (0, 2)],
    "crossing": [(0, 1), (2, 3)],
    "slip": [(0, 1), (2, 3), (0, 3), (2, 1)],
}


def main():
    with open(sys.argv[1], "rb") as file:
        scene = tomllib.load(file)
    behind = collections.defaultdict(list)  # by joint: the sections at it, with the joint behind each and its length
    for section in scene["section"]:
        for one, two in WAYS[section["kind"]]:
            for near, far in ((one, two), (two, one)):
                joints = section["joints"]
                behind[joints[near]].append((section["name"], joints[far], section["length"] / 1000))
    start = scene["portal"][0]["joint"]
    km, places, todo = {start: 0.0}, {}, [(start, None)]
    while todo:
        joint, came_over = todo.pop(0)
        for name, far, length in behind[joint]:
            if name == came_over:  # no train turns within a section
                continue
            places.setdefault(name, (km[joint], km[joint] + length))
            if far not in km:
                km[far] = km[joint] + length
                todo.append((far, name))
    for name, (begin, end) in places.items():
        print(f"{name} {begin:.3f} {end:.3f}")


main()
