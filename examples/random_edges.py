#!/usr/bin/env python3
"""usage: examples/random_edges.py NUMBER [VERTICES EDGES]    prints an edge list of random edges with weights 1 to 100, the same for the same NUMBER"""
import sys

state = int(sys.argv[1])
vertices, edges = (int(sys.argv[2]), int(sys.argv[3])) if len(sys.argv) > 3 else (1000, 8000)


def draw():
    global state
    state = (state * 6364136223846793005 + 1442695040888963407) % 2**64
    return state >> 32


print(f"# {vertices} vertices, {edges} edges, from {sys.argv[1]}")
for _ in range(edges):
    print(draw() % vertices, draw() % vertices, 1 + draw() % 100, sep="\t")
