#!/usr/bin/env python3
"""What calls on tables cost, in machine instructions and beside a C program with the same tree.

It builds the program bench_tables, and a C program in a temporary folder that enters the same ints in the same
order into a balanced search tree of linked pieces. It prints a line for each figure of README.md, "Tables", with
its bound, and ends with status 1 where one isn't met. Words name single figures: ints, texts, enters, times.
The first three need valgrind.
"""
import os
import re
import shutil
import subprocess
import sys
import tempfile
import time

ROOT = os.path.dirname(os.path.dirname(os.path.abspath(__file__)))
CRATE = os.path.join(ROOT, "crates", "bench_tables")
PROGRAM = os.path.join(CRATE, "out", "bench_tables")
RUNS = 5
MANY = 10**6

TREE = r"""
#include <stdint.h>
#include <stdio.h>
#include <stdlib.h>
#include <string.h>

typedef struct node { struct node *left, *right; int32_t key; uint32_t height; void *value; } node;

static uint32_t height(node *n) { return n ? n->height : 0; }

static node *set(node *n, node *left, node *right) {
    uint32_t l = height(left), r = height(right);
    n->left = left;
    n->right = right;
    n->height = (l > r ? l : r) + 1;
    return n;
}

static node *balance(node *n, node *left, node *right) {
    if (height(left) > height(right) + 1) {
        node *outer = left->left, *inner = left->right;
        if (height(outer) < height(inner)) {
            node *before = inner->left, *after = inner->right;
            set(left, outer, before);
            set(n, after, right);
            return set(inner, left, n);
        }
        set(n, inner, right);
        return set(left, outer, n);
    }
    if (height(right) > height(left) + 1) {
        node *outer = right->right, *inner = right->left;
        if (height(outer) < height(inner)) {
            node *before = inner->left, *after = inner->right;
            set(n, left, before);
            set(right, after, outer);
            return set(inner, n, right);
        }
        set(n, left, inner);
        return set(right, n, outer);
    }
    return set(n, left, right);
}

static node *enter(node *n, int32_t key, void *value) {
    if (!n) {
        n = calloc(1, sizeof(node));
        n->key = key;
        n->value = value;
        n->height = 1;
        return n;
    }
    if (key < n->key) return balance(n, enter(n->left, key, value), n->right);
    if (key > n->key) return balance(n, n->left, enter(n->right, key, value));
    n->value = value;
    return n;
}

int main(int argc, char **argv) {
    uint32_t keys = (uint32_t)strtoul(argv[2], 0, 10);
    node *root = 0;
    for (uint32_t i = 0; i < keys; i++) {
        uint32_t key = !strcmp(argv[1], "rising") ? i : !strcmp(argv[1], "falling") ? keys - i : i * 0x9e3779b1u;
        root = enter(root, (int32_t)key, &root);
    }
    printf("%u\n", keys);
    return root == 0;
}
"""

all_met = True


def line(what, value, bound=None, format=".1f"):
    global all_met
    verdict = ""
    if bound is not None:
        met = value <= bound
        all_met = all_met and met
        verdict = f" (at most {bound}): {'met' if met else 'NOT MET'}"
    print(f"{what} {value:{format}}{verdict}", flush=True)


def counted(what, keys, calls):
    """The machine instructions of a run."""
    words = ["valgrind", "--tool=callgrind", "--callgrind-out-file=/dev/null", PROGRAM, what, str(keys), str(calls)]
    told = subprocess.run(words, check=True, stdout=subprocess.PIPE, stderr=subprocess.PIPE, text=True)
    if told.stdout != f"{calls}\n":
        sys.exit(f"bench_tables: {what} of {calls} calls told {told.stdout}")
    return int(re.search(r"Collected : (\d+)", told.stderr).group(1))


def each(what, keys, few, many):
    """The machine instructions of a call, without the start-up and the keys that are entered before."""
    return (counted(what, keys, many) - counted(what, keys, few)) / (many - few)


def ints():
    for keys, bound in ((1000, 900), (MANY, 1900)):
        line(f"machine instructions for a lookup of an int in {keys} keys:", each("int", keys, 10_000, 60_000), bound)


def texts():
    for keys in (1000, MANY):
        number = each("int", keys, 10_000, 60_000)
        text = each("text", keys, 10_000, 60_000) - each("write", keys, 10_000, 60_000)
        line(f"machine instructions for a lookup of a string of 8 bytes in {keys} keys:", text)
        line("over those of an int:", text / number, 1.5, ".2f")


def enters():
    line(f"machine instructions for an enter of a new int in {MANY} keys:", each("enter", MANY, 10_000, 60_000), 4000)


def timed(command):
    start = time.perf_counter()
    told = subprocess.run(command, check=True, stdout=subprocess.PIPE, text=True).stdout
    if told != f"{MANY}\n":
        sys.exit(f"{command[0]} told {told}")
    return time.perf_counter() - start


def times():
    with tempfile.TemporaryDirectory() as folder:
        source, tree = os.path.join(folder, "tree.c"), os.path.join(folder, "tree")
        with open(source, "w") as file:
            file.write(TREE)
        compiler = os.environ.get("CC") or shutil.which("cc") or sys.exit("there is no C compiler cc")
        subprocess.run([compiler, "-O2", source, "-o", tree], check=True)
        for order in ("rising", "falling", "scattered"):
            rounds = [(timed([PROGRAM, order, str(MANY), "0"]), timed([tree, order, str(MANY)])) for _ in range(RUNS)]
            ours, theirs = (min(runs) for runs in zip(*rounds))
            line(f"{MANY} enters in {order} order: {ours:.3f} s, C {theirs:.3f} s, ratio", ours / theirs, 3, ".2f")


def main():
    figures = {"ints": ints, "texts": texts, "enters": enters, "times": times}
    built = subprocess.run(["rt", "run", "--", "int", "10", "10"], cwd=CRATE, stdout=subprocess.DEVNULL)
    if built.returncode != 0:
        sys.exit("bench_tables was not built")
    for name in sys.argv[1:] or figures:
        figures[name]()
    sys.exit(0 if all_met else 1)


if __name__ == "__main__":
    main()
