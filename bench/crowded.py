"""Names that are chosen to collide in the index of names, which hashes with a fixed seed."""
import subprocess

# Prints so many names of eight letters, digits and underscores, whose places agree as is asked.
SEARCH = r"""
#include <stdint.h>
#include <stdio.h>
#include <stdlib.h>
#include <string.h>

static uint64_t folded(uint64_t a, uint64_t b) {
    unsigned __int128 product = (unsigned __int128)a * b;
    return (uint64_t)product ^ (uint64_t)(product >> 64);
}

/* The name's two slots, its place in a table that hashes as the standard library does, or its hint. */
static int agrees(char kind, const char *name) {
    const uint64_t multiplier = 0x9e3779b97f4a7c15, seed = 0x243f6a8885a308d3;
    uint64_t eight;
    memcpy(&eight, name, 8);
    uint64_t hash = folded(seed ^ eight, multiplier ^ 16);
    switch (kind) {
    case 's':
        return (hash & 0x3f) == 0 && (hash >> 32 & 0x3f) == 0;
    case 'g':
        hash = folded(hash ^ 0xffffff, multiplier ^ 2);
        return ((hash ^ hash >> 32) & 0xfff) == 0;
    case 'h':
        return (uint8_t)(name[7] + 10 * name[6] + 37 * name[4] + 8) == 0;
    default:
        return 1;
    }
}

int main(int count, char **words) {
    const char *letters = "abcdefghijklmnopqrstuvwxyz0123456789_";
    uint64_t left = count == 3 ? strtoull(words[1], 0, 10) : 0;
    char name[9] = "naaaaaaa";
    int digits[8] = {0};
    while (left > 0) {
        if (agrees(words[2][0], name)) {
            puts(name);
            left--;
        }
        int place = 7;
        while (place > 1 && ++digits[place] == 37) {
            digits[place] = 0;
            name[place--] = letters[0];
        }
        name[place] = letters[digits[place]];
    }
}
"""

# What the names share: nothing, their hint, the last six bits of the places of both slots, or the last twelve bits of the place in a table
# that hashes as the standard library does.
KINDS = ["plain", "hints", "slots", "groups"]


def names(folder, kind, number):
    """So many names of this kind. The program that finds them is compiled in the folder."""
    search = folder / "search"
    if not search.exists():
        subprocess.run(["cc", "-O2", "-x", "c", "-", "-o", search], input=SEARCH, text=True, check=True)
    return subprocess.run([search, str(number), kind], check=True, stdout=subprocess.PIPE, text=True).stdout.split()
