#!/usr/bin/env python3
"""Builds and runs tests/worst_cases.c: removal and its size where an engine is worst off, every word against tests/plain.h.

    python3 tests/worst_cases.py               the library (built by rt); some seconds
    python3 tests/worst_cases.py --stand-in    the reference program of bench/ in its place
    python3 tests/worst_cases.py --try-faults  the reference program with an error put in on purpose, one at a time: each must be found
    also: --library FILE.a                     that library, as it is, in place of the one that rt builds

The errors are such as an engine of this kind can have: bench/reference.c is built by the plan of the library's own.
Ends with a line that begins 'worst_cases:' and exit status 0, or with what differs and status 1.
"""
import argparse
import os
import pathlib
import subprocess
import sys
import tempfile

HERE = pathlib.Path(__file__).resolve().parent.parent
BENCH, BUILT = HERE / "bench", HERE / "target" / "worst_cases"
LIBRARY = HERE / "crates" / "jaqhweni" / "out" / "libjaqhweni.a"
FLAGS = ["-O1", "-std=c11", "-Wall", "-Wextra", "-I", str(HERE / "include"), "-I", str(BENCH)]

# What the error is; what stands in bench/reference.c, just once; what stands there instead.
FAULTS = [
    ("the list's tables: a repeat is a class of its own", "if (key != before) {", "if (key != before || length == 2) {"),
    ("classes of one length are not in order, many at a time", "items[high[spare[i] >> 17]++] = spare[i];", "items[i] = spare[i];"),
    ("classes of one length are not in order, few at a time", "items[j - 1] > item", "items[j - 1] < item"),
    ("a whole path is no dead class", "if (l->lengths[path] == length) t->loc[classes] = DEAD;",
     "if (l->lengths[path] == length && length != 3) t->loc[classes] = DEAD;"),
    ("a class that begins with a listed path is not dead", "if (t->loc[fail] == DEAD) t->loc[c] = DEAD;", ""),
    ("a failure link leads to the edge alone at once",
     "for (uint32_t f = t->fail[rest]; f && !fail; f = t->fail[f]) fail = child_over(t, f, edge);",
     "(void)child_over;"),
    ("a failure link is looked for one class only", "f && !fail; f = t->fail[f])", "f && !fail; f = 0)"),
    ("children are not found by halving past the middle", "low = middle + 1;", "low = middle + 2;"),
    ("no mark has a failure link", "t->fail[c] ? before + t->loc[t->fail[c]] : 0;", "0;"),
    ("a dead child is taken for the empty mark", "return LOW(kid) ? t->base[HIGH(t->ed[2 * p])] + LOW(kid) : t->none;",
     "return t->base[HIGH(t->ed[2 * p])] + LOW(kid);"),
    ("a dead default is taken for the empty mark",
     "loc == DEAD ? t->none : t->base[start] + loc;", "t->base[start] + (loc == DEAD ? 0 : loc);"),
    ("marks are those of the next node", "return (span){t->into[c], t->into[c + 1], t->base[c], t->base[c + 1], t->marks[c]};",
     "return (span){t->into[c], t->into[c + 1], t->base[c], t->base[c + 1], t->marks[c + (c == 5)]};"),
    ("of two patches of an edge the shorter class's stands", "|| t->row[p] == stamp) continue;", ") continue;"),
    ("an edge into another copy is patched", "return s.first <= p && p < s.end && LOW(t->ed[2 * p]) == edge;",
     "return s.first <= p && p < s.end && (edge | 1);"),
    ("places of edges have 15 bits", "pos[LOW(t->ed[2 * p])] = (uint16_t)p;", "pos[LOW(t->ed[2 * p])] = (uint16_t)(p & 32767);"),
    ("backward, places of edges are not noted", "            if (!on_design) note_places(t, pos, s);\n", ""),
    ("counting, places of edges are not noted",
     "        if (!on_design) note_places(t, pos, s);\n        for (uint32_t i = 1; i < s.slot_end",
     "        for (uint32_t i = 1; i < s.slot_end"),
    ("filling, places of edges are not noted", "if (slots > 1 && g) note_places(t, b->pos, s);", ""),
    ("a default is reached though all marks patch the edge", "if (t->ov[p] < reached)", "if (t->ov[p] <= reached)"),
    ("a default is reached only where no mark patches the edge", "if (t->ov[p] < reached)", "if (t->ov[p] == 0 && reached)"),
    ("the empty mark is not counted among those that reach an end", "uint32_t reached = t->slot[s.slot];",
     "uint32_t reached = s.slot_end - s.slot == 1 ? t->slot[s.slot] : 0;"),
    ("a patch leads to no reached slot", "        reach_over(t, p, slot_of(t, p, *kid));", "        t->ov[p]++;"),
    ("patches are not counted over a chain", "for (uint32_t i = 0; i < count; i++) reach_over(t, t->tp[i], t->td[t->tp[i]]);",
     "for (uint32_t i = 0; i < count; i++) t->slot[t->td[t->tp[i]]] = REACHED;"),
    ("counting, what the default shows is not taken away, one patch",
     "is_shown(t, slot) - is_shown(t, t->ed[2 * p + 1]);", "is_shown(t, slot);"),
    ("counting, what the default shows is not taken away, more patches",
     "more += is_shown(t, t->td[t->tp[k]]) - is_shown(t, t->ed[2 * t->tp[k] + 1]);",
     "more += is_shown(t, t->td[t->tp[k]]);"),
    ("counting, a copy without edges in is shown", "    if (edges == 0 && !source) return;\n", "    (void)source;\n"),
    ("filling, a copy without edges in is written", "    if (at == made->edges && !source) return;\n", "    (void)source;\n"),
    ("a source is not shown",
     "write_copy(t, r, &made, s.slot, node, end, at, s.first == s.end);", "write_copy(t, r, &made, s.slot, node, end, at, 0);"),
    ("the template leaves out what only a patch shows", "made.length += (number != 0) | patched;", "made.length += number != 0;"),
    ("the template has entries that no row has, and counts none of them", "made.missing += (number == 0) & patched;", ""),
    ("what is missing is not counted after a patch", "row->missing += (uint32_t)(number == 0) - (uint32_t)(old == 0);", ""),
    ("one patch stays in the template", "        t->tc[t->ov[p]] = old;\n", "        (void)old;\n"),
    ("more patches stay in the template", "for (uint32_t k = 0; k < patches; k++) t->tc[t->ov[t->tp[k]]] = t->td[t->tp[k]];", ""),
    ("few edges in: a patch of another mark counts", "t->row[p] == t->stamp ? t->td[p]", "t->row[p] ? t->td[p]"),
    ("few edges in: the patch is left out", "p == patched ? slot :", "p == patched && 0 ? slot :"),
    ("a long row is written one entry short", "write_full(te, tc, from + at, to + at, via + at, row.length, copy);",
     "write_full(te, tc, from + at, to + at, via + at, row.length - 1, copy);"),
    ("paths end at every copy of a node",
     "write_copy(t, r, &made, s.slot + i, node, 0, at, 0);", "write_copy(t, r, &made, s.slot + i, node, end, at, 0);"),
    ("marked nodes are ignored", "for (size_t i = 0; i < d->marked_nodes; i++) ends[d->marked[i]] = 1;", ""),
    ("33 from 16,384 copies on",
     "if (made.copies > most_copies) return refuse(33, 0);", "if (made.copies >= most_copies) return refuse(33, 0);"),
    ("34 from the room's edges on",
     "if (made.edges > most_edges) return refuse(34, 0);", "if (made.edges >= most_edges) return refuse(34, 0);"),
    ("34 before 33",
     "        if (made.copies > most_copies) return refuse(33, 0);\n",
     "        if (made.edges > most_edges) return refuse(34, 0);\n        if (made.copies > most_copies) return refuse(33, 0);\n"),
    ("bounds are taken for counts", "        made = count_shown(&t, b.pos, g == NULL);\n        if", "        if"),
    ("a result is written whatever the bounds are",
     "if (made.copies > most_copies || made.edges > most_edges) {", "if (made.copies > most_copies) {"),
    ("the bound of edges loses bits",
     "most.edges += (uint64_t)reached * (s.end - s.first);", "most.edges += (uint16_t)(reached * (s.end - s.first));"),
    ("no limit of copies but the room", "most_copies = least(r->copies, MAX_COPIES)", "most_copies = r->copies"),
    ("no limit of edges but the room", "most_edges = least(r->edges, MAX_COPY_EDGES)", "most_edges = r->edges"),
    ("told: no limit of copies", "if ((uint32_t)counts > MAX_COPIES) return refuse(33, 0);", ""),
    ("told: no limit of edges", "return counts >> 32 > MAX_COPY_EDGES ? refuse(34, 0) : counts;", "return counts;"),
    ("a word of the scratch stays", "memset(scratch, 0, words * sizeof(uint32_t));", "memset(scratch, 0, (words - 1) * sizeof(uint32_t));"),
    ("the scratch stays after 34", "answer == refuse(33, 0) || answer == refuse(34, 0)", "answer == refuse(33, 0)"),
    ("the scratch is cleared after 31", "answer == refuse(33, 0) || answer == refuse(34, 0)", "answer > refuse(35, 0)"),
    ("31 asks a word more", "if (words < JAQHWENI_WORDS_PER_UNIT * units)", "if (words <= JAQHWENI_WORDS_PER_UNIT * units)"),
    ("31 asks a word less", "if (words < JAQHWENI_WORDS_PER_UNIT * units)", "if (words + 1 < JAQHWENI_WORDS_PER_UNIT * units)"),
    ("candidates of a graph are those of the design",
     "if (g == NULL) return (uint64_t)d->n", "if (g == NULL || l->paths == 1) return (uint64_t)d->n"),
    ("with one copy the tables are made", "if ((g ? g->copies : d->n) < 2)", "if ((g ? g->copies : d->n) < 1)"),
    ("no path ends at the one copy", "r->endpoint[0] = 1;", "r->endpoint[0] = 0;"),
    ("a place past the result is written", "    return answer_of(fill(&t, g, &b, r));",
     "    made = fill(&t, g, &b, r);\n    if (made.edges < r->edges) r->via[made.edges] = 0;\n    return answer_of(made);"),
    ("a refusal writes into the room",
     "if (made.edges > most_edges) return refuse(34, 0);", "if (made.edges > most_edges) return r->nodes[0] = 0, refuse(34, 0);"),
]


def compile_to(made, sources, flags=()):
    subprocess.run([os.environ.get("CC", "cc"), *FLAGS, *flags, *map(str, sources), "-o", str(made)], check=True)
    return made


def run(program):
    try:
        return subprocess.run([str(program)], stdout=subprocess.PIPE, text=True, timeout=120)
    except subprocess.TimeoutExpired:
        return subprocess.CompletedProcess([], 1, "worst_cases: FAILED: no end within two minutes\n")


def try_faults():
    missed = []
    text = (BENCH / "reference.c").read_text()
    test = compile_to(BUILT / "test.o", [HERE / "tests" / "worst_cases.c"], ["-c"])
    stand_in = compile_to(BUILT / "stand_in.o", [BENCH / "stand_in.c"], ["-c"])
    for number, (what, old, new) in enumerate(FAULTS, 1):
        if text.count(old) != 1:
            sys.exit("worst_cases: fault %d: %d places in bench/reference.c have: %s" % (number, text.count(old), old))
        with tempfile.TemporaryDirectory() as folder:
            source = pathlib.Path(folder) / "reference.c"
            source.write_text(text.replace(old, new))
            program = compile_to(pathlib.Path(folder) / "test", [test, stand_in, source], ["-Wno-unused"])
            done = run(program)
        last = (done.stdout.splitlines() or ["stopped without a word, status %d" % done.returncode])[-1]
        found = "NOT FOUND" if done.returncode == 0 else last.removeprefix("worst_cases: FAILED: ")
        print("%2d %-66s %s" % (number, what, found), flush=True)
        if done.returncode == 0:
            missed.append(number)
    if missed:
        sys.exit("worst_cases: FAILED: not found: %s" % missed)
    print("worst_cases: all %d errors were found" % len(FAULTS))


def main():
    parser = argparse.ArgumentParser()
    parser.add_argument("--stand-in", action="store_true")
    parser.add_argument("--try-faults", action="store_true")
    parser.add_argument("--library", type=pathlib.Path)
    options = parser.parse_args()
    BUILT.mkdir(parents=True, exist_ok=True)
    if options.try_faults:
        return try_faults()
    if options.stand_in:
        tried = [BENCH / "stand_in.c", BENCH / "reference.c"]
    elif options.library:
        tried = [options.library]
    else:
        subprocess.run(["bash", str(HERE / "examples" / "library")], check=True)
        tried = [LIBRARY]
    done = run(compile_to(BUILT / "worst_cases", [HERE / "tests" / "worst_cases.c", *tried], ["-Werror"]))
    print(done.stdout, end="")
    if done.returncode not in (0, 1):
        print("worst_cases: FAILED: ended with status %d" % done.returncode)
    sys.exit(done.returncode != 0)


main()
