#!/usr/bin/env python3
"""Writes the boundary cases of reading: for each refusal number of documents 01 and 02 (W1, W2) files at and just past its limit.

boundaries.py DATA STDOUT writes the files NNN.table, NNN.target, NNN.question, NNN.text to the folder DATA, and to the file
STDOUT what must be printed for them: case, refusal number, file, line (0 0 0 where all is read), and which files are there
(0 none, 1 the table, 3 the table and a target, 5 the table and a question, 9 the table and a question as text), each in six
columns. The expected numbers are written by hand from the documents, beside each case. The engine's tests (tests/stored.rs) compare
them with the engine."""
import os
import shutil
import sys


def fields(*numbers):
    return "".join("%6d" % n for n in numbers)


def constant(identifier):
    """A line 2 of a table, its identifier in twelve columns."""
    return "%6d%12d" % (2, identifier)


def lines(*rows):
    """Lines of a table, a target or a question. Only a table has lines of two numbers whose kind is 2: its constants."""
    return "".join((constant(r[1]) if len(r) == 2 and r[0] == 2 else fields(*r)) + "\n" for r in rows).encode()


SAMPLE = [
    (1, 2, 1, 3, 2, 2), (2, 0), (3, 1), (3, 1), (4, 1), (5, 1, 1, 1, 3, 1), (5, 1, 2, 1, 3, 1),
    (6, 1, 1, 2), (7, 2, 1, 2, 3, 1), (8, 1, 2, 1), (8, 2, 3, 1),
    (6, 2, 2, 3), (7, 2, 1, 2, 1, 1), (7, 2, 1, 2, 3, 1), (8, 1, 1, 1), (8, 2, 2, 1),
]
SAMPLE_BYTES = lines(*SAMPLE)


def sample(line=None, row=None):
    """The sample, with its line (from 1) replaced by row; None leaves it out."""
    rows = list(SAMPLE)
    if line is not None:
        if row is None:
            del rows[line - 1]
        else:
            rows[line - 1] = row
    return lines(*rows)


def small(registers=1, constants=(), locations=1, arities=(0,), start=1, starting=(), arcs=()):
    """A table from its parts; an arc is (from, action, to, conditions, sets)."""
    rows = [(1, registers, len(constants), locations, len(arities), len(arcs))]
    rows += [(2, c) for c in constants] + [(3, n) for n in arities] + [(4, start)] + [(5,) + tuple(c) for c in starting]
    for origin, action, to, conditions, sets in arcs:
        rows += [(6, origin, action, to)] + [(7,) + tuple(c) for c in conditions] + [(8,) + tuple(s) for s in sets]
    return lines(*rows)


def nobody(line):
    """The sample with this in the place of its line 2 and that line's byte 10."""
    return SAMPLE_BYTES.replace(lines(SAMPLE[1]), line)


SAME = (1, 1, 1, 1, 1)  # register 1 = register 1
cases = []


FOLDER = object()  # in the place of a file's bytes


def table(data, number=0, line=0, why=""):
    cases.append(({"table": data}, (number, 1 if number else 0, line, 1), why))


def other(kind, files, data, number, line, why, table):
    cases.append(({"table": table, kind: data}, (number, 2 if number else 0, line, files), why))


def target(data, number=0, line=0, why="", table=SAMPLE_BYTES):
    other("target", 3, data, number, line, why, table)


def question(data, number=0, line=0, why="", table=SAMPLE_BYTES):
    other("question", 5, data, number, line, why, table)


def text(data, number=0, line=0, why="", table=SAMPLE_BYTES):
    other("text", 9, data, number, line, why, table)


def joined(places, sign=b"&"):
    """So many times place 1, each bracket in the one before: 2 * places - 1 rows."""
    return (b"(L1" + sign) * (places - 1) + b"L1" + b")" * (places - 1)


# what is read
table(SAMPLE_BYTES, why="the sample")
table(small(registers=5, constants=(0, 4294967295), locations=16, arities=(3,) * 16), why="5 registers, 2 constants, 16 places, 16 actions")
table(small(registers=0, arities=(0,)), why="no register")
table(small(starting=[SAME] * 8), why="8 start conditions")
table(small(arcs=[(1, 1, 1, [SAME] * 8, [])]), why="8 arc conditions")
table(small(arcs=[(1, 1, 1, [], [])] * 64), why="64 arcs")
table(small(constants=(999999,)), why="an identifier of six digits")
# 1
table(b"\n" * 40001, 1, 0, "a byte too many")
table(b"\n" * 40000, 2, 1, "at the limit the lines are looked at")
# 2: layout
table(b"", 2, 1, "an empty file")
table(b"\n", 2, 1, "a line without fields")
table(SAMPLE_BYTES[:-1], 2, 16, "no byte 10 at the end")
table(SAMPLE_BYTES + b"\n", 2, 17, "an empty line after the last")
table(SAMPLE_BYTES + b" ", 2, 17, "a byte after the last line")
table(lines(*SAMPLE[:15]), 0, 0, "the last line 8 may be left out")
table(lines(*SAMPLE[:11]), 2, 12, "too few arcs")
table(lines(*(SAMPLE + [(6, 1, 1, 1)])), 2, 17, "an arc too many, its values in range")
table(lines(*(SAMPLE + [(6, 9, 9, 9)])), 2, 17, "an arc too many, its values out of range")
table(lines(*SAMPLE[:4]), 2, 5, "line 4 is missing at the end")
table(sample(5), 2, 5, "line 4 is left out")
table(sample(2), 2, 2, "the constant is left out")
table(sample(4), 2, 4, "an action is left out")
table(lines(SAMPLE[0], SAMPLE[0]), 2, 2, "line 1 twice")
table(lines(SAMPLE[1]), 2, 1, "line 1 does not come first")
table(lines((9, 1)), 2, 1, "no such kind")
table(lines((0, 1)), 2, 1, "kind 0")
table(nobody(b"    02           0\n"), 2, 2, "a leading zero of the kind")
table(nobody(b"     2          00\n"), 2, 2, "two zeros")
table(nobody(b"     2         0 0\n"), 2, 2, "two numbers in a field")
table(nobody(b"     2\t          0\n"), 2, 2, "a tab")
table(nobody(b"     2          0 \n"), 2, 2, "a number that is not at the right of its field")
table(nobody(b"     2            \n"), 2, 2, "a field of blanks")
table(nobody(b"     2          -1\n"), 2, 2, "a sign")
table(nobody(b"     2           0\r\n"), 2, 2, "byte 13")
table(nobody(b"     2           \x00\n"), 2, 2, "byte 0")
table(nobody(b"     2           0     0\n"), 2, 2, "a field too many")
table(nobody(b"     2\n"), 2, 2, "a field too few")
table(nobody(b"     2          0\n"), 2, 2, "a column too few")
table(nobody(b"     2            0\n"), 2, 2, "a column too many")
table(nobody(b"     21000000000000\n"), 2, 2, "thirteen digits")
table(lines((1, 2, 1, 3, 2, 2, 0)), 2, 1, "seven fields")
table(lines(*(SAMPLE[:11] + [SAMPLE[8]] + SAMPLE[11:])), 2, 12, "a line 7 after a line 8")
table(lines(*(SAMPLE[:8] + [SAMPLE[5]] + SAMPLE[8:])), 2, 9, "a line 5 after a line 6")
# 3: counts
table(lines((1, 6, 0, 1, 1, 0)), 3, 1, "6 registers")
table(lines((1, 0, 3, 1, 1, 0)), 3, 1, "3 constants")
table(lines((1, 0, 0, 0, 1, 0)), 3, 1, "no place")
table(lines((1, 0, 0, 17, 1, 0)), 3, 1, "17 places")
table(lines((1, 0, 0, 1, 0, 0)), 3, 1, "no action")
table(lines((1, 0, 0, 1, 17, 0)), 3, 1, "17 actions")
table(lines((1, 0, 0, 1, 1, 65)), 3, 1, "65 arcs")
table(lines((1, 6, 0, 1, 1)), 2, 1, "2 before 3 on a line")
# 4: order
table(small(constants=(7, 7)), 4, 3, "equal constants")
table(small(constants=(7, 6)), 4, 3, "falling constants")
table(small(constants=(0, 1)), 0, 0, "rising constants from 0")
table(small(registers=2, arcs=[(1, 1, 1, [], [(1, 1, 1), (1, 1, 1)])]), 4, 6, "equal registers of lines 8")
table(small(registers=2, arcs=[(1, 1, 1, [], [(2, 1, 1), (1, 1, 1)])]), 4, 6, "falling registers of lines 8")
table(small(registers=2, arcs=[(1, 1, 1, [], [(2, 1, 1)]), (1, 1, 1, [], [(1, 1, 1)])]), 0, 0, "each arc's registers rise by themselves")
table(small(registers=2, arcs=[(1, 1, 1, [], [(2, 1, 1), (1, 1, 3)])]), 5, 6, "5 before 4 on a line")
table(small(registers=2, arcs=[(1, 1, 1, [], [(2, 1, 1), (3, 1, 1)])]), 5, 6, "a register out of range is 5, though it rises")
# 5: range
table(small(arities=(3,)), 0, 0, "3 parameters")
table(small(arities=(4,)), 5, 2, "4 parameters")
table(small(start=0), 5, 3, "start place 0")
table(small(start=2), 5, 3, "start place out of range")
table(small(arcs=[(0, 1, 1, [], [])]), 5, 4, "an arc from place 0")
table(small(arcs=[(2, 1, 1, [], [])]), 5, 4, "an arc from a place out of range")
table(small(arcs=[(1, 2, 1, [], [])]), 5, 4, "an action out of range")
table(small(arcs=[(1, 0, 1, [], [])]), 5, 4, "action 0")
table(small(arcs=[(1, 1, 2, [], [])]), 5, 4, "an arc to a place out of range")
table(small(arities=(1,), arcs=[(1, 1, 1, [(2, 1, 1, 2, 1)], [])]), 0, 0, "a parameter of the action")
table(small(arities=(1,), arcs=[(1, 1, 1, [(2, 2, 1, 2, 1)], [])]), 5, 5, "a parameter out of range")
table(small(arities=(1, 2), arcs=[(1, 1, 1, [(2, 2, 1, 2, 1)], [])]), 5, 6, "a parameter of another action only")
table(small(starting=[(2, 1, 1, 1, 1)], arities=(1,)), 5, 4, "a parameter in a start condition")
table(small(starting=[(0, 1, 1, 1, 1)]), 5, 4, "term kind 0")
table(small(starting=[(4, 1, 1, 1, 1)]), 5, 4, "term kind 4")
table(small(starting=[(1, 0, 1, 1, 1)]), 5, 4, "register 0")
table(small(starting=[(1, 2, 1, 1, 1)]), 5, 4, "a register out of range")
table(small(starting=[(3, 1, 1, 1, 1)]), 5, 4, "a constant that the table does not have")
table(small(starting=[(1, 1, 0, 1, 1)]), 5, 4, "relation 0")
table(small(starting=[(1, 1, 3, 1, 1)]), 5, 4, "relation 3")
table(small(arcs=[(1, 1, 1, [], [(0, 1, 1)])]), 5, 5, "set register 0")
table(small(arcs=[(1, 1, 1, [], [(1, 2, 1)])]), 5, 5, "set from a parameter that the action does not have")
# 6: crowded
table(small(starting=[SAME] * 9), 6, 12, "a ninth start condition")
table(small(starting=[SAME] * 8 + [(0, 0, 0, 0, 0)]), 6, 12, "6 before 5 on a line")
table(small(arcs=[(1, 1, 1, [SAME] * 9, [])]), 6, 13, "a ninth arc condition")
table(small(starting=[SAME] * 8, arcs=[(1, 1, 1, [SAME] * 8, [])]), 0, 0, "start and arc conditions are counted apart")
table(small(starting=[SAME] * 8)[:-1] + b"\n" + b"     5     1     1     1     1\n", 2, 12, "2 before 6 on a line")
# 7: no start
table(small(starting=[(1, 1, 2, 1, 1)]), 7, 0, "a register that differs from itself")
table(small(registers=0, constants=(1, 2), starting=[(3, 1, 1, 3, 2)]), 7, 0, "two constants that are equal, with no register")
# targets
target(lines((4, 3)), why="place 3")
target(lines((4, 3), (5, 1, 1, 1, 1, 2)), why="place 3 with equal registers")
target(lines(*([(4, 3)] + [(5,) + SAME] * 8)), why="8 conditions")
target(lines(*([(4, 3)] + [(5,) + SAME] * 9)), 1, 0, "nine conditions are too many bytes")
target(b"\n" * 309, 2, 1, "at the limit the lines are looked at")
target(b"", 2, 1, "an empty file")
target(lines((4, 4)), 5, 1, "a place out of range")
target(lines((4, 0)), 5, 1, "place 0")
target(lines((5,) + SAME), 2, 1, "no line 4")
target(lines((4, 3), (4, 3)), 2, 2, "line 4 twice")
target(lines((4, 3), (5, 2, 1, 1, 1, 1)), 5, 2, "a parameter")
target(lines((4, 3), (5, 1, 3, 1, 1, 1)), 5, 2, "a register that the table does not have")
target(lines((4, 3), (6, 1, 1, 2)), 2, 2, "an arc")
target(lines((4, 3))[:-1], 2, 1, "no byte 10 at the end")
# questions
question(lines((1, 3, 0)), why="one row")
question(lines((2, 1, 1), (8, 1, 0)), why="EG")
question(lines((1, 3, 0), (14, 1, 0)), why="AF")
question(lines(*([(1, 1, 0)] * 32)), why="32 rows")
question(lines(*([(1, 1, 0)] * 33)), 1, 0, "33 rows")
question(lines(*[(k, 1, b) for k, b in ((1, 0), (2, 2), (3, 1), (4, 0), (5, 2), (6, 0), (7, 2), (8, 0), (9, 2), (10, 2), (11, 0), (12, 0), (13, 0), (14, 0))]), why="every kind")
question(b"", 2, 1, "an empty file")
question(lines((1, 3)), 2, 1, "two fields")
question(lines((1, 3, 0, 0)), 2, 1, "four fields")
question(lines((1, 3, 0))[:-1], 2, 1, "no byte 10 at the end")
question(lines((0, 1, 0)), 5, 1, "row kind 0")
question(lines((15, 1, 0)), 5, 1, "row kind 15")
question(lines((1, 4, 0)), 5, 1, "a place out of range")
question(lines((1, 3, 1)), 5, 1, "an unused field that is not 0")
question(lines((2, 3, 1)), 5, 1, "a register out of range, left")
question(lines((2, 1, 3)), 5, 1, "a register out of range, right")
question(lines((3, 1, 2)), 5, 1, "a constant out of range")
question(lines((4, 0, 0)), 8, 1, "row 0")
question(lines((4, 1, 0)), 8, 1, "a row that names itself")
question(lines((1, 1, 0), (4, 3, 0)), 8, 2, "a later row")
question(lines((4, 9, 5)), 8, 1, "8 before 5: the first bad value decides")
question(lines((1, 1, 0), (4, 1, 7)), 5, 2, "an unused field of a row that names an earlier one")
question(lines((1, 1, 0), (5, 1, 2)), 8, 2, "the second row number is not earlier")
question(lines((1, 1, 0), (5, 2, 999999)), 8, 2, "a row number however large is 8")
question(lines((15, 9, 9)), 5, 1, "the kind comes first")
# what cannot be read counts as empty; no file at all
table(FOLDER, 2, 1, "a folder in the place of the table")
target(FOLDER, 2, 1, "a folder in the place of the target")
question(FOLDER, 2, 1, "a folder in the place of the question")
cases.append(({}, (0, 0, 0, 0), "no table"))
# questions as text, to the sample: 2 registers, 1 constant, 3 places
text(b"AG!(L3&r1=r2)", why="document 02's own")
text(b"L1", why="a place")
text(b"r1=r2", why="two registers")
text(b"r2=c1", why="a register and a constant")
text(b"!L1", why="not")
text(b"EXL1", why="EX")
text(b"EGL1", why="EG")
text(b"EFL1", why="EF")
text(b"AXL1", why="AX")
text(b"AGL1", why="AG")
text(b"AFL1", why="AF")
text(b"(L1&L2)", why="and")
text(b"(L1|L2)", why="or")
text(b"(L1>L2)", why="implies")
text(b"E(L1UL2)", why="E U")
text(b"E((L1&L2)U!E(L1UL2))", why="brackets in brackets")
text(b"EXEGEFAXAGAF!!L1", why="operators in a row")
text(b"(r1=r1>(L3|r2=c1))", why="all signs of atoms")
# 1
text(b"!" * 398 + b"L1", 12, 0, "400 bytes are looked at")
text(b"!" * 399 + b"L1", 1, 0, "401 bytes, a question")
text(b"!" * 400, 11, 401, "400 bytes that begin one")
text(b"!" * 401, 1, 0, "401 bytes that begin one")
text(b"!" * 399 + b"x", 11, 400, "the last byte of 400")
text(b"x" * 401, 1, 0, "401 bytes of which the first is wrong: 1 before 11")
text(b"(" * 400, 11, 401, "400 brackets")
text(b"AG" * 198 + b"L12)", 11, 400, "a bracket too many at the limit")
text(b"E(" * 57 + b"L1" + b"UL1)" * 57, 12, 0, "57 brackets in each other, 344 bytes")
# 11: at the end
text(b"", 11, 1, "an empty file")
text(b"L", 11, 2, "no place")
text(b"r", 11, 2, "no register")
text(b"r1", 11, 3, "no =")
text(b"r1=", 11, 4, "nothing right of =")
text(b"r1=r", 11, 5, "no register right of =")
text(b"r1=c", 11, 5, "no constant")
text(b"!", 11, 2, "nothing is negated")
text(b"E", 11, 2, "E alone")
text(b"A", 11, 2, "A alone")
text(b"EX", 11, 3, "EX of nothing")
text(b"AG", 11, 3, "AG of nothing")
text(b"(", 11, 2, "an open bracket")
text(b"(L1", 11, 4, "no sign between two questions")
text(b"(L1&", 11, 5, "no right side")
text(b"(L1&L2", 11, 7, "no closing bracket")
text(b"(L1&L22", 11, 8, "no closing bracket after two digits")
text(b"E(", 11, 3, "E( alone")
text(b"E(L1", 11, 5, "no U")
text(b"E(L1U", 11, 6, "nothing after U")
text(b"E(L1UL2", 11, 8, "E U without its closing bracket")
# 11: numbers
text(b"L9", 5, 1, "one digit")
text(b"L10", 5, 1, "two digits")
text(b"L99", 5, 1, "the largest number")
text(b"L0", 11, 2, "0")
text(b"L01", 11, 2, "a leading zero")
text(b"L100", 11, 4, "three digits")
text(b"r1=r100", 11, 7, "three digits, right")
text(b"r0=r1", 11, 2, "register 0")
text(b"r1=c0", 11, 5, "constant 0")
text(b"L-1", 11, 2, "a sign")
text(b"LL1", 11, 2, "two letters")
text(b"L1L2", 11, 3, "two places")
text(b"L1&L2", 11, 3, "no brackets")
# 11: brackets
text(b"(L1)", 11, 4, "brackets around one question")
text(b"((L1&L2))", 11, 9, "brackets around brackets")
text(b"(L1&L2))", 11, 8, "a closing bracket too many")
text(b"L1)", 11, 3, "a closing bracket alone")
text(b")", 11, 1, "a closing bracket first")
text(b"()", 11, 2, "empty brackets")
text(b"(&L1)", 11, 2, "no left side")
text(b"(L1&)", 11, 5, "no right side, closed")
text(b"(L1&&L2)", 11, 5, "a sign twice")
text(b"(L1&L2&L3)", 11, 7, "three questions in one bracket")
text(b"(L1=L2)", 11, 4, "= between places")
text(b"(L1<L2)", 11, 4, "< between questions")
text(b"(L1UL2)", 11, 4, "U without E")
text(b"E(L1&L2)", 11, 5, "& in E U")
text(b"E(L1UL2UL3)", 11, 8, "U twice")
text(b"E(L1)", 11, 5, "E of one question")
text(b"EU(L1UL2)", 11, 2, "EU")
text(b"A(", 11, 2, "there is no A(")
text(b"A(L1UL2)", 11, 2, "A U")
text(b"E!L1", 11, 2, "E before a question")
text(b"[L1&L2]", 11, 1, "other brackets")
# 11: letters
text(b"c1=r1", 11, 1, "a constant on the left")
text(b"c1=c1", 11, 1, "two constants")
text(b"r1=L1", 11, 4, "a place on the right")
text(b"L1=r1", 11, 3, "a place on the left")
text(b"r1==r2", 11, 4, "= twice")
text(b"r1!=r2", 11, 3, "different has no sign")
text(b"r1=2", 11, 4, "a number alone")
text(b"l1", 11, 1, "a small letter")
text(b"R1=R2", 11, 1, "a capital")
text(b"r1=R2", 11, 4, "a capital on the right")
text(b"ag!L1", 11, 1, "small letters of an operator")
text(b"ExL1", 11, 2, "a small letter of an operator")
text(b"EUL1", 11, 2, "an operator that is none")
text(b"AUL1", 11, 2, "another")
text(b"GL1", 11, 1, "G alone")
text(b"FL1", 11, 1, "F alone")
text(b"p1=r1", 11, 1, "a parameter")
text(b"Q", 11, 1, "a letter of no meaning")
text(b"1", 11, 1, "a digit first")
# 11: what does not belong there
text(b"L1\n", 11, 3, "byte 10 at the end")
text(b"L12\n", 11, 4, "byte 10 after two digits")
text(b"L1\r\n", 11, 3, "a Windows line end")
text(b"\n", 11, 1, "byte 10 alone")
text(b" L1", 11, 1, "a blank in front")
text(b"L1 ", 11, 3, "a blank at the end")
text(b"(L1 & L2)", 11, 4, "blanks between")
text(b"AG L1", 11, 3, "a blank behind an operator")
text(b"L 1", 11, 2, "a blank before a number")
text(b"L1\t", 11, 3, "a tab")
text(b"L1\x00", 11, 3, "byte 0 at the end")
text(b"\x00", 11, 1, "byte 0 alone")
text(b"\xef\xbb\xbfL1", 11, 1, "a byte order mark")
text(b"L1\xff", 11, 3, "byte 255")
text(b"(L1\xe2\x88\xa7L2)", 11, 4, "a sign of mathematics")
text(b"L\xb1", 11, 2, "a digit with its highest bit set")
text(lines((1, 3, 0), (14, 1, 0)), 11, 1, "rows of a question")
# 12
text(b"!" * 31 + b"L1", why="32 rows")
text(b"!" * 32 + b"L1", 12, 0, "33 rows")
text(joined(16), why="16 places: 31 rows, repeats included")
text(joined(17), 12, 0, "17 places: 33 rows")
text(b"!" + joined(16), why="a row more: 32")
text(b"(" * 16 + b"L1" + b"|L1)" * 16, 12, 0, "33 rows, brackets on the left")
text(b"(" * 15 + b"L1" + b"|L1)" * 15, why="31 rows, brackets on the left")
text(b"!" * 254 + b"L1", 12, 0, "255 rows")
text(b"!" * 255 + b"L1", 12, 0, "256 rows: a count of 8 bits would be 0")
text(b"!" * 256 + b"L1", 12, 0, "257 rows")
text(b"!" * 287 + b"L1", 12, 0, "288 rows: of 8 bits 32")
text(joined(80), 12, 0, "80 places: 159 rows in 397 bytes")
text(b"!" * 40 + b"x", 11, 41, "11 however many rows")
text(b"!" * 40, 11, 41, "41 rows begun, and none is whole")
text(joined(20)[:-1], 11, len(joined(20)), "a bracket missing after more than 32 rows")
# 5
text(b"L3", why="the last place")
text(b"L4", 5, 1, "a place out of range")
text(b"r3=r1", 5, 1, "a register out of range, left")
text(b"r1=r3", 5, 1, "a register out of range, right")
text(b"r1=c2", 5, 1, "a constant out of range")
text(b"r3=c2", 5, 1, "both: the row counts")
text(b"!L4", 5, 1, "the row of the place, not of the operator")
text(b"(L1&L4)", 5, 2, "the second row")
text(b"(L4&L5)", 5, 1, "the first of two")
text(b"(!L1&L4)", 5, 3, "a row of the left question before the right one's")
text(b"((L1&L2)&(L3&L4))", 5, 5, "the fifth row")
text(b"E(L1UL4)", 5, 2, "in E U")
text(b"!" * 30 + b"L4", 5, 1, "out of range in 31 rows")
text(b"(!" + joined(15) + b"&L4)", 5, 31, "row 31 of 32")
text(b"!" * 32 + b"L4", 12, 0, "12 before 5")
text(b"(L4&L1", 11, 7, "11 before 5")
text(b"(L4&L1)x", 11, 8, "11 before 5, at the last byte")
text(b"(L99&L0)", 11, 7, "11 after a number out of range")
# other tables
text(b"r1=r1", 5, 1, "no register", small(registers=0))
text(b"r1=c1", 5, 1, "no constant", small())
text(b"(L16&(r5=r5|r5=c2))", 0, 0, "all at the limit", small(registers=5, constants=(0, 1), locations=16))
text(b"(L17&L16)", 5, 1, "place 17 of 16", small(locations=16))
text(b"(L16&r6=r5)", 5, 2, "register 6 of 5", small(registers=5, locations=16))
# the table first
cases.append(({"table": b"", "text": b"x"}, (2, 1, 1, 1), "2 of the table before 11"))
cases.append(({"table": small(starting=[(1, 1, 2, 1, 1)]), "text": b"!" * 401}, (7, 1, 0, 1), "7 before 1 of the text"))
# what cannot be read counts as empty
text(FOLDER, 11, 1, "a folder in the place of the text")
# document 02's ten digits: what is read
table(small(constants=(1000000,)), why="an identifier of seven digits")
table(small(constants=(999999999,)), why="nine digits")
table(small(constants=(1000000000,)), why="ten digits")
table(small(constants=(4294967295,)), why="the largest identifier")
table(small(constants=(4294967294, 4294967295)), why="the two largest identifiers")
# 2: the width of line 2, and of others
table(nobody(b"     2          07\n"), 2, 2, "a leading zero of the identifier")
table(nobody(b"     2000000000007\n"), 2, 2, "an identifier filled with zeros")
table(nobody(b"     2     0     0\n"), 2, 2, "two numbers in the identifier's field, six columns each")
table(nobody(b"     27           \n"), 2, 2, "a number at the left of its field")
table(nobody(b"     2          +1\n"), 2, 2, "a plus sign")
table(nobody(b"     2     0\n"), 2, 2, "line 2 in the old width")
table(nobody(b"     2999999\n"), 2, 2, "six digits in the old width")
table(nobody(b"           2           0\n"), 2, 2, "a kind as wide as an identifier")
table(sample(3).replace(b"     3     1\n", b"     3           1\n"), 2, 3, "a line 3 as wide as a line 2")
table(SAMPLE_BYTES.replace(b"     4     1\n", b"     4           1\n"), 2, 5, "a line 4 as wide as a line 2")
table(small(constants=(7,)).replace(b"     1     1     1     1     1     0\n", b"     1     1           1     1     1     0\n"), 2, 1, "a wide field in line 1")
# 4
table(small(constants=(4294967295, 4294967294)), 4, 3, "the two largest, falling")
table(small(constants=(4294967295, 4294967295)), 4, 3, "the largest twice")
# 5, and what comes before it
table(small(constants=(4294967296,)), 5, 2, "an identifier one too large")
table(small(constants=(4294967303,)), 5, 2, "an identifier that is 7 in 32 bits")
table(small(constants=(9999999999,)), 5, 2, "the largest number of ten digits")
table(small(constants=(10000000000,)), 5, 2, "eleven digits")
table(small(constants=(999999999999,)), 5, 2, "twelve digits that touch the kind's field")
table(small(constants=(5, 4294967303)), 5, 3, "7 in 32 bits after 5")
table(small(constants=(7, 4294967303)), 5, 3, "7 in 32 bits after 7: 5 before 4")
table(small(constants=(4294967295, 4294967296)), 5, 3, "one too large after the largest")
table(small(constants=(4294967296, 4294967297)), 5, 2, "two too large: the first")
table(small(constants=(4294967296, 3)), 5, 2, "one too large, and then a smaller one")
table(nobody(constant(4294967296).encode()), 2, 2, "too large, and no byte 10 behind it")
table(lines(SAMPLE[0]) + constant(4294967296).encode(), 2, 2, "too large, and no byte 10 at the end of the file")
table(nobody(constant(4294967296).encode() + b"     0\n"), 2, 2, "too large, and a third field")
table(nobody(constant(4294967296).encode() + b"           0\n"), 2, 2, "too large, and a third field of twelve columns")
table(nobody(constant(0).encode() + b"\n" + constant(4294967296).encode() + b"\n"), 2, 3, "too large, and a line 2 too many")
table(lines((1, 0, 0, 1, 1, 0)) + constant(4294967296).encode() + b"\n", 2, 2, "too large where no constant is declared")
table(lines((1, 0, 2, 1, 1, 0), (2, 4294967296), (2, 0, 0)), 5, 2, "5 at its line before 2 at the next")
table(lines((1, 0, 3, 1, 1, 0), (2, 4294967296)), 3, 1, "3 at line 1 before 5 at line 2")
# targets and questions have no line 2
target(lines((4, 3), (2, 7)), 2, 2, "a line 2")
target(lines((4, 3)) + b"     2     7\n", 2, 2, "a line 2 in six columns")
target(lines((2, 4294967296)), 2, 1, "a line 2 first, its number too large")
target(b"     4           3\n", 2, 1, "a line 4 as wide as a line 2 of a table")
question(lines((2, 1, 2)), why="a row of kind 2 has six columns a field")
question(b"     2           1\n", 2, 1, "a row of kind 2 as a line 2 of a table")
question(b"     2     1           2\n", 2, 1, "a row of kind 2 with a wide field")
question(b"     2  4294967296\n", 5, 1, "a row of kind 2 whose fields are 4294 and 967296")


def write(path, content):
    if content is FOLDER:
        os.mkdir(path)
        path, content = os.path.join(path, "folder"), b"This folder stands in the place of a file.\n"
    with open(path, "wb") as f:
        f.write(content)


def main():
    data, stdout = sys.argv[1:3]
    shutil.rmtree(data, ignore_errors=True)
    os.makedirs(data)
    with open(stdout, "w") as out:
        for i, (files, expected, why) in enumerate(cases, 1):
            for kind, content in files.items():
                write(os.path.join(data, "%03d.%s" % (i, kind)), content)
            out.write(fields(i, *expected) + "\n")


if __name__ == "__main__":
    main()
