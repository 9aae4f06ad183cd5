#!/usr/bin/env python3
"""The 512 entries of the flag chart, from the words of document 02, request 9: one a line, in index order."""


def entry(mode, apart_caller, ntk, stp, mtk, ctp, rtf, ctk):
    single = mode == 1 or stp
    if mode == 3:
        kind = 1  # R1 and R2
    elif mode == 2:
        kind = 2  # R3 to R6
    elif not (ntk or apart_caller):
        kind = 3  # R7 to R10
    elif mtk:
        kind = 4  # R11
    else:
        kind = 5  # R12 to R18
    value = kind
    if single and (kind == 3 or (kind == 5 and not ctp and not ctk)):
        value += 8
    if ctp and (kind == 3 or (kind == 5 and not ctk)):
        value += 16
    if ctk and kind in (2, 5):
        value += 32
    if rtf and not ctp and kind == 3:
        value += 64
    return value


def digits(index):
    return [index // 128] + [index // worth % 2 == 1 for worth in (64, 32, 16, 8, 4, 2, 1)]


for index in range(512):
    print(entry(*digits(index)))
