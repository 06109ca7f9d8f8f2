"""Formulas of faults of large random cards, as DIMACS text on standard output.

usage: formulas.py KIND CARDS FAULTS BUDGET

Each card has 32 inputs, 256 nets and 32 outputs, the last nets. KIND says which gates it has and what they read:
mix (AND, OR, XOR and their complements), and (no XOR), xor (XOR and XNOR alone), local (mix, reading nets close by),
parity (a chain of XOR through all inputs first). A formula then has 545 variables; the seeds are fixed.
"""
import random
import sys

INPUTS, NETS, OUTPUTS = 32, 256, 32
AND, OR, XOR, NAND, NOR, XNOR = 1, 2, 3, 5, 6, 7


def row(function, a, b, c):
    return {
        0: [(-a, b), (a, -b)],
        AND: [(-a, b), (-a, c), (a, -b, -c)],
        NAND: [(a, b), (a, c), (-a, -b, -c)],
        OR: [(a, -b), (a, -c), (-a, b, c)],
        NOR: [(-a, -b), (-a, -c), (a, b, c)],
        XOR: [(-a, b, c), (a, -b, c), (a, b, -c), (-a, -b, -c)],
        XNOR: [(a, b, c), (-a, -b, c), (-a, b, -c), (a, -b, -c)],
    }[function]


def gate(kind, net, rng):
    mixed = [AND, OR, XOR, NAND, NOR, XNOR, AND, OR, NAND, NOR]
    if kind == "local":
        return rng.choice(mixed), max(0, net - 1 - rng.randrange(40)), max(0, net - 1 - rng.randrange(40))
    if kind == "parity":
        if net < 2 * INPUTS - 1:
            return XOR, 0 if net == INPUTS else net - 1, net - INPUTS + 1
        return XOR, net - 1, rng.randrange(net)
    functions = {"mix": mixed, "and": [AND, OR, NAND, NOR], "xor": [XOR, XNOR]}[kind]
    return rng.choice(functions), rng.randrange(net), rng.randrange(net)


def formula(gates, outputs, site, level):
    good, faulty, line = (lambda j: j + 1), (lambda j: NETS + j + 1), 2 * NETS + 1
    clauses = []
    for net, (function, b, c) in gates.items():
        clauses += row(function, good(net), good(b), good(c))
    clauses.append((line if level else -line,))
    for net in range(NETS):
        if net == site:
            clauses += row(0, faulty(net), line, 0)
        elif net < INPUTS:
            clauses += row(0, faulty(net), good(net), 0)
        else:
            function, b, c = gates[net]
            clauses += row(function, faulty(net), faulty(b), faulty(c))
    for i, net in enumerate(outputs):
        clauses += row(XOR, line + 1 + i, good(net), faulty(net))
    clauses.append(tuple(line + 1 + i for i in range(len(outputs))))
    return clauses


def main(kind, cards, faults, budget):
    for card in range(cards):
        rng = random.Random(card)
        gates = {net: gate(kind, net, rng) for net in range(INPUTS, NETS)}
        choice = random.Random(1000 + card)
        for _ in range(faults):
            clauses = formula(gates, range(NETS - OUTPUTS, NETS), choice.randrange(NETS), choice.randrange(2))
            print("c leading", INPUTS)
            print("c budget", budget)
            print("p cnf", 2 * NETS + 1 + OUTPUTS, len(clauses))
            for clause in clauses:
                print(*clause, 0)


main(sys.argv[1], int(sys.argv[2]), int(sys.argv[3]), int(sys.argv[4]))
