"""Families of problems for bench/solve.py, from fixed seeds: each as a text for aspq, and for its peers where that is easy.

Texts are ground: an atom is a name with its numbers behind it, such as at_3_5, so that no constant is counted. A problem has

    text        the text for aspq
    verdict     what has to come out, where a small program of its own can tell, else None
    formula     the same question as a quantified Boolean formula in prenex form, for depqbf, else None
    program     a text for clingo, else None
    satisfied   the verdict that an answer set of this text means
"""

import itertools
import random
from collections import namedtuple

Problem = namedtuple("Problem", "text verdict formula program satisfied")


def verdict_of(holds):
    return "COHERENT" if holds else "INCOHERENT"


def other(verdict):
    return verdict and verdict_of(verdict == "INCOHERENT")


class Formula:
    """A quantified Boolean formula: blocks of named variables, the outermost first, and clauses of names and `-name`s."""

    def __init__(self):
        self.blocks = []
        self.clauses = []

    def block(self, quantifier, names):
        self.blocks.append((quantifier, list(names)))

    def add(self, *literals):
        self.clauses.append(list(literals))

    def qdimacs(self):
        numbers = {}
        lines = []
        for quantifier, names in self.blocks:
            for name in names:
                numbers[name] = len(numbers) + 1
            lines.append(f"{quantifier} {' '.join(str(numbers[name]) for name in names)} 0")
        for clause in self.clauses:
            lines.append(" ".join(str(-numbers[one[1:]] if one[0] == "-" else numbers[one]) for one in clause) + " 0")
        return f"p cnf {len(numbers)} {len(self.clauses)}\n" + "\n".join(lines) + "\n"

    def saturation(self):
        """Of a formula `forall X exists Y`: a text for clingo that has an answer set where the formula is false. It chooses X, and lets
        all of Y be true as soon as a clause is violated."""
        (_, outer), (_, inner) = self.blocks
        own = set(inner)

        def violated(literal):
            name = literal.lstrip("-")
            if name in own:
                return name if literal[0] == "-" else f"no_{name}"
            return name if literal[0] == "-" else f"not {name}"

        rules = [f"{{{name}}}." for name in outer]
        rules += [f"{name} | no_{name}. {name} :- spoilt. no_{name} :- spoilt." for name in inner]
        rules += [f"spoilt :- {', '.join(violated(one) for one in clause)}." for clause in self.clauses]
        return "\n".join([*rules, ":- not spoilt."]) + "\n"

    def at_most(self, names, most, prefix):
        """Clauses by which at most so many of the names are true; answers their variables, which are to stand in an inner block."""
        made = []
        for place, name in enumerate(names):
            for count in range(1, most + 2):
                made.append(f"{prefix}_{place}_{count}")
                if count == 1:
                    self.add(f"-{name}", made[-1])
                if place:
                    self.add(f"-{prefix}_{place - 1}_{count}", made[-1])
                    if count > 1:
                        self.add(f"-{name}", f"-{prefix}_{place - 1}_{count - 1}", made[-1])
        self.add(f"-{made[-1]}")
        return made

    def at_least(self, names, least, prefix, unless=None):
        """Clauses by which at least so many of the names are true, or the literal `unless`; answers their variables."""
        made = []
        for place, name in enumerate(names):
            for count in range(1, least + 1):
                made.append(f"{prefix}_{place}_{count}")
                before = [f"{prefix}_{place - 1}_{count}"] if place else []
                self.add(f"-{made[-1]}", *before, name)
                if count > 1:
                    self.add(f"-{made[-1]}", *before, *([f"{prefix}_{place - 1}_{count - 1}"] if place else []))
        self.add(made[-1], *([unless] if unless else []))
        return made


def level(quantifier, rules):
    return f"%@{quantifier}\n" + "\n".join(rules) + "\n"


def constraints(rules):
    return "%@constraint\n" + "\n".join(rules) + "\n"


def denied(clause):
    """The constraint that keeps a clause."""
    return ":- " + ", ".join(one[1:] if one[0] == "-" else f"not {one}" for one in clause) + "."


def choice(names, least="", most=""):
    return f"{least} {{{'; '.join(names)}}} {most}".strip() + "."


def one_level(rules, verdict=None):
    text = "\n".join(rules) + "\n"
    return Problem("%@exists\n" + text, verdict, None, text, "COHERENT")


def graph(source, nodes, edges):
    return sorted(source.sample(list(itertools.combinations(range(nodes), 2)), edges))


# One existential level

def colouring(nodes, seed):
    """Three colours, 2.3 edges a node."""
    edges = graph(random.Random(f"colours {nodes} {seed}"), nodes, round(2.3 * nodes))
    return one_level([choice([f"has_{node}_{colour}" for colour in range(3)], 1, 1) for node in range(nodes)]
                     + [f":- has_{first}_{colour}, has_{second}_{colour}." for first, second in edges for colour in range(3)])


def pigeons(holes, _):
    """One pigeon more than holes."""
    rules = [choice([f"sits_{pigeon}_{hole}" for hole in range(holes)], 1, 1) for pigeon in range(holes + 1)]
    rules += [f":- sits_{first}_{hole}, sits_{second}_{hole}."
              for hole in range(holes) for first, second in itertools.combinations(range(holes + 1), 2)]
    return one_level(rules, "INCOHERENT")


def queens(side, _):
    """Queens on a board, none of which attacks another."""
    rules = [choice([f"queen_{row}_{column}" for column in range(side)], 1, 1) for row in range(side)]
    for first, second in itertools.combinations(range(side), 2):
        for one, two in itertools.product(range(side), repeat=2):
            if one == two or abs(one - two) == second - first:
                rules.append(f":- queen_{first}_{one}, queen_{second}_{two}.")
    return one_level(rules, "COHERENT")


def random_clauses(source, count, blocks):
    """Clauses of as many different literals of each block of names as stand beside it."""
    return [[name if source.random() < 0.5 else f"-{name}" for names, drawn in blocks for name in source.sample(names, drawn)]
            for _ in range(count)]


def satisfiability(atoms, seed):
    """Random clauses of three literals, 4.26 an atom."""
    names = [f"x_{atom}" for atom in range(atoms)]
    clauses = random_clauses(random.Random(f"clauses {atoms} {seed}"), round(4.26 * atoms), [(names, 3)])
    return one_level([choice(names[start:start + 60]) for start in range(0, atoms, 60)] + [denied(clause) for clause in clauses])


def reachability(nodes, seed):
    """A way from node 0 through all nodes, where each has three ways on: a node counts as reached over nodes that are."""
    source = random.Random(f"ways {nodes} {seed}")
    rules, reached = [], {node: [] for node in range(nodes)}
    for node in range(nodes):
        ways = source.sample([to for to in range(nodes) if to != node], 3)
        rules.append(choice([f"way_{node}_{to}" for to in ways], 1, 1))
        for to in ways:
            reached[to].append(node)
    rules.append("reached_0.")
    for node, froms in reached.items():
        rules += [f"reached_{node} :- reached_{start}, way_{start}_{node}." for start in froms]
        rules.append(f":- not reached_{node}.")
    return one_level(rules)


# Several levels

def formula_problem(blocks, clauses):
    """A random formula: a level of choices for each block, and the clauses as constraints."""
    formula = Formula()
    parts = []
    for quantifier, names in blocks:
        formula.block(quantifier, names)
        parts.append(level("exists" if quantifier == "e" else "forall", [choice(names[start:start + 60]) for start in range(0, len(names), 60)]))
    formula.clauses = clauses
    two = [quantifier for quantifier, _ in blocks] == ["a", "e"]
    return Problem("".join(parts) + constraints([denied(clause) for clause in clauses]), None, formula,
                   formula.saturation() if two else None, "INCOHERENT")


def two_blocks(atoms, seed):
    """For all of a third of the atoms there are the others: clauses of two universal and three existential literals."""
    source = random.Random(f"two blocks {atoms} {seed}")
    outer = [f"x_{place}" for place in range(atoms // 3)]
    inner = [f"y_{place}" for place in range(atoms - atoms // 3)]
    clauses = random_clauses(source, round(10.5 * len(inner)), [(outer, 2), (inner, 3)])
    return formula_problem([("a", outer), ("e", inner)], clauses)


def three_blocks(atoms, seed):
    """There is a third of the atoms, so that for all of a third there is the rest: clauses of one, one and two literals of these thirds."""
    source = random.Random(f"three blocks {atoms} {seed}")
    third = atoms // 3
    first, second, last = ([f"{letter}_{place}" for place in range(third)] for letter in "xyz")
    clauses = random_clauses(source, round(2.8 * atoms), [(first, 1), (second, 1), (last, 2)])
    return formula_problem([("e", first), ("a", second), ("e", last)], clauses)


def index_bits(count, prefix):
    return [f"{prefix}_{bit}" for bit in range(max(1, (count - 1).bit_length()))]


def unless_index(bits, index):
    """The literals of which one is true where the bits don't write the index."""
    return [f"-{bit}" if index >> place & 1 else bit for place, bit in enumerate(bits)]


def corridor(cells, seed):
    """A plan of steps to the left or right after which a robot is at the left end, wherever it stood; for odd seeds one step too few."""
    steps = cells - 1 - seed % 2
    first = [f"left_{step}" for step in range(steps)]
    moves = [(cell, step, sign, max(cell - 1, 0) if sign == "" else min(cell + 1, cells - 1))
             for step in range(steps) for cell in range(cells) for sign in ("", "-")]
    rules = [choice([f"at_{cell}_0" for cell in range(cells)], 1, 1)] + [
        f"at_{to}_{step + 1} :- at_{cell}_{step}, {'not ' if sign else ''}left_{step}." for cell, step, sign, to in moves]
    text = level("exists", [choice([name]) for name in first]) + level("forall", rules) + constraints([f":- not at_0_{steps}."])
    formula = Formula()
    bits = index_bits(cells, "start")
    formula.block("e", first)
    formula.block("a", bits)
    formula.block("e", [f"at_{cell}_{step}" for step in range(steps + 1) for cell in range(cells)])
    for cell in range(cells):
        formula.add(*unless_index(bits, cell), f"at_{cell}_0")
    for cell, step, sign, to in moves:
        formula.add(f"-at_{cell}_{step}", f"left_{step}" if sign else f"-left_{step}", f"at_{to}_{step + 1}")
    for cell in range(1, cells):
        formula.add(f"-at_{cell}_{steps}")
    return Problem(text, verdict_of(steps >= cells - 1), formula, None, None)


def bomb(parcels, seed):
    """One parcel has a bomb, and at each time one can be put into water; for odd seeds there is one time too few."""
    times = parcels - seed % 2
    rows = [[f"dunk_{parcel}_{time}" for parcel in range(parcels)] for time in range(times)]
    rules = [choice([f"armed_{parcel}" for parcel in range(parcels)], 1, 1)]
    rules += [f"safe :- armed_{parcel}, dunk_{parcel}_{time}." for parcel in range(parcels) for time in range(times)]
    text = level("exists", [choice(row, "", 1) for row in rows]) + level("forall", rules) + constraints([":- not safe."])
    formula = Formula()
    bits = index_bits(parcels, "armed")
    formula.block("e", [name for row in rows for name in row])
    formula.block("a", bits)
    for row in rows:
        for first, second in itertools.combinations(row, 2):
            formula.add(f"-{first}", f"-{second}")
    for parcel in range(parcels):
        formula.add(*unless_index(bits, parcel), *(row[parcel] for row in rows))
    return Problem(text, verdict_of(times >= parcels), formula, None, None)


def game(nodes, seed, moves=7):
    """Two players move a token by turns, each time along one of two ways; the first one wants it on one of some nodes at the end."""
    source = random.Random(f"game {nodes} {seed}")
    ways = [source.sample(range(nodes), 2) for _ in range(nodes)]
    goals = {node for node in range(nodes) if source.random() < 0.45}
    parts = []
    formula = Formula()
    for move in range(moves):
        rules = ["at_0_0."] if move == 0 else []
        rules.append(f"{{turn_{move}}}.")
        for node in range(nodes):
            for sign, to in zip(("not ", ""), ways[node]):
                rules.append(f"at_{to}_{move + 1} :- at_{node}_{move}, {sign}turn_{move}.")
                formula.add(f"-at_{node}_{move}", f"turn_{move}" if sign else f"-turn_{move}", f"at_{to}_{move + 1}")
        parts.append(level("forall" if move % 2 else "exists", rules))
        formula.block("a" if move % 2 else "e", [f"turn_{move}"])
    lost = [node for node in range(nodes) if node not in goals]
    formula.block("e", [f"at_{node}_{move}" for move in range(moves + 1) for node in range(nodes)])
    formula.add("at_0_0")
    for node in lost:
        formula.add(f"-at_{node}_{moves}")

    def wins(node, move):
        if move == moves:
            return node in goals
        return (any if move % 2 == 0 else all)(wins(to, move + 1) for to in ways[node])

    return Problem("".join(parts) + constraints([f":- at_{node}_{moves}." for node in lost]), verdict_of(wins(0, 0)), formula, None, None)


def cover(sites, seed):
    """Guards at some of the sites, so that each of as many doors is seen by one, whichever two guards are away; a door is seen from eight."""
    source = random.Random(f"cover {sites} {seed}")
    away, most = 2, round(sites * (0.47 + 0.03 * (seed % 3)))
    doors = [source.sample(range(sites), min(8, sites)) for _ in range(sites)]
    guards, absent = ([f"{word}_{site}" for site in range(sites)] for word in ("guard", "away"))
    rules = [choice(absent, "", away)] + [
        f"seen_{door} :- guard_{site}, not away_{site}." for door, near in enumerate(doors) for site in near]
    text = level("exists", [choice(guards, "", most)]) + level("forall", rules) + constraints([f":- not seen_{door}." for door in range(sites)])
    formula = Formula()
    formula.block("e", guards)
    formula.block("a", absent)
    inner = [f"looks_{site}" for site in range(sites)]
    for site in range(sites):
        formula.add(f"-looks_{site}", f"guard_{site}")
        formula.add(f"-looks_{site}", f"-away_{site}")
    # Where more are away than may be, `many` frees all doors.
    inner += ["many", *formula.at_least(absent, away + 1, "absent", "-many"), *formula.at_most(guards, most, "count")]
    for near in doors:
        formula.add("many", *(f"looks_{site}" for site in near))
    formula.block("e", inner)
    # Each door needs one guard more than may be away.
    program = choice(guards, "", most) + "\n" + "\n".join(f":- {{{'; '.join(f'guard_{site}' for site in near)}}} {away}." for near in doors) + "\n"
    return Problem(text, None, formula, program, "COHERENT")


def cliques(groups, seed):
    """Nodes in groups of two halves of three nodes each. Is there, whichever half of each group is taken, a clique of a given size?"""
    source = random.Random(f"cliques {groups} {seed}")
    nodes = [(group, half, node) for group in range(groups) for half in range(2) for node in range(3)]
    size = max(2, groups // 2 + seed % 2)
    named = {node: "in_" + "_".join(map(str, node)) for node in nodes}
    apart = [(named[one], named[two]) for one, two in itertools.combinations(nodes, 2)
             if (one[0], one[1]) != (two[0], two[1]) and one[0] != two[0] and source.random() < 0.5]
    apart += [(named[one], named[two]) for one, two in itertools.combinations(nodes, 2) if one[:2] == two[:2]]
    outer = [f"second_{group}" for group in range(groups)]
    formula = Formula()
    formula.block("a", outer)
    clauses = [[f"-{named[node]}", f"{'' if node[1] else '-'}second_{node[0]}"] for node in nodes]
    clauses += [[f"-{one}", f"-{two}"] for one, two in apart]
    # In each group at most one node is in, so a group counts.
    counted = [f"with_{group}" for group in range(groups)]
    rules = [choice(list(named.values())[start:start + 60]) for start in range(0, len(nodes), 60)]
    rules += [f"with_{node[0]} :- {name}." for node, name in named.items()]
    rules.append(f"enough :- least_{groups - 1}_{size}.")
    for place in range(groups):
        for count in range(1, size + 1):
            if place:
                rules.append(f"least_{place}_{count} :- least_{place - 1}_{count}.")
            if count == 1:
                rules.append(f"least_{place}_1 :- with_{place}.")
            elif place:
                rules.append(f"least_{place}_{count} :- with_{place}, least_{place - 1}_{count - 1}.")
    formula.clauses += clauses
    for group in range(groups):
        formula.add(f"-with_{group}", *(name for node, name in named.items() if node[0] == group))
    formula.block("e", [*named.values(), *counted, *formula.at_least(counted, size, "least")])
    text = (level("forall", [choice([name]) for name in outer])
            + level("exists", [*rules, *(denied(clause) for clause in clauses), ":- not enough."]))
    return Problem(text, None, formula, formula.saturation(), "INCOHERENT")


def argumentation(arguments, seed):
    """Is an argument in every preferred extension? It is where each admissible set is part of one that has it."""
    source = random.Random(f"arguments {arguments} {seed}")
    attacks = [(one, two) for one in range(arguments) for two in range(arguments) if one != two and source.random() < 2.2 / arguments]
    attackers = [[one for one, two in attacks if two == argument] for argument in range(arguments)]

    def admissible(word):
        clauses = [[f"-{word}_{one}", f"-{word}_{two}"] for one, two in attacks]
        for argument in range(arguments):
            clauses += [[f"-{word}_{argument}", *(f"{word}_{third}" for third in attackers[attacker])] for attacker in attackers[argument]]
        return clauses

    outer, inner = ([f"{word}_{argument}" for argument in range(arguments)] for word in ("in", "out"))
    wanted = ["out_0"]
    larger = [[f"-in_{argument}", f"out_{argument}"] for argument in range(arguments)]
    text = level("forall", [*(choice([name]) for name in outer), *(denied(clause) for clause in admissible("in"))])
    text += level("exists", [*(choice([name]) for name in inner), *(denied(clause) for clause in admissible("out") + larger + [wanted])])
    formula = Formula()
    formula.block("a", outer)
    # Where the outer set isn't admissible, `free` may be true: then one of its clauses is violated.
    broken = []
    for place, clause in enumerate(admissible("in")):
        broken.append(f"broken_{place}")
        for one in clause:
            formula.add(f"-{broken[-1]}", one[1:] if one[0] == "-" else f"-{one}")
    formula.add("-free", *broken)
    for clause in admissible("out") + larger + [wanted]:
        formula.add("free", *clause)
    formula.block("e", [*inner, *broken, "free"])
    return Problem(text, None, formula, formula.saturation(), "INCOHERENT")


# Each row of the table: a name, the family, sizes that double, and how many problems of each size.
FAMILIES = [
    ("one level: three colours", colouring, (25, 50, 100, 200, 400), 5),
    ("one level: pigeons", pigeons, (4, 8, 9, 10), 1),
    ("one level: queens", queens, (4, 8, 16, 32), 1),
    ("one level: random 3-SAT", satisfiability, (50, 100, 200, 400), 5),
    ("one level: a way through all nodes", reachability, (10, 20, 40, 80), 5),
    ("formulas, two blocks", two_blocks, (15, 30, 45, 60), 5),
    ("formulas, three blocks", three_blocks, (30, 60, 120, 240), 5),
    ("plan in a corridor", corridor, (4, 8, 16, 32), 2),
    ("plan against a bomb", bomb, (4, 8, 16), 2),
    ("game on a graph, seven moves", game, (4, 8, 16, 32, 64), 5),
    ("guards against two absences", cover, (10, 20, 40), 3),
    ("minimax clique", cliques, (4, 8, 16), 4),
    ("skeptical preferred acceptance", argumentation, (15, 30, 60, 120), 5),
]
