"""Instances in the DIMACS form, each the same whenever it is made."""
import random


def text(variables, clauses):
    """The DIMACS text of clauses."""
    lines = [f"p cnf {variables} {len(clauses)}"]
    lines += [" ".join(map(str, clause)) + " 0" for clause in clauses]
    return "\n".join(lines) + "\n"


def random_3sat(variables, ratio, seed):
    """Random clauses of three variables, that many for each variable."""
    source = random.Random(seed)
    clauses = []
    for _ in range(round(variables * ratio)):
        chosen = source.sample(range(1, variables + 1), 3)
        clauses.append([variable * source.choice((1, -1)) for variable in chosen])
    return text(variables, clauses)


def pigeonhole(pigeons, holes):
    """Each pigeon is in a hole, and no two are in the same one."""
    def variable(pigeon, hole):
        return pigeon * holes + hole + 1

    clauses = [[variable(pigeon, hole) for hole in range(holes)] for pigeon in range(pigeons)]
    for hole in range(holes):
        for first in range(pigeons):
            for second in range(first + 1, pigeons):
                clauses.append([-variable(first, hole), -variable(second, hole)])
    return text(pigeons * holes, clauses)


def chain(length, ends):
    """Each variable implies the next. With `ends` the first is true and the last is false."""
    clauses = [[-variable, variable + 1] for variable in range(1, length + 1)]
    if ends:
        clauses += [[1], [-(length + 1)]]
    return text(length + 1, clauses)
