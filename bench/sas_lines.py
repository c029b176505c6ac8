"""The lines of the text of a finite-domain task, `output.sas` version 3, for the generators of this folder."""


def transition_lines(name, prevails, effects, cost):
    """Returns the lines of an operator of that cost. `effects` are triples of a variable, its value before, -1 for any,
    and its value after."""
    return ["begin_operator", name, str(len(prevails)), *(f"{v} {d}" for v, d in prevails), str(len(effects)),
            *(f"0 {variable} {before} {after}" for variable, before, after in effects), str(cost), "end_operator"]


def operator_lines(name, prevails, variable, before, after):
    """Returns the lines of an operator of cost 1 that sets one variable. A `before` of -1 is any value."""
    return transition_lines(name, prevails, [(variable, before, after)], 1)


def task_lines(metric, name, ranges, goals, operators):
    """Yields the lines of a task in which each variable begins at 0. `name` begins the names of values; `goals` are
    pairs of a variable and a value."""
    yield from ["begin_version", "3", "end_version", "begin_metric", str(metric), "end_metric", str(len(ranges))]
    for variable, values in enumerate(ranges):
        yield from ["begin_variable", f"var{variable}", "-1", str(values)]
        yield from (f"Atom {name}{variable}({value})" for value in range(values))
        yield "end_variable"
    yield "0"
    yield from ["begin_state", *(["0"] * len(ranges)), "end_state", "begin_goal", str(len(goals))]
    yield from (f"{variable} {value}" for variable, value in goals)
    yield from ["end_goal", str(len(operators))]
    for operator in operators:
        yield from operator
    yield "0"
