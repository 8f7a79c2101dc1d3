"""Parameters of checks: some that always run, and those of the gate and of long runs."""

import pytest


def marked(mark, some):
    """Parameters with a mark."""
    return [pytest.param(*(one if isinstance(one, tuple) else (one,)), marks=mark) for one in some]


def cases(few, more=(), gate=()):
    """The parameters of a check: these, with --gate or --long those of the gate too, and with --long the others."""
    return [*few, *marked(pytest.mark.gate, gate), *marked(pytest.mark.long, more)]


def shares(first, size, count, most):
    """The first number of each share of this size: of half of `count` numbers, with --gate of all, and with --long of `most`."""
    middle = first + max(count // 2 // size, 1) * size
    return cases(range(first, middle, size), range(first + count, first + most, size), range(middle, first + count, size))
