"""What a process gets from another: exceptions and results, by `pickle` and `copy`."""

import copy
import pickle

import pytest
from galliumtoad import (Answer, Atr, BlockError, Code, Due, Error, Get, Outcome, Pps, Refused,
                         Select, Status, objects)
from galliumtoad.errors import checked

PICKLED = [lambda it, n=n: pickle.loads(pickle.dumps(it, n)) for n in range(6)]
WAYS = [copy.copy, copy.deepcopy, *PICKLED]


def all_errors():
    """An exception of each code, with a place where it may have one, and more."""
    for code in Code:
        for place in (None, [7]):
            with pytest.raises(Error) as found:
                checked(code, place)
            yield found.value
    yield from (BlockError(Code.TRIES_SPENT, outcome) for outcome in Outcome)
    yield Refused(Status(0x6A82))


def shown(error):
    """What a caller sees of an exception."""
    return type(error), str(error), repr(error), error.args, vars(error)


@pytest.mark.parametrize("way", WAYS)
def test_an_exception_survives(way):
    errors = list(all_errors())
    assert len(errors) > 100
    for error in errors:
        error.note = "of the caller"
        again = way(error)
        assert again is not error and shown(again) == shown(error)
        assert all(type(vars(again)[name]) is type(it) for name, it in vars(error).items())


@pytest.mark.parametrize("way", WAYS)
def test_results_survive(way):
    atr = Atr(bytes.fromhex("3B8F8001804F0CA0000003060300030000000068"))
    object_, answer = objects(b"\x50\x01A")[0], Answer(Status(0x6A82), b"JOE")
    for result in (atr, object_, answer, Due(b"JOE", 5), Get(0x50), Select(bytes(5)), Code.STATE):
        again = way(result)
        assert again == result and type(again) is type(result)
    assert type(way(answer).status) is Status and way(Pps(1, 0x95)).request == Pps(1, 0x95).request
