"""What a call is wanted to refuse."""
import copy
import pickle


def refuses(fault, number, name, call, *values):
    """The call raises this fault, by its number and its name."""
    try:
        call(*values)
    except fault as it:
        assert (it.number, it.name, str(it)) == (number, name, f"{number} {name}: {it.meaning}"), it
        for again in (pickle.loads(pickle.dumps(it)), copy.deepcopy(it)):
            assert type(again) is type(it) is fault and again == it and hash(again) == hash(it)
            assert (again.number, str(again)) == (number, str(it))
        assert f"\n- {it}" in fault.__doc__, fault.__doc__
        return
    raise AssertionError(f"not refused by {number}")


def does_not_fit(call, /, *values, **fields):
    says(OverflowError, "", call, *values, **fields)


def says(kind, text, call, /, *values, **fields):
    """The call raises an exception of this kind, whose text begins so."""
    try:
        call(*values, **fields)
    except kind as it:
        assert str(it).startswith(text), it
        return
    raise AssertionError(f"no {kind.__name__}: {text}")
