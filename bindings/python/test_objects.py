"""Tests of written objects, of hooks, of views and of positions in characters, beside json."""

import decimal
import io
import json
import math
import random

import mezdruk
import pytest

TEXTS = ["null", "true", "false", "0", "-0", "0.0", "-0.00e5", "1", "0.01", "1e400", '""', '"a"',
         "[]", "[0]", "{}", '{"a":null}']


def random_value(source, levels=4):
    """Returns a random value."""
    if levels == 0 or source.random() < 0.4:
        return source.choice([None, True, "x", "é\n\"\\", "\U0001f604",
                              source.randint(-(2**70), 2**70), source.random()])
    if source.random() < 0.5:
        return [random_value(source, levels - 1) for _ in range(source.randint(0, 4))]
    return {source.choice("abcé") + str(i): random_value(source, levels - 1)
            for i in range(source.randint(0, 4))}


def test_dumps_is_what_json_writes():
    source = random.Random(10)
    for _ in range(300):
        value = random_value(source)
        assert mezdruk.dumps(value) == json.dumps(value, separators=(",", ":"), ensure_ascii=False)
        assert mezdruk.dumps(value, sort_keys=True) \
            == json.dumps(value, separators=(",", ":"), ensure_ascii=False, sort_keys=True)
        assert mezdruk.loads(mezdruk.dumps(value, indent=2)) == value


def test_dumps_of_layouts_and_keys():
    assert mezdruk.dumps({"b": [1], "a": ()}, indent=1, sort_keys=True) \
        == '{\n "a": [],\n "b": [\n  1\n ]\n}'
    for first in (2, decimal.Decimal(2)):
        value = {2: first, None: 3, True: 4, 1.5: 5}
        assert mezdruk.dumps(value) == '{"2":2,"null":3,"true":4,"1.5":5}'
    for key in ((), b"a"):
        for below in (1, decimal.Decimal(1)):
            with pytest.raises(TypeError):
                mezdruk.dumps({"a": below, key: 1})


def test_numbers_are_written_as_they_were():
    text = '{"a":[1.50,1E+400,-0.0,1e-7],"b":{},"c":[],"d":"x","e":12345678901234567890123}'
    read = mezdruk.loads(text, parse_float=decimal.Decimal)
    assert mezdruk.dumps(read) == text.replace("1e-7", "1E-7")
    root = mezdruk.Document(text).root
    assert mezdruk.dumps([root, {"a": root["a"][3]}, 1]) == f'[{text},{{"a":1e-7}},1]'
    edits = [["push", [], decimal.Decimal("1.50")], ["push", [], root["a"][1]]]
    assert mezdruk.edit("[]", edits) == "[1.50,1E+400]"
    assert mezdruk.merge_patch("{}", {"a": decimal.Decimal("2.0")}) == '{"a":2.0}'


def test_what_cannot_be_written():
    for number in (math.nan, math.inf, decimal.Decimal("NaN"), decimal.Decimal("-Infinity")):
        with pytest.raises(ValueError):
            mezdruk.dumps([number])
    for value in (object(), {1}, [decimal.Decimal(1), b"a"]):
        with pytest.raises(TypeError):
            mezdruk.dumps(value)
    for value in ("\ud800", [decimal.Decimal(1), "\ud800"]):
        with pytest.raises(mezdruk.TextError) as caught:
            mezdruk.dumps(value)
        assert caught.value.code == "InvalidUTF8"
    with pytest.raises(mezdruk.TextError):
        mezdruk.dumps([[]], depth=1)
    with pytest.raises(mezdruk.TextError) as caught:
        mezdruk.dumps({1: 1, "1": 2}, unique_keys=True)
    assert caught.value.code == "DuplicateKey"


def test_default():
    for more in ([], [decimal.Decimal("1.0")]):
        written = mezdruk.dumps([{1, 2}, *more], default=sorted)
        assert written == ("[[1,2],1.0]" if more else "[[1,2]]")


def test_load_and_dump():
    file = io.StringIO()
    mezdruk.dump({"é": [1]}, file, indent=0)
    assert file.getvalue() == '{\n"é": [\n1\n]\n}'
    assert mezdruk.load(io.StringIO(file.getvalue())) == {"é": [1]}
    assert mezdruk.load(io.BytesIO(b"[1.0]"), parse_float=str) == ["1.0"]
    with pytest.raises(mezdruk.TextError):
        mezdruk.load(io.StringIO('{"a":1,"a":1}'), unique_keys=True)


def test_object_hook():
    source = random.Random(11)

    def hook(members):
        return ("seen", sorted(members.items(), key=repr))

    for _ in range(200):
        text = json.dumps(random_value(source))
        assert mezdruk.loads(text, object_hook=hook) == json.loads(text, object_hook=hook)
    assert mezdruk.loads('[{"a": {}}, 1]', object_hook=len) == [1, 1]

    def refuse(members):
        raise KeyError(len(members))

    with pytest.raises(KeyError) as caught:
        mezdruk.loads('[1, {"a": [{"b": 1, "c": 2}]}]', object_hook=refuse)
    assert caught.value.args == (2,)


def position(call, *arguments):
    with pytest.raises(mezdruk.Error) as caught:
        call(*arguments)
    error = caught.value
    return error.offset, error.column, error.pos, error.lineno, error.colno


def test_positions_in_characters():
    for text in ('{"é": x}', '{"a":\n "\U0001f604€é" x}', '["é",\n\n x]', "x"):
        at = text.index("x")
        line = text[:at].rpartition("\n")[2]
        column = len(line.encode()) + 1
        wanted = (len(text[:at].encode()), column, at, text.count("\n", 0, at) + 1, len(line) + 1)
        for call in (mezdruk.check, mezdruk.loads, mezdruk.Document):
            assert position(call, text) == wanted
            assert position(call, text.encode()) == wanted
        assert position(mezdruk.edit, text, []) == wanted
        assert position(mezdruk.patch, "1", text) == wanted
        with pytest.raises(json.JSONDecodeError) as caught:
            json.loads(text)
        assert (caught.value.pos, caught.value.lineno, caught.value.colno) == wanted[2:]
    with pytest.raises(mezdruk.ApplyError) as caught:
        mezdruk.get("1", "/a")
    assert caught.value.pos is caught.value.lineno is caught.value.colno is None


def test_what_is_no_text():
    for call in (mezdruk.check, mezdruk.loads, mezdruk.Document):
        with pytest.raises(TypeError, match="a text is str or bytes, and not int"):
            call(5)
    assert mezdruk.is_valid(bytearray(b"[1]")) and mezdruk.is_valid(memoryview(b"[1]"))


def test_views_are_true_as_their_values_are():
    for text in TEXTS:
        wanted = bool(json.loads(text)) if text != "1e400" else True
        assert bool(mezdruk.Document(text).root) == wanted, text


def exact(text):
    """Returns a value whose numbers are exact, and differ from booleans."""
    def number(literal):
        return "number", decimal.Decimal(literal)

    return json.loads(text, parse_int=number, parse_float=number)


def test_views_equal_what_their_values_equal():
    for left in TEXTS:
        view = mezdruk.Document(f" {left} ").root
        assert view == json.loads(left) and not view != json.loads(left)
        for right in TEXTS:
            equal = view == mezdruk.Document(right).root
            assert equal == (exact(left) == exact(right)), (left, right)
    literals = "[1, 1.0, 10e-1, 1.0000000000000000000001, 1e9999999999999999999]"
    numbers = mezdruk.Document(literals).root
    assert numbers[0] == numbers[1] == numbers[2] and numbers[0] != numbers[3]
    assert numbers[3] == 1 and numbers[4] == numbers[4] and numbers[4] != numbers[0]
    with pytest.raises(TypeError):
        hash(numbers)


def test_views_of_objects_are_as_dicts():
    value = {"a": [1, 2.5], "b": None, "é": {"c": "d"}}
    root = mezdruk.Document(json.dumps(value)).root
    assert list(root.keys()) == list(value) and dict(root) == value
    assert list(root.values()) == list(value.values()) and dict(root.items()) == value
    assert root.get("b") == None and root.get("x") is None and root.get("x", 1) == 1  # noqa: E711
    assert root.get("é").get("c") == "d"
    assert "a" in root and "x" not in root and 1 not in root
    for name in ("keys", "values", "items"):
        with pytest.raises(TypeError):
            list(getattr(root["a"], name)())
    with pytest.raises(TypeError):
        root["a"].get("a")
    repeated = mezdruk.Document('{"a": 1, "a": 2}').root
    assert repeated.get("a") == 1 and list(repeated.values()) == [1, 2] and repeated == {"a": 2}


def test_views_of_arrays_are_as_lists():
    value = [1, "a", [2], None, 3]
    root = mezdruk.Document(json.dumps(value)).root
    for step in (slice(None), slice(1, 3), slice(None, None, -2), slice(-2, None), slice(9, None)):
        assert root[step] == value[step]
    assert "a" in root and [2] in root and "b" not in root
    with pytest.raises(TypeError):
        mezdruk.Document("{}").root[:]


def test_what_a_view_is_shown_as():
    root = mezdruk.Document('{"a": [1.50], "b": "' + "x" * 100 + '"}').root
    assert repr(root) == "<View: object of 2 members>"
    assert repr(root["a"]) == "<View: array of 1 element>"
    assert repr(root["a"][0]) == "<View: 1.50>"
    assert repr(root["b"]) == '<View: "' + "x" * 56 + "...>"
