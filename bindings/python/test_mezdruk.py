"""Tests of the Python package, beside json, jsonpatch and jsonpointer."""

import decimal
import gc
import json
import os
import random
import resource
import threading

import jsonpatch
import jsonpointer
import mezdruk
import pytest

VALUES = [
    None,
    True,
    False,
    0,
    -1,
    2**63,
    2**64 - 1,
    -(2**63),
    2**64,
    -(2**63) - 1,
    10**40,
    1.5,
    -0.25e-3,
    "",
    "é😄\u0000\"\\/",
    "a" * 300,
    [],
    {},
    [[], {}, [1, [2, [3]]]],
    {"a": {"b": [1, 2, {"c": "d"}]}, "": None, "é": [True]},
]


def random_value(source, levels=4):
    """Returns a random value."""
    if levels == 0 or source.random() < 0.4:
        return source.choice([None, True, False, "x", "é\n", source.randint(-(2**70), 2**70),
                              source.random()])
    if source.random() < 0.5:
        return [random_value(source, levels - 1) for _ in range(source.randint(0, 4))]
    return {source.choice("abcé") + str(i): random_value(source, levels - 1)
            for i in range(source.randint(0, 4))}


@pytest.mark.parametrize("value", VALUES, ids=repr)
def test_loads_is_what_json_reads(value):
    for text in (json.dumps(value), json.dumps(value, ensure_ascii=False, indent=1)):
        assert mezdruk.loads(text) == json.loads(text)
        assert mezdruk.loads(text.encode()) == json.loads(text)


def test_loads_of_random_values():
    source = random.Random(5)
    for _ in range(300):
        text = json.dumps(random_value(source), ensure_ascii=source.random() < 0.5)
        assert mezdruk.loads(text) == json.loads(text)


def test_loads_of_many_values():
    value = [{"name": str(i), "values": [i, i / 2], str(i % 300): None} for i in range(20_000)]
    assert mezdruk.loads(json.dumps(value)) == value


@pytest.mark.parametrize("width", ["a", "\u00e9", "\u20ac", "\U0001f604"])
def test_loads_of_strings_and_names_of_each_length(width):
    for length in [*range(80), 1_000, 100_000]:
        for string in (width * length, "b" * length + width, width + "b" * length):
            value = {string: [string, string]}
            for ascii_only in (True, False):
                assert mezdruk.loads(json.dumps(value, ensure_ascii=ascii_only)) == value


def test_equal_names_are_one_object():
    text = json.dumps([{str(i % 1_000): 1, "n" * 50: 2, "é": 3} for i in range(3_000)])
    names = {}
    for made in mezdruk.loads(text):
        for name in made:
            assert names.setdefault(name, name) is name
    assert len(names) == 1_002


def test_loads_of_deep_arrays():
    read = mezdruk.loads("[" * 1_023 + '{"a":1}' + "]" * 1_023, depth=1_024)
    for _ in range(1_023):
        (read,) = read
    assert read == {"a": 1}


def test_loads_takes_what_holds_bytes():
    for text in (b"[1]", bytearray(b"[1]"), memoryview(b"x[1]x")[1:4]):
        assert mezdruk.loads(text) == [1]
    for wrong in (None, 1, [b"1"]):
        with pytest.raises(TypeError):
            mezdruk.loads(wrong)
    with pytest.raises(TypeError):
        mezdruk.loads("1", depth="1")
    with pytest.raises(ValueError):
        mezdruk.loads("1", depth=-1)


def test_a_string_that_is_no_unicode():
    with pytest.raises(mezdruk.TextError) as caught:
        mezdruk.loads('["\ud800"]')
    assert (caught.value.code, caught.value.offset) == ("InvalidUTF8", 2)


def test_an_error_of_a_callback_is_raised():
    def refuse(literal):
        raise KeyError(literal)

    text = '{"a": [1, {"b": [[], 2.5, -3, 1e400]}]}'
    for choice, literal in (("parse_int", "1"), ("parse_float", "2.5")):
        with pytest.raises(KeyError) as caught:
            mezdruk.loads(text, **{choice: refuse})
        assert caught.value.args == (literal,)
    with pytest.raises(ValueError):
        mezdruk.loads("9" * 5_000)


def test_what_is_read_is_dropped():
    class Kept:
        count = 0

        def __init__(self, literal):
            Kept.count += 1
            if literal == "13":
                raise KeyError(literal)

        def __del__(self):
            Kept.count -= 1

    for numbers in (10, 20):
        text = json.dumps([{"a": [i, {"b": i}]} for i in range(numbers)])
        try:
            read = mezdruk.loads(text, parse_int=Kept)
            assert Kept.count == 2 * numbers
            del read
        except KeyError:
            assert numbers == 20
        gc.collect()
        assert Kept.count == 0


def test_memory_that_runs_out():
    testcapi = pytest.importorskip("_testcapi")
    value = [{"a": [1, 2.5, "abc", "é", {}], "b": {"c": None, "n" * 50: [-1, 2**70]}}]
    text, read = json.dumps(value), None
    for requests in range(1_000):
        try:
            testcapi.set_nomemory(requests, 0)
            read = mezdruk.loads(text)
            break
        except MemoryError:
            continue
        finally:
            testcapi.remove_mem_hooks()
    assert read == value


def test_threads_read_at_once():
    value = [{"a": i, "b": str(i)} for i in range(5_000)]
    text, read = json.dumps(value), []
    threads = [threading.Thread(target=lambda: read.append(mezdruk.loads(text))) for _ in range(8)]
    for thread in threads:
        thread.start()
    for thread in threads:
        thread.join()
    assert read == [value] * 8


def test_numbers_keep_their_literals():
    text = '[1, -2, 1.50, 1e400, -0, 123456789012345678901234567890, 18446744073709551615]'
    literals = ["1", "-2", "1.50", "1e400", "-0", "123456789012345678901234567890",
                "18446744073709551615"]
    assert mezdruk.loads(text, parse_int=str, parse_float=str) == literals
    read = mezdruk.loads(text, parse_float=decimal.Decimal)
    assert str(read[2]) == "1.50" and isinstance(read[5], int)


def test_the_last_of_members_of_one_name_counts():
    assert mezdruk.loads('{"a": 1, "a": 2}') == {"a": 2}
    with pytest.raises(mezdruk.TextError) as caught:
        mezdruk.loads('{"a": 1, "a": 2}', unique_keys=True)
    assert (caught.value.code, caught.value.offset) == ("DuplicateKey", 9)


def test_check_tells_the_place():
    assert mezdruk.check("[1, 2]") is None
    assert mezdruk.is_valid(b'"\xc3\xa9"') and not mezdruk.is_valid(b'"\xc3"')
    with pytest.raises(mezdruk.TextError) as caught:
        mezdruk.check('[1,\n x]')
    error = caught.value
    assert (error.code, error.offset, error.line, error.column) == ("InvalidJsonValue", 5, 2, 2)
    assert str(error) == "InvalidJsonValue at offset 5, line 2 column 2"
    assert isinstance(error, ValueError) and error.item is None


def test_levels():
    assert mezdruk.is_valid("[" * 254 + "]" * 254)
    assert not mezdruk.is_valid("[" * 255 + "]" * 255)
    assert mezdruk.is_valid("[" * 1024 + "]" * 1024, depth=1024)
    assert not mezdruk.is_valid("[]", depth=0)
    with pytest.raises(ValueError):
        mezdruk.check("[]", depth=1025)


def test_check_is_as_strict_as_the_grammar():
    for text in ("", " ", "01", "1.", "+1", ".5", "NaN", "[1,]", "{'a':1}", '"\t"', '"\\ud800"',
                 "\ufeff1", "[1] 2", '{"a":1,}', "nul", '"\\x41"'):
        assert not mezdruk.is_valid(text), text


def test_edit():
    text = '{"a": 1, "b": 1.50}'
    assert mezdruk.edit(text, [["set", ["a"], 2]]) == '{"a":2,"b":1.50}'
    assert mezdruk.edit(text.encode(), '[["remove",[],"a"]]') == b'{"b":1.50}'
    assert mezdruk.edit(text, '[["insert",[],"c",1.50]]') == '{"a":1,"b":1.50,"c":1.50}'
    assert mezdruk.edit('{"b":[1],"a":{}}', [], indent=2, sort_keys=True) \
        == '{\n  "a": {},\n  "b": [\n    1\n  ]\n}'
    assert mezdruk.edit("[1]", [], indent="\t") == "[\n\t1\n]"


def test_edits_that_fail():
    with pytest.raises(mezdruk.ApplyError) as caught:
        mezdruk.edit('{"a":[1]}', [["push", ["a"], 2], ["set", ["a", 5], 0]])
    assert (caught.value.code, caught.value.item) == ("NotFound", 1)
    with pytest.raises(mezdruk.ArgumentError):
        mezdruk.edit("1", [["set", "a", 1]])
    with pytest.raises(mezdruk.TextError):
        mezdruk.edit("[1", [])


def test_edit_prints_what_json_prints():
    source = random.Random(6)
    for _ in range(200):
        value = random_value(source)
        text = json.dumps(value, ensure_ascii=False)
        assert json.loads(mezdruk.edit(text, [])) == value
        assert mezdruk.edit(text, [], indent=3, sort_keys=True) \
            == mezdruk.edit(mezdruk.edit(text, []), [], indent=3, sort_keys=True)


def test_patch_is_what_jsonpatch_makes():
    source = random.Random(7)
    for _ in range(200):
        before, after = random_value(source), random_value(source)
        if not isinstance(before, (list, dict)) or not isinstance(after, (list, dict)):
            continue
        operations = jsonpatch.make_patch(before, after).patch
        try:
            wanted = jsonpatch.apply_patch(before, operations)
        except jsonpatch.JsonPatchException:  # some patches that make_patch returns do not apply
            with pytest.raises(mezdruk.ApplyError):
                mezdruk.patch(json.dumps(before), operations)
        else:
            assert json.loads(mezdruk.patch(json.dumps(before), operations)) == wanted


def test_a_patch_keeps_literals_and_the_layout_is_asked_for():
    operations = '[{"op":"add","path":"/b","value":1.50},{"op":"move","from":"/a","path":"/c"}]'
    assert mezdruk.patch('{"a": 1e400}', operations) == '{"b":1.50,"c":1e400}'
    assert mezdruk.patch(b'{"a": 1}', operations.encode(), indent=1) == b'{\n "b": 1.50,\n "c": 1\n}'
    assert mezdruk.merge_patch('{"b": -0, "a": 1}', '{"c": 1.50}', sort_keys=True) \
        == '{"a":1,"b":-0,"c":1.50}'


@pytest.mark.parametrize("operations, code, item", [
    ([{"op": "test", "path": "/a", "value": 2}], "TestFailed", 0),
    ([{"op": "add", "path": "/b", "value": 2}, {"op": "remove", "path": "/c"}], "NotFound", 1),
    ([{"op": "remove", "path": "/a/b"}], "TypeUnmatched", 0),
    ([{"op": "add", "path": "a", "value": 2}], "BadPatch", 0),
    ([{"op": "other", "path": ""}], "BadPatch", 0),
    ({}, "BadPatch", None),
])
def test_patches_that_do_not_apply(operations, code, item):
    with pytest.raises(mezdruk.ApplyError) as caught:
        mezdruk.patch('{"a":1}', operations)
    assert (caught.value.code, caught.value.item) == (code, item)


def test_texts_and_patches_that_are_no_json():
    for call in (mezdruk.patch, mezdruk.merge_patch):
        with pytest.raises(mezdruk.ArgumentError) as caught:
            call("{}", "[\n")
        assert (caught.value.code, caught.value.line) == ("EofWhileParsing", 2)
        with pytest.raises(mezdruk.TextError):
            call("{", "[]")
        with pytest.raises(mezdruk.TextError):
            call('{"a":1,"a":2}', "[]", unique_keys=True)
        with pytest.raises(mezdruk.TextError):
            call("[[]]", "[]", depth=1)


def merged(target, patch):
    """Returns what RFC 7396, section 2, makes of a target and a patch."""
    if not isinstance(patch, dict):
        return patch
    target = dict(target) if isinstance(target, dict) else {}
    for name, value in patch.items():
        if value is None:
            target.pop(name, None)
        else:
            target[name] = merged(target.get(name), value)
    return target


def test_merge_patch_is_that_of_the_rfc():
    source = random.Random(8)
    for _ in range(300):
        target, patch = random_value(source), random_value(source)
        made = mezdruk.merge_patch(json.dumps(target), json.dumps(patch))
        assert json.loads(made) == merged(target, patch)


def test_diff_leads_to_the_target():
    source = random.Random(11)
    for _ in range(300):
        text, target = json.dumps(random_value(source)), json.dumps(random_value(source))
        made = mezdruk.diff(text, target)
        assert mezdruk.diff(mezdruk.patch(text, made), target) == "[]"
        by_jsonpatch = jsonpatch.apply_patch(json.loads(text), json.loads(made))
        assert by_jsonpatch == json.loads(target)
    assert mezdruk.diff(b'{"a": 1}', {"a": 1, "b": [None]}, indent=0) == (
        b'[\n{\n"op": "add",\n"path": "/b",\n"value": [\nnull\n]\n}\n]'
    )


def test_merge_diff_leads_to_the_target():
    source, made = random.Random(12), 0
    for _ in range(300):
        text, target = json.dumps(random_value(source)), json.dumps(random_value(source))
        try:
            patch = mezdruk.merge_diff(text, target)
        except mezdruk.ApplyError as error:
            assert error.code == "NoMergePatch" and "null" in target
            continue
        made += 1
        assert mezdruk.diff(mezdruk.merge_patch(text, patch), target) == "[]"
    assert made > 100
    assert mezdruk.merge_diff('{"a": 1, "b": 2}', {"b": 3}) == '{"a":null,"b":3}'


def test_texts_and_targets_that_are_no_json():
    for call in (mezdruk.diff, mezdruk.merge_diff):
        with pytest.raises(mezdruk.TextError) as caught:
            call("[1, x]", "[]")
        assert (caught.value.code, caught.value.offset) == ("InvalidJsonValue", 4)
        with pytest.raises(mezdruk.ArgumentError) as caught:
            call("[]", "[\n01]")
        assert (caught.value.code, caught.value.lineno, caught.value.colno) == ("InvalidNumber", 2, 2)


def test_lines():
    text = '{"a": 1, "b": "é"}\n \n[\n{"a": 1.50}\n{"b": "x"}'
    columns = [[["a"], "int"], [["b"], "text"], [["a"], "json"]]
    rows, errors = mezdruk.lines(text, columns)
    assert rows == '1\t"é"\t1\n-\t-\t1.50\n-\t"x"\t-\n'
    assert errors == "3: EofWhileParsing at offset 1, line 1 column 2\n"
    assert mezdruk.lines(text.encode(), json.dumps(columns), has=["b"]) == (
        '1\t"é"\t1\n-\t"x"\t-\n'.encode(), errors.encode()
    )
    assert mezdruk.lines("", columns) == ("", "")
    many = "".join(json.dumps({"a": number}) + "\n" for number in range(10_000))
    assert mezdruk.lines(many, [[["a"], "int"]])[0].split() == [str(i) for i in range(10_000)]


def test_lines_of_columns_that_are_none():
    for columns, has in (([], []), ([[[], "texts"]], []), ("[", []), ([[[], "text"]], [-1])):
        with pytest.raises(mezdruk.ArgumentError) as caught:
            mezdruk.lines("1", columns, has=has)
        assert caught.value.code == "BadOptions"
    with pytest.raises(mezdruk.ArgumentError) as caught:
        mezdruk.lines("1", b"\xff")
    assert (caught.value.code, caught.value.offset) == ("InvalidUTF8", 0)


def test_get():
    text = '{"a/b": [10, {"m~n": 1.50}]}'
    assert mezdruk.get(text, "/a~1b/1/m~0n") == "1.50"
    assert mezdruk.get(text, "") == '{"a/b":[10,{"m~n":1.50}]}'
    with pytest.raises(mezdruk.ApplyError) as caught:
        mezdruk.get(text, "/c")
    assert caught.value.code == "NotFound"
    with pytest.raises(mezdruk.ApplyError) as caught:
        mezdruk.get(text, "a")
    assert caught.value.code == "BadPointer"
    with pytest.raises(mezdruk.ArgumentError) as caught:
        mezdruk.get(text, "/\udc80")
    assert caught.value.code == "InvalidUTF8"


def pointers_of(value, above=()):
    """Yields the tokens of each value."""
    yield above
    members = value.items() if isinstance(value, dict) else enumerate(value) \
        if isinstance(value, list) else ()
    for step, below in members:
        yield from pointers_of(below, (*above, str(step)))


def test_get_is_what_jsonpointer_resolves():
    source = random.Random(9)
    for _ in range(100):
        value = random_value(source)
        text = json.dumps(value)
        for tokens in pointers_of(value):
            pointer = jsonpointer.JsonPointer.from_parts(tokens).path
            assert json.loads(mezdruk.get(text, pointer)) \
                == jsonpointer.resolve_pointer(value, pointer)
            with pytest.raises(mezdruk.ApplyError):
                mezdruk.get(text, pointer + "/none")


def test_documents():
    document = mezdruk.Document('{"name": "Ada", "born": 1815, "é": [1.50, -7, true, null]}')
    root = document.root
    assert (root.kind, len(root), list(root)) == ("object", 3, ["name", "born", "é"])
    assert root["name"].text == "Ada" and root["born"].literal == "1815"
    values = root["é"]
    assert [v.kind for v in values] == ["number", "number", "boolean", "null"]
    assert (values[0].literal, values[1].literal, values[-1].kind) == ("1.50", "-7", "null")
    assert values.print(indent=0) == "[\n1.50,\n-7,\ntrue,\nnull\n]"
    assert root.value() == {"name": "Ada", "born": 1815, "é": [1.5, -7, True, None]}
    assert str(root) == '{"name":"Ada","born":1815,"é":[1.50,-7,true,null]}'
    for wrong in (4, -5):
        with pytest.raises(IndexError):
            values[wrong]
    with pytest.raises(KeyError):
        root["none"]
    with pytest.raises(TypeError):
        len(root["born"])
    with pytest.raises(TypeError):
        root["born"].text


def test_views_go_through_long_arrays_and_objects():
    value = {str(i): [i, {"a": [None]}] for i in range(30_000)}
    root = mezdruk.Document(json.dumps(value)).root
    assert [name for name in root] == list(value)
    assert [int(pair[0].literal) for _, pair in root.items()] == list(range(30_000))
    assert sum(len(element) for element in mezdruk.Document("[" + "[[1],{}]," * 30_000 + "[]]").root) \
        == 60_000
    assert root["29999"].value() == value["29999"]
    with pytest.raises(TypeError):
        list(root["0"].items())


def test_a_document_outlives_its_text():
    text = bytearray(b'["' + b"x" * 1000 + b'"]')
    document = mezdruk.Document(bytes(text))
    view = document.root[0]
    del document, text
    gc.collect()
    assert view.text == "x" * 1000


def test_a_document_stays_in_its_thread():
    document = mezdruk.Document("[1]")
    caught = []

    def read():
        try:
            document.root
        except RuntimeError as error:
            caught.append(error)

    thread = threading.Thread(target=read)
    thread.start()
    thread.join()
    assert len(caught) == 1


@pytest.mark.skipif("asan" in os.environ.get("LD_PRELOAD", ""), reason="freed memory is kept")
def test_memory_stays_flat():
    text = '{"a": [1, 2.50, "\\u00e9", {"b": null}], "a": 12345678901234567890123}'

    def refuse(literal):
        raise KeyError(literal)

    def calls(count):
        for _ in range(count):
            mezdruk.edit(text, '[["set",["a"],null]]')
            mezdruk.patch(text, '[{"op":"remove","path":"/a"}]')
            mezdruk.merge_patch(text, '{"a":null,"b":[1]}')
            mezdruk.get(text, "/a/3")
            mezdruk.loads(text)
            mezdruk.is_valid("[1")
            mezdruk.Document(text).root["a"]
            try:
                mezdruk.loads(text, parse_float=refuse)
            except KeyError:
                pass
            try:
                mezdruk.get(text, "/b")
            except mezdruk.ApplyError:
                pass
            try:
                mezdruk.loads(text[1:])
            except mezdruk.TextError:
                pass

    calls(5_000)
    before = resource.getrusage(resource.RUSAGE_SELF).ru_maxrss
    calls(100_000)
    assert resource.getrusage(resource.RUSAGE_SELF).ru_maxrss - before < 2_048
