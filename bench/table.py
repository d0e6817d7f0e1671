#!/usr/bin/env python3
"""Writes a project with a table, on which the time of `gqls exec` is measured.

    python3 bench/table.py FOLDER [OBJECTS [ARGUMENTS]]

24,000 objects of three fields where no number stands: 72,001 rows. Each row of an object has so many arguments; where no number
stands, one field of the three has one. The folder gets s.graphql, q.graphql and t.json. docs/PERFORMANCE.md has the command and
what was seen.
"""
import json
import os
import sys

FIELDS = {"a": "Int", "b": "String", "c": "Boolean"}


def row(type_name, number, field, arguments, result):
    return {"type": type_name, "object": number, "field": field, "args": arguments, "result": result}


def results(number):
    """What the fields of an object are."""
    return {"a": {"leaf": number}, "b": {"leaf": "text %d" % number}, "c": None if number % 5 else {"leaf": True}}


def all_objects(count):
    return row("Query", 0, "all", {}, {"list": [{"object": ["T", number]} for number in range(1, count + 1)]})


def rows(count):
    yield all_objects(count)
    for number in range(1, count + 1):
        for field, result in results(number).items():
            yield row("T", number, field, {"x": number % 7} if field == "b" else {}, result)


def rows_with_arguments(count, arguments):
    """The same, where each row of an object has so many arguments, with one value each."""
    yield all_objects(count)
    values = {"x%d" % which: which for which in range(arguments)}
    for number in range(1, count + 1):
        for field, result in results(number).items():
            yield row("T", number, field, values, result)


def without_arguments(count):
    """The files of a project in which one field of three has an argument, which the operation leaves out."""
    return {
        "s.graphql": "type Query{all:[T!]} type T{a:Int b(x:Int):String c:Boolean}",
        "q.graphql": "query Q{all{a c ...F}} fragment F on T{c a}",
        "t.json": json.dumps({"rows": list(rows(count))}, separators=(",", ":")),
    }


def with_arguments(count, arguments):
    """The files of a project in which each field has so many arguments."""
    defined = ",".join("x%d:Int" % which for which in range(arguments))
    given = ",".join("x%d:%d" % (which, which) for which in range(arguments))
    fields = " ".join("%s(%s):%s" % (name, defined, kind) for name, kind in FIELDS.items())
    calls = " ".join("%s(%s)" % (name, given) for name in FIELDS)
    return {
        "s.graphql": "type Query{all:[T!]} type T{%s}" % fields,
        "q.graphql": "query Q{all{%s ...F}} fragment F on T{c(%s) a(%s)}" % (calls, given, given),
        "t.json": json.dumps({"rows": list(rows_with_arguments(count, arguments))}, separators=(",", ":")),
    }


def put(folder, files):
    os.makedirs(folder, exist_ok=True)
    for name, text in files.items():
        with open(f"{folder}/{name}", "w", encoding="utf-8") as out:
            out.write(text)


def main():
    folder, count = sys.argv[1], int(sys.argv[2]) if len(sys.argv) > 2 else 24000
    arguments = int(sys.argv[3]) if len(sys.argv) > 3 else 0
    put(folder, with_arguments(count, arguments) if arguments else without_arguments(count))


if __name__ == "__main__":
    main()
