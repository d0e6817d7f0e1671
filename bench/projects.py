#!/usr/bin/env python3
"""Writes projects on which the time of `gqls check` is measured.

    python3 bench/projects.py FOLDER [TIMES]        one folder for each project below FOLDER, so many times as large

Each has files s.graphql (the type system) and q.graphql or q0.graphql, q1.graphql and so on (operations and fragments).
docs/PERFORMANCE.md has the commands and what was seen.
"""
import os
import sys

SCHEMA = "type Query{x:Int f(a:Int,b:In):Int q:Query n:Node} interface Node{id:ID! q:Query} input In{a:Int b:[In!]}\n"


def chain(count):
    """Fragments that each spread the next one."""
    yield "s.graphql", SCHEMA
    rows = ["{...F0}"]
    rows += ["fragment F%d on Query{k%d:x ...F%d}" % (i, i, i + 1) for i in range(count - 1)]
    yield "q.graphql", "\n".join(rows + ["fragment F%d on Query{x}" % (count - 1)])


def cycle(count):
    """Fragments that each spread the next one, the last one the first."""
    yield "s.graphql", SCHEMA
    rows = ["{...F0}"]
    yield "q.graphql", "\n".join(rows + ["fragment F%d on Query{k%d:x ...F%d}" % (i, i, (i + 1) % count) for i in range(count)])


def repeated(count):
    """One field many times in a set."""
    yield "s.graphql", SCHEMA
    yield "q.graphql", "{" + " ".join(["f(a:1)"] * count) + "}"


def equal_sets(count):
    """Many equal sets under one key."""
    yield "s.graphql", SCHEMA
    yield "q.graphql", "{" + " ".join(["q{x q{x}}"] * count) + "}"


def spreads(count):
    """Many fragments spread in one set."""
    yield "s.graphql", SCHEMA
    rows = ["{" + " ".join("...F%d" % i for i in range(count)) + "}"]
    yield "q.graphql", "\n".join(rows + ["fragment F%d on Query{x q{x}}" % i for i in range(count)])


def doubling(depth):
    """Fragments that each spread the next one under two keys."""
    yield "s.graphql", SCHEMA
    rows = ["{...F0}"]
    rows += ["fragment F%d on Query{a:q{...F%d} b:q{...F%d}}" % (i, i + 1, i + 1) for i in range(depth)]
    yield "q.graphql", "\n".join(rows + ["fragment F%d on Query{x}" % depth])


def interfaces(depth):
    """Interfaces that each implement those above them, and an object type of all."""
    rows = ["type Query{x:I0}"]
    names = []
    for i in range(depth):
        head = " implements " + " & ".join(names) if names else ""
        rows.append("interface I%d%s{id:ID!}" % (i, head))
        names.append("I%d" % i)
    rows.append("type T implements %s{id:ID!}" % " & ".join(names))
    yield "s.graphql", "\n".join(rows)
    yield "q.graphql", "{x{id ...on T{id} ...on I%d{id}}}" % (depth - 1)


def types(count):
    """A type system of some 1 MB, half of its types object types and half input objects."""
    rows = ["type Query{n:Node %s}" % " ".join("t%d(id:ID!):T%d" % (i, i) for i in range(count // 2)), "interface Node{id:ID!}"]
    for i in range(count // 2):
        rows.append('"What T%d is, in a sentence of some length, as teams write them."\ntype T%d implements Node{id:ID! name:String! size(unit:Unit=METRE,round:Int=0):Float! next:T%d all:[T%d!]! u:U a:Int b:Int c:[String!]! d:Boolean e:Float f(x:Int,y:[Int!]):String g:ID h:[ID] k:Int l:String}' % (i, i, (i + 1) % (count // 2), (i + 7) % (count // 2)))
        rows.append("input In%d{first:Int=10 after:String in:In%d not:[In%d!]}" % (i, (i + 1) % (count // 2), i))
    rows += ["enum Unit{METRE FOOT}", "union U=T0|T1|T2"]
    yield "s.graphql", "\n".join(rows)


def formatted(text):
    """The same operations with a line for each selection, as formatters write them."""
    out, depth, line, brackets = [], 0, "", 0
    for word in text.replace("{", " { ").replace("}", " } ").replace("(", " ( ").replace(")", " ) ").split():
        brackets += (word == "(") - (word == ")")
        if word == "{":
            out.append("  " * depth + line + " {")
            line, depth = "", depth + 1
        elif word == "}":
            if line:
                out.append("  " * depth + line)
            line, depth = "", depth - 1
            out.append("  " * depth + "}")
        elif brackets or word == ")" or not line or line.split()[-1] in ("on", "...on", "query", "fragment") or word == "on":
            line += word if word in "()" or line.endswith("(") or not line else " " + word
        elif depth == 0:
            line += " " + word
        else:
            out.append("  " * depth + line)
            line = word
    return "\n".join(out)


def large(files, bytes_each, is_formatted, count=5000):
    """A type system of some 200 bytes a type, and many files of operations and fragments."""
    yield from types(count)
    for f in range(files):
        rows, size, i = [], 0, 0
        while size < bytes_each:
            t = (f * 37 + i * 11) % (count // 2)
            row = (
                "query Q%d_%d($id:ID!,$round:Int){t%d(id:$id){...F%d_%d next{id name next{name}} all{id size(unit:FOOT,round:$round)}}}\n"
                "fragment F%d_%d on T%d{id name size next{...on Node{id} name} u{...on T0{name} ...on T1{id}}}" % (f, i, t, f, i, f, i, t)
            )
            if is_formatted:
                row = formatted(row)
            rows.append(row)
            size += len(row) + 1
            i += 1
        yield "q%d.graphql" % f, "\n".join(rows)


def wide_inputs(count):
    """An input object with so many fields that may be left out, and a literal of it for each of a quarter as many uses."""
    yield "s.graphql", "type Query{f(i:In):Int}input In{a:In %s}" % " ".join("b%d:Int" % i for i in range(count))
    yield "q.graphql", "{%s}" % " ".join("k%d:f(i:{a:{a:{a:{}}}})" % i for i in range(count // 4))


def wide_arguments(count):
    """A field with so many arguments, used as often with one of them each."""
    yield "s.graphql", "type Query{f(%s):Int}" % " ".join("b%d:Int" % i for i in range(count))
    yield "q.graphql", "{%s}" % " ".join("k%d:f(b%d:1)" % (i, i) for i in range(count))


def many_locations(count):
    """A directive whose locations are written very often, and uses of it."""
    yield "s.graphql", "directive @d repeatable on %s|FIELD type Query{a:Int}" % "|".join(["QUERY"] * count)
    yield "q.graphql", "{%s}" % " ".join("k%d:a@d" % i for i in range(count // 2))


def many_schema_extensions(count):
    """Extensions of a schema that give no roots, and operations that have none."""
    rows = ["directive @d repeatable on SCHEMA schema{query:Query}type Query{a:Int}"] + ["extend schema@d"] * count
    yield "s.graphql", "\n".join(rows)
    yield "q.graphql", "\n".join("mutation M%d{a}" % i for i in range(count // 2))


def use_behind_spreads(count):
    """Operations that each spread the first of a chain of fragments, in the last of which a variable is used."""
    yield "s.graphql", SCHEMA
    rows = ["query Q%d($v:Int){...F0}" % i for i in range(count)]
    rows += ["fragment F%d on Query{g%d:x ...F%d}" % (i, i, i + 1) for i in range(count - 1)]
    yield "q.graphql", "\n".join(rows + ["fragment F%d on Query{f(a:$v)}" % (count - 1)])


def many_operations(count, keys):
    """A chain of fragments, and as many operations that spread the first, each beside a field of such a key and call."""
    yield "s.graphql", SCHEMA
    rows = ["query Q%d{%s ...F0}" % (i, keys(i)) for i in range(count)]
    rows += ["fragment F%d on Query{c%d:x ...F%d}" % (i, i, i + 1) for i in range(count - 1)]
    yield "q.graphql", "\n".join(rows + ["fragment F%d on Query{x}" % (count - 1)])


def one_fault(count, operations, more):
    """Such operations, and a chain of fragments, the last of which has two fields that do not merge, and more."""
    yield "s.graphql", SCHEMA
    rows = operations + ["fragment F%d on Query{c%d:x ...F%d}" % (i, i, i + 1) for i in range(count - 1)]
    yield "q.graphql", "\n".join(rows + ["fragment F%d on Query{x x:f %s}" % (count - 1, more)])


def other_set(count):
    """Many equal sets under one key, and one that differs."""
    yield "s.graphql", SCHEMA
    yield "q.graphql", "{" + " ".join(["q{x q{x}}"] * count) + " q{x:f q{x}}}"


def two_fields(count):
    """Two fields of one key, in turn."""
    yield "s.graphql", SCHEMA
    yield "q.graphql", "{" + " ".join(["k:x k:f"] * (count // 2)) + "}"


def object_types(count):
    """Fields of one key on many object types, each with a set, beside as many on their interface, one of which differs."""
    rows = ["type Query{i:I}interface I{a:I b:I c:Int}"]
    rows += ["type T%d implements I{a:I b:I c:Int}" % i for i in range(count)]
    yield "s.graphql", "\n".join(rows)
    fields = ["...on T%d{k:a{c}}" % i for i in range(count)] + ["k:a{c}"] * count + ["k:b{c}"]
    yield "q.graphql", "{i{%s}}" % "".join(fields)


def many_conditions(objects, interfaces):
    """An interface of many objects, and inline fragments on other interfaces below it."""
    rows = ["type Query{i:I}interface I{a:Int}"]
    rows += ["type T%d implements I{a:Int}" % i for i in range(objects)]
    rows += ["interface J%d{a:Int}" % i for i in range(interfaces)]
    yield "s.graphql", "\n".join(rows)
    yield "q.graphql", "{i{%s}}" % "".join("...on J%d{a}" % i for i in range(interfaces))


# what makes each project, so many times as large
PROJECTS = {
    "chain": lambda times: chain(8000 * times),
    "cycle": lambda times: cycle(8000 * times),
    "repeated": lambda times: repeated(6400 * times),
    "equal_sets": lambda times: equal_sets(3200 * times),
    "spreads": lambda times: spreads(2000 * times),
    "doubling": lambda times: doubling(30 * times),
    "interfaces": lambda times: interfaces(64 * times),
    "wide_inputs": lambda times: wide_inputs(20_000 * times),
    "wide_arguments": lambda times: wide_arguments(20_000 * times),
    "many_locations": lambda times: many_locations(80_000 * times),
    "many_schema_extensions": lambda times: many_schema_extensions(40_000 * times),
    "many_conditions": lambda times: many_conditions(20_000 * times, 5000 * times),
    "spread_alone": lambda times: many_operations(3000 * times, lambda i: ""),
    "spread_beside_fields": lambda times: many_operations(3000 * times, lambda i: "k%d:x" % i),
    "spread_beside_calls": lambda times: many_operations(3000 * times, lambda i: "k:f(a:%d)" % i),
    "use_behind_spreads": lambda times: use_behind_spreads(3000 * times),
    "fault_in_chain": lambda times: one_fault(8000 * times, ["{...F0}"], ""),
    "fault_in_cycle": lambda times: one_fault(8000 * times, [], "...F0"),
    "fault_below_spreads": lambda times: one_fault(3000 * times, ["query Q%d{...F0}" % i for i in range(3000 * times)], ""),
    "fault_beside_fields": lambda times: one_fault(1200 * times, ["query Q%d{k%d:x ...F0}" % (i, i) for i in range(1200 * times)], ""),
    "other_set": lambda times: other_set(3200 * times),
    "two_fields": lambda times: two_fields(6400 * times),
    "object_types": lambda times: object_types(1000 * times),
    "types": lambda times: types(5000 * times),
    "large": lambda times: large(200 * times, 20_000, True),
    "dense": lambda times: large(200 * times, 20_000, False),
}


def main():
    if len(sys.argv) not in (2, 3):
        sys.exit(__doc__)
    times = int(sys.argv[2]) if len(sys.argv) == 3 else 1
    for name, files in PROJECTS.items():
        folder = os.path.join(sys.argv[1], name)
        os.makedirs(folder, exist_ok=True)
        for file, text in files(times):
            with open(os.path.join(folder, file), "w", encoding="utf-8") as out:
                out.write(text)


if __name__ == "__main__":
    main()
