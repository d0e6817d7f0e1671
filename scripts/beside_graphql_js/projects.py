"""Random projects: a schema, operations over it with values for their variables, and small changes of a text, most of which break a rule.

Names are few, so that they meet. Each project is made of one `random.Random`, so a seed gives it again.
"""
import re

TOKEN = re.compile(r'"""(?:.|\n)*?"""|"(?:[^"\\\n]|\\.)*"|\.\.\.|[A-Za-z_]\w*|-?\d+(?:\.\d+)?(?:[eE][+-]?\d+)?|\S')
NAME = re.compile(r"[A-Za-z_]")
VARIABLE = re.compile(r"\$(\w+): ([\w\[\]!]+)( =)?")
OPERATION = re.compile(r"(?:query|mutation) (Q\d)(?:\(([^{]*?)\))?(?: @[^{]*)?\s*\{")
SCALARS = ["Int", "String", "Boolean", "ID", "Float", "Date"]
ENUMS = {"E": ["X", "Y"], "G": ["X", "W"]}
INPUTS = ["I", "J"]
OBJECTS, INTERFACES, UNION = ["A", "B", "C"], ["N", "M"], "U"
FIELDS = ["a", "b", "c", "d", "n", "u"]
LITERALS = {
    "Int": ["0", "1", "-5", "2147483647"],
    "Float": ["1", "1.5", "-2e3", "0"],
    "String": ['"s"', '""', '"""b"""'],
    "Boolean": ["true", "false"],
    "ID": ['"i"', "4"],
    "Date": ['"d"', "1", "X", "{a: 1}", "[1]", "true"],
}
VALUES = {
    "Int": [0, 1, -7],
    "Float": [1, {"num": "2.5"}, -3],
    "String": ["s", "", "t\u00e9"],
    "Boolean": [True, False],
    "ID": ["i", 4],
    "Date": ["d", 3, True, [1, "x"], {"k": 1}],
}
WRONG = [None, 1, "s", True, [], {}, "X", {"num": "1.5"}, [None]]
LOCATIONS = "FIELD FRAGMENT_SPREAD INLINE_FRAGMENT FRAGMENT_DEFINITION QUERY VARIABLE_DEFINITION OBJECT FIELD_DEFINITION".split()
# What a change puts in. Subscriptions and introspection are left out: gqls counts both as faults.
WORDS = """A B N M U E I J Query Int String Boolean ID a b n x y F0 F1 Q0 X on query fragment true null v0 v1 __typename type interface
    input implements extend d rp skip if schema union enum scalar directive repeatable mutation __x""".split()
SIGNS = '! $ & ( ) ... : = @ [ ] { } | 1 1.5 "s"'.split()


def base(type_):
    """The name of a type without lists and non-null."""
    return type_.strip("[]!")


class Schema:
    """A valid schema, most often."""

    def __init__(self, random):
        self.random = random
        self.inputs = {
            "J": {"p": self.wrapped(random.choice(SCALARS)), "e": "E"},
            "I": {
                "x": self.wrapped(random.choice(SCALARS)),
                "y": random.choice(["Int", "Int!"]),
                "l": random.choice(["[Int]", "[Int!]", "[[Int]]"]),
                "j": random.choice(["J", "J!", "[J]"]),
                "i": "I",
            },
        }
        self.defaults = {}
        for name, fields in self.inputs.items():
            for field, type_ in fields.items():
                if random.random() < 0.25:
                    self.defaults[name, field] = self.literal(type_, 2, None)
        self.fields, self.implements = {}, {}
        self.make_interfaces()
        for name in OBJECTS:
            self.make_object(name)
        self.fields["Query"] = {**self.some_fields(3, 3), "qa": "A", "qn": "N", "qu": UNION, "qm": "[M!]!"}
        if random.random() < 0.3:
            self.fields["Mutation"] = {"m": self.field_type(), "qa": "A"}
        self.members = random.sample(OBJECTS, random.randint(1, 3))
        # A field's arguments are the same in each type.
        self.arguments = {name: self.some_arguments() for name in [*FIELDS, "qa", "qn"] if random.random() < 0.5}
        self.argument_of_d = {"x": self.wrapped(random.choice(SCALARS + INPUTS))} if random.random() < 0.6 else {}

    def wrapped(self, type_):
        """The type in lists and non-nulls."""
        for _ in range(self.random.choice([0, 0, 0, 1, 1, 2])):
            type_ = "[%s]" % type_ if type_.endswith("!") else self.random.choice([type_ + "!", "[%s]" % type_])
        return type_

    def field_type(self):
        return self.wrapped(self.random.choice([*SCALARS, *ENUMS, *OBJECTS, *INTERFACES, UNION]))

    def some_fields(self, least, most):
        return {name: self.field_type() for name in self.random.sample(FIELDS, self.random.randint(least, most))}

    def some_arguments(self):
        names = self.random.sample(["x", "y", "z"], self.random.randint(1, 2))
        return {name: self.wrapped(self.random.choice([*SCALARS, *ENUMS, *INPUTS])) for name in names}

    def make_interfaces(self):
        of_n = self.some_fields(1, 3)
        of_m = dict(of_n) if self.random.random() < 0.5 else self.some_fields(1, 3)
        self.fields["N"], self.fields["M"] = of_n, of_m
        self.implements["M"] = ["N"] if all(of_m.get(name) == type_ for name, type_ in of_n.items()) else []

    def make_object(self, name):
        fields, interfaces = {}, []
        if self.random.random() < 0.6:
            interfaces.append("N")
            fields.update(self.fields["N"])
        of_m = self.fields["M"]
        fits = all(fields.get(field, type_) == type_ for field, type_ in of_m.items())
        if fits and all(one in interfaces for one in self.implements["M"]) and self.random.random() < 0.4:
            interfaces.append("M")
            fields.update(of_m)
        for field, type_ in self.some_fields(1, 4).items():
            fields.setdefault(field, type_)
        self.fields[name], self.implements[name] = fields, interfaces

    def possible(self, name):
        """The object types that a value of that type may have."""
        if name == UNION:
            return set(self.members)
        if name in INTERFACES:
            return {one for one in OBJECTS if name in self.implements[one]}
        return {name}

    def literal(self, type_, deep, variables):
        """A literal of the type, or a variable, which is noted, where these may stand."""
        if variables is not None and self.random.random() < 0.25:
            known = [name for name, of in variables.items() if of == type_]
            if known and self.random.random() < 0.6:
                return "$" + self.random.choice(known)
            name = "v%d" % len(variables)
            variables[name] = type_
            return "$" + name
        if not type_.endswith("!") and self.random.random() < 0.1:
            return "null"
        return self.literal_of(type_.rstrip("!"), deep, variables)

    def literal_of(self, type_, deep, variables):
        """The same of a nullable type, and never null."""
        if type_.startswith("["):
            inner = type_[1:-1]
            if deep > 0 and self.random.random() < 0.2:
                return self.literal_of(inner.rstrip("!"), deep - 1, None)
            count = self.random.randint(0, 2) if deep > 0 else 0
            return "[%s]" % ", ".join(self.literal(inner, deep - 1, variables) for _ in range(count))
        if type_ not in self.inputs:
            return self.random.choice(LITERALS.get(type_) or ENUMS[type_])
        entries = []
        for field, of in self.inputs[type_].items():
            if self.is_required(type_, field) or (deep > 0 and self.random.random() < 0.4):
                entries.append("%s: %s" % (field, self.literal(of, deep - 1, variables)))
        self.random.shuffle(entries)
        return "{%s}" % " ".join(entries)

    def is_required(self, input_type, field):
        return self.inputs[input_type][field].endswith("!") and (input_type, field) not in self.defaults

    def value(self, type_, wrong):
        """A value of the type, as JSON, or one that may not fit, as often as `wrong` says."""
        if self.random.random() < wrong:
            return self.random.choice(WRONG)
        if not type_.endswith("!") and self.random.random() < 0.15:
            return None
        type_ = type_.rstrip("!")
        if type_.startswith("["):
            if self.random.random() < 0.2:
                return self.value(type_[1:-1].rstrip("!") + "!", wrong)
            return [self.value(type_[1:-1], wrong) for _ in range(self.random.randint(0, 2))]
        if type_ not in self.inputs:
            return self.random.choice(VALUES.get(type_) or ENUMS.get(type_) or WRONG)
        fields = self.inputs[type_].items()
        return {field: self.value(of, wrong) for field, of in fields if self.is_required(type_, field) or self.random.random() < 0.3}

    def field_definitions(self, name):
        for field, type_ in self.fields[name].items():
            given = self.arguments.get(field)
            directives = self.random.choice([" @rp @rp", " @deprecated"]) if self.random.random() < 0.05 else ""
            yield "%s%s: %s%s" % (field, definitions(given) if given else "", type_, directives)

    def text(self):
        """The text of the schema, its definitions in any order."""
        some = self.random.random
        # graphql-js does not know a built-in scalar that the schema does not name.
        lines = ["input All {i: Int s: String b: Boolean d: ID f: Float}"]
        lines += ["scalar Date", "enum E {X Y%s}" % self.random.choice(["", " Z", " @deprecated"]), "enum G {X W}"]
        lines.append("union U = " + " | ".join(self.members))
        if some() < 0.2:
            lines.append("schema {query: Query%s}" % (" mutation: Mutation" if "Mutation" in self.fields else ""))
        for name, fields in self.inputs.items():
            parts = ("%s: %s%s" % (field, type_, self.default_of(name, field)) for field, type_ in fields.items())
            lines.append("input %s {%s}" % (name, " ".join(parts)))
        for name in self.fields:
            keyword = "interface" if name in INTERFACES else "type"
            interfaces = self.implements.get(name)
            head = "%s %s%s" % (keyword, name, " implements " + " & ".join(interfaces) if interfaces else "")
            lines.append("%s {%s}" % (head, " ".join(self.field_definitions(name))))
        given = self.argument_of_d
        lines.append("directive @d%s on %s" % (definitions(given) if given else "", " | ".join(LOCATIONS)))
        lines.append("directive @rp repeatable on FIELD | FIELD_DEFINITION | QUERY")
        if some() < 0.2:
            lines.append("extend type A {ex: Int}")
            self.fields["A"]["ex"] = "Int"
        self.random.shuffle(lines)
        return "\n".join(lines) + "\n"

    def default_of(self, name, field):
        default = self.defaults.get((name, field))
        return " = " + default if default else ""


def definitions(arguments):
    return "(%s)" % ", ".join("%s: %s" % one for one in arguments.items())


class Operations:
    """Operations and fragments over a schema, valid most often but for fields that do not merge."""

    def __init__(self, schema):
        self.schema, self.random = schema, schema.random
        self.fragments = {}  # by name the type, the text and the variables, or None while it is made

    def given(self, arguments, variables):
        """Arguments for these definitions: the required ones, and some others."""
        taken = {name: of for name, of in arguments.items() if of.endswith("!") or self.random.random() < 0.4}
        return definitions({name: self.schema.literal(of, 2, variables) for name, of in taken.items()}) if taken else ""

    def directives(self, variables):
        if self.random.random() < 0.08:
            return " @%s(if: %s)" % (self.random.choice(["skip", "include"]), self.schema.literal("Boolean!", 0, variables))
        if self.random.random() < 0.06:
            return " @d" + self.given(self.schema.argument_of_d, variables)
        return ""

    def selection_set(self, type_, deep, variables, spread):
        """A selection set of the type. The names of fragments that it spreads are added to the last."""
        selections = []
        for _ in range(self.random.randint(1, 4)):
            kind = self.random.random()
            if kind < 0.65 and type_ in self.schema.fields:
                selections.append(self.field(type_, deep, variables, spread))
            elif kind < 0.7:
                selections.append("__typename")
            elif deep > 0:
                selections.append(self.fragment(type_, deep, variables, spread, kind < 0.85))
        return "{%s}" % " ".join([one for one in selections if one] or ["__typename"])

    def field(self, type_, deep, variables, spread):
        name, of = self.random.choice(list(self.schema.fields[type_].items()))
        below = base(of) if base(of) in [*self.schema.fields, UNION] else None
        if below and deep == 0:
            return None
        alias = self.random.choice([*FIELDS, "k"]) + ": " if self.random.random() < 0.15 else ""
        arguments = self.given(self.schema.arguments.get(name, {}), variables)
        rest = " " + self.selection_set(below, deep - 1, variables, spread) if below else ""
        return alias + name + arguments + self.directives(variables) + rest

    def fragment(self, type_, deep, variables, spread, inline):
        """An inline fragment, or a spread of a fragment, which is made where it is not there yet."""
        possible = self.schema.possible(type_)
        conditions = [one for one in [*self.schema.fields, UNION] if self.schema.possible(one) & possible]
        if not conditions:
            return None
        condition = self.random.choice(conditions)
        if inline:
            on = " on " + condition if condition != type_ or self.random.random() < 0.5 else ""
            return "..." + on + self.directives(variables) + " " + self.selection_set(condition, deep - 1, variables, spread)
        name = "F%d" % self.random.randint(0, 3)
        if name not in self.fragments:
            self.fragments[name] = None
            used = {}
            self.fragments[name] = (condition, self.selection_set(condition, deep - 1, used, spread), used)
        made = self.fragments[name]
        if not made or not self.schema.possible(made[0]) & possible:
            return None
        spread.add(name)
        return "..." + name + self.directives(variables)

    def operation(self, number, alone):
        kind = "mutation" if "Mutation" in self.schema.fields and self.random.random() < 0.5 else "query"
        variables, spread = {}, set()
        body = self.selection_set(kind.capitalize(), 3, variables, spread)
        for name in sorted(spread):
            for variable, type_ in self.fragments[name][2].items():
                variables.setdefault(variable, type_)
        if alone and kind == "query" and not variables and self.random.random() < 0.5:
            return body
        defined = ["$%s: %s%s" % (name, of, self.default(of)) for name, of in variables.items()]
        return "%s Q%d%s%s %s" % (kind, number, "(%s)" % ", ".join(defined) if defined else "", self.of_operation(), body)

    def of_operation(self):
        return " @rp" if self.random.random() < 0.05 else ""

    def default(self, type_):
        return " = " + self.schema.literal(type_, 1, None) if self.random.random() < 0.2 else ""

    def lines(self):
        """The definitions."""
        count = self.random.choice([1, 1, 1, 2])
        made = [self.operation(number, count == 1) for number in range(count)]
        return made + ["fragment %s on %s %s" % (name, one[0], one[1]) for name, one in self.fragments.items()]


def runs_of(schema, text, wrong):
    """Each operation of the text, by its name or None, with values for its variables, of which some may not fit."""
    found = [(match[1], match[2] or "") for match in OPERATION.finditer(text)]
    for name, variables in found or [(None, "")]:
        given = {}
        for variable, type_, default in VARIABLE.findall(variables):
            if (type_.endswith("!") and not default) or schema.random.random() < 0.7:
                given[variable] = schema.value(type_, wrong)
        yield name, given


def changed(random, text):
    """The text with one token, or what stands in one pair of brackets, replaced, left out or written twice."""
    tokens = [(match.start(), match.end(), match[0]) for match in TOKEN.finditer(text)]
    names = [one for one in tokens if NAME.match(one[2])]
    if not names:
        return text
    kind = random.random()
    if kind < 0.8:
        start, end, _ = random.choice(names)
        other = random.choice(names)[2] if random.random() < 0.6 else random.choice(WORDS)
        return text[:start] + other + text[end:]
    start, end, token = random.choice(tokens)
    if kind < 0.85:
        return text[:start] + text[end:]
    if kind < 0.9:
        return text[:end] + " " + token + " " + text[end:]
    if kind < 0.95:
        return text[:start] + random.choice(WORDS + SIGNS) + " " + text[end:]
    end = end_of_group(tokens, start)
    return text[:start] + text[end:] if random.random() < 0.5 else text[:end] + text[start:]


def end_of_group(tokens, start):
    """The end of the token there, or of the brackets that it opens."""
    deep = 0
    for at, end, token in tokens:
        if at >= start:
            deep += (token in "{([") - (token in "})]")
            if deep <= 0:
                return end
    return tokens[-1][1]
