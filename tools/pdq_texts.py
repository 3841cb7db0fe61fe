"""Schema texts, plan texts and refutations, read as docs/GUIDE.md says: what is none is refused by the line that the program gives for it.

`read_schema` and `read_plan` take the bytes of a text, and raise `Misfit` with that line. `first_fault` gives the first reason why a plan
is not lawful, over a schema or, without one, as far as the plan alone shows it. `read_refutation` takes the bytes of what `pdq explain`
prints where there is no plan, and `query_constants` those of a query, of which it looks at the tokens alone.
"""
import re
from typing import NamedTuple, Optional

MOST_BYTES = 1 << 20
MOST_QUERY_BYTES = 1 << 16
MARK = b"\xef\xbb\xbf"
MOST_WIDTH = 64
MOST_COLUMN = 4_294_967_295
LIMITS = {"relations": 256, "methods": 256, "rules": 256, "columns": 64, "body atoms": 16, "head atoms": 8, "variables": 128,
          "cost": 1_000_000, "constants": 1024}
TOKEN = re.compile(r"""
      (?P<blank>   [ \t\r]+ )
    | (?P<comment> \#[^\n]* )
    | (?P<end>     \n )
    | (?P<word>    [A-Za-z_][A-Za-z0-9_]* )
    | (?P<quoted>  "(?:[^"]|"")+" )
    | (?P<text>    '(?:[^']|'')*' )
    | (?P<number>  [0-9]+ )
    | (?P<symbol>  <= | >= | <> | != | -> | [(),;.:=*<>+\-/|$] )
    """, re.VERBOSE)
SQL_TOKEN = re.compile(r"""
      (?P<blank>   [ \t\r\n]+ )
    | (?P<comment> --[^\n]* )
    | (?P<word>    [A-Za-z_][A-Za-z0-9_]* )
    | (?P<quoted>  "(?:[^"]|"")+" )
    | (?P<text>    '(?:[^']|'')*' )
    | (?P<number>  [0-9]+ )
    | (?P<symbol>  <= | >= | <> | != | -> | [(),;.:=*<>+\-/|$] )
    """, re.VERBOSE)
WORD = re.compile(r"[a-z_][a-z0-9_]*")


class Misfit(Exception):
    """The line that says why a text is none, or why it cannot be read."""


class Token(NamedTuple):
    kind: str  # word, quoted, text, number or symbol
    text: str  # what it stands for: words in small letters, quotes taken off and doubled ones made single


class Line(NamedTuple):
    number: int  # counted from 1; that of its first byte
    tokens: Optional[list]  # None for the line that holds something that is no token


class Relation(NamedTuple):
    name: str
    columns: list
    sorts: list  # of each column: text or int


class Method(NamedTuple):
    name: str
    relation: str
    inputs: list  # names of columns
    cost: int


class Atom(NamedTuple):
    relation: str
    terms: list  # a token each: a name is a variable


class Rule(NamedTuple):
    body: list
    head: list


class ForeignKey(NamedTuple):
    relation: str
    columns: list
    target: str
    target_columns: list


class Constant(NamedTuple):
    value: str


class Source(NamedTuple):
    relation: str
    kind: str
    locator: str


class Schema(NamedTuple):
    relations: list
    methods: list
    rules: list  # rules and foreign keys, in the order of the text
    constants: list


class Place(NamedTuple):
    kind: str  # new, column or value
    value: object  # the number of the column that is made or taken, or the text of the value


class Access(NamedTuple):
    method: str
    places: list


class Branch(NamedTuple):
    accesses: list
    output: list


class Plan(NamedTuple):
    width: int
    branches: list


class Fact(NamedTuple):
    relation: str
    values: tuple


class Refutation(NamedTuple):
    answer: tuple
    first: list  # of facts, each once, in the order of the text
    second: list


# ---- tokens and lines


def decoded(what, text):
    """The text of the bytes, without a byte order mark at its beginning."""
    if len(text) > MOST_BYTES:
        raise Misfit(f"{what}: too large")
    text = text[len(MARK):] if text.startswith(MARK) else text
    try:
        return text.decode("utf-8")
    except UnicodeDecodeError as fault:
        raise Misfit(f"{what}: not UTF-8 at byte {fault.start}") from None


def meaning(kind, written):
    """What a token stands for."""
    if kind == "word":
        return written.lower()
    if kind in ("quoted", "text"):
        return written[1:-1].replace(written[0] * 2, written[0])
    return written


def lines_of(text):
    """The lines that have tokens; the last is broken where the text has something that is no token."""
    lines, tokens, number, feeds, at = [], [], 1, 0, 0
    while at < len(text):
        found = TOKEN.match(text, at)
        if not found:
            return lines + [Line(number, None)]
        kind, written, at = found.lastgroup, found.group(), found.end()
        if kind == "end":
            if tokens:
                lines.append(Line(number, tokens))
            tokens, number = [], feeds + 2
        elif kind not in ("blank", "comment"):
            tokens.append(Token(kind, meaning(kind, written)))
        feeds += written.count("\n")
    return lines + [Line(number, tokens)] if tokens else lines


class Reader:
    """The tokens of one line, from the first on. Each call that takes what is not there raises `NotThere`."""

    def __init__(self, tokens):
        self.tokens, self.at = tokens, 0

    def next_is(self, kind, text=None):
        if self.at == len(self.tokens):
            return False
        token = self.tokens[self.at]
        return token.kind == kind and text in (None, token.text)

    def take(self, kind, text=None):
        if not self.next_is(kind, text):
            raise NotThere
        self.at += 1
        return self.tokens[self.at - 1]

    def accept(self, kind, text):
        there = self.next_is(kind, text)
        self.at += there
        return there

    def keyword(self, *words):
        for word in words:
            self.take("word", word)

    def one_of(self, *kinds):
        for kind in kinds:
            if self.next_is(kind):
                return self.take(kind)
        raise NotThere

    def name(self):
        return self.one_of("word", "quoted").text

    def listed(self, member):
        """One member or more, parted by commas."""
        members = [member()]
        while self.accept("symbol", ","):
            members.append(member())
        return members

    def in_brackets(self, member, some=True):
        """Members in brackets: one or more, or where `some` is false none or more."""
        self.take("symbol", "(")
        if not some and self.accept("symbol", ")"):
            return []
        members = self.listed(member)
        self.take("symbol", ")")
        return members

    def finish(self):
        if self.at < len(self.tokens):
            raise NotThere


class NotThere(Exception):
    """The next token is another one than the grammar wants."""


# ---- schema texts


def bounded(digits, most):
    """The number that the digits are, or one more than the most where it passes that."""
    digits = digits.lstrip("0") or "0"
    return int(digits) if len(digits) <= len(str(most)) else most + 1


def names_version(tokens):
    """Whether the tokens of a line are `schema 2`, which names the version where columns may be given sorts."""
    return tokens == [Token("word", "schema"), Token("number", "2")]


def is_integer(text):
    """Whether the text is that of an integer of 64 bits, in its one spelling."""
    return bool(re.fullmatch("0|-?[1-9][0-9]{0,18}", text)) and -(1 << 63) <= int(text) < 1 << 63


def read_declaration(tokens, has_sorts):
    """The declaration that a line is, where columns may be given sorts or may not."""
    line = Reader(tokens)
    kind = line.take("word").text
    if kind == "relation":
        name, columns = line.name(), line.in_brackets(lambda: read_column(line, has_sorts))
        part = Relation(name, [column for column, _ in columns], [sort for _, sort in columns])
    elif kind == "method":
        part = read_method(line)
    elif kind == "rule":
        body = line.listed(lambda: read_atom(line))
        line.take("symbol", "->")
        part = Rule(body, line.listed(lambda: read_atom(line)))
    elif kind == "foreign":
        line.keyword("key")
        relation, columns = line.name(), line.in_brackets(line.name)
        line.keyword("references")
        part = ForeignKey(relation, columns, line.name(), line.in_brackets(line.name))
    elif kind == "constant":
        part = Constant(line.one_of("text", "number").text)
    elif kind == "source":
        part = Source(line.name(), line.name(), line.take("text").text)
    else:
        raise NotThere
    line.finish()
    return part


def read_column(line, has_sorts):
    """The name of a column, and its sort."""
    name = line.name()
    if has_sorts and line.accept("word", "int"):
        return name, "int"
    if has_sorts:
        line.accept("word", "text")
    return name, "text"


def read_method(line):
    name = line.name()
    line.keyword("on")
    relation, inputs = line.name(), line.in_brackets(line.name, some=False)
    line.keyword("cost")
    return Method(name, relation, inputs, bounded(line.take("number").text, LIMITS["cost"]))


def read_atom(line):
    return Atom(line.name(), line.in_brackets(lambda: line.one_of("word", "quoted", "text", "number")))


def read_schema(text):
    """The schema that the bytes declare."""
    parts, lines = [], lines_of(decoded("schema", text))
    has_sorts = bool(lines) and names_version(lines[0].tokens)
    for line in lines[has_sorts:]:
        try:
            if line.tokens is None:
                raise NotThere
            parts.append((line.number, read_declaration(line.tokens, has_sorts)))
        except NotThere:
            raise Misfit(f"schema: line {line.number} is not a declaration") from None
    faults = Faults(part for _, part in parts)
    for number, part in parts:
        fault = faults.of(part)
        if fault:
            raise Misfit(f"schema: line {number}: {fault}")
    kinds = {kind: [part for _, part in parts if isinstance(part, kind)] for kind in (Relation, Method, Constant)}
    rules = [part for _, part in parts if isinstance(part, (Rule, ForeignKey))]
    return Schema(kinds[Relation], kinds[Method], rules, [constant.value for constant in kinds[Constant]])


def repeats(names):
    return len(set(names)) < len(names)


def variables(rule):
    return {term.text for atom in rule.body + rule.head for term in atom.terms if term.kind in ("word", "quoted")}


def constants(rule):
    return {term.text for atom in rule.body + rule.head for term in atom.terms if term.kind in ("text", "number")}


class Faults:
    """What is wrong with the declarations, one after another: the least fault of each, in the order of the table of the guide."""

    def __init__(self, parts):
        self.columns, self.sorts = {}, {}  # of all relations, wherever they are declared
        for part in parts:
            if isinstance(part, Relation):
                self.columns.setdefault(part.name, part.columns)
                self.sorts.setdefault(part.name, part.sorts)
        self.relations, self.methods, self.sources, self.rules, self.constants, self.feeds = set(), set(), set(), 0, set(), {}

    def of(self, part):
        """The fault of the next declaration, or None."""
        looks = {Relation: self.of_relation, Method: self.of_method, Rule: self.of_rule, ForeignKey: self.of_key,
                 Constant: self.of_constant, Source: self.of_source}
        return looks[type(part)](part)

    def of_relation(self, part):
        if part.name in self.relations or repeats(part.columns):
            return "duplicate name"
        self.relations.add(part.name)
        return over("relations", len(self.relations)) or over("columns", len(part.columns))

    def of_method(self, part):
        if part.name in self.methods or repeats(part.inputs):
            return "duplicate name"
        if part.relation not in self.columns:
            return "unknown relation"
        if self.lacks(part.relation, part.inputs):
            return "unknown column"
        self.methods.add(part.name)
        return over("methods", len(self.methods)) or over("cost", part.cost)

    def of_rule(self, part):
        atoms = part.body + part.head
        if any(atom.relation not in self.columns for atom in atoms):
            return "unknown relation"
        if any(len(atom.terms) != len(self.columns[atom.relation]) for atom in atoms):
            return "wrong arity"
        self.rules += 1
        self.constants |= constants(part)
        return (over("rules", self.rules) or over("body atoms", len(part.body)) or over("head atoms", len(part.head))
                or over("variables", len(variables(part))) or over("constants", len(self.constants))
                or self.leads_round([atom.relation for atom in part.body], [atom.relation for atom in part.head])
                or wrong_sort([(term, sort) for atom in atoms for term, sort in zip(atom.terms, self.sorts[atom.relation])]))

    def of_key(self, part):
        if repeats(part.columns) or repeats(part.target_columns):
            return "duplicate name"
        if part.relation not in self.columns or part.target not in self.columns:
            return "unknown relation"
        if len(part.columns) != len(part.target_columns):
            return "wrong arity"
        if self.lacks(part.relation, part.columns) or self.lacks(part.target, part.target_columns):
            return "unknown column"
        self.rules += 1
        apart = self.sorts_of(part.relation, part.columns) != self.sorts_of(part.target, part.target_columns)
        return over("rules", self.rules) or self.leads_round([part.relation], [part.target]) or ("wrong sort" if apart else None)

    def of_constant(self, part):
        self.constants.add(part.value)
        return over("constants", len(self.constants))

    def of_source(self, part):
        if part.relation in self.sources:
            return "duplicate name"
        self.sources.add(part.relation)
        return None if part.relation in self.columns else "unknown relation"

    def lacks(self, relation, columns):
        return any(column not in self.columns[relation] for column in columns)

    def sorts_of(self, relation, columns):
        return [self.sorts[relation][self.columns[relation].index(column)] for column in columns]

    def leads_round(self, body, head):
        """Whether the rules up to this one lead from a relation back to itself: then one leads from its head back to its body."""
        for relation in body:
            self.feeds.setdefault(relation, set()).update(head)
        reached, left = set(head), list(head)
        while left:
            for further in self.feeds.get(left.pop(), set()) - reached:
                reached.add(further)
                left.append(further)
        return "recursive rules" if reached & set(body) else None


def wrong_sort(terms):
    """What is wrong with terms, each with the sort of its column: a variable of two sorts, or another constant than an integer."""
    sorts = {}
    for term, sort in terms:
        if term.kind in ("word", "quoted") and sorts.setdefault(term.text, sort) != sort:
            return "wrong sort"
        if term.kind in ("text", "number") and sort == "int" and not is_integer(term.text):
            return "wrong sort"
    return None


def over(limit, count):
    return f"over the limit of {limit}" if count > LIMITS[limit] else None


# ---- plan texts


def plain(digits, most):
    """The number that the digits are, which has no leading zero and does not pass the most."""
    number = bounded(digits, most)
    if number > most or digits != str(number):
        raise NotThere
    return number


def read_place(line, with_new):
    if with_new and line.accept("word", "new"):
        return Place("new", None)
    if line.accept("symbol", "$"):
        return Place("column", plain(line.take("number").text, MOST_COLUMN))
    return Place("value", line.one_of("text", "number").text)


class PlanReader:
    """Reads a plan line by line: which lines may come next follows from those before."""

    def __init__(self):
        self.width, self.branches, self.ended, self.accesses = None, [], False, None

    def take(self, tokens):
        line = Reader(tokens)
        if self.width is None:
            line.keyword("plan")
            self.width = plain(line.take("number").text, MOST_WIDTH)
            if self.width == 0:
                raise NotThere
        elif self.ended:
            raise NotThere
        elif self.accesses is None:
            self.begin(line)
        elif line.accept("word", "access"):
            self.accesses.append(Access(line.name(), line.in_brackets(lambda: read_place(line, with_new=True))))
        else:
            line.keyword("output")
            self.branches.append(Branch(self.accesses, line.listed(lambda: read_place(line, with_new=False))))
            self.accesses = None
        line.finish()

    def begin(self, line):
        if line.accept("word", "branch"):
            self.accesses = []
        else:
            line.keyword("end")
            self.ended = True


def read_plan(text):
    """The plan that the bytes are; each `new` has the number of the column that it makes."""
    text = decoded("plan", text)
    reader = PlanReader()
    for line in lines_of(text):
        try:
            if line.tokens is None:
                raise NotThere
            reader.take(line.tokens)
        except NotThere:
            raise Misfit(f"plan: line {line.number} does not fit") from None
    if not reader.ended:
        raise Misfit("plan: line {} does not fit".format(text.count("\n") + 1))
    return Plan(reader.width, [numbered(branch) for branch in reader.branches])


def numbered(branch):
    """The branch with the numbers of the columns that it makes."""
    made, accesses = 0, []
    for access in branch.accesses:
        places = []
        for place in access.places:
            places.append(Place("new", made) if place.kind == "new" else place)
            made += place.kind == "new"
        accesses.append(Access(access.method, places))
    return Branch(accesses, branch.output)


def first_fault(plan, schema=None):
    """The line of the first fault of a plan that is not lawful, or None. Without a schema, methods, their columns and their inputs are
    not looked at. All constants of a plan may be used."""
    methods = {method.name: method for method in schema.methods} if schema else None
    columns = {relation.name: relation.columns for relation in schema.relations} if schema else None
    for number, branch in enumerate(plan.branches, 1):
        made = 0
        for step, access in enumerate(branch.accesses, 1):
            inputs = set()
            if methods is not None:
                method = methods.get(access.method)
                if method is None:
                    return f"illegal: branch {number} step {step}: no such method"
                if len(access.places) != len(columns[method.relation]):
                    return f"illegal: branch {number} step {step}: wrong arity"
                inputs = {place for place, column in enumerate(columns[method.relation]) if column in method.inputs}
            fault, made = place_fault(access.places, inputs, made)
            if fault:
                return f"illegal: branch {number} step {step} {fault}"
        step = len(branch.accesses) + 1
        if len(branch.output) != plan.width:
            return f"illegal: branch {number} step {step}: wrong arity"
        for place, out in enumerate(branch.output, 1):
            if out.kind == "column" and out.value >= made:
                return f"illegal: branch {number} step {step} place {place}: bad column"
    return None


def place_fault(places, inputs, began):
    """The first fault among the places of a step that began with so many columns, or None; and how many columns there are behind it."""
    made = began
    for position, place in enumerate(places):
        if place.kind == "column" and place.value >= made:
            return f"place {position + 1}: bad column", made
        if position in inputs and (place.kind == "new" or place.kind == "column" and place.value >= began):
            return f"place {position + 1}: input not known", made
        made += place.kind == "new"
    return None, made


# ---- refutations


class RefutationReader:
    """Reads a refutation line by line: the heads `no plan`, `answer`, `first`, `second` and `end`, in this order, and facts behind two of
    them."""

    def __init__(self, schema):
        self.widths = {relation.name: len(relation.columns) for relation in schema.relations}
        self.heads, self.answer, self.first, self.second = ["no", "answer", "first", "second", "end"], (), {}, {}

    def take(self, tokens):
        line = Reader(tokens)
        facts = {2: self.first, 1: self.second}[len(self.heads)] if len(self.heads) in (1, 2) else None
        if facts is not None and len(tokens) > 1:
            fact = Fact(line.name(), tuple(line.in_brackets(lambda: read_value(line))))
            if self.widths.get(fact.relation) != len(fact.values):
                raise NotThere
            facts[fact] = None
        elif not self.heads:
            raise NotThere
        else:
            self.head(line, self.heads.pop(0))
        line.finish()

    def head(self, line, word):
        line.keyword(word)
        if word == "no":
            line.keyword("plan")
        elif word == "answer":
            self.answer = tuple(line.listed(lambda: read_value(line)))


def read_value(line):
    return line.one_of("text", "number").text


def read_refutation(text, schema):
    """The refutation that the bytes are, over the relations of the schema."""
    text = decoded("refutation", text)
    reader = RefutationReader(schema)
    for line in lines_of(text):
        try:
            if line.tokens is None:
                raise NotThere
            reader.take(line.tokens)
        except NotThere:
            raise Misfit(f"refutation: line {line.number} does not fit") from None
    if reader.heads:
        raise Misfit("refutation: line {} does not fit".format(text.count("\n") + 1))
    return Refutation(reader.answer, list(reader.first), list(reader.second))


# ---- constants


def schema_constants(schema):
    """The constants of a schema, those of its rules too."""
    return set(schema.constants).union(*(constants(rule) for rule in schema.rules if isinstance(rule, Rule)))


def query_constants(text):
    """The constants of the query that the bytes are: its texts in single quotes and its numbers. Its grammar is not looked at."""
    text = decoded("query", text)
    found, at = set(), 0
    while at < len(text):
        token = SQL_TOKEN.match(text, at)
        if not token:
            fault = "open quote" if text[at] in "'\"" and not text.startswith('""', at) else "bad byte"
            raise Misfit(f"query: {fault} at byte {len(text[:at].encode())}")
        if token.lastgroup in ("text", "number"):
            found.add(meaning(token.lastgroup, token.group()))
        at = token.end()
    return found


# ---- texts for people


def shown_name(name):
    """A name as the program prints it."""
    return name if WORD.fullmatch(name) else '"' + name.replace('"', '""') + '"'


def shown_value(value):
    """A value as the program prints it."""
    return "'" + value.replace("'", "''") + "'"


def shown_fact(fact):
    """A fact as the program prints it."""
    return f"{shown_name(fact.relation)}({', '.join(map(shown_value, fact.values))})"
