"""The grammar of queries, and the derivations of tokens by it.

A rule has bodies, each a list of symbols: the name of a rule, a `Test` of a token, or a `Step` that says what is read
at this place. All derivations are followed at once, token by token, so tokens are refused at the first one that no
query has there.
"""

NOT_NAMES = ("and", "or", "not")
MARK = "mark"


class Test:
    """A test of a token, and the role that the token has for its glued neighbors."""

    def __init__(self, test, glued=False, role=None):
        self.test, self.glued, self.role = test, glued, role

    def accepts(self, token, role_before):
        """Returns whether a token may stand here, after a token of a role."""
        if self.glued and not token.glued:
            return False
        if token.glued and role_before:
            if role_before == "bare word" and token.is_mark("("):
                return False
            if role_before in ("bare word", "word", "exact text") and self.role == "star":
                return False
            if role_before == "star" and token.kind != "Mark":
                return False
            if role_before == "time" and self.role != "time" and (token.kind == "Bare" or token.is_mark(":-+")):
                return False
        return self.test(token)

    def role_of(self, token):
        return "bare word" if self.role == "word" and token.kind == "Bare" else self.role


class Step:
    """What is done with what was read up to this place: a method of the reader, and a value for it."""

    def __init__(self, name, value=None):
        self.name, self.value = name, value


def keyword(*words):
    return Test(lambda token: token.keyword in words)


def mark(marks, glued=False, role=None):
    return Test(lambda token: token.is_mark(marks), glued, role)


def is_name(token, reserved=(), but=()):
    """Returns whether a token is a name: quoted, or bare and no keyword of its place."""
    if token.kind == "Mark" or token.text in but:
        return False
    return token.kind == "Quoted" or token.keyword not in (*NOT_NAMES, *reserved)


def name(reserved=(), role=None, but=()):
    return Test(lambda token: is_name(token, reserved, but), role=role)


BEGIN = Step("begin")
NAME = [name(), Step("name")]
LISTED = [name(("asc", "desc", "as")), Step("name")]
SET = [name(("as", "div", "mod")), Step("name")]
BARE = Test(lambda token: token.kind == "Bare")
QUOTED = Test(lambda token: token.kind == "Quoted")
OPEN, CLOSE, COMMA, COLON, EQUALS = mark("("), mark(")"), mark(","), mark(":"), mark("=")
GLUED_OPEN = mark("(", glued=True)
STAR_AFTER = mark("*", glued=True)
NOTS = (keyword("not"), mark("!"), mark("-"))
COMPARED = ((">", ()), (">=", ("=",)), ("<", ()), ("<=", ("=",)))
HOWS = (("Is", "=", ""), ("IsNot", "!", "="), ("Matches", "=", "~"), ("MatchesNot", "!", "~"))


def argument(role=None):
    """A text as an argument: bare, bare with a minus before it, or quoted."""
    after_minus = Test(lambda token: token.kind == "Bare", glued=True, role=role)
    return [
        [BEGIN, name(role=role), Step("text_of_item")],
        [BEGIN, mark("-"), after_minus, Step("text_of_item")],
    ]


def add_list(rules, list_name, item):
    """Adds the rule of a list with commas between its items."""
    rules[list_name] = [[Step(MARK), *item, list_name + " more", Step("list")]]
    rules[list_name + " more"] = [[COMMA, *item, list_name + " more"], []]


def add_filters(rules, inside):
    """Adds the rules of filters. Selectors and times stand in none that is inside of pipes."""
    x = " inside" if inside else ""
    parentheses = [OPEN, Step("enter"), "or" + x, CLOSE, Step("leave")]
    unary, inner = (
        [[no, Step("enter"), word + x, Step("leave"), Step("not_")] for no in NOTS] for word in ("unary", "inner")
    )
    rules["or" + x] = [[Step(MARK), "and" + x, "or more" + x, Step("joined", "Any2")]]
    rules["or more" + x] = [[keyword("or"), "and" + x, "or more" + x], []]
    rules["and" + x] = [[Step(MARK), "unary" + x, "and more" + x, Step("joined", "All2")]]
    rules["and more" + x] = [[keyword("and"), "unary" + x, "and more" + x], ["unary" + x, "and more" + x], []]
    rules["unary" + x] = unary + [["unit" + x]]
    rules["inner" + x] = inner + [parentheses, ["leaf"]]
    of_field = [name(but=("_time",)), Step("name"), COLON, Step("field_in"), "inner" + x, Step("field_out")]
    rules["unit" + x] = [parentheses, of_field, ["leaf"]]
    if not inside:
        time_name = Test(lambda token: token.kind != "Mark" and token.text == "_time")
        stream_name = Test(lambda token: token.kind == "Bare" and token.text == "_stream")
        rules["unit"] += [["selector"], [time_name, COLON, "time"], [stream_name, COLON, "selector"]]


def add_leaves(rules):
    word = [name(role="word"), Step("text")]
    rules["argument"] = argument()
    rules["exact text"] = argument("exact text")
    add_list(rules, "arguments", ["argument"])
    for kind in ("number", "end", "size", "high"):
        rules[kind] = [[BEGIN, "argument", Step("item", kind)]]
    rules["N"] = [[BEGIN, BARE, Step("text"), Step("item", "size")]]
    ends = [Step("bracket"), "end", COMMA, "end", mark(")]"), Step("bracket"), Step("range_")]
    rules["leaf"] = [
        [mark("*", role="star"), Step("star")],
        [*word, Step("phrase")],
        [*word, STAR_AFTER, Step("leaf", ("Prefix", 1))],
        [EQUALS, "exact text", Step("leaf", ("Exact", 1))],
        [EQUALS, "exact text", STAR_AFTER, Step("leaf", ("ExactPrefix", 1))],
        [mark("~"), Test(lambda token: token.kind != "Mark"), Step("text"), Step("leaf", ("Regex", 1))],
        [keyword("in"), GLUED_OPEN, CLOSE, Step("constant", []), Step("leaf", ("OneOf", 1))],
        [keyword("in"), GLUED_OPEN, "arguments", CLOSE, Step("leaf", ("OneOf", 1))],
        [keyword("i"), GLUED_OPEN, "argument", CLOSE, Step("leaf", ("Fold", 1))],
        [keyword("seq"), GLUED_OPEN, "arguments", CLOSE, Step("leaf", ("Seq", 1))],
        [keyword("len_range"), GLUED_OPEN, "size", COMMA, "high", CLOSE, Step("leaf", ("Length", 2))],
        [keyword("string_range"), GLUED_OPEN, "argument", COMMA, "argument", CLOSE, Step("leaf", ("Between", 2))],
        [keyword("range"), mark("([", glued=True), *ends],
    ]
    for how, more in COMPARED:
        rules["leaf"].append([mark(how[0]), *(mark(m, glued=True) for m in more), "number", Step("compare", how)])


def add_times_and_streams(rules):
    rules["time"] = [
        ["span"],
        [mark("[("), Step("bracket"), "bound", COMMA, "bound", mark("])"), Step("bracket"), Step("times")],
    ]
    for kind in ("span", "bound"):
        bare_time = Test(lambda token: token.kind == "Bare", role="time")
        rules[kind] = [[BEGIN, QUOTED, Step(kind)], [BEGIN, bare_time, "time more", Step(kind)]]
    glued_bare = Test(lambda token: token.kind == "Bare", glued=True, role="time")
    rules["time more"] = [[glued_bare, "time more"], [mark(":-+", True, "time"), "time more"], []]
    rules["selector"] = [
        [mark("{"), Step("constant", []), mark("}"), Step("select")],
        [mark("{"), Step(MARK), "group", "groups more", mark("}"), Step("list"), Step("select")],
    ]
    rules["groups more"] = [[keyword("or"), "group", "groups more"], []]
    add_list(rules, "group", ["label"])
    rules["label"] = []
    for how, first, second in HOWS:
        marks = [mark(first)] + [mark(m, glued=True) for m in second]
        rules["label"].append([*NAME, *marks, "argument", Step("label", how)])


def add_pipes(rules):
    as_, by, limit, offset = keyword("as"), ["by"], keyword("limit"), keyword("offset")
    none = Step("constant", None)
    add_list(rules, "names", NAME)
    add_list(rules, "pairs", ["pair"])
    rules["pair"] = [[*LISTED, *maybe, *LISTED, Step("pair")] for maybe in ([as_], [])]
    add_list(rules, "sort keys", [*LISTED, "direction", Step("pair")])
    down, up = Step("constant", True), Step("constant", False)
    rules["direction"] = [[keyword("desc"), down], [keyword("asc"), up], [up]]
    rules["by"] = [[keyword("by")], []]
    rules["limit"] = [[limit, "N"], [none]]
    rules["with hits"] = [
        [keyword("with"), keyword("hits"), Step("constant", True)],
        [Step("constant", False)],
    ]
    rules["cut"] = [
        [none, none],
        [limit, "N", none],
        [none, offset, "N"],
        [limit, "N", offset, "N"],
        [offset, "N", limit, "N", Step("swapped")],
    ]
    in_parentheses = [*by, OPEN, "names", CLOSE]
    rules["pipe"] = [
        [keyword("fields", "keep"), "names", Step("pipe", ("Fields", 1))],
        [keyword("delete", "del", "rm", "drop"), "names", Step("pipe", ("Delete", 1))],
        [keyword("rename", "mv"), "pairs", Step("pipe", ("Rename", 1))],
        [keyword("copy", "cp"), "pairs", Step("pipe", ("Copy", 1))],
        [keyword("limit", "head"), "N", Step("pipe", ("Limit", 1))],
        [keyword("offset", "skip"), "N", Step("pipe", ("Offset", 1))],
        [keyword("sort", "order"), *by, OPEN, "sort keys", CLOSE, "direction", "cut", Step("sort")],
        [keyword("uniq"), *in_parentheses, "with hits", "limit", Step("pipe", ("Uniq", 3))],
        [keyword("top"), "N", *in_parentheses, Step("pipe", ("Top", 2))],
        [keyword("top"), Step("constant", 10), *in_parentheses, Step("pipe", ("Top", 2))],
        [keyword("filter", "where"), "or inside", Step("pipe", ("Keep", 1))],
        [keyword("stats"), *by, OPEN, "stats keys", CLOSE, "functions", Step("pipe", ("Stats", 2))],
        [keyword("stats"), Step("constant", []), "functions", Step("pipe", ("Stats", 2))],
        ["row pipe"],
    ]


def add_row_pipes(rules):
    """Adds the pipes that set fields. In them `as`, `div` and `mod` are keywords wherever a name may stand."""
    for kind in ("extracting pattern", "pattern"):
        rules[kind] = [[BEGIN, QUOTED, Step("text"), Step("item", kind)]]
    rules["source"] = [[keyword("from"), *SET], [Step("constant", "_msg")]]
    rules["target"] = [[keyword("as"), *SET], SET]
    add_list(rules, "math items", ["expression", "target", Step("pair")])
    rules["row pipe"] = [
        [keyword("extract"), "extracting pattern", "source", Step("pipe", ("Extract", 2))],
        [keyword("format"), "pattern", "target", Step("pipe", ("Format", 2))],
        [keyword("len"), OPEN, *SET, CLOSE, "target", Step("pipe", ("Len", 2))],
        [keyword("math"), "math items", Step("pipe", ("Math", 1))],
    ]
    operand = Test(lambda token: token.kind == "Bare" and token.keyword not in ("as", "div", "mod"))
    parentheses = [OPEN, Step("enter"), "expression", CLOSE, Step("leave")]
    rules["atom"] = [[operand, Step("operand")], [QUOTED, Step("operand")], parentheses]
    add_operations(rules, "term", "atom", {"*": mark("*"), "div": keyword("div"), "mod": keyword("mod")})
    add_operations(rules, "expression", "term", {"+": mark("+"), "-": mark("-")})


def add_operations(rules, kind, operand, operators):
    """Adds the rule of operands with operators between them, which are done from left to right."""
    rules[kind] = [[operand, kind + " more"]]
    rules[kind + " more"] = [
        [token, operand, Step("operation", operator), kind + " more"] for operator, token in operators.items()
    ] + [[]]


def add_statistics(rules):
    none = Step("constant", None)
    time_name = Test(lambda token: token.kind == "Bare" and token.text == "_time")
    add_list(rules, "stats keys", ["stats key"])
    rules["stats key"] = [
        [*NAME, none, Step("pair")],
        [time_name, Step("name"), COLON, BEGIN, BARE, Step("text"), Step("item", "step"), Step("pair")],
    ]
    add_list(rules, "functions", ["call", "if", "as", Step("function")])
    rules["if"] = [[keyword("if"), OPEN, Step("enter"), "or inside", CLOSE, Step("leave")], [none]]
    rules["as"] = [[keyword("as"), *LISTED], LISTED, [none]]
    rules["call"] = []
    for star in ([], [mark("*")]):
        rules["call"].append([keyword("count"), OPEN, *star, CLOSE, Step("constant", []), Step("call", "count")])
    for function in ("count", "count_empty", "count_uniq"):
        rules["call"].append([keyword(function), OPEN, "names", CLOSE, Step("call", function)])
    for function in ("sum", "min", "max", "uniq_values"):
        rules["call"].append([keyword(function), OPEN, Step(MARK), *NAME, Step("list"), CLOSE, Step("call", function)])


def all_rules():
    rules = {"query": [["or", Step("whole"), "pipes"]], "pipes": [[mark("|"), "pipe", "pipes"], []]}
    add_filters(rules, inside=False)
    add_filters(rules, inside=True)
    add_leaves(rules)
    add_times_and_streams(rules)
    add_pipes(rules)
    add_row_pipes(rules)
    add_statistics(rules)
    return rules


RULES = all_rules()
