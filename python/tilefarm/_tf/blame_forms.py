"""Forms of Halide, Python and C where a token cannot stand, each with what says the same in this language."""
from .around import ITEMS, Around, Guess, at
from .tokens import CALLS, Token

COMPARISONS = ("<=", ">=", "==")
SHAPES = {"min": "min(a, b), and of three min(a, min(b, c))", "max": "max(a, b), and of three max(a, max(b, c))", "abs": "abs(a)",
          "clamp": "clamp(a, LEAST, GREATEST)", "select": "select(a >= b, c, d)"}
SELECT = "a case tests variables alone, and a test of values is a select in the expression, as select(I(x, y) >= 128, 255, 0)."
NO_IF = "There is no if: a test of variables is a case, as case x >= 1 : A; else : B;, and one of values is select(I(x, y) >= 128, A, B)."
NO_LOOP = "There is no loop: a func is one value for each of its points, a stencil sums over neighbours, and an accum over all points."
NO_LOCAL = "There are no local names: a func of its own names a part of an expression, and is inlined where that costs little."
STATEMENTS = {"if": NO_IF, "elif": NO_IF, "switch": NO_IF, "when": NO_IF, "for": NO_LOOP, "while": NO_LOOP, "let": NO_LOCAL,
              "var": NO_LOCAL, "int": NO_LOCAL, "return": "Nothing is returned: the value stands behind a case or an else, as else : I(x, y);"}
FUNCTION = "A function is written as func f(x in [0 .. R-1], y in [0 .. C-1]) { else : I(x, y); }: with its intervals, and its value in braces."
TABLE = "{0} is no word of the language: read a table of its values, t[I(x, y)], whose line tf table makes."
MATHS = {it: TABLE for it in "sqrt pow exp log sin cos tan atan gamma round floor ceil".split()}
CASTS = dict.fromkeys("cast u8 u16 i32 int float uint8 saturating_cast".split(),
                      "{0} is no word of the language: values are 32-bit integers, and the output clamps them to its greatest sample.")
HALIDE = {"Var": "Variables are named by each function, as func f(x in [0 .. R-1], y in [0 .. C-1]).",
          "RDom": "There is no RDom: a sum over neighbours is a stencil, and one over all points is an accum."}
ENDS = ("An end or a side is a sum such as 2*N-1, without parentheses and quotients: name the smaller number, "
        "as param H; image I(2*H, C); and [0 .. H-1].")


def is_test(it: Around, number: int) -> bool:
    """Whether the token so far back begins a test of a case."""
    return it.last(number + 1) in ("case", "and") and it.caller() != "select"


def value_in_a_test(it: Around) -> Guess | None:
    if it.last() in ("case", "and") and it.here.text in (*CALLS, "stencil"):
        return at(it.here, f"{it.here.text} cannot stand in a test: {SELECT}")
    if it.wanted != COMPARISONS or it.here.text not in "([" or not is_test(it, 1):
        return None
    return at(it.before[-1], f"{it.last()} cannot stand in a test: {SELECT}")


def test_of_another_form(it: Around) -> Guess | None:
    """Tests that do not begin with a variable and a comparison."""
    if it.last() in ("case", "and") and it.wanted == ("a name",):
        ways = {"(": "Tests stand without parentheses: case x >= 1 and y >= 1 : A;"}
        return at(it.here, ways.get(it.here.text, "A test begins with its variable: write x >= 1 in place of 1 <= x."))
    if it.wanted != COMPARISONS or not is_test(it, 1):
        return None
    if it.last() == "not":
        return at(it.before[-1], "There is no not: write the other cases first, and what is left under else.")
    if it.here.text == "in":
        return at(it.here, "A test compares: write x >= 1 and x <= 3.")
    return at(it.here, "The variable stands alone on the left of a test: write x >= R-1 in place of x+1 >= R.")


def end_of_tests(it: Around) -> Guess | None:
    """What stands where a case's tests could end."""
    if it.wanted != (":",):
        return None
    if it.here.text == "if":
        return at(it.here, "There is no else if: write another case before the else.")
    if it.here.text == ",":
        return at(it.here, "Tests are joined by and: case x >= 1 and y >= 1 : A;")
    is_second = it.here.text in COMPARISONS
    return at(it.here, "A test has one comparison: write x >= 1 and x <= 3.") if is_second else None


def end_of_another_form(it: Around) -> Guess | None:
    """Quotients, parentheses and calls in intervals, sides and tests."""
    if it.wanted == ("a number", "a parameter") and it.here.kind in ("mark", "word"):
        return at(it.here, ENDS)
    is_side = it.item() == "image" and it.caller() != ""
    is_bound = it.wanted in (("..",), ("]",), (":",)) or (it.wanted in ((",",), (")",)) and is_side)
    if not is_bound or it.here.text not in "/*%(":
        return None
    return at(it.here, "A factor stands before its parameter: 2*N." if it.here.text == "*" else ENDS)


def interval_of_another_form(it: Around) -> Guess | None:
    is_other = (it.wanted == ("..",) and it.here.text in ",:") or (it.wanted == ("[",) and it.last() == "in")
    return at(it.here, "An interval is [0 .. R-1], and contains both its ends.") if is_other else None


def header_of_another_form(it: Around) -> Guess | None:
    """A function without intervals or braces."""
    return at(it.here, FUNCTION) if it.item() == "func" and it.wanted in (("in",), ("{",)) else None


def item_of_another_form(it: Around) -> Guess | None:
    if it.wanted != ITEMS or it.here.kind != "name":
        return None
    is_definition = it.next() in (b"(", b"[", b"=") and it.here.text not in HALIDE
    cure = FUNCTION if is_definition else HALIDE.get(it.here.text)
    return at(it.here, cure) if cure else None


def outputs(it: Around) -> Guess | None:
    """Two names in an output, or none for its greatest sample."""
    if it.item() != "output":
        return None
    if it.wanted == (",",) and it.here.text == "max":
        return at(it.here, "An output names one function, or three for red, green and blue: --stage NAME writes the picture of another one.")
    return at(it.here, "An output has its greatest sample: output f max 255;") if it.wanted == ("max",) else None


def is_read(it: Around) -> bool:
    """Whether the parenthesis that is open here reads a stage."""
    name, start = it.call()
    return name is not None and name.kind == "name" and it.last(len(it.before) - start + 2) not in (*ITEMS, "over")


def index_of_another_form(it: Around) -> Guess | None:
    """What is no index: a call, a value, a sum of names, a number alone, or a third index."""
    if not is_read(it):
        return None
    name = it.caller()
    if it.wanted == ("a variable",) and it.here.text in (*CALLS, "stencil"):
        return at(it.here, f"An index is no expression, and no border is made up: pad {name} by cases (Borders in docs/GUIDE.md shows it), "
                  "or keep the case to the points inside.")
    if it.wanted == ("a number",) and it.last() in ("+", "-"):
        return at(it.here, "An index adds a number of the text alone, as x+1: no parameter, no variable and no value.")
    if it.wanted == ("*",) and it.here.text in ",)":
        return at(it.before[-1], "An index has the variable of the point, as x, x+1 or 2*x: no read has a fixed place.")
    if it.wanted == (")",) and it.here.text == ",":
        return at(it.here, "A read has two indices, row and column: three channels are three planes, image r, g, b(R, C);")
    return None


def value_as_an_index(it: Around) -> Guess | None:
    """A read at a value, as of an accumulator or of a table."""
    name, start = it.call()
    if not name or not is_read(it) or it.here.text not in "([" or it.before[-1].kind != "name" or start != len(it.before) - 2:
        return None
    if it.is_accumulator(name.text):
        return at(name, accumulator_is_read(name.text))
    known = name.text in it.declared()
    cure = f"Only a table is read at a value, as t[I(x, y)]: {name.text} has an index of x, and one of y."
    return at(it.before[-1], cure) if known else None


def accumulator_is_read(name: str) -> str:
    return (f"{name} is an accumulator, and no function reads one: take two runs. tf table makes a table of the first one's totals, "
            "and the second reads that (docs/GUIDE.md shows equalisation).")


def brackets(it: Around) -> Guess | None:
    """`I[x, y]`."""
    if it.wanted != ("]",) or it.here.text != ",":
        return None
    return at(it.here, "Brackets read a table, at one value: a plane or a function is read as I(x, y).")


def planes(it: Around) -> Guess | None:
    """Two planes, or a third side."""
    if it.item() != "image":
        return None
    if it.wanted == (",",) and it.here.text == "(":
        return at(it.here, "An image names one plane, or three: image I(R, C); or image r, g, b(R, C);")
    is_side = it.wanted == (")",) and it.here.text == ","
    return at(it.here, "A plane has rows and columns: three channels are three planes, image r, g, b(R, C);") if is_side else None


def operands(it: Around) -> Guess | None:
    """More or fewer operands than a call has, or a test of several comparisons."""
    name = it.caller()
    if name not in CALLS:
        return None
    if name == "select" and it.here.text in ("and", "or"):
        return at(it.here, "A select has one comparison: a and b is select(A, select(B, c, d), d), and a or b is select(A, c, select(B, c, d)).")
    if name == "select" and it.wanted == COMPARISONS:
        return at(it.here, f"A select compares first: {SHAPES[name]}.")
    is_other = (it.wanted, it.here.text) in (((")",), ","), ((",",), ")"))
    return at(it.here, f"{name} is written as {SHAPES[name]}.") if is_other else None


def comparison_as_a_value(it: Around) -> Guess | None:
    if it.here.text not in COMPARISONS or it.wanted not in ((";",), (")",), (",",), ("]",)):
        return None
    return at(it.here, "A comparison is no value: select(A >= B, 1, 0) is 1 where it holds.")


def power(it: Around) -> Guess | None:
    if (it.last(), it.here.text) != ("*", "*"):
        return None
    return at(it.here, "There is no power: write a product, as a * a.")


def statement(it: Around) -> Guess | None:
    """A statement of another language, where it stands, before this token, or as if it were called."""
    name, _ = it.call()
    every = [it.here, *it.before[-1:], *([name] if name else [])]
    token = next((token for token in every if token.kind == "name" and token.text in STATEMENTS), None)
    return at(token, STATEMENTS[token.text]) if token and it.wanted != ITEMS else None


def function_of_a_library(it: Around) -> Guess | None:
    """A call of what is declared nowhere."""
    name, _ = it.call()
    if not name or not is_read(it) or name.text in it.declared():
        return None
    return at(name, undeclared_call(name.text))


def undeclared_call(name: str) -> str:
    usual = "{0} is declared nowhere, and the language has no such call: it has abs, clamp, max, min, select and stencil."
    return {**MATHS, **CASTS}.get(name, usual).format(name)


def sum_of_values(it: Around) -> Guess | None:
    if it.here.text != "sum" or it.wanted != ("an expression",):
        return None
    return at(it.here, "sum belongs to an accum: a sum over neighbours is stencil(I, 1, [[1, 1, 1]]), and over all points an accum.")


def kernel_of_another_form(it: Around) -> Guess | None:
    """A stencil without its divisor, or with one row of weights alone."""
    if it.wanted == ("a number",) and it.here.text == "[" and it.caller() == "stencil":
        return at(it.here, "A stencil has its divisor before the weights: stencil(I, 1, [[1, 2, 1]]).")
    if it.wanted == ("[",) and it.last() == "[" and (it.here.kind == "number" or it.here.text == "-"):
        return at(it.here, "Weights are rows in brackets, of one row too: [[1, 2, 1]].")
    return None


FORMS = (value_in_a_test, test_of_another_form, end_of_tests, statement, end_of_another_form, interval_of_another_form,
         header_of_another_form, item_of_another_form, outputs, value_as_an_index, index_of_another_form, brackets, planes, operands,
         comparison_as_a_value, power, function_of_a_library, sum_of_values, kernel_of_another_form)
