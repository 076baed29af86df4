"""The forms that an answer of the monitor may have: which lines stand under which status."""

import re

USAGE = ("usage: run --sig F --policy F --log F [--strategy S] [--changes F] [--threads T]"
         " or check --sig F --policy F or demo SEED\n")
LEX = "Lex (BadByte|OpenText|NumberRange|TextLong|BadUtf8)"
FAULTS = {
    3: rf"signature: ({LEX}|Syntax|RepeatedName|UnknownSort|Arity|TooMany|TooLong) at \d+",
    4: rf"policy: (({LEX}|Syntax|EmptyInterval|BoundRange|UnknownPredicate|WrongArity|SortClash|TooManyVariables"
       r"|TooDeep|TooManyNodes|TooLong) at \d+|TooLarge|UnboundedFuture|Uneven|(Unguarded|LooseLeft|UnusedBound) \w+)",
    5: r"(strategy|changes): (Syntax|UnknownVariable|RepeatedVariable|BadCount|CutSort|CutOrder|TooManyWorkers"
       r"|TooLong) at \d+|changes: (FallingChange|TooManyChanges) at \d+",
    6: rf"log: ({LEX}|Syntax|UnknownPredicate|WrongArity|WrongSort|IntRange|TimestampRange|FallingTime \d+ \d+"
       r"|TooManyEvents|TooManyPoints|TooLong) at \d+",
    7: "read: (signature|policy|changes|log)",
    8: "write",
    9: "memory",
}
VALUE = r'(?:-?\d+|"[^"\x00-\x1f]*")'
ROW = rf"\((?:{VALUE}(?:,{VALUE})*)?\)"
LINE = re.compile(rf"@(\d+) \(time point (\d+)\):((?: {ROW})*)")
COLUMNS = re.compile(r"monitorable \(((?:\w+:(?:int|string)(?:,\w+:(?:int|string))*)?)\)\n")


def value_of(spelled):
    """A value as it is ordered: integers before texts, texts by their bytes."""
    return (1, spelled[1:-1].encode()) if spelled[0] == '"' else (0, int(spelled))


def rows_of(text):
    return [tuple(map(value_of, re.findall(VALUE, row))) for row in re.findall(ROW, text)]


def lines_have_form(out):
    """Whether each line is a verdict's: numbers from 0 on, times that don't fall, rows in ascending order."""
    last = 0
    for number, line in enumerate(out.split("\n")[:-1]):
        found = LINE.fullmatch(line)
        if not found or int(found[2]) != number or int(found[1]) < last:
            return False
        rows = rows_of(found[3])
        if rows != sorted(set(rows)):
            return False
        last = int(found[1])
    return out == "" or out.endswith("\n")


def what_is_wrong(status, out, err):
    """What an answer of `run` has that no answer may have; None where its form is right."""
    if status not in range(10):
        return f"status {status}"
    if status <= 1:
        if err:
            return "a line on standard error"
        if (status == 1) != (")\n" in out):
            return f"status {status}, and the lines say otherwise"
        return None if lines_have_form(out) else "lines out of form"
    if status == 2:
        return None if (out, err) == ("", USAGE) else "not the usage line"
    if not re.fullmatch(rf"(?:{FAULTS[status]})\n", err):
        return f"status {status} with {err!r}"
    if status <= 5 and out:
        return f"status {status} with lines"
    return None if lines_have_form(out) or status == 8 else "lines out of form"


def columns_of(out):
    """The columns that `check` tells, each with its sort; None where it tells none."""
    found = COLUMNS.fullmatch(out)
    return dict(column.split(":") for column in found[1].split(",") if column) if found else None
