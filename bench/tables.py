"""Text of the tables, and the lines that the programs print."""


def table(heads, rows):
    out = ["| " + " | ".join(heads) + " |", "|" + "---|" * len(heads)]
    return out + ["| " + " | ".join(map(str, row)) + " |" for row in rows]


def prose(text):
    """A paragraph on one line."""
    return " ".join(text.split())


def shown(x, form="{:.2f}"):
    return "" if x is None else form.format(x)


def span(values):
    """From the lowest to the highest."""
    known = list(values)
    return f"{min(known):.2f} to {max(known):.2f}" if known else ""


def figures(text):
    """Lines "call where name value" as a dictionary."""
    return {tuple(words[:3]): float(words[3]) for words in map(str.split, text.splitlines())}
