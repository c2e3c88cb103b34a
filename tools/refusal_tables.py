"""The tables of docs/refusals.md, for the tools that read them."""
import os
import re

TOP = os.path.dirname(os.path.dirname(os.path.abspath(__file__)))
PAGE = f"{TOP}/docs/refusals.md"


class Section:
    """A section of the page: the type that its text begins with, and the rows of its tables by their first two cells."""

    def __init__(self, title, body):
        self.title = title
        self.type = (re.match(r"\s*`(\w+)`", body) or [None, None])[1]
        lines = [line for line in body.splitlines() if line.startswith("| ") and not line.startswith("| R ")]
        self.rows = [[cell.strip() for cell in line.strip("| ").split(" | ")] for line in lines]

    def row(self, first):
        """Returns the row whose first cell is this, or None."""
        return next((row for row in self.rows if row[0].strip("`") == str(first)), None)


def sections(page=PAGE):
    """Returns the sections of the page by their titles."""
    with open(page, encoding="utf-8") as file:
        parts = re.split(r"^## (.+)\n", file.read(), flags=re.M)[1:]
    return {title: Section(title, body) for title, body in zip(parts[::2], parts[1::2])}


def wanted_fields(page_sections):
    """Returns the forms of each kind's fields, in order, and what is wanted of each form."""
    rows = page_sections["Fields of a line"].rows
    kinds = {row[0].strip("`"): [] if row[1] == "-" else row[1].split() for row in rows if row[0].startswith("`")}
    forms = {row[0]: row[1:] for row in rows if len(row) == 4}
    return kinds, forms
