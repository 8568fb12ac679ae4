"""Tables of the documents, by which scripts say what a fault, a rule or a line is."""
import os

TOP = os.path.dirname(os.path.dirname(os.path.abspath(__file__)))
FAULTS = "docs/FORMATS.md", "| fault | the line |"
RULES = "docs/FORMATS.md", "| rule | broken where |"
LINES = "docs/FORMATS.md", "| line | what it says | limits of its numbers |"
WORDS = "README.md", "| words | does |"


def table(page, head):
    """The rows of the table with this first line, each a list of cells."""
    with open(os.path.join(TOP, page), encoding="utf-8") as file:
        lines = file.read().splitlines()
    if head not in lines:
        raise OSError(0, f"the table that begins with {head!r} isn't there", page)
    rows = []
    for line in lines[lines.index(head) + 2 :]:
        if not line.startswith("|"):
            break
        rows.append([cell.strip() for cell in line.strip("|").split("|")])
    return rows


def fault_words(fault):
    """What a line with this fault is, in words that follow 'the line'."""
    for number, what in table(*FAULTS):
        if number == str(fault):
            return what.replace("word of the table above", "known word")
    return f"has the fault {fault}"
