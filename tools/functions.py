"""Reads the sources of crates as text: their imports, their functions, and where these end. It is no script
of its own."""
import re

# Texts, letters and comments of a source; its imports; a function.
TEXT = re.compile(r'b?"(?:\\[\s\S]|[^"\\])*"|b?\'(?:\\.|[^\'\\\n])\'|//[^\n]*')
RUST_IMPORT = re.compile(r"^ *(?:pub(?:\([a-z]+\))? )?use ([^;]*);", re.M)
FUNCTION = re.compile(r" *(pub(?:\([a-z]+\))? )?(?:const )?fn (\w+)")


def blank(found):
    return " " + "\n" * found[0].count("\n")


def indent_of(line):
    return len(line) - len(line.lstrip(" "))


def paths_in(text):
    """The paths that an import of a source names, with braces or without."""
    head, brace, inner = text.partition("{")
    if not brace:
        return [tuple(text.split("::"))]
    depth, pieces = 0, [""]
    for letter in inner.rpartition("}")[0]:
        depth += (letter == "{") - (letter == "}")
        if letter == "," and not depth:
            pieces.append("")
        else:
            pieces[-1] += letter
    before = tuple(it for it in head.split("::") if it)
    return [before + path for piece in pieces if piece for path in paths_in(piece)]


def end_of_function(lines, at):
    """The line behind the function that begins here."""
    indent = indent_of(lines[at])
    for place in range(at, len(lines)):
        line = lines[place].rstrip()
        first = line[indent:indent + 1] if indent_of(line) == indent else ""
        if first == "}" or line.endswith(("}", ";")) and (first == "{" or place == at):
            return place + 1
    return len(lines)
