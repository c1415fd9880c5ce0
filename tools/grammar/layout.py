"""How lists are laid out, as `rt fmt` leaves them."""

WIDTH = 140
CODE_WIDTH = 100
# an array of longer code than this has an element a line, unless its elements are short
ARRAY_WIDTH = 60


def wrapped(items, indent, width):
    """Items with spaces between them, in lines of at most this width."""
    lines = []
    line = ""
    for item in items:
        if line and len(indent) + len(line) + 1 + len(item) > width:
            lines.append(indent + line)
            line = ""
        line = f"{line} {item}" if line else item
    return "\n".join(lines + [indent + line])


def consed(items, indent, front, back, width=WIDTH):
    """A list of a definition, which is not empty, with text before its first element and behind its end."""
    words = [f"{item} ∷" for item in items]
    words[0] = front + words[0]
    words[-1] = f"{words[-1]} []{back}"
    return wrapped(words, indent, width)


def code_array(parts, indent):
    """`&[..]` as the formatter lays it out: on one line, or with an element a line."""
    line = ", ".join(parts)
    if len(line) <= ARRAY_WIDTH:
        return f"{indent}&[{line}],"
    return "\n".join([f"{indent}&["] + [f"{indent}    {part}," for part in parts] + [f"{indent}],"])


def packed(numbers, indent):
    """Short elements of an array, as many a line as fit before its last column."""
    return wrapped([f"{number}," for number in numbers], indent, CODE_WIDTH - 1)
