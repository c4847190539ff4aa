"""Tables, as text or as Markdown."""


def text(head, rows):
    """Columns of one width each, the first to the left."""
    lines = [[bare(cell) for cell in row] for row in [head] + rows]
    widths = [max(len(line[k]) for line in lines) for k in range(len(head))]
    sides = [min(k, 1) if is_number(lines, k) else 0 for k in range(len(head))]
    return "\n".join("  ".join(cell.rjust(w) if side else cell.ljust(w) for cell, w, side in zip(line, widths, sides)).rstrip() for line in lines)


def bare(cell):
    """Without Markdown's signs."""
    return cell.replace("`", "").replace("**", "")


def is_number(lines, k):
    """Whether a column is of numbers, or of '-' where there is none."""
    return all(line[k].replace(",", "").replace(".", "").replace("-", "").isdigit() or line[k] in ("", "-") for line in lines[1:])


def markdown(head, rows):
    return "\n".join("| " + " | ".join(line) + " |" for line in [head, ["---"] * len(head)] + rows)


def show(title, head, rows, as_markdown):
    """Prints a table under its title."""
    print(f"{title}\n" if as_markdown else title)
    print((markdown if as_markdown else text)(head, rows))
    print()


def verdict(met):
    return "met" if met else "**MISSED**"
