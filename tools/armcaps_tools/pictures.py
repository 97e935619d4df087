"""The picture of the rules of merging: for each rule a field of the tables, two cores' values and the system's."""

import types

from . import conflicts

# a field of each rule, the rule in words, and the values of two cores
EXAMPLES = [
    ("id_aa64mmfr0_el1", "parange", "the least", 2, 4),
    ("id_aa64mmfr1_el1", "specsei", "the greatest", 0, 1),
    ("ctr_el0", "cwg", "the greatest, 0 where one is 0", 0, 4),
    ("id_aa64dfr0_el1", "debugver", "the safe value where they differ", 8, 9),
]
BLUE, GREEN = 'fill="#eef3fa" stroke="#5a7ca6"', 'fill="#dff0df" stroke="#4f8f4f"'


def box(left, top, colours, name, value):
    """A box with a name and a value."""
    return (
        f'  <rect x="{left}" y="{top}" width="190" height="40" rx="5" {colours}/>'
        f'<text x="{left + 12}" y="{top + 25}" fill="#333333">{name}</text>'
        f'<text x="{left + 178}" y="{top + 25}" font-weight="bold" text-anchor="end" fill="#222222">{value}</text>\n'
    )


def column(left, field, words, one, other):
    """A rule with its field, the two cores' values, and what becomes of them."""
    rule = f"{field.rule}, safe {field.safe}" if field.rule == "Exact" else field.rule
    system = conflicts.merged(field, one, other)
    told = f"{rule}: {field.name} {one} and {other} give {system}."
    return told, (
        f'  <text x="{left}" y="28" font-weight="bold" fill="#222222">{rule}</text>'
        f'<text x="{left}" y="46" font-size="12" fill="#333333">{words}</text>'
        f'<text x="{left}" y="70" font-size="12" font-family="monospace" fill="#333333">{field.name}</text>\n'
        + box(left, 80, BLUE, "core 0", one)
        + box(left, 130, BLUE, "core 1", other)
        + f'  <path d="M{left} 186H{left + 190}" stroke="#555555" stroke-width="1.5"/>\n'
        + box(left, 200, GREEN, "system", system)
    )


def rules(rows):
    """The picture, as SVG, from the rows of the tables of fields."""
    found = {(row[0], row[1]): row for row in rows}
    columns = []
    for place, (register, name, words, one, other) in enumerate(EXAMPLES):
        row = found[register, name]
        short = register.rsplit("_", 1)[0]
        field = types.SimpleNamespace(name=f"{short}.{name}", rule=row[5], safe=row[6])
        columns.append(column(20 + 220 * place, field, words, one, other))
    return (
        '<svg xmlns="http://www.w3.org/2000/svg" viewBox="0 0 900 260" width="900" height="260" role="img"'
        ' aria-labelledby="title what" font-family="sans-serif" font-size="13">\n'
        "  <!-- written by tools/generate from the tables of fields -->\n"
        '  <title id="title">The rules of merging, on one example each</title>\n'
        f'  <desc id="what">{" ".join(told for told, _ in columns)}</desc>\n'
        '  <rect width="900" height="260" fill="#ffffff"/>\n' + "".join(drawn for _, drawn in columns) + "</svg>\n"
    )
