"""The help page of the browser's page: the texts of docs/using/ as HTML, one after the other, with links between them. Links that lead elsewhere in the
tree, and pictures, are left out."""
import glob
import html
import os
import re

TOP = os.path.dirname(os.path.dirname(os.path.abspath(__file__)))
# The text of each pane; the rest follow in the order of their names.
FIRST = ["page"]
MARK = "<!-- the texts of help -->"
ITEM = re.compile(r"(?:-|\d+\.) ")
CODE = re.compile(r"`([^`]+)`")


def names() -> list[str]:
    """The names of the texts, in their order."""
    found = sorted(os.path.basename(it)[:-3] for it in glob.glob(f"{TOP}/docs/using/*.md"))
    return FIRST + [it for it in found if it not in FIRST]


def anchor(text: str) -> str:
    """The name by which links lead to a heading."""
    return re.sub(r"[^\w -]", "", text.lower()).replace(" ", "-")


def link(name: str, text: str, target: str) -> str:
    """A link to one of the texts, or else its words alone."""
    path, _, part = target.partition("#")
    file = os.path.basename(path)[:-3] if path else name
    if "/" in path or file not in names():
        return text
    return f'<a href="#{file}{"-" + part if part else ""}">{text}</a>'


def line(name: str, text: str) -> str:
    """A text of one paragraph as HTML: its code as it stands, its links and its bold words."""
    pieces = CODE.split(re.sub(r"!\[[^\]]*\]\([^)]*\)", "", text))
    shown = [f"<code>{html.escape(it)}</code>" if k % 2 else html.escape(it, quote=False) for k, it in enumerate(pieces)]
    whole = re.sub(r"\[([^\]]+)\]\(([^)\s]+)\)", lambda it: link(name, it[1], it[2]), "".join(shown))
    return re.sub(r"\*\*(.+?)\*\*", r"<strong>\1</strong>", whole)


def table(name: str, lines: list[str]) -> str:
    """A table as HTML; its second line parts the head from the rows."""
    rows = [re.split(r"(?<!\\)\|", it.strip().strip("|")) for it in lines]
    cells = [[line(name, cell.strip().replace("\\|", "|")) for cell in row] for row in rows]
    head = "".join(f'<th scope="col">{it}</th>' for it in cells[0])
    body = "".join("<tr>" + "".join(f"<td>{it}</td>" for it in row) + "</tr>" for row in cells[2:])
    return f'<div class="scroll"><table><thead><tr>{head}</tr></thead><tbody>{body}</tbody></table></div>'


def items(name: str, lines: list[str]) -> str:
    """A list as HTML. A line that begins with no sign of an item goes on with the one before."""
    texts = list[str]()
    for it in lines:
        texts = [*texts, ITEM.sub("", it, count=1)] if ITEM.match(it) else [*texts[:-1], f"{texts[-1]} {it.strip()}"]
    kind = "ul" if lines[0].startswith("-") else "ol"
    return f"<{kind}>{''.join(f'<li>{line(name, it)}</li>' for it in texts)}</{kind}>"


def block(name: str, lines: list[str]) -> str:
    """A block of a text as HTML: a heading, a session, a table, a list, or a paragraph."""
    first = lines[0]
    if first.startswith("#"):
        level, _, text = first.partition(" ")
        at = name if level == "#" else f"{name}-{anchor(text)}"
        return f'<h{len(level) + 1} id="{at}">{line(name, text)}</h{len(level) + 1}>'
    if first.startswith("    "):
        return f"<pre tabindex=\"0\">{html.escape(chr(10).join(it[4:] for it in lines), quote=False)}</pre>"
    if first.startswith("|"):
        return table(name, lines)
    text = line(name, " ".join(lines)) if not ITEM.match(first) else items(name, lines)
    return text if ITEM.match(first) else f"<p>{text}</p>" if text.strip() else ""


def text_of(name: str) -> str:
    """One of the texts as HTML."""
    with open(f"{TOP}/docs/using/{name}.md", encoding="utf-8") as text:
        blocks = re.split(r"\n(?:[ \t]*\n)+", text.read().strip("\n"))
    return "\n".join(block(name, it.split("\n")) for it in blocks)


def laid(page: str) -> str:
    """The help page, as `page` has all but its texts: a list of them, and each of them."""
    heads = {name: re.search(r'(?m)^<h2 id="[^"]*">(.*)</h2>', text_of(name)) for name in names()}
    listed = "".join(f'<li><a href="#{name}">{it[1] if it else name}</a></li>' for name, it in heads.items())
    return page.replace(MARK, f"<ul>{listed}</ul>\n" + "\n".join(f"<section>\n{text_of(it)}\n</section>" for it in names()))
