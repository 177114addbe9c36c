"""A picture of plain SVG, an element a line, light or dark as the reader's system is: `class` says what a thing is, and the
style at its front has the colours. The colours of objects are five of Okabe and Ito's, and others that are as far from these
and from each other as can be, also for the colour-blind; none is red, which marks faults."""
import textwrap
from xml.sax.saxutils import escape, quoteattr

COLOURS = ["#0072b2", "#e69f00", "#009e73", "#cc79a7", "#56b4e9", "#545400", "#9cc06c", "#783c60",
           "#9084fc", "#90780c", "#3c603c", "#900c84", "#d8a8a8", "#6c9048", "#6054cc", "#90c0d8"]  # (then they come again)
FONT = "system-ui, -apple-system, 'Segoe UI', Roboto, Arial, 'DejaVu Sans', sans-serif"
MONO = "ui-monospace, 'DejaVu Sans Mono', Menlo, Consolas, monospace"
LETTER = 7.3  # the width of one in a box
STYLE = f"""text{{font-family:{FONT};font-size:13px;fill:#1f2328}} .mono{{font-family:{MONO};font-size:12px}}
.grey{{fill:#57606a}} .bad{{fill:#c0182b}} .link{{fill:#0757a8}} .head{{font-size:16px;font-weight:bold}}
.dark{{fill:#1f2328}} .white{{fill:#fff}} .paper{{fill:#f6f8fa;stroke:#d0d7de}} .line{{fill:none;stroke:#d0d7de}}
.frame{{fill:none;stroke:#c0182b;stroke-width:3}} .arrow,.kept{{fill:none;stroke:#0757a8;stroke-width:2}}
@media screen and (prefers-color-scheme:dark){{text{{fill:#e6edf3}} .grey{{fill:#9198a1}} .bad{{fill:#ff7b72}}
.link{{fill:#79b8ff}} .dark{{fill:#1f2328}} .white{{fill:#fff}} .paper{{fill:#161b22;stroke:#30363d}} .line{{stroke:#30363d}}
.frame{{stroke:#ff5a52}} .arrow,.kept{{stroke:#79b8ff}}}}"""


def colour(number):
    return COLOURS[number % len(COLOURS)]


def ink(number):
    """The class of a text on this colour, by how bright it is: that which one reads better."""
    red, green, blue = ((it / 255) ** 2.2 for it in bytes.fromhex(colour(number)[1:]))
    return "dark" if 0.2126 * red + 0.7152 * green + 0.0722 * blue > 0.215 else "white"


class Picture:
    """`name` tells its hatchings from those of another picture in the same page."""

    def __init__(self, width, name="no"):
        self.width, self.name, self.lines, self.y = width, name, [], 0

    def add(self, name, words=None, **values):
        given = {key.rstrip("_").replace("_", "-"): f"{value:g}" if isinstance(value, float) else str(value)
                 for key, value in values.items() if value is not None}
        said = "".join(f" {key}={quoteattr(value)}" for key, value in given.items())
        self.lines.append(f"<{name}{said}/>" if words is None else f"<{name}{said}>{words}</{name}>")

    def hatched(self, number):
        return f"url(#{self.name}{number % 16})"

    def text(self, x, y, words, kind=None, anchor=None):
        self.add("text", escape(words), x=x, y=y, class_=kind, text_anchor=anchor)

    def say(self, words, kind=None, x=16):
        """A line of text below all that is there, as far in as it begins; a long one is broken between words."""
        x += (len(words) - len(words.lstrip())) * LETTER
        most = int((self.width - x - 16) / (LETTER if kind == "mono" else 6.8)) + 1
        for line in textwrap.wrap(words.strip(), most, break_on_hyphens=False) or [""]:
            self.y += 22
            self.text(x, self.y, line, kind)

    def box(self, x, y, width, height, number, words, about, is_noroom=False):
        """A box of an object's colour with its words, as many as fit."""
        self.add("rect", f"<title>{escape(about)}</title>", x=x, y=y, width=width, height=height, rx=3,
                 fill=self.hatched(number) if is_noroom else colour(number),
                 stroke=colour(number) if is_noroom else None)
        most = int((width - 6) / LETTER)
        if most > 3:
            words = words if len(words) <= most else words[: most - 1] + "…"
            self.text(x + width / 2, y + height / 2 + 4, words, "mono" if is_noroom else f"mono {ink(number)}", "middle")

    def legend(self, objects):
        for number, named in enumerate(objects):
            x = 16 + number % 3 * ((self.width - 32) // 3)
            self.y += 26 if number % 3 == 0 else 0
            self.add("rect", x=x, y=self.y - 13, width=16, height=16, rx=3, fill=colour(number))
            self.text(x + 24, self.y, named.said())

    def whole(self, title, objects, has_paper=True):
        wide, high = self.width, self.y + 22
        hatched = "".join(
            f'<pattern id="{self.name}{at}" width="6" height="6" patternUnits="userSpaceOnUse" patternTransform="rotate(45)">'
            f'<rect width="2" height="6" fill="{colour(at)}"/></pattern>' for at in range(min(16, len(objects))))
        size = f'width="{wide}" height="{high}" viewBox="0 0 {wide} {high}"'
        head = (f'<svg xmlns="http://www.w3.org/2000/svg" {size} role="img"><title>{escape(title)}</title>\n'
                f'<style>{STYLE}</style>\n<defs>{hatched}</defs>')
        paper = f'<rect class="paper" x="0.5" y="0.5" width="{wide - 1}" height="{high - 1}" rx="10"/>'
        return "\n".join([head, *[paper] * has_paper, *self.lines, "</svg>", ""])
