"""Elements of the pictures: text that stays text, on a background of its own, in colours for a light and for a dark page."""
import html

# The name of each colour, on a light page and on a dark one.
COLOURS = {
    "ground": ("#ffffff", "#0d1117"),
    "text": ("#1f2328", "#f0f6fc"),
    "faint": ("#59636e", "#9198a1"),
    "blue": ("#0969da", "#4493f8"),
    "blue-fill": ("#ddf4ff", "#121d2f"),
    "green": ("#1a7f37", "#3fb950"),
    "green-fill": ("#dafbe1", "#12261e"),
    "yellow": ("#9a6700", "#d29922"),
    "yellow-fill": ("#fff8c5", "#272115"),
    "red": ("#cf222e", "#f85149"),
}
# The width of a letter of the monospaced texts, as a fraction of their size.
LETTER = 0.602
MONO = "ui-monospace, 'DejaVu Sans Mono', Menlo, Consolas, monospace"
SANS = "system-ui, 'DejaVu Sans', Helvetica, Arial, sans-serif"


def number(it):
    """A number of pixels, rounded to a tenth."""
    return f"{it:.1f}".removesuffix(".0")


def style(which):
    rules = []
    for name, colours in COLOURS.items():
        rules.append(f".{name} {{ fill: {colours[which]} }} .{name}-line {{ stroke: {colours[which]} }}")
    return " ".join(rules)


def text(x, y, words, colour="text", size=12, anchor="middle", is_mono=False, is_bold=False):
    more = (' font-weight="bold"' if is_bold else "") + (f' font-family="{MONO}"' if is_mono else "")
    place = f'x="{number(x)}" y="{number(y)}" font-size="{size}" text-anchor="{anchor}"'
    return f'<text class="{colour}" {place}{more}>{html.escape(words, quote=False)}</text>\n'


def box(x, y, width, height, fill, line, is_dashed=False):
    more = ' stroke-dasharray="4 3"' if is_dashed else ""
    place = f'x="{number(x)}" y="{number(y)}" width="{number(width)}" height="{number(height)}" rx="4"'
    return f'<rect class="{fill} {line}-line" {place}{more}/>\n'


def path(points, line, width=1, is_dashed=False):
    """A line through points that leaves and reaches each of them straight up or down."""
    steps = [f"M{number(points[0][0])} {number(points[0][1])}"]
    for (x, y), (to, below) in zip(points, points[1:]):
        half = number((y + below) / 2)
        steps.append(f"C{number(x)} {half} {number(to)} {half} {number(to)} {number(below)}")
    more = ' stroke-dasharray="4 3"' if is_dashed else ""
    return f'<path class="{line}-line" d="{"".join(steps)}" fill="none" stroke-width="{width}"{more}/>\n'


def line(x, y, to, below, colour, width=1, is_dashed=False):
    more = ' stroke-dasharray="4 3"' if is_dashed else ""
    place = f'x1="{number(x)}" y1="{number(y)}" x2="{number(to)}" y2="{number(below)}"'
    return f'<line class="{colour}-line" {place} stroke-width="{width}"{more}/>\n'


def picture(width, height, title, *parts):
    """A complete picture; the title is what is read aloud."""
    size = f'width="{number(width)}" height="{number(height)}" viewBox="0 0 {number(width)} {number(height)}"'
    dark = f"@media (prefers-color-scheme: dark) {{ {style(1)} }}"
    return "".join([
        f'<svg xmlns="http://www.w3.org/2000/svg" {size} font-family="{SANS}" role="img" aria-labelledby="title">\n',
        f'<title id="title">{html.escape(title, quote=False)}</title>\n<style>{style(0)} {dark}</style>\n',
        f'<rect class="ground" width="{number(width)}" height="{number(height)}" rx="8"/>\n', *parts, "</svg>\n"])
