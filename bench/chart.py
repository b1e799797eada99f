"""A chart of bars as an SVG, readable on light and on dark ground."""

import math
from xml.sax.saxutils import escape

STYLE = (
    "text{font:13px sans-serif;fill:#24292f}"
    ".bar{fill:#2f6f9f}.tick{stroke:#d0d7de}.axis{stroke:#57606a}"
    "@media (prefers-color-scheme:dark)"
    "{text{fill:#e6edf3}.bar{fill:#6cb6e8}.tick{stroke:#30363d}.axis{stroke:#8b949e}}"
)
LABEL = 250
WIDTH = 380
ROW = 24
TOP = 56
TICKS = (0.1, 0.2, 0.5, 1, 2, 5, 10, 20, 50, 100)


def place(ratio, low, high):
    """Where a ratio stands between the ends of a logarithmic scale."""
    return LABEL + WIDTH * math.log(ratio / low) / math.log(high / low)


def shown(ratio):
    """A ratio with two digits."""
    return f"{ratio:.0f}" if ratio >= 10 else f"{ratio:#.2g}"


def text(x, y, words, more=""):
    return f'<text x="{x:.1f}" y="{y}"{more}>{escape(words)}</text>'


def ticks(low, high, bottom):
    """A line and a number for each round ratio between the ends; 1 is as fast as GNU's tool."""
    for ratio in TICKS:
        if low <= ratio <= high:
            x = place(ratio, low, high)
            name = "axis" if ratio == 1 else "tick"
            ends = f'x1="{x:.1f}" x2="{x:.1f}" y1="{TOP - 8}" y2="{bottom}"'
            yield f'<line class="{name}" {ends}/>'
            yield text(x, TOP - 14, f"{ratio:g}", ' text-anchor="middle"')


def chart(title, bars):
    """The SVG of bars, each a label and how often as fast as GNU's tool pokit's is."""
    low = min([0.5] + [ratio / 1.2 for _, ratio in bars])
    high = max([10] + [ratio * 1.2 for _, ratio in bars])
    height = TOP + ROW * len(bars) + 12
    one = place(1, low, high)
    width = LABEL + WIDTH + 70
    size = f'width="{width}" height="{height}" viewBox="0 0 {width} {height}"'
    out = [
        f'<svg xmlns="http://www.w3.org/2000/svg" {size} role="img">',
        f"<title>{escape(title)}</title><style>{STYLE}</style>",
        text(8, 20, f"{title} (logarithmic)"),
        *ticks(low, high, height - 8),
    ]
    for row, (label, ratio) in enumerate(bars):
        y = TOP + ROW * row
        end = place(ratio, low, high)
        left, right = min(one, end), max(one, end)
        long = f"{right - left:.1f}"
        out.append(text(LABEL - 10, y + 14, label, ' text-anchor="end"'))
        out.append(f'<rect class="bar" x="{left:.1f}" y="{y + 2}" width="{long}" height="16"/>')
        out.append(text(right + 6, y + 14, shown(ratio)))
    return "\n".join(out) + "\n</svg>\n"
