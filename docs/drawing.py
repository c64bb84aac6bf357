"""Pieces of SVG that docs/stations.py and docs/steps.py share."""


def text(x, y, words, size=13, weight="normal", anchor="middle", colour="#222"):
    return f'<text x="{x}" y="{y}" font-size="{size}" font-weight="{weight}" text-anchor="{anchor}" fill="{colour}">{words}</text>'


def box(x, y, width, height, fill, edge, radius=6, changed=False):
    """What a step changes has a red edge."""
    stroke = '#c62828" stroke-width="2' if changed else edge
    return f'<rect x="{x}" y="{y}" width="{width}" height="{height}" rx="{radius}" fill="{fill}" stroke="{stroke}"/>'


def dot(x, y, radius):
    return f'<circle cx="{x}" cy="{y}" r="{radius}" fill="#222"/>'


def arrow(x1, y1, x2, y2):
    return f'<line x1="{x1}" y1="{y1}" x2="{x2}" y2="{y2}" stroke="#555" stroke-width="1.5" marker-end="url(#head)"/>'


def picture(width, height, drawn, size=""):
    """The whole file; `size` has the attributes of a picture that is not to be scaled to the page."""
    return "\n".join([
        f'<svg xmlns="http://www.w3.org/2000/svg" {size}viewBox="0 0 {width} {height}" font-family="sans-serif">',
        '<defs><marker id="head" markerWidth="9" markerHeight="7" refX="8" refY="3.5" orient="auto"><path d="M0,0 L9,3.5 L0,7 z" fill="#555"/></marker></defs>',
        f'<rect width="{width}" height="{height}" fill="white"/>',
        *drawn,
        "</svg>\n",
    ])
