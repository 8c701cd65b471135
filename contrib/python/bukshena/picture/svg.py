"""A layout as SVG: text that every browser, rsvg-convert and Inkscape draw alike, on white ground."""
import re

from bukshena.picture import looks, names

FONTS = "Helvetica, Arial, 'Liberation Sans', 'DejaVu Sans', sans-serif"


def attributes(**given):
    return ''.join(f' {key.replace("_", "-")}="{value}"' for key, value in given.items() if value is not None)


def escaped(text):
    return text.replace('&', '&amp;').replace('<', '&lt;').replace('>', '&gt;').replace('"', '&quot;')


def line(start, end, look):
    ends = attributes(x1=start[0], y1=start[1], x2=end[0], y2=end[1])
    return f'<line{ends}{attributes(stroke=look.colour, stroke_width=look.width, stroke_dasharray=look.dashes)}/>'


def dots_of(layout):
    found = []
    for spot in layout.spots:
        look = looks.of_dot(spot.dot)
        named = ' '.join(spot.dot.names) or None
        x, y = spot.at
        if look.ring:
            found.append(f'<circle{attributes(cx=x, cy=y, r=look.ring, fill="white", stroke=look.colour, stroke_width=looks.RING_WIDTH)}/>')
        found.append(f'<circle{attributes(cx=x, cy=y, r=look.radius, fill=look.fill, stroke=look.edge, stroke_width=looks.EDGE_WIDTH, data_point=named)}/>')
    return found


def arrows_of(layout):
    found = []
    for arrow in layout.arrows:
        look = looks.of_arrow(arrow)
        corners = ' '.join(f'{x},{y}' for x, y in looks.head(arrow.start, arrow.tip))
        named = ' '.join(arrow.dot.names) or None
        found.append(line(arrow.start, arrow.tip, look))
        found.append(f'<polygon{attributes(points=corners, fill=look.colour, data_far=named)}/>')
    return found


def text_of(label):
    anchor = {1: None, 0: 'middle', -1: 'end'}[label.side]
    body, drop = '', 0
    for run in label.runs:
        want = names.SMALL_DROP if run.is_low else 0
        text = escaped(run.text)
        if run.is_low or drop:
            given = attributes(dy=want - drop, font_size=names.SMALL if run.is_low else None)
            text = f'<tspan{given}>{text}</tspan>'
        drop, body = want, body + text
    return f'<text{attributes(x=label.at[0], y=label.at[1], text_anchor=anchor, fill=looks.text(label))}>{body}</text>'


def svg(layout, options) -> str:
    width, height = layout.width, layout.height
    size = attributes(viewBox=f'0 0 {width} {height}', width=millimetres(width), height=millimetres(height), role='img')
    texts = [text_of(label) for label in layout.labels]
    halo = attributes(fill='none', stroke='white', stroke_width=90, stroke_linejoin='round')
    fonts = attributes(font_family=FONTS, font_size=names.FONT)
    return '\n'.join([
        f'<svg xmlns="http://www.w3.org/2000/svg"{size}>',
        f'<title>{escaped(layout.title)}</title>',
        f'<rect{attributes(width=width, height=height, fill="white")}/>',
        *[f'<polygon{attributes(points=" ".join(f"{x},{y}" for x, y in polygon), fill=looks.fill(k))}/>' for k, polygon in enumerate(layout.polygons)],
        '<g stroke-linecap="round">',
        *[line(*segment) for segment in looks.segments(layout, options)],
        '</g>',
        *arrows_of(layout),
        *dots_of(layout),
        f'<g{halo}{fonts} aria-hidden="true">',
        *[without_fill(text) for text in texts],
        '</g>',
        f'<g{fonts}>',
        *texts,
        '</g>',
        '</svg>',
        '',
    ])


def without_fill(text):
    return re.sub(r'(<text[^>]*?) fill="[^"]*"', r'\1', text)


def millimetres(size):
    whole, rest = divmod(size, 100)
    return f'{whole}.{rest:02}'.rstrip('0').rstrip('.') + 'mm'
