"""Pictures as PDF and PNG, by a converter that is installed."""
import os
import shutil
import subprocess
import tempfile

from bukshena.faults import MISSING, TOO_LATE, Fault
from bukshena.picture.svg import svg
from bukshena.picture.tikz import tikz

DOTS_A_MILLIMETRE = 12
# what Chromium takes for a millimetre, in its pixels
PIXELS_A_MILLIMETRE = 96 / 25.4
SECONDS = 60.0
CONVERTERS = {'.pdf': ('rsvg-convert', 'inkscape', 'chromium', 'pdflatex'), '.png': ('rsvg-convert', 'inkscape', 'chromium')}
SOURCES = {'chromium': 'picture.html', 'pdflatex': 'picture.tex'}


def source_for(name, layout, options):
    """What a converter is given."""
    if name == 'pdflatex':
        return tikz(layout, options)
    return page_of(layout, options) if name == 'chromium' else svg(layout, options)


def page_of(layout, options):
    """A page for Chromium that is as large as the picture."""
    size = f'{layout.width / 100}mm {layout.height / 100}mm'
    style = f'@page {{ size: {size}; margin: 0 }} body {{ margin: 0 }} svg {{ display: block }}'
    return f'<!DOCTYPE html><meta charset="utf-8"><style>{style}</style>{svg(layout, options)}'


def words_of(name, ending, layout, source, target):
    """The command of a converter."""
    dots = str(layout.width * DOTS_A_MILLIMETRE // 100)
    if name == 'rsvg-convert':
        return [name, '-f', ending[1:], *(['-w', dots] if ending == '.png' else []), '-o', target, source]
    if name == 'inkscape':
        return [name, f'--export-filename={target}', *([f'--export-width={dots}'] if ending == '.png' else []), source]
    if name == 'pdflatex':
        return [name, '-interaction=batchmode', '-halt-on-error', '-output-directory', os.path.dirname(target), source]
    width, height = (round(length / 100 * PIXELS_A_MILLIMETRE) for length in (layout.width, layout.height))
    kind = f'--print-to-pdf={target}' if ending == '.pdf' else f'--screenshot={target}'
    return [name, '--headless', '--no-sandbox', '--disable-gpu', '--hide-scrollbars', '--no-pdf-header-footer',
            f'--window-size={width},{height}', f'--force-device-scale-factor={DOTS_A_MILLIMETRE / PIXELS_A_MILLIMETRE:.4f}',
            kind, f'file://{source}']


def converted(layout, options, ending, converters=None):
    """The bytes of the picture as PDF or PNG. Fault 69 where no converter is installed, or none makes it."""
    with tempfile.TemporaryDirectory() as room:
        target = os.path.join(room, 'picture' + ending)
        for name in converters or CONVERTERS[ending]:
            if shutil.which(name) is None:
                continue
            source = os.path.join(room, SOURCES.get(name, 'picture.svg'))
            with open(source, 'w', encoding='ascii') as file:
                file.write(source_for(name, layout, options))
            carry_out(words_of(name, ending, layout, source, target))
            if os.path.exists(target):
                with open(target, 'rb') as file:
                    return file.read()
    raise Fault(MISSING, wanted(ending))


def wanted(ending):
    *names, last = CONVERTERS[ending]
    return f'a {ending} picture wants {", ".join(names)} or {last}, and none made it; a .svg wants none of them'


def carry_out(words):
    try:
        subprocess.run(words, stdin=subprocess.DEVNULL, stdout=subprocess.DEVNULL, stderr=subprocess.DEVNULL, timeout=SECONDS)
    except subprocess.TimeoutExpired:
        raise Fault(TOO_LATE, f'{words[0]} made no picture within {SECONDS:g} seconds') from None
