"""Threads that render at the same time answer what one thread does."""

import unittest
from concurrent.futures import ThreadPoolExecutor

from cases import Draw, screen_of

from cavzemil import Window, bands, pack

WINDOW = Window(3, 5, 400, 160)


class Threads(unittest.TestCase):
    """Bands of one picture, by eight threads, with parts of one output each."""

    def test_bands(self):
        draw = Draw(1)
        screen, input = screen_of(draw.screen()), draw.bytes(1200) * 160
        brick = screen.brick_phases()
        whole = screen.render(0, WINDOW, input)
        cells = bytearray(400 * 160)

        def render(job):
            number, (band, part) = job
            out = memoryview(cells)[400 * (band.y - 5) :][: 400 * band.rows]
            call, lent = ((screen.render, ()), (screen.render_brick, (brick,)))[number % 2]
            return call(0, band, part, *lent, out=out).tallies, pack(400, band.rows, out)

        with ThreadPoolExecutor(8) as threads:
            done = list(threads.map(render, enumerate(bands(WINDOW, 3, input))))
        self.assertEqual(cells, whole.cells)
        self.assertEqual(tuple(map(sum, zip(*(tallies for tallies, _ in done)))), whole.tallies)
        for (band, _), (_, planes) in zip(bands(WINDOW, 3, input), done):
            at = 400 * (band.y - 5)
            self.assertEqual(planes, pack(400, band.rows, whole.cells[at : at + 400 * band.rows]))
