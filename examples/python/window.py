"""Renders a window of one brick and prints how many cells each ink gets, then asks for a place beyond the sheet. Its output is
window.expected."""

from cavzemil import Colorant, Refusal, Screen, Separation, Window

screen = Screen(4, 7, 70, 2, 0)
window = Window(columns=screen.brick.columns, rows=screen.brick.rows)
cells, tallies = screen.render(Separation.KUEPPERS, window, bytes([51, 102, 204]) * 70)
print(f"{window.columns} by {window.rows} cells of slope {screen.slope}:")
for colorant, tally in zip(Colorant, tallies):
    print(f"{colorant:8}{tally:3}")
try:
    screen.phase_at(65_536, 0)
except Refusal as refusal:
    print(refusal)
