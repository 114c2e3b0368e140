"""Pictures of curves and regions: SVG by themselves, and by matplotlib where it is installed."""

from __future__ import annotations

import html
from collections.abc import Iterator, Mapping, Sequence
from dataclasses import dataclass
from fractions import Fraction
from typing import TYPE_CHECKING, Any, Tuple

if TYPE_CHECKING:
    from .curves import Curve

Place = Tuple[Fraction, Fraction]
COLOURS = ("#1b6ca8", "#c8553d", "#3c7a3c", "#8a5a9e", "#b8860b")
WIDTH, HEIGHT, LEFT, BOTTOM, EDGE = 420, 340, 46, 40, 14  # of an SVG, in pixels
MOST_LABELS = 12


@dataclass(frozen=True)
class Shape:
    """Places in order, as a line, or as the border of what is filled. Its corners are marked."""

    places: tuple[Place, ...]
    corners: tuple[Place, ...]
    label: str = ""
    is_filled: bool = False


@dataclass(frozen=True)
class Picture:
    """Shapes in one frame, with what the axes are, as text and as LaTeX. Notebooks show it by itself."""

    shapes: tuple[Shape, ...]
    axes: tuple[str, str]
    latex_axes: tuple[str, str]

    def reach(self, axis: int) -> float:
        """How far the frame goes, beyond each place."""
        return 1.12 * float(max((place[axis] for shape in self.shapes for place in shape.places), default=0)) or 1.0

    def has_labels(self) -> bool:
        """Whether the corners have their numbers beside them: with many there is no room."""
        return sum(len(shape.corners) for shape in self.shapes) <= MOST_LABELS

    def is_below(self, number: int, place: Place) -> bool:
        """Whether a corner's numbers stand below it, at the left: those of every second shape do, where the axes leave room."""
        return number % 2 == 1 and float(place[0]) > self.reach(0) / 4 and float(place[1]) > self.reach(1) / 8

    def svg(self) -> str:
        """The picture as a file."""
        return "\n".join(_svg(self)) + "\n"

    def _repr_svg_(self) -> str:
        return self.svg()

    def plot(self, axes: Any = None) -> Any:
        """Draws it by matplotlib, and returns the axes."""
        if axes is None:
            import matplotlib.pyplot

            axes = matplotlib.pyplot.subplots(figsize=(4.6, 3.8))[1]
        for number, shape in enumerate(self.shapes):
            colour = _colour(number)
            xs, ys = ([float(place[axis]) for place in shape.places] for axis in (0, 1))
            if shape.is_filled:
                axes.fill(xs, ys, facecolor=colour + "26", edgecolor=colour, linewidth=1.6, label=shape.label or None)
            else:
                axes.plot(xs, ys, color=colour, linewidth=1.8, label=shape.label or None)
            axes.plot(*([float(place[axis]) for place in shape.corners] for axis in (0, 1)), "o", color=colour, markersize=4)
            for place in shape.corners if self.has_labels() else ():
                align, shift = ("right", (-5, -12)) if self.is_below(number, place) else ("left", (5, 5))
                where = (float(place[0]), float(place[1]))
                axes.annotate(_pair(place), where, xytext=shift, ha=align, textcoords="offset points", color=colour, fontsize=9)
        axes.set(xlim=(0, self.reach(0)), ylim=(0, self.reach(1)), xlabel=f"${self.latex_axes[0]}$", ylabel=f"${self.latex_axes[1]}$")
        axes.spines[["top", "right"]].set_visible(False)
        if any(shape.label for shape in self.shapes):
            axes.legend(frameon=False)
        return axes


def _colour(number: int) -> str:
    return COLOURS[number % len(COLOURS)]


def _pair(place: Place) -> str:
    return f"({_short(place[0])}, {_short(place[1])})"


def _short(number: Fraction) -> str:
    return str(number) if number.denominator < 100 else f"{float(number):.3g}"


def _ticks(reach: float) -> Iterator[Fraction]:
    """Three to seven numbers along an axis, at halves, wholes, doubles and so on."""
    step = Fraction(1, 2)
    while reach / step > 7:
        step *= 2
    while reach / step < 3:
        step /= 2
    return (step * count for count in range(int(reach / step) + 1))


def _svg(picture: Picture) -> Iterator[str]:
    across, up = picture.reach(0), picture.reach(1)
    low, right = HEIGHT - BOTTOM, WIDTH - EDGE

    def x(number: Fraction) -> str:
        return f"{LEFT + float(number) / across * (right - LEFT):.1f}"

    def y(number: Fraction) -> str:
        return f"{low - float(number) / up * (low - EDGE):.1f}"

    yield f'<svg xmlns="http://www.w3.org/2000/svg" width="{WIDTH}" height="{HEIGHT}" font-family="serif" font-size="12">'
    yield f'<rect width="{WIDTH}" height="{HEIGHT}" fill="white"/>'
    for number, shape in enumerate(picture.shapes):
        spots = " ".join(f"{x(place[0])},{y(place[1])}" for place in shape.places)
        name, fill = ("polygon", f'"{_colour(number)}" fill-opacity="0.15"') if shape.is_filled else ("polyline", '"none"')
        yield f'<{name} points="{spots}" fill={fill} stroke="{_colour(number)}" stroke-width="1.8"/>'
    yield f'<path d="M{LEFT} {EDGE}V{low}H{right}" fill="none" stroke="black"/>'
    for tick in _ticks(across):
        yield f'<path d="M{x(tick)} {low}v4" stroke="black"/><text x="{x(tick)}" y="{low + 16}" text-anchor="middle">{_short(tick)}</text>'
    for tick in _ticks(up):
        yield f'<path d="M{LEFT} {y(tick)}h-4" stroke="black"/>'
        yield f'<text x="{LEFT - 7}" y="{y(tick)}" dy="4" text-anchor="end">{_short(tick)}</text>'
    for number, shape in enumerate(picture.shapes):
        for place in shape.corners:
            yield f'<circle cx="{x(place[0])}" cy="{y(place[1])}" r="3" fill="{_colour(number)}"/>'
            if picture.has_labels():
                shift = 'dx="-6" dy="14" text-anchor="end"' if picture.is_below(number, place) else 'dx="6" dy="-6"'
                yield f'<text x="{x(place[0])}" y="{y(place[1])}" {shift} fill="{_colour(number)}">{_pair(place)}</text>'
    italic = 'text-anchor="middle" font-style="italic"'
    yield f'<text x="{(LEFT + WIDTH) // 2}" y="{HEIGHT - 6}" {italic}>{html.escape(picture.axes[0])}</text>'
    yield f'<text transform="translate(12 {low // 2}) rotate(-90)" {italic}>{html.escape(picture.axes[1])}</text>'
    labelled = [(number, shape.label) for number, shape in enumerate(picture.shapes) if shape.label]
    for line, (number, label) in enumerate(labelled):
        yield f'<text x="{right}" y="{EDGE + 12 + 15 * line}" text-anchor="end" fill="{_colour(number)}">{html.escape(label)}</text>'
    yield "</svg>"


def curve_picture(curves: Mapping[str, Curve] | Sequence[Curve]) -> Picture:
    """Trade-off curves in one frame, by their labels or without any."""
    named = list(curves.items()) if isinstance(curves, Mapping) else [("", curve) for curve in curves]
    places = [(corner.x, corner.y) for _, curve in named for corner in curve.corners]
    far_x, far_y = (Fraction(5, 4) * max(place[axis] for place in places) or Fraction(1) for axis in (0, 1))
    shapes = []
    for label, curve in named:
        corners = tuple((corner.x, corner.y) for corner in curve.corners)
        shapes.append(Shape(((corners[0][0], far_y), *corners, (far_x, corners[-1][1])), corners, label))
    first = named[0][1]
    axes = [(f"{rate.text()} / {first.unit.text()}", f"{rate.latex()} / {first.unit.latex()}") for rate in (first.x, first.y)]
    return Picture(tuple(shapes), (axes[0][0], axes[1][0]), (axes[0][1], axes[1][1]))
