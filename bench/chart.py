"""A chart of seconds over the limit, both on logarithmic scales, as SVG."""

import math

WIDTH, HEIGHT, LEFT, TOP, RIGHT, BOTTOM = 860, 520, 70, 40, 150, 50
COLOURS = ("#1b6ca8", "#c0392b", "#1e8449", "#8e44ad", "#e67e22", "#16a0a0", "#7b241c", "#34495e", "#c2185b")
LEAST = 1e-4


def drawn(curves):
    """`curves`: for each name (limit, seconds of the program, seconds of C), by ascending limit; those of one point are left out."""
    curves = {name: points for name, points in curves.items() if len(points) > 2}
    limits = [limit for points in curves.values() for limit, _, _ in points]
    seconds = [max(s, LEAST) for points in curves.values() for _, *both in points for s in both]
    low, high = min(limits) * 0.9, max(limits) * 1.1
    bottom, top = 10 ** math.floor(math.log10(min(seconds))), 10 ** math.ceil(math.log10(max(seconds)))

    def x(limit):
        return LEFT + (WIDTH - LEFT - RIGHT) * math.log(limit / low) / math.log(high / low)

    def y(second):
        return HEIGHT - BOTTOM - (HEIGHT - TOP - BOTTOM) * math.log(max(second, LEAST) / bottom) / math.log(top / bottom)

    out = [f'<svg xmlns="http://www.w3.org/2000/svg" viewBox="0 0 {WIDTH} {HEIGHT}" font-family="sans-serif" font-size="12">',
           f'<rect width="{WIDTH}" height="{HEIGHT}" fill="white"/>',
           f'<text x="{LEFT}" y="20" font-size="14">Seconds over the limit: the program (whole lines) and plain C (dashed)</text>']
    for power in range(round(math.log10(bottom)), round(math.log10(top)) + 1):
        at = y(10.0 ** power)
        out.append(f'<line x1="{LEFT}" y1="{at:.1f}" x2="{WIDTH - RIGHT}" y2="{at:.1f}" stroke="#ddd"/>')
        out.append(f'<text x="{LEFT - 8}" y="{at + 4:.1f}" text-anchor="end">{10.0 ** power:g} s</text>')
    for limit in (5, 10, 20, 50, 100, 200):
        if low <= limit <= high:
            out.append(f'<line x1="{x(limit):.1f}" y1="{TOP}" x2="{x(limit):.1f}" y2="{HEIGHT - BOTTOM}" stroke="#ddd"/>')
            out.append(f'<text x="{x(limit):.1f}" y="{HEIGHT - BOTTOM + 18}" text-anchor="middle">{limit}</text>')
    out.append(f'<text x="{(LEFT + WIDTH - RIGHT) / 2}" y="{HEIGHT - 12}" text-anchor="middle">limit</text>')
    for place, (name, points) in enumerate(sorted(curves.items())):
        colour = COLOURS[place % len(COLOURS)]
        for which, dash in ((1, ""), (2, ' stroke-dasharray="5 4"')):
            line = " ".join(f"{x(point[0]):.1f},{y(point[which]):.1f}" for point in points)
            out.append(f'<polyline points="{line}" fill="none" stroke="{colour}" stroke-width="1.8"{dash}/>')
        at = TOP + 14 + 20 * place
        out.append(f'<line x1="{WIDTH - RIGHT + 14}" y1="{at}" x2="{WIDTH - RIGHT + 38}" y2="{at}" stroke="{colour}" stroke-width="2"/>')
        out.append(f'<text x="{WIDTH - RIGHT + 44}" y="{at + 4}">{name}</text>')
    return "\n".join([*out, "</svg>"]) + "\n"
