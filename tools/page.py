"""What the pages of this folder share: their colours, the head of a page, and how a program of theirs ends."""
import html
import sys

# A colour by day and by night.
COLOURS = {
    "paper": ("#fbfaf7", "#15171b"), "sheet": ("#ffffff", "#1e2127"), "ink": ("#1c1e22", "#e8e6e1"),
    "quiet": ("#5c6068", "#a3a7b0"), "line": ("#d5d2ca", "#3a3e47"),
    "inner": ("#dfe6fb", "#2a3558"), "inner-ink": ("#223a86", "#b9c8ff"),
    "leaf": ("#dcf1e8", "#1d3d33"), "leaf-ink": ("#0f5a41", "#9fe3c7"),
    "warn": ("#ffe9bf", "#4d3a10"), "warn-ink": ("#7d5200", "#ffd587"),
    "bad": ("#fbdcd8", "#5a211d"), "bad-ink": ("#a3221a", "#ffb3ab"),
    "read": ("#2f6fd0", "#6fa4f5"), "write": ("#c4590d", "#f29a55"), "won": ("#7a3fb8", "#c79bf5"),
    "wait": ("#9a948a", "#7b7f88"), "add": ("#15803d", "#5fce88"), "load": ("#475569", "#a8b3c4"),
}


def colours():
    day, night = ("".join(f"--{name}:{pair[i]};" for name, pair in COLOURS.items()) for i in (0, 1))
    return f":root{{color-scheme:light dark;{day}}}@media (prefers-color-scheme:dark){{:root{{{night}}}}}"


COMMON = """
*{box-sizing:border-box}
body{margin:0;background:var(--paper);color:var(--ink);font:14px/1.45 system-ui,"Segoe UI","DejaVu Sans",sans-serif}
header.top{padding:1rem clamp(.75rem,2.5vw,2rem) .5rem}
h1{font-size:1.3rem;line-height:1.25;margin:0 0 .25rem}
h2{font-size:1rem;margin:1.5rem 0 .5rem}
.quiet{color:var(--quiet)}
.number{font-variant-numeric:tabular-nums;font-family:ui-monospace,"DejaVu Sans Mono",Consolas,monospace;font-size:12px}
.chips{display:flex;flex-wrap:wrap;gap:.35rem .5rem;margin:.5rem 0;padding:0;list-style:none}
.chips li{border:1px solid var(--line);background:var(--sheet);border-radius:1rem;padding:.1rem .65rem;white-space:nowrap}
.chips li.warn{background:var(--warn);color:var(--warn-ink);border-color:transparent}
.chips li.bad{background:var(--bad);color:var(--bad-ink);border-color:transparent;white-space:normal}
.panel{background:var(--sheet);border:1px solid var(--line);padding:.6rem .8rem}
.panel h2{margin:0 0 .3rem}
button{font:inherit;color:inherit;background:none;border:1px solid var(--line);border-radius:.4rem;cursor:pointer}
@media (max-width:999px){
 .panel{position:fixed;left:0;right:0;bottom:0;max-height:38vh;overflow:auto;border-width:1px 0 0;z-index:9;box-shadow:0 -4px 16px #0003}
 body{padding-bottom:38vh}
}
"""


def page(title, style, body, script):
    """A page of one file, without outside parts."""
    return (f'<!DOCTYPE html>\n<html lang="en"><head><meta charset="utf-8"><title>{html.escape(title)}</title>'
            '<meta name="viewport" content="width=device-width,initial-scale=1">'
            f"<style>{colours()}{COMMON}{style}</style></head>\n<body>\n{body}\n<script>{script}</script></body></html>\n")


def end(program, why):
    """Ends with status 1 and one line that says why."""
    sys.stderr.write(f"{program}: {why}\n")
    sys.exit(1)


def read_bytes(path):
    """The bytes of a file, or of standard input for '-'."""
    if path == "-":
        return sys.stdin.buffer.read()
    with open(path, "rb") as file:
        return file.read()
