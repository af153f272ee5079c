"""A page in a browser, and what is found wrong with it."""
import pathlib
import re

ROOT = pathlib.Path(__file__).resolve().parent.parent.parent
SOURCES = ROOT / "crates" / "traceviews" / "src"
WIDE, MIDDLE, NARROW = (1400, 900), (900, 800), (400, 800)

# The texts that are seen whose contrast is less: each with its contrast and the colours. Of a text on several backgrounds the uppermost counts.
CONTRASTS = """(() => {
  const parse = text => { const n = text.match(/[0-9.]+/g).map(Number); return { rgb: n.slice(0, 3), alpha: n.length > 3 ? n[3] : 1 }; };
  const over = (top, below) => top.rgb.map((it, at) => it * top.alpha + below[at] * (1 - top.alpha));
  const light = rgb => { const [r, g, b] = rgb.map(it => { const x = it / 255; return x <= 0.04045 ? x / 12.92 : ((x + 0.055) / 1.055) ** 2.4; }); return 0.2126 * r + 0.7152 * g + 0.0722 * b; };
  const ground = element => {
    const above = [];
    for (let it = element; it; it = it.parentElement) above.push(parse(getComputedStyle(it).backgroundColor));
    return above.reduceRight((below, it) => over(it, below), [255, 255, 255]);
  };
  const opacity = element => { let all = 1; for (let it = element; it; it = it.parentElement) all *= Number(getComputedStyle(it).opacity); return all; };
  const wrong = [];
  let seen = 0;
  const check = (element, colour, text) => {
    const below = ground(element), ink = parse(colour);
    const shown = over({ rgb: ink.rgb, alpha: ink.alpha * opacity(element) }, below);
    const [a, b] = [light(shown), light(below)].sort((x, y) => y - x);
    const contrast = (a + 0.05) / (b + 0.05);
    seen += 1;
    if (contrast < 4.5) wrong.push(`${text.trim().slice(0, 30)}: ${contrast.toFixed(2)}, ${colour} on ${below.map(Math.round)}`);
  };
  const walker = document.createTreeWalker(document.body, NodeFilter.SHOW_TEXT);
  for (let it = walker.nextNode(); it; it = walker.nextNode()) {
    const element = it.parentElement;
    if (it.data.trim() === '' || element.closest('script, style, noscript') || !element.checkVisibility()) continue;
    const style = getComputedStyle(element);
    check(element, element.ownerSVGElement ? style.fill : style.color, it.data);
  }
  for (const it of document.querySelectorAll('input')) {
    check(it, getComputedStyle(it).color, it.value || it.id);
    if (it.placeholder) check(it, getComputedStyle(it, '::placeholder').color, it.placeholder);
  }
  return { seen, wrong };
})()"""

# What can be clicked, or takes words, and isn't hidden: the names that a keyboard is to reach. Of the list's rows it is the one that is shown.
CLICKED = """(() => {
  const clicked = Array.from(document.querySelectorAll('*')).filter(it => it.checkVisibility() && (it.onclick || it.matches('a[href], button, input, [role=option]')));
  return clicked.filter(it => it.getAttribute('role') !== 'option' || it.getAttribute('aria-selected') === 'true').map(it => it.id || it.textContent);
})()"""
FOCUSED = "document.activeElement === document.body ? '' : document.activeElement.id || document.activeElement.textContent"
# The outline of what has the focus, in pixels.
OUTLINE = "document.activeElement === document.body ? 9 : parseFloat(getComputedStyle(document.activeElement).outlineWidth) * (getComputedStyle(document.activeElement).outlineStyle === 'none' ? 0 : 1)"


def texts(file):
    """The texts of a template, by their names."""
    found = re.findall(r'const ([A-Z]+): &str = "((?:\\.|[^"\\])*)";', (SOURCES / file).read_text(), re.DOTALL)
    return {name: re.sub(r"\\(.)", lambda sign: {"n": "\n"}.get(sign[1], sign[1]), body, flags=re.DOTALL) for name, body in found}


class Trial:
    """One page in a browser, of so many turns, and what is found wrong with it."""

    def __init__(self, browser, address, count):
        self.browser, self.address, self.count, self.wrong = browser, address, count, []

    def note(self, what, found, wanted):
        if found != wanted:
            self.wrong.append(f"{what}: {found!r} in place of {wanted!r}")

    def of(self, script):
        return self.browser.value(script)

    def text(self, name):
        return self.of(f"document.getElementById('{name}').textContent")

    def stands_at(self, what, turn):
        self.note(what, self.text("where"), f"turn {turn} of 0 to {self.count - 1}")

    def press(self, *keys):
        for it in keys:
            self.browser.press(it)

    def open(self, size, scheme="light", turn=None):
        self.browser.size(*size)
        self.browser.scheme(scheme)
        faults = self.browser.open(self.address + ("" if turn is None else f"#{turn}"))
        self.note("faults of the scripts", faults, [])
