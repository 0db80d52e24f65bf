"""How the page looks: widths, contrast, and pictures compared with those that are kept, whatever the font."""
import os
import struct
import zlib

from browser import want

WIDTHS = ((1024, 768), (390, 844))

# Every text that is seen with less contrast to what is behind it than 4.5 to 1, but for that of pictures.
CONTRAST = r'''
const part = (c) => (c /= 255) <= 0.04045 ? c / 12.92 : ((c + 0.055) / 1.055) ** 2.4;
const light = ([r, g, b]) => 0.2126 * part(r) + 0.7152 * part(g) + 0.0722 * part(b);
const numbers = (text) => (text.match(/[\d.]+/g) || []).map(Number);
const behind = (e) => { for (; e; e = e.parentElement) { const c = numbers(getComputedStyle(e).backgroundColor);
  if (c.length === 3 || c[3] > 0) return c.slice(0, 3); } return [255, 255, 255]; };
const poor = [], walk = document.createTreeWalker(document.body, NodeFilter.SHOW_TEXT);
while (walk.nextNode()) {
  const e = walk.currentNode.parentElement;
  if (!walk.currentNode.data.trim() || e.closest("svg, script, style, noscript, .skip") || !e.getClientRects().length) continue;
  const a = light(numbers(getComputedStyle(e).color)), b = light(behind(e));
  const ratio = (Math.max(a, b) + 0.05) / (Math.min(a, b) + 0.05);
  if (ratio < 4.5) poor.push(walk.currentNode.data.trim().slice(0, 40) + ": " + ratio.toFixed(2));
}
return poor;'''


def pixels(path):
    """A PNG without interlace as rows of (red, green, blue)."""
    with open(path, 'rb') as f:
        data = f.read()
    at, parts, size = 8, [], None
    while at < len(data):
        length, kind = struct.unpack('>I4s', data[at:at + 8])
        if kind == b'IHDR':
            size = struct.unpack('>IIBBBBB', data[at + 8:at + 8 + length])
        if kind == b'IDAT':
            parts.append(data[at + 8:at + 8 + length])
        at += length + 12
    width, height, _, colour = size[:4]
    step, raw = {2: 3, 6: 4}[colour], zlib.decompress(b''.join(parts))
    rows, before = [], bytearray(width * step)
    for y in range(height):
        line = bytearray(raw[y * (width * step + 1) + 1:(y + 1) * (width * step + 1)])
        unfilter(raw[y * (width * step + 1)], line, before, step)
        rows.append([tuple(line[x:x + 3]) for x in range(0, len(line), step)])
        before = line
    return rows


def unfilter(how, line, before, step):
    for i in range(len(line) if how else 0):
        left, up, corner = (line[i - step] if i >= step else 0), before[i], (before[i - step] if i >= step else 0)
        if how == 4:
            guess = left + up - corner
            near = min((abs(guess - left), 0, left), (abs(guess - up), 1, up), (abs(guess - corner), 2, corner))[2]
        else:
            near = {1: left, 2: up, 3: (left + up) // 2}[how]
        line[i] = (line[i] + near) & 255


def unlike(a, b):
    """The share of pixels that differ clearly. Letters are a small part of a picture of a card."""
    count = sum(max(abs(p - q) for p, q in zip(one, two)) > 60 for x, y in zip(a, b) for one, two in zip(x, y))
    return count / (len(a) * len(a[0]))


def compare(page, name, folder, out, selector='#picture svg'):
    """The picture of a part of the page, beside the one that is kept. Its size and nearly all of its pixels are the same."""
    now, kept = os.path.join(out, name), os.path.join(folder, name)
    page.one(selector).screenshot(now)
    want(os.path.exists(kept), f'{kept} is not there; the new one is {now}')
    a, b = pixels(now), pixels(kept)
    want((len(a), len(a[0])) == (len(b), len(b[0])), f'{now} has another size than {kept}')
    want(unlike(a, b) < 0.03, f'{now} differs from {kept} in {unlike(a, b):.1%} of its pixels')


def cells(rows, size=48):
    """The mean colour of each square of a picture."""
    for y in range(0, len(rows) - size + 1, size):
        for x in range(0, len(rows[0]) - size + 1, size):
            square = [row[x + i] for row in rows[y:y + size:3] for i in range(0, size, 3)]
            yield tuple(sum(part) / len(square) for part in zip(*square))


def compare_whole(page, name, folder, out):
    """The page as a whole: the means of most squares are about the same. Another font moves letters, and not colours."""
    now, kept = os.path.join(out, name), os.path.join(folder, name)
    page.driver.save_screenshot(now)
    want(os.path.exists(kept), f'{kept} is not there; the new one is {now}')
    a, b = list(cells(pixels(now))), list(cells(pixels(kept)))
    far = sum(max(abs(p - q) for p, q in zip(one, two)) > 60 for one, two in zip(a, b))
    want(len(a) == len(b) and far < 0.2 * len(a), f'{now} is not like {kept}: {far} of {len(a)} squares differ')


def fits(page):
    """Nothing stands outside the width, and all texts have contrast, on every tab, in light and in dark."""
    for width, height in WIDTHS:
        for dark in (False, True):
            page.look(width, height, dark)
            for tab in page.all('#tabs button'):
                tab.click()
                where = f'{tab.text}, {width} pixels, {"dark" if dark else "light"}'
                wide = page.script('return document.documentElement.scrollWidth - innerWidth')
                want(wide <= 0, f'{where}: {wide} pixels too wide')
                poor = page.script(CONTRAST)
                want(not poor, f'{where}: too little contrast: {poor}')
    page.look(1024, 768)
