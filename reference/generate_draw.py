"""Random choices for one input, and edits of texts that several families share."""
import random

ODD_BYTES = b' \n\r\t\0.,()@_=<>|-0189azAZ\x7f\xff'

class Draw(random.Random):
    """The choices of one input. Its seed is a text, so that the input can be made again."""

    def chance(self, share):
        return self.random() < share

    def pick(self, *table):
        """One of these pairs of a weight and a thing, by weight."""
        return self.choices([thing for _, thing in table], [weight for weight, _ in table])[0]

    def near(self, limit):
        """A number at a limit or some steps beside it."""
        return limit + self.choice([-2, -1, -1, 0, 0, 0, 1, 1, 1, 2])

def edited_bytes(draw, data):
    """A byte is changed, put in, taken out or doubled, or the text is cut off."""
    at = draw.randrange(len(data) + 1)
    byte = bytes([draw.choice(ODD_BYTES) if draw.chance(0.6) else draw.randrange(256)])
    return draw.choice([data[:at] + byte + data[at + 1:], data[:at] + byte + data[at:], data[:at] + data[at + 1:],
                        data[:at + 1] + data[at:], data[:at]])

def edited_list(draw, parts, others=()):
    """A part is taken out, doubled, moved, or replaced by another one, or one is put in."""
    parts = list(parts)
    if not parts:
        return list(others[:1])
    at, to = draw.randrange(len(parts)), draw.randrange(len(parts))
    other = draw.choice(others) if others and draw.chance(0.5) else parts[to]
    form = draw.randrange(6)
    if form == 0:
        parts.insert(to, parts.pop(at))
    elif form == 1:
        parts[at], parts[to] = parts[to], parts[at]
    else:
        parts[at:at + 1] = [[], [parts[at]] * 2, [other], [other, parts[at]]][form - 2]
    return parts

def edited_lines(draw, text):
    return b'\n'.join(edited_list(draw, text.split(b'\n')))

def edited_words(draw, line):
    return b' '.join(edited_list(draw, line.split(b' '), [b'', b'0', b'1', b'01', b'x', b'X']))
