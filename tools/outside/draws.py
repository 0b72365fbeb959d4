"""Pseudo-random draws: the generator, and codes, words, frames and bases drawn
with it."""

import scms


class Generator:
    """32-bit linear congruential generator; a draw is the upper 16 bits."""

    def __init__(self, state):
        self.state = state

    def draw(self):
        self.state = (self.state * 1664525 + 1013904223) % 2 ** 32
        return self.state // 65536


def pick(generator, choices):
    """One of the choices."""
    return choices[generator.draw() % len(choices)]


def code_sizes(n):
    """How many places and kernels the inputs are made for: those of n layers,
    or of 2 layers for an n that is to be refused."""
    layers = n if 1 <= n <= 8 else 2
    size = 2 ** layers
    return size, layers * (size // 2)


def draw_base(generator):
    """A 64-bit base from four draws, the highest 16 bits first."""
    base = 0
    for _ in range(4):
        base = base * 65536 + generator.draw()
    return base


def halves_alike(base):
    """The base with its lower 32 chips twice: itself turned by 32 chips."""
    return base % 2 ** 32 * (2 ** 32 + 1)


def draw_map(generator, size):
    """A map with a message place: all of them, frozen places first, or any."""
    mode = generator.draw() % 4
    place = generator.draw() % size
    if mode == 0:
        return [0] * size
    if mode == 1:
        return [1] * place + [0] * (size - place)
    map = [generator.draw() % 2 for _ in range(size)]
    map[place] = 0
    return map


def draw_word(generator, n, map, coefs):
    """The codeword of a drawn message; zeros for an n that is to be refused."""
    message = [generator.draw() % 64 for _ in range(256)]
    _, word = scms.encode(
        n, map, coefs, message[:scms.message_places(map)], len(map))
    return [0] * len(map) if word is None else word


def draw_penalty(generator, mode, most):
    """A penalty: any; mostly 0 or 1; or mostly the largest.

    One draw is taken modulo two numbers, 15 or 31 and a power of 2: they have
    no common divisor but 1, so what one gives leaves the other open.
    """
    drawn = generator.draw()
    if mode == 1 and drawn % 15 < 13:
        return drawn % 2
    if mode == 2 and drawn % 31 != 0:
        return most
    return drawn % (most + 1)


def draw_vector(generator, mode, most, symbol):
    """The 64 penalties of a place; one of them, in mode 2 mostly the symbol's,
    is 0."""
    drawn = generator.draw()
    zero = symbol if mode == 2 and drawn % 29 != 0 else drawn % 64
    penalties = [draw_penalty(generator, mode, most) for _ in range(64)]
    penalties[zero] = 0
    return penalties


def draw_frame(generator, most, word):
    """A frame in a drawn mode; in mode 2 it is near the frame of the word."""
    mode = generator.draw() % 3
    frame = []
    for symbol in word:
        frame += draw_vector(generator, mode, most, symbol)
    return frame
