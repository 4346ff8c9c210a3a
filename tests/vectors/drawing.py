"""Blocks drawn at random, for the samples."""


def fill_blocks(rng, left, longest, palette):
    """Sizes and colours of blocks, none longer than `longest`, until `left` cells are taken with the gaps between them."""
    sizes, colours = [], []
    while left > 0:
        colour = rng.choice(palette)
        left -= bool(colours) and colours[-1] == colour
        if left <= 0:
            break
        sizes.append(rng.randint(1, min(longest, left)))
        colours.append(colour)
        left -= sizes[-1]
    return sizes, colours
