"""The random words of a router: PCG XSH RR 64/32 (O'Neill, 2014), seeded by a number as the `rand_core` of Rust does it."""

LAST = (1 << 64) - 1
STEP = 6_364_136_223_846_793_005
SEEDING = 11_634_580_027_462_260_723


def word_of(state):
    """The word of a state: some of its bits, turned by the highest five."""
    bits, turn = ((state >> 18 ^ state) >> 27) & 0xffff_ffff, state >> 59
    return (bits >> turn | bits << (32 - turn)) & 0xffff_ffff


def seeded(number):
    """State and increment of a generator."""
    words = []
    for _ in range(4):
        number = (number * STEP + SEEDING) & LAST
        words.append(word_of(number))
    state, increment = words[0] | words[1] << 32, words[2] | words[3] << 32 | 1
    return ((state + increment) * STEP + increment) & LAST, increment


def words(number):
    """All words, one after another."""
    state, increment = seeded(number)
    while True:
        yield word_of(state)
        state = (state * STEP + increment) & LAST
