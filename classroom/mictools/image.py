"""An image file: its text, its pool, and the words of memory that they become."""

POOL = 0x4000  # word addresses
FRAMES = 0x8000


class Image:
    def __init__(self, data):
        self.text, self.pool = b"", []
        at = 4
        while at + 8 <= len(data):
            origin, size = (int.from_bytes(data[at + 4 * k : at + 4 * k + 4], "big") for k in range(2))
            block = data[at + 8 : at + 8 + size]
            if origin:
                self.pool = words_of(block)
            else:
                self.text = block
            at += 8 + size

    def memory(self):
        """Of each word address its word, as the program is loaded."""
        loaded = dict(enumerate(words_of(self.text)))
        loaded.update((POOL + place, word) for place, word in enumerate(self.pool))
        return loaded


def words_of(block):
    block += bytes(-len(block) % 4)
    return [int.from_bytes(block[at : at + 4], "big") for at in range(0, len(block), 4)]


def signed(word):
    return word - 2**32 if word >= 2**31 else word
