"""The soups of checks/known and bench/objects."""
import hashlib


def soup(number):
    """The RLE text of a soup of 16 by 16 cells: the bits of the SHA-256 of `soup 1`, `soup 2` and so on, row by row."""
    bits = "".join(f"{byte:08b}" for byte in hashlib.sha256(f"soup {number}".encode()).digest())
    rows = (bits[at:at + 16].replace("1", "o").replace("0", "b") for at in range(0, 256, 16))
    return f"x = 16, y = 16, rule = B3/S23\n{'$'.join(rows)}!\n"
