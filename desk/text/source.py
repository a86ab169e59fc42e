# A fault tree's text of either format.
import re

from desk.text.galileo import read_galileo
from desk.text.lines import decoded
from desk.text.open_psa import read_open_psa

# An Open-PSA text begins so, with a byte-order mark or without, in bytes of one or of two for a sign.
MARKUP = re.compile(b"(\xef\xbb\xbf)?[ \t\r\n]*<|\xff\xfe<\0|\xfe\xff\0<")


def read_tree_text(file, data):
    """The statements of a fault tree: Open-PSA where the first sign is <, else Galileo."""
    if MARKUP.match(data):
        return read_open_psa(file, data)
    return read_galileo(file, decoded(file, data, "save the file as UTF-8"))
