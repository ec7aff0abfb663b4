"""Names as the lines of the programs have them."""

LETTERS = {7: "a", 8: "b", 9: "t", 10: "n", 11: "v", 12: "f", 13: "r"}


def quoted(name):
    """A name as a line has it: between quotes, as C writes it, where it has a control character or a quote in front."""
    text = name.decode()
    controls = {at for at, one in enumerate(text) if ord(one) < 32 or 127 <= ord(one) < 160}
    if not controls and not text.startswith('"'):
        return name
    shown = ""
    for at, one in enumerate(text):
        if at in controls:
            shown += "\\" + LETTERS[ord(one)] if ord(one) in LETTERS else "".join("\\%03o" % byte for byte in one.encode())
        else:
            shown += "\\" + one if one in '"\\' else one
    return f'"{shown}"'.encode()
