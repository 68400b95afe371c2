"""The lines that the program `vectors` reads and writes: how bytes, numbers and lent buffers stand in them."""

BEFORE = b"\xa5"  # every byte of a lent buffer before the call


def said(data):
    """BYTES, as they are read and as they are written."""
    return data.hex() if data else "-"


def over(data, times):
    """BYTES that are some bytes, so many times over: the line's word for them, and the bytes."""
    return f"{data.hex()}*{times}", data * times


def buffer(data):
    """What became of a lent buffer."""
    if not any(data):
        return "zero"
    return "kept" if data == BEFORE * len(data) else data.hex()
