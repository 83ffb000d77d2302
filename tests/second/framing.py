"""The records that the log program and the calls program read."""

def framed(stream, lengths):
    """ "one-byte tag, two-byte length (low first), bytes": tag and bytes of each record; both are
    None for a faulty one, and that is the last. `lengths` has the least and the greatest length
    for each tag there is. No more is read than a record has, so that it can be answered at once."""
    while True:
        head = stream.read(3)
        if not head:
            return
        # "An unknown tag, a wrong [..] length [..] or a cut record"
        if len(head) == 3 and head[0] in lengths:
            least, greatest = lengths[head[0]]
            length = int.from_bytes(head[1:], "little")
            if least <= length <= greatest:
                data = stream.read(length)
                if len(data) == length:
                    yield head[0], data
                    continue
        yield None, None
        return
