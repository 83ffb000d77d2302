"""Outputs of a program, as bytes: what the second program prints, and where two outputs differ."""
import io

def output_of(lines):
    return "".join(f"{line}\n" for line in lines).encode()

def expected_output(program, given):
    """What the second program prints for this input of the program."""
    return output_of(program.lines(io.BytesIO(given)))

def first_difference(one, output, other, other_output):
    """The first line in which two outputs differ, in words. `one` and `other` say whose they are."""
    pairs = zip(output.splitlines() + [b"(end)"], other_output.splitlines() + [b"(end)"])
    for number, (line, other_line) in enumerate(pairs, 1):
        if line != other_line:
            return (f"line {number} of {one} is {line.decode(errors='replace')}, "
                    f"of {other} {other_line.decode(errors='replace')}")
    return f"the outputs of {one} and {other} differ only in their line ends"
