"""Programs that read lines and print lines."""

import subprocess


def answers(command, lines):
    """The lines that a program prints for these."""
    data = "".join(f"{line}\n" for line in lines).encode("latin-1")
    printed = subprocess.run(command, input=data, stdout=subprocess.PIPE, check=True).stdout.decode("latin-1")
    return printed.split("\n")[:-1]
