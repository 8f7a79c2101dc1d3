"""The program for Linux on arm64.

    functions   the functions in C that stand for the kit's archives, here and by an emulator
    program     the program, by an emulator
"""

CROSS = "aarch64-linux-gnu"
QEMU = ["qemu-aarch64-static", "-L", f"/usr/{CROSS}"]
