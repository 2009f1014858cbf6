"""The code file's and the frames' limits, and the refusals that the tools speak of, each in one
place (docs/FORMATS.md has them all)."""

BITS_LIMIT = 2048
CHECKS_LIMIT = 2048
DEGREE_LIMIT = 32           # members of a check, from 0, and checks of a bit, from 1
EDGES_LIMIT = 8192
FRAME_LIMIT = 8191
ROUNDS_LIMIT = 1024

CODE_FILE_REFUSALS = {
    1: "code file under 4 bytes",
    2: "n or m out of range",
    3: f"a count above {DEGREE_LIMIT}",
    4: f"a start wrong or E above {EDGES_LIMIT}",
    5: "length wrong",
    6: "a member not below n, or not ascending",
    7: "a bit in too few or too many checks",
}

SHORT_FRAME = 8
FRAME_REFUSALS = {
    SHORT_FRAME: "frame not n long",
    9: "frame number out of range",
}
