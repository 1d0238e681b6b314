"""The places in crates/*/src that still have an older form: docs/DESIGN-PASS.md counts them by this.

    tools/forms.py            how many places each form has
    tools/forms.py 3b         the places of one form, or of one point (3)
    tools/forms.py --at DIR   the same in another checkout
"""
import glob
import re
import sys

# point, form: what it is, a pattern of one line of source
FORMS = [
    ("1a", "a refusal number in a struct", r"^\s*(pub )?refusal: u64,$"),
    ("1b", "a refusal given as a literal number", r"^\s*(return )?[1-9][0-9]?;?$|\{ [0-9]+ \} else \{ [0-9]+ \}"),
    ("1c", "a number tested for being a refusal", r"(refusal|bad|malformed) (!=|==) 0"),
    ("1d", "a function that tests and answers a refusal number", r"fn \w*refusal\w*\("),
    ("1e", "a flag in a struct with values beside it", r"^\s*(pub )?\w+: bool,$"),
    ("1f", "a kind given as a letter or a number", r"^const [A-Z_]+: u8 = |version: u64"),
    ("2a", "a private copy of a method of the library's", r"^\s*(pub )?fn (one_if|keep|wide|within|least|most|larger|over|alike|both|chosen|set_all|is_same|wide_byte|wrapping_mul|digits)\("),
    ("2b", "functions that are twins but for a constant, an edition or a direction", r"^\s*(pub )?fn (put_rest|put_rest_of|combine_put|combine_in|missing_below|present_parity|permutation|inverse|tile_permutation|tile_inverse|newest|newest_old|image_starts|byte_starts|lost_starts|write_whole|write_healthy|write_around|unit_starts|own_missing|new_starts|shift_of|powers|logs|mul_by|inv_by|mul|inv)\("),
    ("3a", "a while loop", r"^\s*('\w+: )?while "),
    ("3b", "a counter that is raised by hand", r"^\s*\w+ \+= 1;$"),
    ("4a", "equality, order or zeros by hand", r"^\s*(pub )?fn (below|below_wide|same|same_cob|alike|same_flags|is_same|no_numbers|no_layout|blank_entry)\("),
    ("4b", "a conversion by hand", r" as (u8|u32|u64|usize)\b"),
    ("4c", "text printed piece by piece", r"\b(text|decimal|number|newline|answer|answer_line)\(rt"),
    ("5a", "the two tables beside each other", r"powers: &\[u8; 256\]|powers, logs"),
    ("5b", "a layout with its shape beside it", r"y: Layout, s: Shape|Valid y × Shaped y s|Shaped y s"),
    ("5c", "a plan of runs as three arguments of the kernel", r"counts: &\[usize; 8\]"),
    ("5d", "a group's missing units with their numbers", r"miss: \[bool; 19\]"),
    ("5e", "the run that is written, as arguments", r"lo: usize,$|lo: usize, len: usize"),
    ("6a", "an array with its count beside it", r"^\s*(pub )?(at|failed|list|entries): \[\w+; \d+\],$"),
    ("6b", "a slice with a count beside it", r"n: usize|count: usize"),
    ("6c", "a search by halves by hand", r"fn (search|halved|between)\("),
    ("7", "a step chosen by a flag or a number", r"down: bool|whole: bool"),
]


def places(top, pattern):
    for path in sorted(glob.glob(top + "/crates/*/src/**/*.rt", recursive=True)):
        with open(path) as source:
            for number, line in enumerate(source, 1):
                line = line.rstrip("\n")
                if not line.lstrip().startswith("//") and re.search(pattern, line):
                    yield path[len(top) + 1:], number, line.strip()


def main(args):
    top = "."
    if args[:1] == ["--at"]:
        top, args = args[1], args[2:]
    for point, what, pattern in FORMS:
        if args and not point.startswith(args[0]):
            continue
        found = list(places(top, pattern))
        print(f"{point:3} {len(found):4}  {what}")
        if args:
            for path, number, line in found:
                print(f"        {path}:{number}: {line}")


main(sys.argv[1:])
