"""How a script in Python answers `--help`, and words that are in none of its forms.

Both come from the script's head, in which its forms stand in lines that are four deeper."""
import sys


def words(head, is_form):
    """The words of this run, where they are in a form of the script. `--help` shows the head, and
    ends with 0; other words end as `refused`."""
    given = sys.argv[1:]
    if given and given[0] in ("-h", "--help"):
        print(head.rstrip())
        sys.exit(0)
    if not is_form(given):
        refused(head)
    return given


def refused(head):
    """Shows the forms on standard error, and ends with 2."""
    forms = [line for line in head.split("\n") if line.startswith("    ")]
    print("\n".join(["usage:", *forms]), file=sys.stderr)
    sys.exit(2)


def is_none(given):
    """The form of a script that has no words."""
    return not given


def are_numbers(most):
    """The form of a script that has so many numbers at most."""
    return lambda given: len(given) <= most and all(word.isascii() and word.isdigit() for word in given)


def is_one(test):
    """The form of a script that has one word at most, of which this holds, as of a folder."""
    return lambda given: len(given) <= 1 and all(test(word) for word in given)
