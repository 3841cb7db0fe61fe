"""Whether a plan is carried out with just so many requests as its accesses have, and stops with fewer at the access that would pass the
number; and what it says where an access receives a bad number, which is a text at an integer column that is no integer."""
from pdq_texts import is_integer, shown_name


def stopped(asked, cap):
    """The line of a plan whose accesses have so many requests, in order, and which stops at the cap."""
    made = 0
    for wanted in asked:
        if made + wanted > cap:
            return f"call cap: {made} made, {wanted} wanted, cap {cap}\n".encode()
        made += wanted
    raise ValueError(f"{cap} requests are enough for {asked}")


def wrong_caps(asked, choose, executed, wrong_rows):
    """What is wrong where the plan may make as many requests as its accesses have, or fewer, or None.

    `executed` carries the plan out with a cap, and `wrong_rows` says what is wrong with a run that has enough requests. Where an access
    receives a bad number, it is the last of those that are asked.
    """
    total = sum(asked)
    wrong = wrong_rows(executed(total))
    if wrong or not total:
        return wrong and f"with {total} requests: {wrong}"
    for cap in {total - 1, choose.randrange(total)}:
        ended = executed(cap)
        if (ended.returncode, ended.stdout, ended.stderr) != (7, b"", stopped(asked, cap)):
            return f"with {cap} of {asked} requests: status {ended.returncode}, wrote {ended.stdout!r} and {ended.stderr!r}"
    return None


def bad_column(sorts, rows):
    """The number of the least integer column at which one of the rows has a bad number, or None."""
    return next((at for at, sort in enumerate(sorts) if sort == "int" and any(not is_integer(row[at]) for row in rows)), None)


def bad_number(relation, column):
    """The line of a bad number."""
    return f"source {shown_name(relation)}: bad number for {shown_name(column)}\n".encode()
