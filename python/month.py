"""Draws this month's cartons. A folder keeps the plan, the campaign's record, the list of draws and the names of zones and kinds.

    python3 python/month.py begin FOLDER          once: plans the table below, and begins a campaign in a new folder
    python3 python/month.py draw FOLDER           each month: draws, keeps the record, prints how many cartons to open
    python3 python/month.py again FOLDER          one draw more in the same month
    python3 python/month.py show FOLDER NUMBER    what a number of the list says to open, where the paper is lost
    python3 python/month.py restore FOLDER        makes the record anew from the list of draws, where it is lost or does not fit

For a table of your own, copy this file in its folder, and change in the copy what is written in capitals; each robot, and each table, has a folder of its own.
"""
import datetime
import os
import pathlib
import secrets
import sys

import lufodimi

ZONES, KINDS = ["front", "middle", "cold"], ["tablets", "ampoules", "insulin", "infusions"]
# The expected counts times the denominator, a zone a line, as whole numbers: 4.5 cartons a month over 10 are 45.
DENOMINATOR = 10
TABLE = [
    45, 23, 0, 12,
    31, 26, 4, 19,
    0, 14, 52, 14,
]
NAMES = "".join(f"{', '.join(names)}\n" for names in (ZONES, KINDS))


def begin(folder):
    """Plans the table, and keeps the plan and the record of a new campaign. What is expected is printed, to be checked once."""
    if not all(isinstance(cell, int) for cell in TABLE):
        raise ValueError(f"the table takes whole numbers: over {DENOMINATOR} write {DENOMINATOR * 9 // 2} for 4.5")
    plan = lufodimi.Plan(lufodimi.plan(len(ZONES), len(KINDS), DENOMINATOR, TABLE))
    folder.mkdir()
    keep(folder / "plan", plan.stored)
    keep(folder / "names", NAMES.encode())
    keep(folder / "draws", b"")
    keep(folder / "record", lufodimi.Campaign(plan).record)
    show("expected", [f"{cell / DENOMINATOR:.5g}" for cell in TABLE])
    print(f"together {sum(TABLE) / DENOMINATOR:.5g} a draw; a round has {DENOMINATOR} draws; the campaign is kept in {folder.resolve()}")


def opened(folder):
    """The plan that the folder keeps, which has to be that of this table, with these names."""
    if not folder.is_dir():
        raise ValueError(f"there is no folder {folder.resolve()}; `begin` makes one, for a new campaign")
    plan = lufodimi.Plan((folder / "plan").read_bytes())
    is_this = (plan.rows, plan.columns, plan.denominator, plan.cells) == (len(ZONES), len(KINDS), DENOMINATOR, TABLE)
    if not is_this or (folder / "names").read_text() != NAMES:
        raise ValueError(f"table or names are not those of {folder}; another table begins a new campaign, in a new folder")
    return plan


def draw(folder, is_again=False):
    """Takes a free number at random, each with the same chance, and keeps the record and the list before anything is told."""
    campaign = lufodimi.Campaign(opened(folder), (folder / "record").read_bytes())
    today, last = str(datetime.date.today()), ([""] + (folder / "draws").read_text().splitlines())[-1]
    if last[:7] == today[:7] and not is_again:
        raise ValueError(f"this month is drawn ({last}); `show` prints it, and `again` draws once more")
    line = f"{today}: round {campaign.rounds + 1}, number {secrets.choice(campaign.free)}"
    counts = campaign.draw(number_of(line))
    keep(folder / "record", campaign.record)
    with open(folder / "draws", "a") as draws:
        print(line, file=draws)
    show("open", counts)
    print(f"{line}; rounds completed {campaign.rounds}, left in this round {len(campaign.free)} of {DENOMINATOR}")


def again(folder):
    draw(folder, is_again=True)


def show_number(folder, number):
    """The counts of a number, which is not taken by this."""
    show("open", opened(folder).draw(int(number)))


def restore(folder):
    """Draws the numbers of the list again, round by round, from a new record on, and keeps what this leaves."""
    campaign = lufodimi.Campaign(opened(folder))
    for line in (folder / "draws").read_text().splitlines():
        if f"round {campaign.rounds + 1}," not in line:
            raise ValueError(f"the list of draws is not whole before: {line}")
        campaign.draw(number_of(line))
    keep(folder / "record", campaign.record)
    print(f"rounds completed {campaign.rounds}, left in this round {len(campaign.free)} of {DENOMINATOR}")


def number_of(line):
    return int(line.split()[-1])


def keep(file, stored):
    """Replaces a file in one step, so that it is always whole."""
    following = file.with_name(file.name + ".next")
    with open(following, "wb") as opened_file:
        opened_file.write(stored)
        opened_file.flush()
        os.fsync(opened_file.fileno())
    os.replace(following, file)


def show(title, numbers):
    print(f"{title:10}", *(f"{kind:>10}" for kind in KINDS))
    for row, zone in enumerate(ZONES):
        print(f"{zone:10}", *(f"{number:>10}" for number in numbers[row * len(KINDS) : (row + 1) * len(KINDS)]))


def main(words):
    if words in (["-h"], ["--help"]):
        print(__doc__.strip())
        return
    commands = {"begin": (begin, 2), "draw": (draw, 2), "again": (again, 2), "show": (show_number, 3), "restore": (restore, 2)}
    command, length = commands.get(words[0] if words else "", (None, 0))
    if command is None or len(words) != length:
        sys.exit(__doc__.strip())
    try:
        command(pathlib.Path(words[1]), *words[2:])
    except lufodimi.Refusal as error:
        sys.exit(f"nothing is done: refusal {error.number}: {error}")
    except (OSError, ValueError) as error:
        sys.exit(f"nothing is done: {error}")


if __name__ == "__main__":
    main(sys.argv[1:])
