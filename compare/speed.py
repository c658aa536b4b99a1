"""Runs target/compare/compare, counts its instructions, times it on an x86-64, and writes docs/SPEED.md. `compare/bench` builds that program first
and calls this with the digest of what is measured.

The counter is $ORACLE_COUNT, without it ../shared/tools/oracle/count from the project's folder; README.md says what it needs.
"""
import os
import platform
import re
import subprocess
import sys

ROOT = os.path.dirname(os.path.dirname(os.path.realpath(__file__)))
HEAD = """# Speed

Instructions of x86-64, counted between marks in one program that has the real Rust and our static library in it, both for release.
The same inputs go to both, and every answer is compared with the Rust's before it is counted. The count of one program is the same in
every run and in every folder. `compare/bench` makes this page again. The digest of what was measured is
`{digest}`; `compare/bench --check` says whether that is what stands here.

{times}

Regular data: every sequence 64 and every second 60 above the one before, so that every code is one bit. Mixed data: sequences
0 to 4,999 and seconds 60 to 99 above the one before. Ours / Rust below 1 is less than the Rust takes.

An image is written into a buffer of exactly its length, which is counted first so that a refusal (21) comes before a byte is written; or into 9n + 21 bytes, which
hold any image of n pairs, so that nothing is counted. The Rust crate of `bindings/rust` does the latter. A restore names the interval 60, at which the Rust restores.
"""


def counted():
    """The count of each mark, by its name."""
    tool = os.environ.get("ORACLE_COUNT") or os.path.join(os.path.dirname(ROOT), "shared", "tools", "oracle", "count")
    if not os.access(tool, os.X_OK):
        sys.exit("bench: no counter; ORACLE_COUNT names it, by default ../shared/tools/oracle/count from the project's folder")
    # One instruction at a time: in longer pieces the emulator counts one that lies across a page twice, so that the same code comes to more in a program that has it elsewhere.
    singly = dict(os.environ, QEMU_SINGLESTEP="1")
    ran = subprocess.run([tool, os.path.join(ROOT, "target", "compare", "compare"), "bench"], capture_output=True, text=True, env=singly)
    if ran.returncode != 0:
        sys.exit(ran.stdout + ran.stderr)
    counts = dict(re.findall(r"^mark (\d+): (\d+) instructions", ran.stderr, re.M))
    names = re.findall(r"^mark (\d+) (.*), (rust|ours)$", ran.stdout, re.M)
    found = {}
    for number, name, side in names:
        found.setdefault(name, {})[side] = int(counts[number])
    return found


def timed():
    """The least nanoseconds of each side, by the same names. Nothing where the machine is no x86-64: an emulator's times say nothing."""
    if platform.machine() != "x86_64":
        return {}
    ran = subprocess.run([os.path.join(ROOT, "target", "compare", "start"), "time"], capture_output=True, text=True)
    if ran.returncode != 0:
        sys.exit(ran.stdout + ran.stderr)
    found = {}
    for nanoseconds, name, side in re.findall(r"^time (\d+) (.*), (rust|ours)$", ran.stdout, re.M):
        found.setdefault(name, {})[side] = int(nanoseconds)
    return found


def taken_on():
    """What the page says of its times."""
    if platform.machine() != "x86_64":
        return f"No time was taken: this page was made on a machine of {platform.machine()}, where an emulator runs the program and its times say nothing."
    with open("/proc/cpuinfo") as info:
        model = re.search(r"^model name\s*: (.*)$", info.read(), re.M)
    return ("Times were taken on " + (model.group(1) if model else "an x86-64") +
            ": both sides in turn in one run, the least of 25 each. The last column is their ratio.")


def ratio(row):
    if not row or row["rust"] <= 0:
        return "not taken"
    r = row["ours"] / row["rust"]
    return f"{r:.2f}" if r < 10 else f"{r:,.0f}"


def table(head, rows, times, theirs="Rust"):
    lines = [f"| {head} | {theirs} | Ours | Ours / {theirs} | Time, ours / {theirs} |", "|---|---|---|---|---|"]
    lines += [f"| {name} | {row['rust']:,} | {row['ours']:,} | {ratio(row)} | {ratio(times.get(name))} |" for name, row in rows]
    return "\n".join(lines) + "\n"


def searched(found, name):
    """The row of 1,000 lookups without the check of the table."""
    row, data = found[name], name.split(", ", 1)[1]
    check = found[f"1,000 checks, {data}"]["ours"]
    return name.replace("1,000 lookups", "the search alone"), {"rust": row["rust"], "ours": row["ours"] - check}


def reasons(found):
    """Instructions of a lookup that tells why, beside those of the same lookup without."""
    lines = ["| Data, pairs | `skut_find_ts` | `skut_why_ts` | With the reason / without |", "|---|---|---|---|"]
    for name, row in found.items():
        if name.startswith("1,000 reasons"):
            lookup = found[name.replace("reasons", "lookups")]["ours"]
            what = name.removeprefix("1,000 reasons").removeprefix(", ").removeprefix(" ")
            lines.append(f"| {what} | {lookup / 1000:,.1f} | {row['ours'] / 1000:,.1f} | {row['ours'] / lookup:.3f} |")
    return "\n".join(lines) + "\n"


def sheets(found):
    """Instructions a question of sheets of sixteen, of the same questions one by one, and of the Rust."""
    lines = ["| Data, pairs | Rust | `skut_find_ts` | `skut_find_ts_16` | A sheet / one by one | A sheet / Rust |", "|---|---|---|---|---|---|"]
    for n in (1, 512, 8192):
        sheet, one = found[f"1,600 questions in sheets, mixed, {n}"], found[f"1,600 questions one by one, mixed, {n}"]["ours"]
        each = " | ".join(f"{count / 1600:,.1f}" for count in (sheet["rust"], one, sheet["ours"]))
        lines.append(f"| mixed, {n} | {each} | {ratio({'rust': one, 'ours': sheet['ours']})} | {ratio(sheet)} |")
    return "\n".join(lines) + "\n"


def growth(found):
    """Instructions a pair, from 512 to 8,192 pairs."""
    lines = ["| Work, data | 512 | 2,048 | 8,192 |", "|---|---|---|---|"]
    for work in ("encode", "encode_strict", "decode", "restore", "save", "save_strict"):
        for data in ("regular", "mixed"):
            pair = [f"{found[f'{work}, {data}, {n}']['ours'] / n:.1f}" for n in (512, 2048, 8192)]
            lines.append(f"| {work}, {data} | " + " | ".join(pair) + " |")
    return "\n".join(lines) + "\n"


def page(found, times, digest):
    def rows(part):
        return [(name, row) for name, row in found.items() if part(name)]

    # the difference of two times is mostly noise, so that the searches alone are counted and not timed
    searches = [searched(found, name) for name in found if "lookups" in name]
    one, full = (found[f"1,000 checks, mixed, {n}"]["ours"] / 1000 for n in (1, 8192))
    check = (full - one) / 8191
    return "\n".join([
        HEAD.format(times=taken_on(), digest=digest),
        "## Images of 8,192 pairs\n",
        table("Work, data, pairs", rows(lambda n: n.endswith(", 8192") and "1,000" not in n and "questions" not in n), times),
        "## Lists of offers\n",
        "Capacity 8,192. The Rust takes a `DateTime`: made from the seconds, as its own `extend_from` does, or ready before the count begins.\n",
        table("Work", rows(lambda n: "offers" in n), times),
        "## Lookups\n",
        "The rules (docs/RULES.md) have every call check the whole table, so single lookups of ours grow with the kept pairs and the Rust's do not; many questions share one check (below). At 4,096 pairs and more the search has no loop. "
        f"The check takes {check:.1f} instructions a kept pair. The search alone is what 1,000 lookups take beyond 1,000 calls of `skut_check` on the same table; it is counted only. "
        "All are by sequence; they round down, those marked up round up. Equal: all pairs are equal, and their sequence is asked for, so that every answer is the same.\n",
        table("Work, data, pairs", rows(lambda n: "lookups" in n) + searches, times),
        "A lookup that tells why (`skut_why_ts`) has the same check and the same answer. The columns: the instructions of one lookup without the reason, and with it.\n",
        reasons(found),
        "## Many questions\n",
        "A call on many questions checks the table once. A sheet has up to sixteen (`skut_find_ts_16`). Here 100 full ones, made before the count begins, ask by sequence and round down. "
        "The columns: the instructions a question takes of the Rust, of ours asked one by one, and of ours in a sheet, with a sixteenth of the check and of passing the sheet there and back; then the third as a part of the second, and of the first.\n",
        sheets(found),
        "A list has any number (`skut_find_ts_each`, `skut_find_seq_each`): here 100,000 in one call, on mixed data of 8,192 pairs. The columns: all instructions of the Rust's loop of lookups, and of our call with its check; ours as a part of the Rust's, which is also that of one question; and the same of the times. "
        "Rising: the keys go evenly from the table's first to its last; random: the same keys in random order; nothing found: keys below the first, rounding down, or above the last, rounding up. "
        "The Rust's loop stores its answers, as ours does; to add them up takes it no fewer. By second it takes a `DateTime`: made from the seconds in the loop, or ready before the count begins. By sequence it makes one of each second found, and none where nothing is.\n",
        table("Work", rows(lambda n: n.startswith("100,000 questions")), times),
        "## Dates\n",
        "Beside chrono: `to_rfc3339_opts` of a `DateTime` made from the second, which makes a `String`, and `parse_from_rfc3339`. Ours writes into twenty bytes. "
        "The seconds are those of mixed data, all in one November, or go evenly through the years 0001 to 9999; ours passes the months before a date's one by one.\n",
        table("Work, seconds", rows(lambda n: "dates" in n), times, "chrono"),
        "## Growth: our instructions a pair\n",
        growth(found),
    ])


def main():
    if len(sys.argv) != 2:
        sys.exit(__doc__)
    text = page(counted(), timed(), sys.argv[1])
    with open(os.path.join(ROOT, "docs", "SPEED.md"), "w") as out:
        out.write(text)
    print(text)


main()
