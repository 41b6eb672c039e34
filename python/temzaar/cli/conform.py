"""Judges the link client of a base station by the table "Conformance" of LINK.md. A relay cuts, joins, withholds and ends what a controller answers.

    conform --site site.toml --program build/dmr_trunk                                 the client connects by itself, to the ports of the site file
    conform --site site.toml --program build/dmr_trunk -- client -p {port} -l {lpcn}   the client is started, and for each trial again

It starts a controller on ports that nothing uses, and listens on the ports of the site file. Without a command the client connects by itself, and has to
connect again after each trial. For each row of the table it prints its name, `passed`, `failed` or `not tried`, and what was seen, or why it was not tried. All
rows take a minute. Each time limit is two seconds longer than in the table, since a machine may be busy.

The client's command may have the placeholders {host}, {port}, {carrier}, {lpcn}, {version} and {bursts}. The last is a file that the client is to receive. It has a
line `SLOT BURST` for a burst of 33 octets in hexadecimal, a line `SLOT voice`, and an empty line at the end of each frame.

Status: 0 no row failed; 1 a file, a port, the controller or the client's command was at fault. Standard error says which; 2 the words; 3 a row failed.
"""
import argparse
import json
import tempfile
from collections.abc import Sequence

from temzaar.cli.command import amount_above, command_of, new_parser, parse_words, print_note
from temzaar.conformance import FAILED, ROWS, VERDICTS, TestSource, judge_rows
from temzaar.frames import VERSIONS


def read_words(words: Sequence[str] | None) -> argparse.Namespace:
    """The words of the command line."""
    parser = new_parser(__doc__)
    parser.add_argument("--site", required=True, help="the site file; the client connects to its ports")
    parser.add_argument("--program", required=True, help="the controller, which is started on other ports")
    parser.add_argument("--link-version", type=int, choices=VERSIONS, default=2, help="the greatest version of the link that the site serves (2)")
    parser.add_argument("--row", metavar="ROW", choices=ROWS, action="append", help="try this row, and others that are named; without it, all")
    parser.add_argument("--wait", metavar="SECONDS", type=amount_above(0), default=60.0, help="how long a client that connects by itself is waited for (60)")
    parser.add_argument("--json", action="store_true", help="print the findings as JSON")
    parser.add_argument("command", nargs="*", metavar="WORD", help="the client's command")
    return parse_words(parser, words)


def conform(options: argparse.Namespace) -> int:
    """Judges a client, and prints what was found. The status."""
    with tempfile.NamedTemporaryFile("w", suffix=".txt") as file:
        file.write(TestSource().text)
        file.flush()
        options.bursts, options.absent, options.leaves = file.name if "{bursts}" in str(options.command) else "", "", ""
        if not options.command:
            print_note("conform", f"let the client connect to the ports of {options.site}, and connect again")
        findings = judge_rows(options, options.row or ROWS)
    counts = {verdict: sum(it == verdict for it, _ in findings.values()) for verdict in VERDICTS}
    lines = [f"{row:9}  {verdict:9}  {seen}" for row, (verdict, seen) in findings.items()] + [", ".join(f"{count} {verdict}" for verdict, count in counts.items())]
    rows = [{"row": row, "verdict": verdict, "seen": seen} for row, (verdict, seen) in findings.items()]
    print(json.dumps({"client": options.command, "rows": rows, **counts}, indent=1) if options.json else "\n".join(lines))
    return 3 if counts[FAILED] else 0


main = command_of("conform", read_words, conform)
