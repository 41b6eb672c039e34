"""The warnings of dmr_check: each comes once, with its line, and none for a site without risks. And the times and figures that it explains."""
import ipaddress
import re
import unittest

from temzaar.sitefigures import Figures, Line, explain_site
from temzaar.sitekeys import KEYS
from temzaar.siterisks import Risk, Surroundings, find_risks, has_address
from temzaar.sitetext import SiteText
from tests.support import SITES, read_document as read_page

SITE = """\
system = 0x1234
regi = 0xFFFEC6
tsi = 0xFFFECA
leave_bit = 0
hang = 100
maximum = 3000
ahoy_wait = 8
ahoy_tries = 3
grant_copies = 1
clear_copies = 1
backoff_low = 1
backoff_high = 8
tick_ms = 60
silence = 50
console_port = 7100
radios = [[1000, 1999]]
groups = [91, 92, 93, 94]
control = 0
[[carrier]]
number = 0
lpcn = 1
port = 7101
[[carrier]]
number = 1
lpcn = 2
port = 7102
"""
ROWS = SITE[SITE.index("[[carrier]]"):]
SIXTEEN = "".join(f"[[carrier]]\nnumber = {n}\nlpcn = {n + 1}\nport = {7101 + n}\n" for n in range(16))
# A change of the site file, the warning, its line, and a word of the reason or of what to do. Lines are counted by hand.
CHANGES: list[tuple[str, str, str, int | None, str]] = [
    ("hang = 100", "hang = 100\nhnag = 1", "unknown-key", 6, "remove it"),
    ("control = 0", "control = 0\nlink_versio = 2", "unknown-key", 19, "did you mean `link_version`?"),
    ("control = 0", "control = 0\nTerm_Entries = 2000", "unknown-key", 19, "did you mean `term_entries`?"),
    ("control = 0", "control = 0\nport = 1", "unknown-key", 19, "below a `[[carrier]]`"),
    ("lpcn = 2", "lpcn = 2\nsilence = 5", "unknown-key", 26, "above the first header"),
    ("lpcn = 2", "lpcn = 2\nnam = 'x'", "unknown-key", 26, "[[carrier]] 2, carrier 1"),
    ("port = 7102", "port = 7102\n[extra]\nhang = 1\nx = 2", "unknown-key", 27, "know [extra], and ignores it"),
    ("port = 7102", "port = 7102\n[carrier.extra]\nx = 2", "unknown-key", 27, "carrier 1: the controller does not know [carrier.extra], and"),
    ("port = 7102", "port = 7102\n[[carriers]]\n[[carriers]]", "unknown-key", 27, "know [[carriers]], and ignores it remove it, or did you mean `carrier`?"),
    (ROWS, "carrier = [{ number = 0, lpcn = 1, port = 7101, }]", "newer-toml", 19, "TOML 1.0"),
    ("system", "\ufeffsystem", "newer-toml", 1, "byte order mark"),
    ("hang = 100", "# \udcff", "newer-toml", 5, "the octet FF is not UTF-8"),
    ("console_port = 7100", "console_port = 1023", "low-port", 15, "1023 is below 1024"),
    ("port = 7102", "port = 102", "low-port", 26, "[[carrier]] 2, carrier 1"),
    ("control = 0", "control = 0\naddress = [192, 0, 2, 1]", "foreign-address", 19, "192.0.2.1"),
    ("control = 0", "control = 0\naddress = [224, 0, 0, 1]", "foreign-address", 19, "224.0.0.1"),
    ("control = 0", "control = 0\naddress = [0, 0, 0, 0]", "open-address", 19, "firewall"),
    ("groups = [91, 92, 93, 94]", "groups = [91, 1000, 1999, 2000]", "group-in-radios", 17, "talkgroups 1000, 1999 are numbers of radios too (1000 to 1999)"),
    ("[[1000, 1999]]", "[[1, 5], [16776900, 16776902]]", "service-in-radios", 2, "`regi`, 16776902"),
    ("maximum = 3000", "maximum = 100", "maximum-below-hang", 6, "`hang` is 100"),
    # 333 ticks of 60 ms are 19.98 s
    ("maximum = 3000", "maximum = 333", "short-maximum", 6, "in ticks, not in seconds"),
    ("silence = 50", "silence = 61", "silence-above-hang", 14, "is lost after 6.1 s, and its calls end after `hang`, 6.0 s"),
    # 1,000 radios are 1000 to 1999, and 3,097 are 5000 to 8096
    ("[[1000, 1999]]", "[[1000, 1999], [5000, 8096]]", "many-radios", 16, "4097 radios may register"),
    ("leave_bit = 0\n", "", "no-leave-bit", 15, "no radio can deregister"),
    # 10 polls of 60 ms are 600 ms: 9 ticks of 60 ms are fewer
    ("hang = 100", "hang = 9", "short-hang", 5, "540 ms"),
    ("ahoy_wait = 8", "ahoy_wait = 1", "short-ahoy", 7, "60 ms"),
    ("silence = 50", "silence = 5", "short-silence", 14, "500 ms"),
    ("silence = 50", "silence = 601", "long-silence", 14, "60.1 s"),
    ("backoff_low = 1", "backoff_low = 8", "narrow-backoff", 12, "both 8"),
    # 568 octets x 100,000 x 5 are 271 MiB
    ("control = 0", "control = 0\nterm_entries = 100000", "large-terms", 19, "271 MiB"),
    # two carriers that poll each 60 ms, and ticks of 60 ms: 50 entries a second
    ("control = 0", "control = 0\nterm_entries = 249", "short-terms", 19, "5.0 s"),
    ("tick_ms = 60\nsilence = 50", "tick_ms = 29\nsilence = 25", "fast-tick", 13, "29 ms"),
]
# The same, just on the other side of each limit.
RIGHT = [
    ("console_port = 7100", "console_port = 1024"), ("maximum = 3000", "maximum = 334"), ("[[1000, 1999]]", "[[1000, 1999], [5000, 8095]]"), ("ahoy_wait = 8", "ahoy_wait = 2"),
    ("silence = 50", "silence = 6"), ("silence = 50", "silence = 60"), ("tick_ms = 60\nsilence = 50", "tick_ms = 600\nsilence = 600"), ("backoff_low = 1", "backoff_low = 7"),
    # 568 octets x 94,000 x 5 are 255 MiB
    ("control = 0", "control = 0\nterm_entries = 94000"), ("control = 0", "control = 0\nterm_entries = 250"), ("tick_ms = 60\nsilence = 50", "tick_ms = 30\nsilence = 30"),
    ("[91, 92, 93, 94]", "[999, 2000]"), ("control = 0", "control = 0\naddress = [127, 0, 0, 9]"), ("control = 0", "control = 0\nlink_version = 2"),
]


def risks_of(text: str, link_version: int | None = None) -> list[Risk]:
    """The warnings for a site file on a machine that has the loopback addresses alone."""
    return find_risks(SiteText.of(text.encode(errors="surrogateescape")), Surroundings(lambda address: address.is_loopback, link_version))


class Risks(unittest.TestCase):
    """Each warning."""

    def test_each_once(self) -> None:
        for old, new, name, line, word in CHANGES:
            with self.subTest(name, new=new[:40]):
                self.assertIn(old, SITE)
                found = risks_of(SITE.replace(old, new, 1))
                self.assertEqual([(it.name, it.line) for it in found], [(name, line)])
                self.assertIn(word, f"{found[0].row}: {found[0].reason} {found[0].remedy}")
                self.assertTrue(found[0].remedy)

    def test_none(self) -> None:
        self.assertEqual(risks_of(SITE), [])
        self.assertEqual(risks_of(SITE.replace("hang = 100", "hang = 10").replace("silence = 50", "silence = 6")), [])
        for old, new in RIGHT:
            with self.subTest(new):
                self.assertIn(old, SITE)
                self.assertEqual(risks_of(SITE.replace(old, new, 1)), [])

    def test_base_stations_that_number(self) -> None:
        for text, spoken, count in ((SITE, 2, 1), (SITE, 1, 0), ("link_version = 2\n" + SITE, 2, 0), ("link_version = 1\n" + SITE, 2, 1)):
            self.assertEqual([it.name for it in risks_of(text, spoken)], ["old-link"] * count)

    def test_every_name_is_tried_and_documented(self) -> None:
        page = read_page("OPERATING.md")
        rows = re.findall(r"^\|.*", page[page.index("### Check, then restart"):page.index("## Start")], re.M)
        documented = re.findall(r"`([a-z]+(?:-[a-z]+)+)`", "\n".join(rows))
        self.assertEqual(sorted(documented), sorted({name for _, _, name, *_ in CHANGES} | {"old-link"}))

    def test_the_examples(self) -> None:
        named = {path.name: [it.name for it in risks_of(path.read_text(encoding="utf-8"))] for path in SITES.glob("*.toml")}
        # its address is of another network
        self.assertEqual(named, {"two_carriers.toml": [], "sixteen_carriers.toml": ["foreign-address"]})

    def test_no_warnings_without_values(self) -> None:
        self.assertEqual(risks_of(""), [])

    def test_wrong_types_are_no_warnings(self) -> None:
        text = re.sub(r"= (.*)", "= 'x'", SITE[:SITE.index("[[")])
        self.assertEqual(risks_of(text), [])
        self.assertEqual(risks_of(SITE.replace(ROWS, "carrier = [1, 'x', {port = 'x'}]")), [])

    def test_addresses_of_this_machine(self) -> None:
        self.assertTrue(has_address(ipaddress.IPv4Address("127.0.0.1")))
        # an address for documents, that no machine has
        self.assertFalse(has_address(ipaddress.IPv4Address("203.0.113.7")))

    def test_many_unknown_keys_end(self) -> None:
        self.assertEqual(len(risks_of(SITE.replace("control = 0", "control = 0\n" + "".join(f"k{n} = 1\n" for n in range(3000))))), 1000)


class Explained(unittest.TestCase):
    """Times and figures, worked out by hand."""

    def amounts(self, text: str) -> dict[str, Line]:
        """The lines of the explanation, by key."""
        return {it.key: it for it in explain_site(SiteText.of(text.encode()).values)}

    def test_times(self) -> None:
        lines = self.amounts(SITE.replace("hang = 100", "hang = 50"))
        self.assertEqual({key: lines[key].amounts for key in ("hang", "maximum", "ahoy_wait", "ahoy_tries", "silence")},
                         {"hang": "3.0 s", "maximum": "3 min 0 s", "ahoy_wait": "480 ms", "ahoy_tries": "1.4 s in all", "silence": "5.0 s"})
        lines = self.amounts(SITE.replace("maximum = 3000", "maximum = 65535").replace("tick_ms = 60", "tick_ms = 1000"))
        self.assertEqual(lines["maximum"].amounts, "18 h 12 min")

    def test_terms(self) -> None:
        # OPERATING: 27 MiB for two carriers and 103 for sixteen with 10,000 entries, which sixteen carriers fill in about 35 seconds
        self.assertEqual(self.amounts(SITE)["term_entries"].amounts, "3 min 20 s of polls; up to 27 MiB")
        self.assertEqual(self.amounts(SITE.replace(ROWS, SIXTEEN))["term_entries"].amounts, "35.3 s of polls; up to 103 MiB")

    def test_counts(self) -> None:
        lines = self.amounts(SITE.replace("[[1000, 1999]]", "[[20, 40], [10, 30], [15, 16], [100, 100]]").replace("control = 0", "control = 1"))
        self.assertEqual((lines["radios"].value, lines["radios"].amounts), ("4 ranges", "32 radios"))
        self.assertEqual((lines["groups"].value, lines["carrier"].value, lines["carrier"].amounts), ("4", "2", "3 slots for calls"))
        self.assertEqual((lines["[[carrier]] 1"].what, lines["[[carrier]] 2"].what), ("a carrier", "the control carrier"))
        self.assertEqual(lines["system"].amounts, "0x1234")

    def test_defaults(self) -> None:
        lines = self.amounts(SITE)
        self.assertEqual([it.key for it in lines.values() if it.is_default],
                         [it.name for it in KEYS if it.default is not None])
        self.assertEqual(lines["address"].value, "127.0.0.1")

    def test_what_is_at_fault_is_left_out(self) -> None:
        lines = self.amounts(SITE.replace("hang = 100", "hang = 0").replace("tick_ms = 60", "tick_ms = 5"))
        self.assertNotIn("hang", lines)
        self.assertEqual(lines["maximum"].amounts, "")
        self.assertEqual([*self.amounts("")], [it.name for it in KEYS if not it.required])

    def test_no_figures_without_values(self) -> None:
        figures = Figures({})
        self.assertEqual((figures.milliseconds("hang"), figures.term_ms(), figures.count_radios(), figures.rows()), (None, None, 0, []))
