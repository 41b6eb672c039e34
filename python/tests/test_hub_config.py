"""The hub's config file and its counters."""
import tempfile
import unittest

from temzaar.hub.config import Config, load_config, read_config
from temzaar.hub.counts import Histogram, Series
from temzaar.hub.keys import ConfigFault


class Keys(unittest.TestCase):
    """The reader."""

    def test_an_empty_file_has_the_defaults(self) -> None:
        self.assertEqual(read_config(""), Config())

    def test_values(self) -> None:
        config = read_config('[poll]\nstate_seconds = 2\n[roles]\nfull_users = ["root", 1000]\nothers = "read"\n[health]\ncarriers = [0, 15]\n')
        self.assertEqual((config.poll.state_seconds, config.roles.full_users, config.roles.others, config.health.carriers), (2.0, ("root", 1000), "read", (0, 15)))
        self.assertEqual(read_config('[health]\ncarriers = "none"\n').health.carriers, "none")

    def test_the_name_of_the_site(self) -> None:
        for text, name in (("", "site"), ('site_file = "/etc/dmr_trunk/north.toml"\n', "north"), ('site_file = "/srv/a.b.toml"\nname = ""\n', "a.b"), ('name = "Büro 1"\n', "Büro 1")):
            self.assertEqual(read_config(f"[controller]\n{text}").controller.site_name, name)

    def test_faults_name_the_key(self) -> None:
        for text, fault in (
            ("x =", "not TOML: "),
            ("[pol]\n", "pol: unknown section"),
            ("poll = 1\n", "poll: not a table"),
            ("[poll]\nseconds = 1\n", "poll.seconds: unknown key"),
            ("[poll]\nstate_seconds = 0.01\n", "poll.state_seconds: out of range: 0.05 to 3600"),
            ("[poll]\nstate_seconds = true\n", "poll.state_seconds: not a number: 0.05 to 3600"),
            ("[poll]\nstate_seconds = nan\n", "poll.state_seconds: out of range: 0.05 to 3600"),
            ('[http]\nport = "80"\n', "http.port: not a whole number: 0 to 65535"),
            ("[http]\nport = 65536\n", "http.port: out of range: 0 to 65535"),
            ("[http]\nhosts = [1]\n", "http.hosts: not a list of names"),
            ("[controller]\nname = 1\n", "controller.name: not a text of at most 64 characters"),
            (f'[controller]\nname = "{"x" * 65}"\n', "controller.name: not a text of at most 64 characters"),
            ('[controller]\nname = "a\\nb"\n', "controller.name: not a text of at most 64 characters"),
            ('[line_port]\nsocket = "here"\n', "line_port.socket: not an absolute path"),
            ('[roles]\nothers = "full"\n', 'roles.others: not "none" or "read"'),
            ("[roles]\nothers = []\n", 'roles.others: not "none" or "read"'),
            ("[roles]\nfull_users = [true]\n", "roles.full_users: not a list of names or numbers"),
            ("[health]\ncarriers = [16]\n", 'health.carriers: not "all", "none" or a list of carriers, 0 to 15'),
        ):
            with self.subTest(text), self.assertRaises(ConfigFault) as caught:
                read_config(text)
            self.assertTrue(str(caught.exception).startswith(fault), caught.exception)

    def test_files(self) -> None:
        with tempfile.NamedTemporaryFile() as file:
            self.assertEqual(load_config(file.name), Config())
            file.write(b"# \xff\n")
            file.flush()
            self.assertRaisesRegex(ConfigFault, "not UTF-8", load_config, file.name)
        self.assertRaisesRegex(ConfigFault, "cannot read /nowhere: No such file", load_config, "/nowhere")


class Counted(unittest.TestCase):
    """The text of counters, by the exposition format."""

    def test_series(self) -> None:
        series = Series("x_total", "All x.")
        series.add(asker="a\"b\\c\nd")
        series.add(1.5, asker="a\"b\\c\nd")
        self.assertEqual("".join(series.lines()), '# HELP x_total All x.\n# TYPE x_total counter\nx_total{asker="a\\"b\\\\c\\nd"} 2.5\n')
        gauge = Series("x", "X.")
        gauge.set(3)
        gauge.set(4)
        self.assertEqual("".join(gauge.lines()), "# HELP x X.\n# TYPE x gauge\nx 4\n")

    def test_histogram(self) -> None:
        histogram = Histogram("x_seconds", "X.", (0.5, 1.0))
        for value in (0.25, 0.5, 0.75, 8.0):
            histogram.observe(value)
        self.assertEqual("".join(histogram.lines()), '# HELP x_seconds X.\n# TYPE x_seconds histogram\nx_seconds_bucket{le="0.5"} 2\nx_seconds_bucket{le="1"} 3\n'
                         'x_seconds_bucket{le="+Inf"} 4\nx_seconds_sum 9.5\nx_seconds_count 4\n')
