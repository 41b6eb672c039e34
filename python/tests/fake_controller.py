#!/usr/bin/env python3
"""A controller for tests of the tools if none was built. It accepts each site file that the tools
read, listens on the ports of the site, and answers nothing.

    fake_controller --site FILE --serve
    fake_controller --site FILE --script FILE
"""
import pathlib
import signal
import socket
import sys

sys.path.insert(0, str(pathlib.Path(__file__).resolve().parent.parent))
from temzaar.sitefile import Site  # noqa: E402  (the path comes first)

if __name__ == "__main__":
    site = Site(sys.argv[sys.argv.index("--site") + 1])
    if "--serve" in sys.argv:
        listeners = [socket.create_server(("127.0.0.1", port)) for port in site.ports()]
        print("console: listening", file=sys.stderr, flush=True)
        signal.pause()
    print("".join(f"carrier {row['number']} -\n" for row in site.rows), end="")
