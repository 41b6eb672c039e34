"""Site files as the lines of plan.h, and the keys of site files that plan.h does not have."""
import pathlib
import re
import tomllib

TOP = pathlib.Path(__file__).resolve().parent.parent
PLANNED = re.findall(r"PLAN_KEY\((\w+)\)[,}]", (TOP / "reference" / "plan.h").read_text(encoding="utf-8"))


def plan_of(site: str) -> str:
    """The lines of a site file that the controller accepts."""
    plan = tomllib.loads(site)
    lines = [f"{key} {plan[key]}" for key in PLANNED if key in plan]
    lines += [f"radios {first} {last}" for first, last in plan["radios"]] + [f"group {it}" for it in plan["groups"]]
    lines += [f"carrier {it['number']} {it['lpcn']}" for it in plan["carrier"]]
    return "".join(f"{it}\n" for it in lines)


def with_other_keys(site: str) -> str:
    """A site file that soak.c wrote, with the keys that it lacks before its own: as `sites/two_carriers.toml` has them."""
    written, usual = (tomllib.loads(it) for it in (site, (TOP / "sites" / "two_carriers.toml").read_text(encoding="utf-8")))
    return "".join(f"{key} = {value}\n" for key, value in usual.items() if key not in written) + site
