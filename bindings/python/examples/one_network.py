"""The bounds of a network, and what a message does in its worst case: run it at the top of the repository."""

from __future__ import annotations

import pathlib

from riddlesage import Event, plan_network, port_times, worst_case


def main() -> None:
    """Prints how many messages are late, and how often the third one is sent in its worst case."""
    network = pathlib.Path("examples/networks/davis.toml").read_text("utf-8")
    print(plan_network(network).late)  # 0
    scenario = worst_case(network, "S 300 D")
    times = port_times(scenario, 2)  # what the port of this message does in each bit time
    print(sum(time.event is Event.SENT for time in times))  # 2


if __name__ == "__main__":
    main()
