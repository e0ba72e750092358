"""`hold --play`: simulates a design, the circuit and a golden partner on one bus, and looks for a difference."""
