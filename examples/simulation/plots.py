"""Draws the results of the simulation."""

import matplotlib

matplotlib.use("Agg")
matplotlib.rcParams["svg.hashsalt"] = "simulation"

from matplotlib import pyplot  # noqa: E402

# The run without the flood is a wide pale line, so that it can be seen below an equal one.
STYLES = {"no": {"color": "#9ecae1", "linewidth": 5, "label": "without the flood of B"},
          "yes": {"color": "#08306b", "linewidth": 1.3, "label": "with the flood of B"}}


def draw(runs, names, path):
    """Draws delays and use of each operator, both runs over each other."""
    figure, axes = pyplot.subplots(len(names), 2, figsize=(10, 6), layout="constrained")
    for place, name in enumerate(names):
        for flood, results in runs.items():
            draw_delays(axes[place][0], results[place].delays_us, STYLES[flood])
            axes[place][1].plot([point / 10 for point in range(len(results[place].use()))], results[place].use(), **STYLES[flood])
        axes[place][0].set(title=f"Operator {name}: delay of packets", xlabel="ms", ylabel="share of packets", xscale="log")
        axes[place][1].set(title=f"Operator {name}: granted of its slice", xlabel="seconds", ylabel="share", ylim=(0, 1.05))
        axes[place][0].legend()
    figure.savefig(path, metadata={"Date": None} if path.endswith(".svg") else None)


def draw_delays(axis, delays_us, style):
    """Draws which share of the packets had at most which delay."""
    ordered = [delay / 1000 for delay in sorted(delays_us)]
    axis.step(ordered, [(place + 1) / len(ordered) for place in range(len(ordered))], where="post", **style)
