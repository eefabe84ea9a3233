"""Gives the figures of a channel as metrics of Prometheus. docs/METRICS.md lists them. Needs Debian's package python3-prometheus-client."""

from itertools import accumulate

from .figures import PENDING, USES
from .tick_times import BOUNDS

try:
    from prometheus_client import CollectorRegistry, generate_latest
    from prometheus_client.core import CounterMetricFamily, GaugeMetricFamily, HistogramMetricFamily
except ImportError:
    CollectorRegistry = None

UNIT_STATES = ("active", "reloading", "inactive", "failed", "activating", "deactivating")


def text_of(families):
    """Returns metrics in Prometheus' text format."""
    registry = CollectorRegistry(auto_describe=False)
    registry.register(Families(families))
    return generate_latest(registry)


class Families:
    """Gives metrics to a registry."""

    def __init__(self, families):
        self.families = families

    def collect(self):
        return self.families


class MetricsText:
    """The metrics of a channel in Prometheus' text format. Those of its state are written anew once there is another state."""

    def __init__(self, channel, build):
        self.channel, self.build = channel, build
        self.state, self.state_text = None, b""

    def of(self, figures, now):
        """Returns the metrics of the figures that are known at a time."""
        if figures.state is not self.state:
            self.state, self.state_text = figures.state, text_of(StateMetrics(self.channel).families(figures.state))
        return text_of(list(ChannelMetrics(self.channel, figures, self.build, now).families())) + self.state_text


def text_of_metrics(channel, figures, build, now=0.0):
    return MetricsText(channel, build).of(figures, now)


class OfChannel:
    """Makes metrics with the label of a channel."""

    def __init__(self, channel):
        self.channel = channel

    def family(self, kind, name, text, labels, rows):
        """Returns a metric with a value for each of its labels' values."""
        family = kind(f"melfjits_{name}", text, labels=("channel", *labels))
        for values, value in rows:
            family.add_metric((self.channel, *values), value)
        return family

    def counter(self, name, text, counts, *labels):
        rows = [(key if isinstance(key, tuple) else (key,), value) for key, value in sorted(counts.items())]
        return self.family(CounterMetricFamily, name, text, labels, rows)

    def gauge(self, name, text, rows, *labels):
        return self.family(GaugeMetricFamily, name, text, labels, rows)

    def number(self, name, text, value):
        """Returns a gauge without labels of its own, in a list. The list is empty if the value is not known."""
        return [] if value is None else [self.gauge(name, text, [((), value)])]

    def histogram(self, name, text, times):
        sums = accumulate(times.counts[place] for place in range(len(BOUNDS)))
        buckets = [("+Inf" if bound == float("inf") else str(bound), total) for bound, total in zip(BOUNDS, sums)]
        family = HistogramMetricFamily(f"melfjits_{name}", text, labels=("channel",))
        family.add_metric((self.channel,), buckets, times.seconds)
        return family


class ChannelMetrics(OfChannel):
    """The metrics that may differ each second. Of what is not known yet there is no metric."""

    def __init__(self, channel, figures, build, now):
        super().__init__(channel)
        self.figures, self.build, self.now = figures, build, now

    def families(self):
        yield from self.answers()
        yield from self.frames()
        yield from self.maps()
        yield from self.journal()
        yield from self.surroundings()
        yield self.gauge("build_info", "The installed program: version, toolchain kit, package, and whether it is the proved one. Always 1.",
                         [(tuple(self.build.values()), 1)], *self.build)

    def answers(self):
        figures = self.figures
        yield from self.number("written_timestamp_seconds", "Time at which these metrics were written, in seconds since 1970.", self.now)
        yield self.counter("answers", "Lines of output by type; a snapshot counts as one.", figures.outputs, "type")
        yield self.counter("replies", "DSA-RSP, DSC-RSP and DSD-RSP to modems by confirmation code, retransmissions included.", figures.replies, "operator", "code")
        yield self.counter("drops", "Messages without a reply and bandwidth requests without an effect, by drop reason.", figures.drops, "operator", "cause")
        yield self.counter("faults", "Lines fault: of the channel. line: an invalid or refused line. memory: a step was not done.", figures.faults, "fault")

    def frames(self):
        sums = self.figures.frames.sums.items()
        yield self.counter("minislots", "Minislots of the operator's frames: granted to flows, used to poll them, or idle.",
                           {(name, use): amounts[place] for name, amounts in sums for place, use in enumerate(USES[:PENDING])}, "operator", "use")
        yield self.counter("pending_grants", "Pending grants in the operator's frames: flows whose backlog was not granted completely.",
                           {name: amounts[PENDING] for name, amounts in sums}, "operator")

    def maps(self):
        figures = self.figures
        yield from self.number("frame_seconds", "Length of a frame as the plant file has it.", figures.frame_seconds)
        yield from self.number("frame_number", "Frame of the last MAP. A channel that begins anew counts from its first frame again.", figures.frame)
        yield from self.number("last_map_timestamp_seconds", "Time at which the last MAP was read, in seconds since 1970, or 0 if none is known.", figures.last_map or 0)
        yield self.histogram("map_interval_seconds", "Time from one MAP to the next as a reader of the answers sees it. "
                             "MAPs that are read together, within 0.1 seconds, have equal intervals.", figures.intervals)
        if figures.journal_bytes is not None:
            yield self.histogram("tick_to_map_seconds", "Time from a tick in the journal to its MAP in the answers, of one tick a second at most.", figures.tick_times)

    def journal(self):
        figures = self.figures
        if figures.journal_bytes is None:
            return
        yield self.counter("lines", "Lines in the journal by type. Ticks of all operators, slice changes and other lines have no operator.", figures.lines, "operator", "type")
        yield from self.number("journal_bytes", "Bytes of the journal: the saved state and the lines since.", figures.journal_bytes)
        yield from self.number("journal_lines", "Lines in the journal since the saved state.", figures.journal_lines)
        yield from self.number("saved_state_timestamp_seconds", "Time at which the journal was first seen with its saved state, in seconds since 1970.", figures.last_saved)

    def surroundings(self):
        figures = self.figures
        yield from self.number("last_snapshot_timestamp_seconds", "Time at which the last snapshot was read, in seconds since 1970, or 0 if there was none.", figures.last_snapshot)
        yield from self.number("waiting_bytes", "Bytes of lines that wait in the pipe of the channel.", figures.waiting_bytes)
        yield from self.number("answers_bytes", "Bytes of the file of the answers.", figures.answers_bytes)
        if figures.disks:
            rows = [((name,), sizes) for name, sizes in sorted(figures.disks.items())]
            yield self.gauge("disk_free_bytes", "Bytes that are free on the disk of the answers or of the folder.", [(key, sizes[0]) for key, sizes in rows], "disk")
            yield self.gauge("disk_size_bytes", "Size of the disk of the answers or of the folder.", [(key, sizes[1]) for key, sizes in rows], "disk")
        if figures.units:
            units = sorted(figures.units.items())
            yield self.gauge("unit_state", "Whether a unit of the channel is in a state of systemd.",
                             [((unit, state), int(state == found)) for unit, (found, _) in units for state in UNIT_STATES], "unit", "state")
            yield self.counter("unit_restarts", "How often systemd has started a unit again by itself.",
                               {unit: count for unit, (_, count) in units if count is not None}, "unit")


class StateMetrics(OfChannel):
    """The metrics of a snapshot."""

    def families(self, state):
        operators = state.operators

        def gauge(name, text, value_of):
            return self.gauge(name, f"{text}, in the last snapshot.", [((one.name,), value_of(one)) for one in operators], "operator")

        return [
            self.gauge("flows", "Service flows by state, in the last snapshot.", [
                ((one.name, state), count) for one in operators for state, count in one.flows.items()], "operator", "state"),
            self.gauge("cached_responses", "Cached responses by state, in the last snapshot.", [
                ((one.name, state), count) for one in operators for state, count in one.responses.items()], "operator", "state"),
            gauge("flows_limit", "Most service flows of the operator", lambda one: one.flows_limit),
            gauge("cached_responses_limit", "Most cached responses of the operator", lambda one: one.responses_limit),
            gauge("slice_minislots", "Minislots of each frame that belong to the operator", lambda one: one.slice.length),
            gauge("budget_minislots", "Minislots of each frame that flows may commit", lambda one: one.slice.budget),
            gauge("committed_minislots", "Minislots of the budget that flows have committed", lambda one: one.committed_minislots),
            gauge("elements_limit", "Elements of each MAP that flows may commit", lambda one: one.elements_limit),
            gauge("committed_elements", "Elements of each MAP that flows have committed", lambda one: one.committed_elements),
            gauge("backlog_minislots", "Minislots that were requested and are not granted", lambda one: one.backlog_minislots),
            gauge("inbox_messages", "Messages and requests in the inbox", lambda one: one.inbox),
            gauge("inbox_limit", "Most messages and requests in the inbox", lambda one: one.inbox_limit),
        ]
