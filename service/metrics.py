"""Figures in Prometheus' text format: those of a node's health, and those of the answers of a gateway."""
import threading

# The upper bounds of the classes of answer times, in seconds.
CLASSES = (0.001, 0.005, 0.02, 0.1, 0.5, 2, 10)


def metrics_of(pairs):
    """The health of a node, pairs of a name and a value, in Prometheus' text format."""
    lines = []
    for name, value in pairs:
        name = "sidetree_" + name.replace("-", "_")
        lines += ["# TYPE %s gauge" % name, "%s %s" % (name, "NaN" if value == "-" else value)]
    return "".join(line + "\n" for line in lines)


class Answered:
    """How many answers there were, by status and by the time that they took."""

    def __init__(self):
        self.lock, self.statuses, self.seconds = threading.Lock(), {}, 0.0
        self.times = [0] * (len(CLASSES) + 1)

    def note(self, status, seconds):
        with self.lock:
            self.statuses[status] = self.statuses.get(status, 0) + 1
            self.times[sum(seconds > bound for bound in CLASSES)] += 1
            self.seconds += seconds

    def text(self):
        with self.lock:
            lines, count = ["# TYPE sidetree_http_requests_total counter"], 0
            lines += ['sidetree_http_requests_total{status="%d"} %d' % pair for pair in sorted(self.statuses.items())]
            lines.append("# TYPE sidetree_http_seconds histogram")
            for bound, times in zip((*CLASSES, "+Inf"), self.times):
                count += times
                lines.append('sidetree_http_seconds_bucket{le="%s"} %d' % (bound, count))
            lines += ["sidetree_http_seconds_sum %.6f" % self.seconds, "sidetree_http_seconds_count %d" % count]
        return "".join(line + "\n" for line in lines)
