"""What is measured, as a page in the text form of Prometheus."""
import time
from collections.abc import Iterable
from typing import Any, Protocol

from .refusals import UNHANDLED, Refusal

try:
    import prometheus_client
    from prometheus_client.core import CounterMetricFamily, GaugeMetricFamily

    IS_INSTALLED = True
except ImportError:
    IS_INSTALLED = False

_SECONDS = (0.001, 0.0025, 0.005, 0.01, 0.025, 0.05, 0.1, 0.25, 0.5, 1.0, 2.5, 5.0, 15.0)


class Measured(Protocol):
    """What is asked when somebody looks at the page."""

    def gauges(self) -> Iterable[tuple[str, str, float]]:
        """Name, sentence and value of each number that goes up and down."""

    def refused(self) -> dict[str, int]:
        """How often each limit was reached."""

    def waiting(self) -> dict[str, int]:
        """How many documents of each kind wait."""


class Metrics:
    """The numbers of one service. Without the client's package they are not counted."""

    def __init__(self, measured: Measured) -> None:
        self._measured = measured
        self._registry: Any = None
        if not IS_INSTALLED:
            return
        self._registry = prometheus_client.CollectorRegistry(auto_describe=False)
        self._registry.register(self)
        prometheus_client.ProcessCollector(registry=self._registry)
        words = {"registry": self._registry}
        self._seconds = prometheus_client.Histogram(
            "dubp_request_seconds", "How long requests took, by what they want.", ["kind"], buckets=_SECONDS, **words)
        self._statuses = prometheus_client.Counter(
            "dubp_requests", "Requests by what they want and the status of the answer.", ["kind", "status"], **words)

    def collect(self) -> Iterable[Any]:
        """The numbers that are asked for when the page is made."""
        for name, sentence, value in self._measured.gauges():
            yield GaugeMetricFamily(f"dubp_{name}", sentence, value)
        refused = CounterMetricFamily("dubp_refused", "How often each limit was reached.", labels=["limit"])
        for name, count in self._measured.refused().items():
            refused.add_metric([name], count)
        yield refused
        waiting = GaugeMetricFamily("dubp_waiting_documents", "Documents that wait, by kind.", labels=["kind"])
        for name, count in self._measured.waiting().items():
            waiting.add_metric([name], count)
        yield waiting

    def count(self, kind: str, status: int, begun: float) -> None:
        """Counts a request that began at a time of the monotonic clock."""
        if self._registry is not None:
            self._seconds.labels(kind).observe(time.monotonic() - begun)
            self._statuses.labels(kind, str(status)).inc()

    def page(self) -> tuple[bytes, str]:
        """The page and its type. Raises a refusal where the package is missing."""
        if self._registry is None:
            raise Refusal(UNHANDLED, "python3-prometheus-client is not installed where this service runs", 501)
        return prometheus_client.generate_latest(self._registry), prometheus_client.CONTENT_TYPE_LATEST
