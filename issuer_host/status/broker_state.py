"""What figures say of the brokers: those of `issuer-rejoin`, and those of the plugin rabbitmq_prometheus."""
from collections.abc import Mapping
from typing import Optional

from issuer_host.status.figures_text import FiguresText
from issuer_host.status.state import BrokerState

READY = "rabbitmq_queue_messages_ready"
QUEUE = "issuer.requests.{}"
# The plugin's alarms, and their names: they are at /metrics, and not at /metrics/per-object (seen with 3.10.8).
ALARMS = {
    "rabbitmq_alarms_free_disk_space_watermark": "disk",
    "rabbitmq_alarms_memory_used_watermark": "memory",
}


def of_page(page: FiguresText) -> Optional[BrokerState]:
    """Returns the state of a source's broker; None if its figures have none."""
    wanted = page.first("issuer_brokers")
    alarms = {one.labels.get("kind", "") for one in page.figures.get("issuer_broker_alarm", ()) if one.value} | {
        name for figure, name in ALARMS.items() if any(page.all(figure))
    }
    if wanted is None and not alarms and not page.has(READY):
        return None
    members = sum(page.all("issuer_queue_members"))
    online = sum(page.all("issuer_queue_members_online"))
    running = page.first("issuer_brokers_running")
    is_alone = bool(page.first("issuer_broker_alone"))
    return BrokerState(int(running or 0), int(wanted or 0), int(online), int(members), tuple(sorted(alarms)), is_alone)


def waiting_of(pages: "Mapping[str, Optional[FiguresText]]", number: int) -> Optional[int]:
    """Returns the requests that wait in a partition's queue; None if no broker says so."""
    found = [page.all(READY, queue=QUEUE.format(number)) for page in pages.values() if page is not None]
    known = [max(values) for values in found if values]
    return int(max(known)) if known else None
