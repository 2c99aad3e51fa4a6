"""The addresses of the broker that can be tried here."""
import socket
from collections.abc import Callable
from typing import Any

from issuer_host.host.event_loop import Loop


def services_of(loop: Loop) -> Any:
    """Returns what `pika` connects by in a loop, which leaves out addresses that no socket can be made for.

    A name may have an address of a family that the service may not use, as ::1 for localhost. `pika` ends at it.
    """
    from pika.adapters.utils.selector_ioloop_adapter import SelectorIOServicesAdapter

    services = SelectorIOServicesAdapter(loop)
    resolve = services.getaddrinfo

    def resolve_usable(*words: Any, on_done: Callable[[Any], object], **more: Any) -> Any:
        def done(found: Any) -> None:
            on_done(found if isinstance(found, BaseException) else [one for one in found if is_usable(one)])

        return resolve(*words, on_done=done, **more)

    services.getaddrinfo = resolve_usable
    return services


def is_usable(address: Any) -> bool:
    """Whether a socket can be made for an address."""
    try:
        socket.socket(*address[:3]).close()
    except OSError:
        return False
    return True
