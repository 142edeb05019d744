"""Addresses of servers."""
import ipaddress
import urllib.parse
from typing import Tuple

from ..faults import MonitorFault

LAST_PORT = 65_535


def parse_address(given: str, of: str = "--page") -> Tuple[str, int]:
    """Address and port of `ADDRESS:PORT`; an IPv6 address is in brackets. Raises `MonitorFault` if `given` isn't such an address."""
    address, colon, port = given.rpartition(":")
    is_bracketed = address.startswith("[") and address.endswith("]")
    if not colon or not port.isascii() or not port.isdigit() or len(port) > 5 or int(port) > LAST_PORT or ":" in address and not is_bracketed:
        raise MonitorFault(f"{of} has to be ADDRESS:PORT, such as 127.0.0.1:8080 or [::1]:8080, not {given!r}")
    bare = address[1:-1] if is_bracketed else address
    try:
        return "127.0.0.1" if bare == "localhost" else str(ipaddress.ip_address(bare)), int(port)
    except ValueError:
        raise MonitorFault(f"{of} needs an IP address or localhost, not {address!r}") from None


def is_loopback(given: str) -> bool:
    return ipaddress.ip_address(parse_address(given)[0]).is_loopback


def test_url(given: str) -> None:
    """Raises `MonitorFault` if the address of an Alertmanager isn't one of a web server."""
    url = urllib.parse.urlsplit(given)
    if url.scheme not in ("http", "https") or not url.hostname:
        raise MonitorFault(f"--alertmanager: it has to be an address such as http://localhost:9093, not {given!r}")


def shown_url(given: str) -> str:
    """The address of a web server without the password in it, and with a slash at its end; nothing of nothing."""
    url = urllib.parse.urlsplit(given)
    return f"{url.scheme}://{url.netloc.rpartition('@')[2]}{url.path.rstrip('/')}/" if given else ""
