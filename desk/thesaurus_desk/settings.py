"""What the desk was started with, as its pages need it."""
from __future__ import annotations

from dataclasses import dataclass


@dataclass(frozen=True)
class Settings:
    """The names by which browsers call the desk, and what it shows to whom.

    `hosts`: values of the field Host that are answered. `is_secure`: browsers come over TLS only. `is_public`: a
    visitor may read concepts and the interfaces for programs. `title`: the name on top of each page, in place of the
    schemes' names.
    """

    hosts: frozenset[str]
    is_secure: bool = False
    is_public: bool = False
    title: str = ""
    cookie: str = "desk"

    @property
    def origins(self) -> frozenset[str]:
        """The values of the field Origin of the desk's own forms."""
        scheme = "https" if self.is_secure else "http"
        return frozenset(f"{scheme}://{host}" for host in self.hosts)
