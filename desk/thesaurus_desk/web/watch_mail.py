"""Mail with what has happened to what people watch: once a day, by the machine's `sendmail`."""
from __future__ import annotations

import logging
import os
import re
import shutil
import subprocess
import time
from collections.abc import Iterator
from datetime import UTC, datetime, timedelta
from email.message import EmailMessage
from typing import TYPE_CHECKING

from thesaurus_desk.auth.accounts import Accounts
from thesaurus_desk.journal.schema import time_text
from thesaurus_desk.journal.watches import News, Watcher
from thesaurus_desk.web.paths import path_to
from thesaurus_desk.words import Words

if TYPE_CHECKING:
    from thesaurus_desk.store.plan_execution import Desk

log = logging.getLogger("desk")
# An address to which mail is sent; none begins as an option does.
ADDRESS = re.compile(r"[^\s@<>,;\"'()-][^\s@<>,;\"'()]*@[^\s@<>,;\"'()]+")
# The office's hour from which on mail is sent; how many seconds `sendmail` may take, and after how many one that failed
# is tried again.
HOUR, PATIENCE, PAUSE = 6, 60.0, 900.0
# What ended before this time is written down.
SETTLED = timedelta(minutes=1)
# Where the program is that isn't among a user's.
FOLDERS = ("/usr/sbin", "/usr/lib")


class MailError(Exception):
    """The mail wasn't taken."""


def find_sendmail() -> str | None:
    """Returns the path of the machine's `sendmail`."""
    return shutil.which("sendmail", path=os.pathsep.join((os.environ.get("PATH", ""), *FOLDERS)))


def send(message: EmailMessage) -> None:
    """Hands a mail to the machine. Raises MailError if it surely wasn't taken, and TimeoutExpired."""
    program = find_sendmail()
    if program is None:
        raise MailError("there is no sendmail")
    words = [program, "-i", "--", str(message["To"])]
    try:
        ran = subprocess.run(words, input=message.as_bytes(), capture_output=True, check=False, timeout=PATIENCE)
    except OSError as error:
        raise MailError(f"{program}: {error.strerror}") from None
    if ran.returncode:
        said = ran.stderr.decode(errors="replace").strip()[:500]
        raise MailError(f"{program}: {said or f'exit status {ran.returncode}'}")


class WatchMail:
    """Sends each user who has an address what has happened, at most once a day."""

    def __init__(self, desk: Desk, accounts: Accounts, root: str) -> None:
        self.desk, self.accounts, self.root = desk, accounts, root
        # The day on which all has been sent, and not before when it is tried again.
        self.last, self.not_before = "", 0.0

    def send_if_due(self) -> None:
        """Sends what is to be sent today, unless it was."""
        here = datetime.now()
        today = here.date().isoformat()
        if self.last == today or here.hour < HOUR or time.monotonic() < self.not_before:
            return
        self.not_before = time.monotonic() + PAUSE
        watchers = [it for it in self.desk.watches.with_mail() if day_of(it.mailed) < today]
        failures = [it for it in map(self.send_to, watchers) if it]
        self.desk.watches.failure = failures[0] if failures else ""
        if not failures:
            self.last = today

    def send_to(self, watcher: Watcher) -> str:
        """Sends someone what has happened since the last mail, if there is something. Returns why that failed, or
        nothing.

        What is sent is noted before, so that nothing is sent twice; not what surely wasn't taken."""
        watches, until = self.desk.watches, time_text(datetime.now(UTC) - SETTLED)
        if self.accounts.find(watcher.user) is None:
            return ""
        with self.desk.replica.reading():
            news = watches.news(watcher.user, watcher.mailed, self.desk.replica, until)
            message = self.message(watcher, news) if news else None
        if message is None:
            return ""
        watches.note_mailed(watcher.user, until)
        try:
            send(message)
        except MailError as error:
            watches.note_mailed(watcher.user, watcher.mailed)
            log.error("no mail could be sent to %s: %s", watcher.mail, error)
            return str(error)
        except subprocess.TimeoutExpired:
            log.error("sendmail doesn't say whether it takes a mail to %s", watcher.mail)
            return "sendmail doesn't end"
        return ""

    def message(self, watcher: Watcher, news: News) -> EmailMessage:
        """Returns the mail about what has happened."""
        words = Words(watcher.language)
        message = EmailMessage()
        message["To"], message["Subject"] = watcher.mail, words("for_me.mail_subject")
        message["Auto-Submitted"] = "auto-generated"
        why = f"{words('for_me.mail_why')} {self.root}{path_to('for_me.for_me')}"
        text = "\n".join([*self.lines(news, words), "", why])
        message.set_content(f"{text}\n")
        return message

    def lines(self, news: News, words: Words) -> Iterator[str]:
        """Yields the lines of a mail: each thing with its address, and who did it."""

        def term(number: int) -> str:
            return self.desk.replica.term(number, [words.language])[1]

        for number, plans in news.changes.items():
            yield f"{term(number)}: {', '.join(dict.fromkeys(it.user for it in plans))}"
            yield f"  {self.root}/c/{number}"
        for it in news.proposals:
            yield f"{words('for_me.proposal', n=it.id)}: {words(f'proposals.is.{it.state}')} {it.decided_by}"
            yield f"  {self.root}/proposals/{it.id}"
        for one in news.comments:
            yield f"{term(one.number)}: {one.user}: {one.text}"
            yield f"  {self.root}/c/{one.number}"


def day_of(at: str) -> str:
    """Returns the office's day of a time of the journal."""
    return datetime.fromisoformat(at).replace(tzinfo=UTC).astimezone().date().isoformat()
