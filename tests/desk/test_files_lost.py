"""Files that are damaged, deleted or replaced while the desk runs: what is safe goes on, and what isn't says why."""
from __future__ import annotations

import json
import shutil
from collections.abc import Callable
from pathlib import Path

import pytest
from clients import PASSWORD, Site, text_of
from test_changes import label
from thesaurus_desk.auth.accounts import AccountError, Accounts
from thesaurus_desk.store.plan_execution import Desk
from thesaurus_tools.command_line import ToolError
from whole import postings

DAMAGES = {"cut": '{"key": "00', "another": "[]", "empty": "", "no text": "\udcff", "gone": None}


def damage(path: Path, text: str | None) -> None:
    """Damages a file, or removes it."""
    path.unlink()
    if text is not None:
        path.write_text(text, encoding="utf-8", errors="surrogateescape")


@pytest.mark.parametrize("name", DAMAGES)
def test_a_damaged_users_file(site: Site, name: str) -> None:
    """The users of before come in, the head is told, and nobody's account is lost by a change."""
    assert site.entry.accounts is not None
    path = site.entry.accounts.path
    anna, ben, kept = site.client("anna"), site.client("ben"), path.read_bytes()
    assert "users’ file" not in text_of(anna.get("/"))
    damage(path, DAMAGES[name])
    assert "The users’ file is damaged or missing" in text_of(anna.get("/"))
    assert ben.get("/").status_code == 200 and "users’ file" not in text_of(ben.get("/"))
    sent = site.client().post("/login", {"name": "ben", "password": PASSWORD})
    assert sent.status_code == 303
    form = {"do": "add", "name": "carla", "role": "reader", "password": "quite a long one"}
    answer = anna.post("/users", form)
    assert answer.status_code == 422 and "The users’ file is damaged or missing" in text_of(answer)
    assert path.exists() == (name != "gone") and (name == "gone" or path.read_bytes() != kept)
    assert ben.post("/logout").status_code == 303
    path.write_bytes(kept)
    assert "users’ file" not in text_of(anna.get("/"))
    assert anna.post("/users", form).status_code == 303 and site.entry.accounts.find("carla")


def test_a_users_file_that_is_damaged_at_first(tmp_path: Path) -> None:
    path = tmp_path / "users.json"
    path.write_text("[]", encoding="utf-8")
    with pytest.raises(ToolError, match="not a users' file"):
        Accounts(path).read()
    with pytest.raises((ToolError, AccountError)), Accounts(path).change():
        pass
    assert path.read_text(encoding="utf-8") == "[]"


@pytest.mark.parametrize("password", [12345678901, None, ["x"], {}, True, "scrypt$x", "scrypt$0$00$00", 1.5])
def test_a_password_that_is_none(site: Site, password: object) -> None:
    """It is a wrong one; the other users come in."""
    assert site.entry.accounts is not None
    path = site.entry.accounts.path
    found = json.loads(path.read_text(encoding="utf-8"))
    found["users"]["rita"]["password"] = password
    path.write_text(json.dumps(found), encoding="utf-8")
    wrong = site.client().post("/login", {"name": "nobody", "password": PASSWORD})
    for given in (PASSWORD, "12345678901", "", "-"):
        answer = site.client().post("/login", {"name": "rita", "password": given})
        assert (answer.status_code, "wrong" in text_of(answer)) == (wrong.status_code, "wrong" in text_of(wrong)), given
    assert site.client().post("/login", {"name": "ben", "password": PASSWORD}).status_code == 303


def lose(path: Path, how: str) -> None:
    """Has a file at its path no more."""
    if how == "deleted":
        path.unlink()
    elif how == "replaced":
        copy = path.with_name("copy")
        shutil.copy(path, copy)
        copy.replace(path)
    elif how == "overwritten":
        # (as `cp` does with a file that is there: it stays the same file, of the same size)
        path.write_bytes(path.read_bytes())
    else:
        path.write_bytes(b"")


STORE, JOURNAL = "The file of the store", "The file of the journal"


@pytest.mark.parametrize(
    ("which", "said", "how"),
    [
        *(("journal", JOURNAL, it) for it in ("deleted", "replaced", "emptied")),
        *(("store", STORE, it) for it in ("deleted", "replaced", "emptied", "overwritten")),
    ],
)
def test_a_file_that_is_lost_while_the_desk_runs(site: Site, which: str, said: str, how: str) -> None:
    """Nothing is changed, with the reason, and pages are read as before."""
    desk, anna = site.desk, site.client("anna")
    path = desk.journal.path if which == "journal" else desk.db
    form = {"form": "add-term", "kind": "alt", "tag": "en", "text": "Fine fiddles"}
    assert anna.post("/c/5/terms/add", form).status_code == 303
    lose(path, how)
    before = desk.replica.view(5)
    answer = anna.post("/c/5/terms/add", {**form, "text": "Old fiddles"})
    assert answer.status_code == 409 and f"{said} was deleted or replaced" in text_of(answer)
    assert desk.replica.view(5) == before and anna.get("/c/5").status_code == 200
    rows = b"key,record,concept\nk-1,A,5\n"
    assert desk.bring_in("anna", rows, "some.csv").state == "fault" and not postings(desk.replica)
    assert "until the desk is started again" in text_of(anna.get("/"))
    if which == "journal":
        comment = anna.post("/c/5/comments", {"text": "Old?"})
        assert comment.status_code == 503 and "The journal is no longer there" in text_of(comment)


def test_nothing_is_written_into_a_backup_that_was_copied_over_the_store(
    desk: Desk, open_desk: Callable[[Path], Desk]
) -> None:
    """Neither by a plan nor at the end of the desk; the next start finds what the backup has."""
    desk.program.stop()
    kept = desk.db.read_bytes()
    many = [{"do": "addLabel", "owner": 5, "kind": "alt", "tag": "en", "text": f"Violins {n}"} for n in range(100)]
    assert desk.perform("anna", "test", many).is_done
    desk.db.write_bytes(kept)
    plan = [{"do": "addLabel", "owner": 5, "kind": "alt", "tag": "en", "text": "Fine violins"}]
    assert desk.perform("anna", "test", plan).answer == {"fault": "StoreReplaced"}
    desk.stop()
    assert desk.db.read_bytes() == kept and Path(f"{desk.db}-wal-old").exists()
    again = open_desk(desk.db)
    view = again.replica.view(5)
    assert view and view.alt == (("de", "Violinen"),) and again.found.changed == (5,)
    assert again.perform("anna", "test", plan).is_done


def test_a_desk_whose_journal_was_put_back(site: Site, desk: Desk) -> None:
    """The file that was moved away is the same when it is there again."""
    away = desk.journal.path.with_name("away")
    desk.journal.path.rename(away)
    assert desk.perform("anna", "test", [label(site, "Fine violins")]).answer == {"fault": "JournalReplaced"}
    away.rename(desk.journal.path)
    assert desk.perform("anna", "test", [label(site, "Fine violins")]).is_done
