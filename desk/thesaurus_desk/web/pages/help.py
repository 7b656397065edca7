"""The help: the tasks of the guide, which can be searched, and what each page is for."""
from __future__ import annotations

from typing import Any

from flask import Blueprint, abort, render_template, request

from thesaurus_desk.auth.route_roles import role
from thesaurus_desk.web.context import say
from thesaurus_desk.web.help_topics import PARTS, TOPICS, keys_of, pages_with, tasks_with

pages = Blueprint("help", __name__)
LONGEST_QUERY = 100


@pages.get("/help")
@role("visitor")
def tasks() -> Any:
    """Shows all tasks and pages, or those with some words."""
    query = request.args.get("q", "").strip()[:LONGEST_QUERY]
    return render_template("help/tasks.html", asked=query, tasks=tasks_with(query), pages=pages_with(query))


@pages.get("/help/<topic>")
@role("visitor")
def of_page(topic: str) -> Any:
    """Shows what a page is for, its keys, and what people get wrong."""
    if topic not in TOPICS:
        abort(404)
    purpose, *mistakes = (say(f"help.{topic}.{part}") for part in PARTS)
    tasks = [it for it in tasks_with("") if it.name in TOPICS[topic]]
    return render_template(
        "help/page.html", topic=topic, purpose=purpose, mistakes=mistakes, keys=keys_of(topic), tasks=tasks
    )
