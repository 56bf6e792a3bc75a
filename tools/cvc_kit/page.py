"""The page of a review: one HTML file without outside resources. The data is one JSON text, the tables are drawn a page at a time."""

import json
from pathlib import Path
from typing import TYPE_CHECKING, Dict, List

if TYPE_CHECKING:
    from .review import Review

MOST_NETS = 200_000


class Index:
    """Texts by number, each once."""

    def __init__(self) -> None:
        self.texts: List[str] = []
        self.places: Dict[str, int] = {}

    def of(self, text: str) -> int:
        """The number of a text."""
        place = self.places.setdefault(text, len(self.texts))
        if place == len(self.texts):
            self.texts.append(text)
        return place


def data_of(review: "Review") -> Dict[str, object]:
    """What the page shows. Rules, models, cells and causes stand once, findings and nets are rows of numbers."""
    checked, words = review.checked, Index()
    nets = checked.report.nets
    used = sorted({pin for _, _, number in review.findings for pin in checked.flat.devices[number][2]})
    shown = range(len(nets))
    if len(nets) > MOST_NETS:
        wanted = set(used) | {number for number, net in enumerate(nets) if net.declared}
        shown = sorted(wanted | set(range(MOST_NETS - min(len(wanted), MOST_NETS))))
    place = {number: at for at, number in enumerate(shown)}
    findings = []
    for finding, cause, number in review.findings:
        node, card, pins = checked.flat.devices[number]
        texts = [words.of(text) for text in (finding.rule, finding.model, node.cell.name or "-", cause, card.letter)]
        findings.append([finding.path, finding.said, *texts, *(place[pin] for pin in pins)])
    return {
        "top": checked.report.top,
        "counts": checked.report.counts,
        "words": words.texts,
        "nets": [[nets[n].name, nets[n].low, nets[n].high, int(nets[n].declared)] for n in shown],
        "findings": findings,
        "rules": {rule: list(pair) for rule, pair in review.rules.items()},
    }


def page(review: "Review") -> str:
    """The whole page."""
    data = json.dumps(data_of(review), separators=(",", ":")).replace("<", "\\u003c")
    template = Path(__file__).with_name("page.html").read_text(encoding="utf-8")
    return template.replace("@DATA@", data)
