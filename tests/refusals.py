"""How a live session tells of a refusal. What a reason says is read from its definition."""
import re
from pathlib import Path

DEFINITION = Path(__file__).resolve().parent.parent / "crates/ws_code/specs/Reason.antt"
SENTENCES = {int(number): text for text, number in
             re.findall(r'^text_of \w+ = codes "((\d+): .*)"$', DEFINITION.read_text(encoding="utf-8"), re.M)}


def told_refusal(who: str, place: int, reason: str) -> str:
    """The lines of a refusal by the `host`, by the `station`, or of a `record`, for a reason as `30 StructuredField`."""
    number = int(reason.split()[0])
    lines = [f"{who} refused at {place}: reason {reason}", f"  {SENTENCES[number]}"]
    if who == "station" and number in range(30, 37):
        lines.append("  without --strict the session goes on")
    return "".join(f"{line}\n" for line in lines)
