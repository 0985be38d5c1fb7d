"""The verb explain: which record a refusal means, or why an accepted interval has its price."""

from types import SimpleNamespace

from .forms import show_record, write_record
from .inputs import intervals
from .library import FIGURES, REASONS, Library, flow
from .outputs import Listing, as_lines, figure_line, wrapped
from .records import BY_WORD, whole_kind
from .refusals import words_of
from .settle import each, settle_one
from .trouble import Fault
from .words import everyday, help_words, line_at, line_words, record_at

BY_NAME = {figure.name: figure for figure in FIGURES}
DIFFERENCE = flow("difference", "flow paid on - entitlement")
PRICES = {"above": "the Monitoring price", "below": "the Non-Monitoring price", "at": "no price"}


def explain(call):
    """Explains all intervals; the status."""
    todo = intervals(call.arguments, call.options.get("--list"))
    library = Library()
    return each(todo, lambda interval: settle_one(interval, library), Explained(len(todo)), call.output)


class Explained(Listing):
    """Of a refusal the record, its bytes, its line and how it is mended; of an accepted interval the reason."""

    def body(self, result):
        return as_lines(wrapped(refused(result)) if result.refusal else accepted(result))


def refused(result):
    """A refusal's lines: what it refuses, where that stands and what it reads, what it means and how it is mended."""
    line = line_words(result.sheet, result.place)
    more = help_words(result.refusal, result.sheet, result.entitlements)
    return [("", sentence(result)), *part_words(result), *line, *more]


def sentence(result):
    """Which record is refused and by which row; or what else is, where no record of the sheet is to blame."""
    part, refusal = result.explanation, words_of(result.refusal)
    by = f"is refused by row {result.refusal}: {refusal.title}."
    if part.to > part.from_:
        record = record_at(result.sheet.data, part.from_)
        return f"{record[0].upper()}{record[1:]}{',' if ', ' in record else ''} {by}"
    what = f"The {refusal.checked.partition(',')[0]}" if result.sheet.data else "The sheet, which is empty,"
    return f"{what} {by} No single record of the sheet is to blame."


def part_words(result):
    """The part that is refused: where it stands, its bytes, and what they read where no line of the text says it."""
    part, sheet = result.explanation, result.sheet
    data = sheet.data[part.from_ : part.to]
    if not data:
        return [] if result.place is None else [("where", f"byte {part.from_}, the sheet's end")]
    count = f"{len(data)} byte{'s' if len(data) > 1 else ''} of the sheet"
    lines = [("where", f"{count}, from byte {part.from_} to before byte {part.to}"), ("bytes", data.hex())]
    if whole_kind(data) and not is_line(data, sheet.text, part.from_):
        lines.append(("reads", show_record(data)))
    return lines


def is_line(record, text, place):
    """Whether the line of the text that the byte at this place comes from has the words of this record."""
    line = line_at(text, place) if text else None
    try:
        return line is not None and line.words[0].lower() in BY_WORD and write_record(line.words, text.zones) == record
    except Fault:
        return False


def accepted(result):
    """The reason for the price in a sentence, then the figures that it rests on."""
    statement, reason = result.statement, REASONS[result.explanation.reason]
    paid, price = BY_NAME["settled" if statement.has_paths else "market"], BY_NAME["price"]
    difference = SimpleNamespace(difference=statement.settled - statement.entitlement)
    taken = f"{PRICES[reason]} is taken" + (f", {everyday(statement.price, price)}" if reason != "at" else "")
    yield f"The flow paid on, the {paid.meaning}, is {reason} the entitlement, so {taken}."
    yield figure_line(paid, statement)
    yield figure_line(BY_NAME["entitlement"], statement)
    yield figure_line(DIFFERENCE, difference)
    yield figure_line(price, statement, lambda figure, _: f"{figure.meaning}: {PRICES[reason]}")
