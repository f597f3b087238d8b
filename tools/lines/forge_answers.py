"""Lines of crates/forge_lines, each with the answer due by the independent implementation."""
from lines import forms
from lines.format_answers import Calls
from reference.catalog import read_record
from reference.forge import explain
from reference.lms import signed_by_leaf

NO_LINE = "no such line"
RECORD_LENGTH = 60


def records_in(data):
    """The records that stand one behind the other, or None."""
    pieces = (data[at:at + RECORD_LENGTH] for at in range(0, len(data), RECORD_LENGTH))
    records = [read_record(piece) for piece in pieces]
    return None if None in records else records


def explanation_form(word, *about):
    """What explains a signature: two strings, or a chain's place, step and bytes."""
    return forms.form(word, *(forms.octets(each) if isinstance(each, bytes) else str(each) for each in about))


class Forgeries(Calls):
    """The bytes kept and the key made last."""

    def explain(self, *strings):
        if len(strings) != 3 or not self.made:
            return NO_LINE
        signed, rec, signature = records_in(strings[0]), read_record(strings[1]), strings[2]
        if signed is None or rec is None or rec in signed:
            return NO_LINE
        if not signed_by_leaf(self.made.public(), rec.version, rec.bytes(), signature):
            return NO_LINE
        return explanation_form(*explain(self.made, signed, rec, signature))
