"""Clearing files of ISO 8583: their records, the lines that `clear` takes, and its verdicts back to the records."""
