"""A run of a form: it asks, orders, takes advices, and writes what each minute came to as it comes."""
import asyncio
import csv
import os
import threading
import time
from typing import Any, TextIO

from issuer_host.facts.journals import journal_path, shards_of_files
from trials.soak.forms import Form
from trials.soak.load import MOST_TOLD, Minute, SteadyLoad
from trials.soak.processes import Sampler
from trials.soak.summary import MINUTES, PROCESSES, WRONG

COLUMNS = ("minute", "seconds", "sent", "fresh", "repeats", "advices", "orders", "wrong", "waits", "taken")
ORDER_SECONDS = 1.0
SETTLE_SECONDS = 60.0


class Orders:
    """Orders, one after another, once a second."""

    def __init__(self, form: Form) -> None:
        self.form = form
        self.done = 0
        self.failed: "list[str]" = []
        self.ends = threading.Event()
        self.thread = threading.Thread(target=self.run, daemon=True)
        self.thread.start()

    def run(self) -> None:
        number = 0
        while not self.ends.wait(ORDER_SECONDS):
            number += 1
            why = self.form.order(number)
            if why:
                self.failed.append(why)
            else:
                self.done += 1

    def end(self) -> None:
        self.ends.set()
        self.thread.join()


class SoakRun:
    """A form, and the files of its run in a folder."""

    def __init__(self, form: Form, folder: str, rate: int) -> None:
        self.form, self.folder = form, folder
        self.load = SteadyLoad(form.place, form.config, rate)
        self.orders = Orders(form)
        self.ordered = self.failed = self.taken = self.wrong = 0

    def run(self, minutes: int) -> int:
        """Runs for so long, and returns how many answers were wrong."""
        with Sampler(self.form.roots, os.path.join(self.folder, PROCESSES)):
            with open(os.path.join(self.folder, MINUTES), "w", encoding="utf-8", newline="") as text:
                asyncio.run(self.ask(minutes, text))
        self.follow()
        with open(os.path.join(self.folder, WRONG), "w", encoding="utf-8") as told:
            told.writelines(f"{line}\n" for line in self.load.told)
        return self.wrong

    async def ask(self, minutes: int, text: TextIO) -> None:
        lines = csv.writer(text)
        lines.writerow(COLUMNS)
        await self.load.begin()
        for number in range(minutes):
            began = time.monotonic()
            minute = await self.load.run(60.0)
            await self.write(lines, number, minute, time.monotonic() - began)
            text.flush()
        began = time.monotonic()
        minute = await self.load.end()
        self.orders.end()
        await self.write(lines, minutes, minute, time.monotonic() - began)
        if self.taken != self.load.acknowledged:
            self.is_wrong(f"{self.load.acknowledged} advices were acknowledged, and {self.taken} given out")

    async def write(self, lines: Any, number: int, minute: Minute, seconds: float) -> None:
        """Writes the line of a minute."""
        # (in a thread, so that messages go out meanwhile)
        taken = await asyncio.get_running_loop().run_in_executor(None, self.form.spool.take)
        self.taken += taken
        failed, done = self.orders.failed[self.failed :], self.orders.done - self.ordered
        self.failed, self.ordered = self.failed + len(failed), self.ordered + done
        self.load.told += failed[:MOST_TOLD]
        wrong = minute.wrong + len(failed)
        self.wrong += wrong
        counts = (minute.sent, minute.fresh, minute.repeats, minute.advices, done, wrong)
        lines.writerow((number, f"{seconds:.2f}", *counts, minute.waits, taken))

    def follow(self) -> None:
        """Waits until the standby has what the journals have, but for the last record of each."""
        if not self.form.followed[0]:
            return
        end = time.monotonic() + SETTLE_SECONDS
        while (lacks := self.lacks()) and time.monotonic() < end:
            time.sleep(0.5)
        if lacks:
            self.is_wrong(f"the standby lacks something else than last records: {lacks}")

    def is_wrong(self, what: str) -> None:
        """Something is wrong that is no answer's fault: it is told first."""
        self.wrong += 1
        self.load.told.insert(0, what)

    def lacks(self) -> str:
        name, copy = self.form.followed
        for shard in shards_of_files(name).journals:
            texts = []
            for path in (journal_path(name, shard), journal_path(copy, shard)):
                with open(path, "rb") as text:
                    texts.append(text.read())
            rest = texts[0][len(texts[1]) :]
            if not texts[0].startswith(texts[1]) or rest.count(b"\n") > 1:
                return f"{rest.count(bytes([10]))} records of shard {shard}"
        return ""
