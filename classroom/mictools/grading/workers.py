"""The grading of many submissions, in as many processes as are wanted. What comes out does not depend on their number."""
import multiprocessing
import multiprocessing.connection
import os
import signal
from dataclasses import dataclass

from ..command_line import Fault
from .feedback import feedback_of
from .grader import Grader
from .records import detail_of, json_line, proof_detail_of, summary_of
from .texts import csv_row


@dataclass
class Wanted:
    """What is to be made of each submission."""

    cases: bool = False  # a row for each case
    json: bool = False
    feedback: str = None  # a folder
    digest: bool = False


@dataclass
class Said:
    label: str
    rows: str
    json: str
    summary: dict
    results: list  # of each case: name, difference, cycles
    digest: str
    troubles: int  # runs that say nothing of the submission


def grade_one(grader, submission, wanted):
    fault, outcomes, proof = grader.grade(submission)
    summary = summary_of(submission, fault, outcomes, proof)
    rows = [summary]
    if wanted.cases:
        rows = [proof_detail_of(submission, proof)] if proof else []
        rows += [detail_of(submission, outcome) for outcome in outcomes]
    if wanted.feedback is not None:
        path = os.path.join(os.fsencode(wanted.feedback), submission.feedback)
        os.makedirs(os.path.dirname(path), exist_ok=True)
        with open(path, "w", encoding="utf-8") as file:
            file.write(feedback_of(grader.exercise, submission, fault, outcomes, proof, grader.copy))
    line = json_line(grader.exercise, submission, fault, outcomes, proof) if wanted.json else ""
    digest = grader.digest(fault) if wanted.digest else ""
    results = [(outcome.case.name, outcome.reason, outcome.cycles) for outcome in outcomes]
    rows = "".join(csv_row(row.values()) for row in rows)
    troubles = sum(outcome.is_trouble for outcome in outcomes) + bool(proof and proof.is_trouble)
    return Said(summary["submission"], rows, line, summary, results, digest, troubles)


def work_on(channel, others, submissions, exercise, programs, work, wanted):
    """A worker: grades the chunks that it is sent, until the channel is closed."""
    for other in others:
        other.close()
    signal.signal(signal.SIGINT, signal.SIG_IGN)
    signal.signal(signal.SIGTERM, signal.SIG_DFL)
    mic, check = programs
    grader = Grader(exercise, mic, work, check)
    try:
        while True:
            first, last = channel.recv()
            channel.send([grade_one(grader, submission, wanted) for submission in submissions[first:last]])
    except (EOFError, BrokenPipeError, ConnectionResetError):
        pass


class Workers:
    """Processes, and the chunks of submissions that they have not graded yet."""

    def __init__(self, processes, submissions, *words):
        self.channels, self.current = [], {}
        chunk = max(1, min(8, len(submissions) // (8 * max(processes, 1))))
        self.chunks = iter([(i, min(i + chunk, len(submissions))) for i in range(0, len(submissions), chunk)])
        for number in range(processes):
            self.start(number, submissions, *words)
        for channel in list(self.channels):
            self.hand_out(channel)

    def start(self, number, submissions, exercise, programs, work, wanted):
        context = multiprocessing.get_context("fork")
        ours, theirs = context.Pipe()
        folder = os.path.join(work, str(number))
        os.mkdir(folder)
        self.channels.append(ours)
        words = (theirs, list(self.channels), submissions, exercise, programs, folder, wanted)
        context.Process(target=work_on, args=words, daemon=True).start()
        theirs.close()

    def hand_out(self, channel):
        self.current[channel] = next(self.chunks, None)
        if self.current[channel] is None:
            channel.close()
            self.channels.remove(channel)
        else:
            channel.send(self.current[channel])

    def done(self):
        """Yields the place of each chunk that is done, and what is said of it, as they come."""
        while self.channels:
            for channel in multiprocessing.connection.wait(self.channels):
                try:
                    said = channel.recv()
                except (EOFError, ConnectionResetError):
                    raise Fault(71, "a process of the grader's own has ended") from None
                yield self.current[channel][0], said
                self.hand_out(channel)

    def end(self):
        for child in multiprocessing.active_children():
            if self.channels:
                child.terminate()
            child.join()


def graded(processes, submissions, exercise, programs, work, wanted):
    """Yields what is said of each submission, in their order. `programs` are mic, and mic-check or None."""
    workers, waiting, turn = None, {}, 0
    try:
        workers = Workers(min(processes, len(submissions)), submissions, exercise, programs, work, wanted)
        for place, said in workers.done():
            waiting[place] = said
            while turn in waiting:
                chunk = waiting.pop(turn)
                turn += len(chunk)
                yield from chunk
    finally:
        if workers:
            workers.end()
