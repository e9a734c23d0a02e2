"""What mic-check says of a microprogram: that it is proved to interpret IJVM, or the first difference where that is not shown."""
import os
from dataclasses import dataclass

from .texts import shown

MOST = 1000  # bytes that are looked at of what mic-check prints


@dataclass
class Proof:
    verdict: str = ""  # proved, not shown, not asked; nothing where there is no microprogram to judge
    text: str = ""  # the first difference, or why it was not asked
    is_trouble: bool = False  # mic-check failed by something else than the submission

    def __str__(self):
        return f"{self.verdict}: {self.text}" if self.text else self.verdict


def proof_of(status, out, err):
    """What mic-check's status, the beginning of its output and its first message say."""
    if status == 0:
        return Proof("proved")
    if status == 1:
        return Proof("not shown", shown(out.split(b"\n")[0].removeprefix(b"not shown: ")))
    if status == 65:
        return Proof()  # the cases say the same
    if status < 0:
        return Proof("not asked", f"mic-check was ended by signal {-status}", True)
    return Proof("not asked", f"status {status}, {shown(err[:MOST].encode())}", status not in (64, 67))


def missing():
    return Proof("not asked", f"there is no command {os.environ.get('MIC_CHECK') or 'mic-check'}")
