"""The runs over which the workbench is compared with mic: programs on all machines, and microprograms of one's own."""
from __future__ import annotations

import os

TOP = os.path.dirname(os.path.dirname(os.path.dirname(os.path.realpath(__file__))))

SHORT = ".constant\n C 123456\n.end-constant\n.main\n LDC_W C\n POP\n HALT\n.end-main\n"
# a read and a write before a stall, jumps into the middle of a word, a jump away from a word that is under way
WAITS = """.label halt1 0xff
Main1 MAR=CPP
 PC=0; rd
 H=MBR1
 TOS=MDR
 SP=MAR=SP+1
 MDR=TOS+1
 PC=1; wr
 OPC=MBR2U
 PC=OPC+H
 PC=1; rd
 TOS=MBR1
halt1 goto halt1
"""
# the longest label, all nine destinations, shifts, both flags, and a word that no statement has
LONG = """.label halt1 0xff
.default H=OPC=TOS=CPP=LV=SP=PC=MDR=MAR=1; goto halt1
Main1 H=1<<8
a_label_of_sixty_four_letters_is_the_longest_that_can_be_written OPC=H>>1
 H=OPC=TOS=CPP=LV=MDR=-1; if (N) goto low; else goto other
other goto halt1
low Z=H; if (Z) goto none; else goto some
none goto halt1
some H=OPC=TOS=CPP=LV=SP=PC=MDR=MAR=0
 goto (MBR)
halt1 goto halt1
"""
SETS_SP = """.label halt1 0xff
Main1 SP=MAR=SP+1
 MDR=1; wr
 rd
halt1 goto halt1
"""
# the frame leaves memory, and comes back
AWAY = """.label halt1 0xff
Main1 LV=SP=-1
 SP=1<<8
 LV=0
 MAR=LV; rd
 H=1
 OPC=MDR+H
halt1 goto halt1
"""

PROGRAMS = [("add.jas", ""), ("hello.jas", ""), ("countdown.jas", ""), ("echo.jas", "a<b&\t\udcff\n"), ("reverse.jas", "live\n"), ("wide_locals.jas", ""),
            ("gcd.jas", ""), ("hanoi.jas", ""), ("factorial.jas", ""), ("bubble_sort.jas", ""), ("letters.tiny", ""), ("upper.tiny", "ab\n")]


def example(name):
    with open(os.path.join(TOP, "examples", name), encoding="utf-8", errors="surrogateescape", newline="") as file:
        return {"name": name, "text": file.read()}


def own(name, text):
    return {"name": name, "text": text}


def traced_runs():
    """The runs of Mic-1 and Mic-2, each with a trace"""
    both, short = ("mic1", "mic2"), own("short.jas", SHORT)
    runs = [{"program": example(name), "machine": machine, "input": given} for name, given in PROGRAMS for machine in both]
    runs += [{"program": example("stack_limit.jas"), "machine": machine, "map": "large", "bound": 600} for machine in both]
    runs += [{"program": example("hello.jas"), "machine": machine, "micro": example("count.mal")} for machine in both]
    runs += [{"program": short, "machine": machine, "micro": own("sets_sp.mal", SETS_SP)} for machine in both]
    return runs + [
        {"program": example("countdown.jas"), "micro": example("quick_jumps.mal")},
        {"program": example("factorial.jas"), "from": 1000, "most": 400},
        {"program": example("hanoi.jas"), "machine": "mic2", "from": 500, "most": 120},
        {"program": short, "machine": "mic2", "micro": own("waits.mal", WAITS)},
        {"program": short, "micro": own("long.mal", LONG)},
        {"program": short, "micro": own("away.mal", AWAY)},
        {"program": example("stack_limit.jas"), "machine": "mic1", "bound": 100, "most": 60},
    ]


def piped_runs():
    """The runs of Mic-3"""
    runs = [{"program": example(name), "machine": "mic3", "input": given} for name, given in PROGRAMS]
    return runs + [{"program": example("stack_limit.jas"), "machine": "mic3", "bound": 5000, "map": "large"}]
