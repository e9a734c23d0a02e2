"""What the scripts beside this folder share: each module is one thing that they work with.

command_line    words, options, faults and statuses        progress        the line that shows how far a long run is
calls           a call of mic                              trace           a trace, cycle by cycle
source          an IJVM source: addresses, names, labels   tiny_source     the lines of a program in Tiny
image           an image file                              program         a program of any kind, with its lines and names
microprogram    a microprogram, with its lines             messages        what a message usually means, and sentences
refusal         a refusal with its line, in words          difference      the first difference of two runs
history         a window of a run, at each moment          frames          the frames of the running methods
debugger        steps and breakpoints over a history       terminal        the commands of `step`
adapter         the debugger as the protocol has it        protocol        the messages of the protocol
coverage        how often what ran                         call_tree       the calls of a run
cache           which word misses                          grading         submissions, cases, results
"""
