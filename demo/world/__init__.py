"""The simulated world of the demos and benches: frames, meters, bus lines, gateways, faults, and a box in a process.

Nothing here knows the program's sources. What a meter sends and when it goes on is that of EN 13757-2 and -3; what a box
prints is that of docs/COMMANDS.md. So it judges the program from outside.
"""
