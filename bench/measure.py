# Prints the least time of each of some commands in milliseconds. They take turns for seven rounds, or for as many as begin
# within 20 seconds.
# Usage: measure.py -- COMMAND WORD.. [-- COMMAND WORD..]..
import subprocess, sys, time

commands = []
for word in sys.argv[1:]:
    if word == "--":
        commands.append([])
    else:
        commands[-1].append(word)
least = [1e9] * len(commands)
begin = time.perf_counter()
for _ in range(7):
    for k, command in enumerate(commands):
        start = time.perf_counter()
        subprocess.run(command, stdout=subprocess.DEVNULL, check=True)
        least[k] = min(least[k], time.perf_counter() - start)
    if time.perf_counter() - begin > 20:
        break
print(*(f"{seconds * 1000:.1f}" for seconds in least))
