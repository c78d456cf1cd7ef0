# A list that grows while a loop reads it.
steps = [27]
for n in steps:
    if n != 1:
        steps += [n // 2 if n % 2 == 0 else 3 * n + 1]
print(len(steps))
print(steps[-1], steps[len(steps) - 1], steps[0])
same = steps
same += ["end"]
print(steps[-1], same is steps, len(steps))
same = same + []
print(same is steps, same == steps)
