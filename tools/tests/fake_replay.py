"""Stands in for `ptpuni replay` where there is none: no datagram arrives, and each slave asks the first grandmaster at its
first three ticks, and never again. With other words than `good` it does something wrong, mostly on the sixth line."""

import sys
import time


def main() -> None:
    how = sys.argv[1]
    if how == "sleeps":
        time.sleep(300)
    grandmaster, number, at = "", 0, 0
    ticks: dict[str, int] = {}
    for at, line in enumerate(sys.stdin, 1):
        words = line.split()
        if words[0] == "gm":
            grandmaster = words[1]
        elif how == "bad" and at == 6:
            print("6 bad field 3", flush=True)
            sys.exit(65)
        elif how == "short" and at == 6:
            sys.exit(3)
        elif how == "late" and at == 6:
            break
        elif words[0] == "tick":
            ticks[words[2]] = ticks.get(words[2], 0) + 1
            asks = ticks[words[2]] <= 3 and not (how == "less" and number == 5)
            for _ in range(asks + (how in ("more", "hides") and ticks[words[2]] == 9 and words[2].endswith(".1"))):
                number += 1
                to = words[2] if how == "elsewhere" and number == 3 else grandmaster
                print(f"{at} send {number} {words[2]} {to} general 0c12", flush=True)
            if how == "early" and at == 6:
                number += 1
                print(f"{at} send {number} 10.0.1.2 {grandmaster} general 0c12", flush=True)
    if how == "silent":
        time.sleep(300)
    if how != "cut":
        print(f"end {at} {number + (how == 'skips') - (how == 'hides')}", flush=True)
    if how == "torn":
        print("and", end="", flush=True)
    if how == "fails":
        sys.exit(67)


main()
