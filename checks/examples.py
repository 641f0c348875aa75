"""The texts of the example vehicle, from the bytes of its plan (example_plan.py). Its runs are those of walk.py."""
import subprocess
import sys

from example_plan import ENGINE, GEARBOX, digest, sha

program, folder = sys.argv[1:3]

WANTED = {
    "check vehicle.json": (
        0,
        f"plan {digest()}\n"
        "unit ENGINE 1001 segments 1 bytes 4 after -\n"
        "checksum ENGINE sum ok\n"
        "unit GEARBOX 1002 segments 1 bytes 8 after ENGINE\n"
        "units 2 bytes 12\n",
    ),
    "image vehicle.json ENGINE": (0, f"segment 0 0000010000 4 {sha(ENGINE)}\n"),
    "image vehicle.json GEARBOX": (0, f"segment 0 0000008000 8 {sha(GEARBOX)}\n"),
    "image vehicle.json BRAKE": (2, "input vehicle.json no task BRAKE\n"),
}

wrong = 0
for words, (status, wanted) in WANTED.items():
    ran = subprocess.run([program, *words.split()], cwd=folder, capture_output=True)
    if (ran.returncode, ran.stdout.decode()) != (status, wanted):
        wrong += 1
        print(f"{words}: wanted {status} and\n{wanted}got {ran.returncode} and\n{ran.stdout.decode()}")
print(f"example vehicle: {len(WANTED)} commands, {wrong} wrong")
sys.exit(wrong > 0)
