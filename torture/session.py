"""Tries sessions of the program: PROGRAM SESSIONS KILLS.

Random sessions have to answer each batch as `run` answers a plan with the number and the clocks that docs/FORMATS.md gives it, over a folder of its own; and the same, byte for byte, if the input
comes in single bytes. Then a session is killed at random places: each batch whose report came has to be there afterwards, and none twice."""
import random
import subprocess
import sys
import tempfile
import threading
import time
from pathlib import Path

sys.path.insert(0, str(Path(__file__).resolve().parent.parent / "examples" / "clients"))
from swallow_session import Act, Ended, Session, with_token

program, sessions, kills = sys.argv[1], int(sys.argv[2]), int(sys.argv[3])


def script(draw, repositories):
    rows = []
    for place in range(draw.randint(1, 4)):
        name = f"{draw.randint(1, repositories)}.{draw.randint(1, 3)}"
        rows.append(draw.choice([f"read x{place} {name}", f"write {name} {draw.randint(0, 99)}", f"read y{place} {name}\nwrite {name} {place}", "print 7"]))
    if draw.random() < 0.1:
        rows.append("withdraw")
    return "\n".join(rows)


def batch(draw, repositories, brokers):
    acts = []
    for _ in range(draw.randint(0, 3)):
        head = f"act broker {draw.randint(1, brokers)} home {draw.randint(1, repositories)} timeout {draw.randint(1, 9)} tries {draw.randint(1, 4)}"
        acts.append((head, script(draw, repositories)))
    return acts


def text_of(acts, clock=None):
    return "".join(head + (f" clock {clock}" if clock else "") + f"\n{rows}\ndone\n" for head, rows in acts)


def run(folder, words, data):
    done = subprocess.run([program, folder, *words], input=data, stdout=subprocess.PIPE)
    return done.returncode, done.stdout


def by_bytes(folder, data):
    process = subprocess.Popen([program, folder, "session"], stdin=subprocess.PIPE, stdout=subprocess.PIPE)

    def feed():
        for byte in data:
            process.stdin.write(bytes([byte]))
            process.stdin.flush()
        process.stdin.close()
    feeder = threading.Thread(target=feed)
    feeder.start()
    told = process.stdout.read()
    feeder.join()
    return process.wait(), told


def try_session(seed, bytewise):
    draw = random.Random(seed)
    repositories, brokers = draw.randint(1, 3), draw.randint(1, 4)
    head = f"swallow session 1\nrepositories {repositories}\nbrokers {brokers}\n"
    data, answers, line, number, clock, worst = head, b"", 4, 0, 0, 0
    with tempfile.TemporaryDirectory() as held, tempfile.TemporaryDirectory() as alone, tempfile.TemporaryDirectory() as single:
        for _ in range(draw.randint(1, 6)):
            acts = batch(draw, repositories, brokers)
            text = text_of(acts)
            if acts and draw.random() < 0.2:
                text = text.replace("act broker", "act brokers", 1)
                answers += f"swallow: session line {line} act\n".encode()
                worst = 2
            else:
                number += 1
                plan = f"swallow plan 1\nrun {number}\nrepositories {repositories}\nbrokers {brokers}\n" + text_of(acts, clock + 1)
                status, report = run(alone, ["run"], plan.encode())
                assert status in (0, 5), (seed, status, report)
                answers += report
                worst = worst if worst == 2 else max(worst, status)
                for told in report.decode().splitlines():
                    if told.startswith("try "):
                        clock = max(clock, int(told.split()[1].split(".")[0]))
            data += text + "go\n"
            line += text.count("\n") + 1
        status, told = run(held, ["session"], data.encode())
        assert (status, told) == (worst, answers), (seed, status, worst, told.decode(), answers.decode())
        if bytewise:
            assert by_bytes(single, data.encode()) == (worst, answers), seed


def try_kills(count):
    """Sessions of the client that are killed at random places. Each act that was told committed is there afterwards, none
    twice; and of one without a report the token says whether it is."""
    draw = random.Random(count)
    folder, told, sure, number = tempfile.mkdtemp(), [], [], 0
    for _ in range(count):
        session, killer = None, None
        try:
            session = Session(folder, program=program)
            killer = threading.Timer(draw.uniform(0.005, 0.25), session.process.kill)
            killer.start()
            if session.last_token("1.900") == number and number not in told and number:
                sure.append(number)
            while True:
                number += 1
                rows = f"read x 1.1\nwrite 1.1 given(x, 0) + 1\nwrite 1.{number + 1000} {number}"
                report = session.run(Act(with_token(rows, "1.900", number), timeout=2, tries=9))
                if report.acts[0].committed:
                    told.append(number)
        except Ended:
            pass
        finally:
            if killer:
                killer.cancel()
            session.process.kill()
            session.process.wait()
    with Session(folder, program=program) as session:
        finals = session.run().finals
    there = {value for name, value in finals.items() if name not in ("1.1", "1.900")}
    assert set(told + sure) <= there, sorted(set(told + sure) - there)
    assert finals.get("1.1", 0) == len(there), (finals.get("1.1"), len(there))
    return len(told), len(there)


began = time.time()
for seed in range(sessions):
    try_session(seed, seed % 10 == 0)
print(f"{sessions} sessions answer as runs do")
if kills:
    told, there = try_kills(kills)
    print(f"{kills} kills: {told} batches were told committed, {there} are there")
