#!/usr/bin/env python3
"""Whether the system sees its connection end when a run ends, and not only when the session does.

usage: tools/run_end.py PROGRAM MODEL
It plays the system of the model examples/echo/echo.txs, and keeps the commands open when the run has ended: with FAIL,
since it answers 4 to 3, and with LATER, since its answer is no number. It ends with 0 if it saw the connection end
within 10 seconds while the program waited for commands, and the transcript and the status were right.
"""
import pathlib
import socket
import subprocess
import sys
import tempfile

SECONDS = 10
COMMANDS = b"tester Echo Link\ntest In!3\ntest\n"

# what the system answers, and the transcript and the status that come of it
ENDINGS = [
    (b"4\n", b"TESTER Echo\n1 IN In!3\n2 OUT Out!4\nFAIL\n", 10),
    (b"4x\n", b"TESTER Echo\n1 IN In!3\nLATER\n", 0),
]


def sees_end(listener, program, answer):
    """Serves one connection; whether it ended while the program still ran."""
    connection, _ = listener.accept()
    with connection:
        connection.settimeout(SECONDS)
        received = b""
        while not received.endswith(b"\n"):
            more = connection.recv(4096)
            if not more:
                return False
            received += more
        connection.sendall(answer)
        return connection.recv(4096) == b"" and program.poll() is None


def has_ended(words, answer, transcript, status):
    """One session; says what was not as wanted."""
    with socket.create_server(("127.0.0.1", 0)) as listener, tempfile.NamedTemporaryFile(suffix=".txs") as model:
        listener.settimeout(SECONDS)
        port = listener.getsockname()[1]
        model.write(pathlib.Path(words[2]).read_bytes().replace(b"PORT 7890", b"PORT %d" % port))
        model.flush()
        program = subprocess.Popen([words[1], "run", model.name], stdin=subprocess.PIPE, stdout=subprocess.PIPE)
        try:
            program.stdin.write(COMMANDS)
            program.stdin.flush()
            try:
                seen = sees_end(listener, program, answer)
            except socket.timeout:
                seen = False
            except ConnectionError:
                seen = program.poll() is None  # a reset ends it too
            written, _ = program.communicate(timeout=2 * SECONDS)
        finally:
            program.kill()
            program.wait()
    ending = transcript.split(b"\n")[-2].decode()
    if not seen:
        print(f"run_end: {ending}: the system did not see the connection end when the run ended")
    if written != transcript or program.returncode != status:
        print(f"run_end: {ending}: status {program.returncode} and {written!r}")
    return seen and written == transcript and program.returncode == status


def main():
    came = [has_ended(sys.argv, *ending) for ending in ENDINGS]
    sys.exit(0 if all(came) else 1)


if __name__ == "__main__":
    main()
