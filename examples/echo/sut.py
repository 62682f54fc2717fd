#!/usr/bin/env python3
"""A system under test: it takes a number and says it again.

It says its port, serves one connection over TCP, one number a line, and ends with it, and says that it saw it end.
With one of these faults it says the first number rightly, and every later one
  wrong    as the next number,
  silent   not at all,
  garbage  with a letter behind it,
  closing  not at all, and ends the connection in its place;
and with one of these it never says any:
  reset    resets the connection at once,
  absent   does not listen.
"""
import argparse
import socket
import struct

SECONDS = 20
FAULTS = ["none", "wrong", "silent", "garbage", "closing", "reset", "absent"]


def answer_to(number, count, fault):
    """The line that answers the number, which is the count-th one, or None."""
    if fault == "none" or count == 1:
        return f"{number}\n"
    if fault == "wrong":
        return f"{number + 1}\n"
    if fault == "garbage":
        return f"{number}x\n"
    return None


def serve(connection, fault):
    """Answers each line, up to the end of the connection."""
    with connection, connection.makefile("r", encoding="ascii", newline="\n") as lines:
        for count, line in enumerate(lines, 1):
            answer = answer_to(int(line), count, fault)
            if answer is not None:
                connection.sendall(answer.encode("ascii"))
            elif fault == "closing":
                connection.shutdown(socket.SHUT_WR)


def reset(connection):
    """Ends the connection by a reset, as a system does that is killed with bytes unread."""
    connection.setsockopt(socket.SOL_SOCKET, socket.SO_LINGER, struct.pack("ii", 1, 0))
    connection.close()


def main():
    parser = argparse.ArgumentParser(description=__doc__, formatter_class=argparse.RawDescriptionHelpFormatter)
    parser.add_argument("port", type=int, help="the port to listen on; 0 is any that is free")
    parser.add_argument("--fault", choices=FAULTS, default="none")
    words = parser.parse_args()
    with socket.create_server(("127.0.0.1", words.port)) as listener:
        port = listener.getsockname()[1]
        if words.fault != "absent":
            print(port, flush=True)
            listener.settimeout(SECONDS)
            connection, _ = listener.accept()
    if words.fault == "absent":
        print(port, flush=True)
    elif words.fault == "reset":
        reset(connection)
    else:
        connection.settimeout(SECONDS)
        try:
            serve(connection, words.fault)
        except ConnectionError:
            pass  # a reset ends it too
        print("the system saw the connection end")


if __name__ == "__main__":
    main()
