#!/usr/bin/env python3
"""A system under test: it takes a number and says one.

It says its port, serves one connection over TCP, one number a line, and ends with it, and says that it saw it end.
It says 7, or with a fault
  same     the number that it took, which is no fault either,
  wrong    4,
  silent   nothing.
"""
import argparse
import socket

SECONDS = 20


def answer_to(number, fault):
    """The line that answers the number, or None."""
    answers = {"none": 7, "same": number, "wrong": 4}
    return f"{answers[fault]}\n" if fault in answers else None


def serve(connection, fault):
    """Answers each line, up to the end of the connection."""
    with connection, connection.makefile("r", encoding="ascii", newline="\n") as lines:
        for line in lines:
            answer = answer_to(int(line), fault)
            if answer is not None:
                connection.sendall(answer.encode("ascii"))


def main():
    parser = argparse.ArgumentParser(description=__doc__, formatter_class=argparse.RawDescriptionHelpFormatter)
    parser.add_argument("port", type=int, help="the port to listen on; 0 is any that is free")
    parser.add_argument("--fault", choices=["none", "same", "wrong", "silent"], default="none")
    words = parser.parse_args()
    with socket.create_server(("127.0.0.1", words.port)) as listener:
        print(listener.getsockname()[1], flush=True)
        listener.settimeout(SECONDS)
        connection, _ = listener.accept()
    connection.settimeout(SECONDS)
    try:
        serve(connection, words.fault)
    except ConnectionError:
        pass  # a reset ends it too
    print("the system saw the connection end")


if __name__ == "__main__":
    main()
