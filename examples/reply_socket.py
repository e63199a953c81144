#!/usr/bin/env python3
"""Serves the drives of `drive1541 reply` on a socket of this computer: reply_socket.py PORT DRIVE1541 IMAGE=OUT ..

One program at a time can connect to the port. It writes and reads the lines of `reply`, and its drives are switched on when it connects. The images are saved
when it ends the talk or closes the connection. Port 0 is any unused one. The port is printed.
"""
import socket
import subprocess
import sys


def main():
    port, program, *words = sys.argv[1:]
    with socket.create_server(("127.0.0.1", int(port))) as server:
        print(server.getsockname()[1], flush=True)
        while True:
            host, _ = server.accept()
            with host:
                subprocess.run([program, "reply", *words], stdin=host, stdout=host, check=False)


if __name__ == "__main__":
    main()
