"""A server of moto on a port that the kernel gives: python3 -m tests.moto_server. It says where it is, and ends with its input."""
import sys

from moto.server import ThreadedMotoServer


def main():
    """Serves until the input ends."""
    server = ThreadedMotoServer("127.0.0.1", 0, verbose=False)
    server.start()
    host, port = server.get_host_and_port()
    print(f"http://{host}:{port}", flush=True)
    sys.stdin.read()
    server.stop()


if __name__ == "__main__":
    main()
