#!/usr/bin/python3
"""A fence agent for Pacemaker, for tools/check_machines alone: it asks machines.Fence. It reads names and values from
standard input, as fence agents do."""
import socket
import sys

ADDRESS = ("10.77.0.99", 7000)
ACTS = ("off", "status", "monitor", "metadata")
STATUS = {"ok": 0, "on": 0, "off": 2}


def metadata():
    acts = "".join(f'<action name="{act}"/>' for act in ACTS)
    given = "".join(f'<parameter name="{name}"><content type="string"/><shortdesc>{name}</shortdesc></parameter>'
                    for name in ("action", "port"))
    print(f'<?xml version="1.0"?><resource-agent name="fence_trial" shortdesc="trial"><longdesc>trial</longdesc>'
          f"<vendor-url>none</vendor-url><parameters>{given}</parameters><actions>{acts}</actions></resource-agent>")


def main():
    given = dict(line.strip().split("=", 1) for line in sys.stdin if "=" in line)
    act = given.get("action", "off")
    if act == "metadata":
        metadata()
    elif act in ("off", "status"):
        with socket.create_connection(ADDRESS, timeout=20) as line:
            line.sendall(f"{act} {given['port']}".encode())
            sys.exit(STATUS.get(line.recv(100).decode(), 1))


main()
