"""A till that sells without a pause at the desk on the port that is named, as fast as the desk answers: a part of
tools/check_install. It keeps its connection. Where that breaks it sends the same order again, as a till does.

    steady_till.py PORT OPERATOR METER..

It prints a line for each acknowledged sale, `sale NUMBER REF METER TOKEN`, `lost` for each connection that broke
in a conversation, and `refused STATUS BODY` for any other reply, after which it ends. It ends when its input does.
"""
import http.client
import json
import select
import sys
import time


def connect(port):
    return http.client.HTTPConnection("127.0.0.1", port, timeout=90)


def order(line, meter, operator, ref):
    """The status and the body of the reply to one order."""
    body = json.dumps({"meter": meter, "operator": operator, "ref": ref, "tender": 10})
    line.request("POST", "/sales", body)
    reply = line.getresponse()
    return reply.status, reply.read().decode()


def main():
    port, operator, meters = int(sys.argv[1]), sys.argv[2], sys.argv[3:]
    line, count, has_talked = connect(port), 0, False
    while not select.select([sys.stdin], [], [], 0)[0]:
        meter, ref = meters[count % len(meters)], f"L-{count}"
        try:
            status, body = order(line, meter, operator, ref)
        except (OSError, http.client.HTTPException):
            if has_talked:
                print("lost", flush=True)
            line.close()
            line, has_talked = connect(port), False
            time.sleep(0.01)
            continue
        has_talked = True
        if status != 200:
            print(f"refused {status} {body}", flush=True)
            return
        sale = json.loads(body)
        print("sale", sale["number"], sale["ref"], sale["meter"], sale["token"], flush=True)
        count += 1


main()
