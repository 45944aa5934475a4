"""Hands a file in at the socket of a desk, and says what would come of it: `at_a_desk.py PATH FILE`."""
import http.client
import json
import socket
import sys
from pathlib import Path

desk, file = sys.argv[1], Path(sys.argv[2])
own = http.client.HTTPConnection("localhost")
own.sock = socket.socket(socket.AF_UNIX)
# (the system tells the desk who asks: there is no password)
own.sock.connect(f"{desk}.link")
sent = {"files": [{"name": file.name, "text": file.read_text(encoding="utf-8")}]}
own.request("POST", "/hand-in.json", json.dumps(sent), {"Content-Type": "application/json"})
came = json.load(own.getresponse())
for fault in came.get("faults", []):
    print(f"{fault['file']}:{fault['line']}: {fault['field']}: {fault['found']}; expected {fault['expected']}")
for row in came.get("instructions", []):
    print(row["place"], row["words"], row["outcome"], row["check"] or row["due"] or "")
sys.exit(came["status"])
